#!/usr/bin/env python3
"""Proposes a certificate for a loop, and has it judged: an example for a solver's maintainer, and no part of the checker.

    /usr/bin/python3 examples/propose/propose.py LOOP SHEET

LOOP is a text with one inequality a line, such as x' <= x - 1. x is a variable before a step and x' after it; names are taken
as they come. A side is a sum of whole numbers, names and products such as 2x or 2 * x; the sign between the sides is <=, >= or
=, which stands for both. What follows a # is a comment. z3 (Debian: python3-z3) is asked for a ranking, else for an exclusion.
Loop and certificate are written to SHEET as docs/FORMAT.md lays them down, and the program `sheet` judges them: nothing that
z3 says is believed. Exit code 0: accepted; 1: z3 finds nothing, or what it finds is refused; 2: something is wrong with the input.
"""
import re
import struct
import subprocess
import sys
from pathlib import Path

ROOT = Path(__file__).resolve().parent.parent.parent
SECONDS = 60  # that z3 may take for either question
TERM = re.compile(r"\s*([+-]?)\s*(?:(\d{1,20})(?:\s*\*?\s*([A-Za-z_]\w*)('?))?|([A-Za-z_]\w*)('?))\s*", re.ASCII)


class Wrong(Exception):
    """What is wrong with the input, in one line."""


def side(text, names, where):
    """A sum as {(name, after): factor}; its constant stands under None."""
    total, at = {}, 0
    while at < len(text) or at == 0:
        term = TERM.match(text, at)
        if not term or (at > 0 and not term[1]):
            raise Wrong(f"{where}: no sum of numbers and names: {text.strip()!r}")
        name, after = term[3] or term[5], bool(term[4] or term[6])
        if name and name not in names:
            names.append(name)
        key = (name, after) if name else None
        total[key] = total.get(key, 0) + (-1 if term[1] == "-" else 1) * int(term[2] or 1)
        at = term.end()
    return total


def loop_of(text):
    """The names, and the rows as (A, A', b), each for A.x + A'.x' <= b."""
    names, sums = [], []
    for number, line in enumerate(text.splitlines(), 1):
        line = line.split("#")[0]
        if not line.strip():
            continue
        parts = re.split(r"(<=|>=|=)", line)
        if len(parts) != 3:
            raise Wrong(f"line {number}: one of <=, >= and = is wanted, once: {line.strip()!r}")
        left, right = (side(part, names, f"line {number}") for part in parts[::2])
        difference = {key: left.get(key, 0) - right.get(key, 0) for key in {**left, **right}}
        if parts[1] != ">=":
            sums.append((number, difference))
        if parts[1] != "<=":
            sums.append((number, {key: -factor for key, factor in difference.items()}))
    if not 1 <= len(names) <= 16 or len(sums) > 64:
        raise Wrong(f"{len(names)} variables and {len(sums)} rows: 1 to 16 and 0 to 64 are taken (= makes two rows)")
    rows = []
    for number, row in sums:
        before, after = ([row.get((name, part), 0) for name in names] for part in (False, True))
        if any(abs(factor) > 30_000 for factor in before + after) or abs(row.get(None, 0)) > 2_000_000_000:
            raise Wrong(f"line {number}: a factor beyond 30,000 or a number beyond 2,000,000,000")
        rows.append((before, after, -row.get(None, 0)))
    return names, rows


def loop_record(names, rows):
    n, body = len(names), b""
    for before, after, right in rows:
        body += struct.pack(f"<{2 * n}hi", *before, *after, right)
    return struct.pack("<IHHH", 6 + len(body), 1, n, len(rows)) + body


def dot(left, right):
    return sum(a * b for a, b in zip(left, right))


def ask(z3, unknowns, conditions, *least):
    """Whole numbers that meet the conditions, the named ones as small as can be, or None."""
    solver = z3.Optimize()
    solver.set("timeout", SECONDS * 1000)
    solver.add(*conditions)
    for number in least:
        solver.minimize(number)
    if solver.check() != z3.sat:
        return None
    return [solver.model().eval(unknown, model_completion=True).as_long() for unknown in unknowns]


def ranking(z3, n, rows):
    """YA' = 0, (Y - Z)A = 0, Z(A + A') = 0, Zb < 0, in whole numbers from 0 to 60,000."""
    Y, Z = (z3.Ints(" ".join(f"{letter}{i}" for i in range(len(rows)))) for letter in "YZ")
    conditions = [z3.And(0 <= multiplier, multiplier <= 60_000) for multiplier in Y + Z]
    for j in range(n):
        A, Aprime = [row[0][j] for row in rows], [row[1][j] for row in rows]
        conditions += [dot(Y, Aprime) == 0, dot(Y, A) == dot(Z, A), dot(Z, A) + dot(Z, Aprime) == 0]
    conditions.append(dot(Z, [row[2] for row in rows]) < 0)
    found = ask(z3, Y + Z, conditions, z3.Sum(Y + Z))
    return found and struct.pack(f"<IH{len(found)}H", 2 + 2 * len(found), 2, *found)


def exclusion(z3, n, rows):
    """A.V + A'.U <= 0 and A.(W - V) + A'.W <= q b for every row; q from 1, U, V and W within 60,000."""
    q, most = z3.Ints("q most")
    U, V, W = (z3.Ints(" ".join(f"{letter}{i}" for i in range(n))) for letter in "UVW")
    conditions = [1 <= q, q <= 60_000, most <= 60_000] + [z3.And(-most <= entry, entry <= most) for entry in U + V + W]
    for A, Aprime, b in rows:
        conditions.append(dot(A, V) + dot(Aprime, U) <= 0)
        conditions.append(dot(A, W) - dot(A, V) + dot(Aprime, W) <= q * b)
    found = ask(z3, [q] + U + V + W, conditions, q, most)
    return found and struct.pack(f"<IHH{3 * n}i", 4 + 12 * n, 3, *found)


def main(words):
    if len(words) != 2:
        raise Wrong("two names are wanted: propose.py LOOP SHEET (an example, and no part of the checker)")
    names, rows = loop_of(Path(words[0]).read_bytes().decode("utf-8", "replace"))
    program = ROOT / "target/bin/sheet"
    if not program.is_file():
        raise Wrong("target/bin/sheet is not there: tools/build sheet makes it")
    try:
        import z3
    except ImportError:
        raise Wrong("z3 is not installed for this python3 (Debian: apt-get install python3-z3, then /usr/bin/python3)") from None
    for what, search in (("ranking", ranking), ("exclusion", exclusion)):
        certificate = search(z3, len(names), rows)
        if certificate:
            break
    if not certificate:
        print(f"z3 finds neither a ranking nor an exclusion within the ranges and {SECONDS} seconds each")
        return 1
    sheet = loop_record(names, rows) + certificate
    Path(words[1]).write_bytes(sheet)
    print(f"variables {', '.join(names)}; z3 proposes {'a' if what == 'ranking' else 'an'} {what}; the checker says:", flush=True)
    judged = subprocess.run([ROOT / "x86/run", program], input=sheet, stdout=subprocess.PIPE, check=False)
    print(judged.stdout.decode("ascii"), end="")
    return 0 if re.search(rb"^1 (rank|excluded) ", judged.stdout, re.M) else 1


if __name__ == "__main__":
    try:
        sys.exit(main(sys.argv[1:]))
    except (Wrong, OSError) as wrong:
        print("propose:", f"{wrong.filename}: {wrong.strerror}" if isinstance(wrong, OSError) else wrong, file=sys.stderr)
        sys.exit(2)
