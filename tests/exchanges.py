#!/usr/bin/env python3
"""Records in which no two numbers of one form are alike, and what judging answers when two of their fields, or two of their
lists, are exchanged.

    tests/exchanges.py table           the lines of the proved tables
    tests/exchanges.py check           whether specs/Exchanged.antt of crates verdict_exchanges, verdict_paths_exchanges,
                                       verdict_settling_exchanges and verdict_short_exchanges have these lines and no others
    tests/exchanges.py sheet KIND      a sheet: the loop, the certificate of that kind, and every exchanged one
    tests/exchanges.py text KIND       the text that the sheet must have

The places of the fields, and the answers, are worked out here from 01 and 02 alone: every pair of fields of one form and every
pair of lists of one length is there, so that none is left out of the tables. KIND is ranking, exclusion or lasso.
"""
import itertools
import os
import sys

# ---- the records, by the names of 01

LOOP = {"A": [[-5, 8], [5, -7], [-4, 6]], "A'": [[-2, 1], [2, 4], [3, -9]], "b": [-3, 2, -1]}
RANKING = {"Y": [6, 3, 2], "Z": [4, 5, 7]}

# x' = 2x + y - 3, y' = x - y - 5, each as two rows
ENDLESS_LOOP = {
    "A": [[-2, -1], [2, 1], [-1, 1], [1, -1]],
    "A'": [[1, 0], [-1, 0], [0, 1], [0, -1]],
    "b": [-3, 3, -5, 5],
}
EXCLUSION = {"q": 1, "U": [1, 8], "V": [3, -5], "W": [7, -3]}

LASSO_LOOP = {"A": [[18, 2], [-13, 4], [-10, -14]], "A'": [[6, -18], [1, 17], [-16, 8]], "b": [-20, 9, 4]}
LASSO = {
    "B": [[3, -9], [-4, 12]], "B'": [[-1, 1], [-10, 10]], "d": [10, 15],
    "s": [2, -2], "s0": 5, "k": 17, "T": [4, 3], "k2": 10, "H": [18, 16, 9], "h0": 13,
    "Y": [14, 12, 6, 15], "Z": [11, 8, 5, 19],
}

# 02, Q-3: a loop of two paths over one variable, each owning a component, and a loop of one path over two. A path is its rows (A, A', b), a
# component r, δ0, δ, a part its component number and its lists: bounded, ranking, unaffecting
PATHS = {
    "n": 1,
    "paths": [
        [([-60], [-10], 10), ([22], [6], -2), ([13], [1], -3)],
        [([-3], [57], -30), ([-17], [-43], 69), ([16], [-22], -24), ([4], [-4], -6)],
    ],
}
ARGUMENT = {
    "components": [([-14], 4, 14), ([-12], 12, 3)],
    "parts": [(0, [[9, 11, 24], [6, 4, 22]]), (1, [[20, 16, 18, 14], [21, 17, 19, 15], [12, 10, 8, 23]])],
}

ONE_PATH = {"n": 2, "paths": [[([-4, -5], [0, -2], -2), ([8, 11], [1, 7], 1), ([4, 6], [-3, -8], 6)]]}
ONE_ARGUMENT = {"components": [([-4, -13], 8, 1)], "parts": [(0, [[13, 6, 2], [12, 5, 3]])]}

# 02, Q-8: a loop and a settling for it
SETTLING_LOOP = {"A": [[-13, 11], [6, -2], [3, -11]], "A'": [[5, -10], [-14, 12], [15, 2]], "b": [-4, 4, 1]}
SETTLING = {"g": [-6, 2], "t": -2, "k": 8, "E": [6, 3, 4], "Y": [13, 10, 5, 12], "Z": [7, 2, 1, 9]}

# 02, Q-6: a loop of eight rows, three of which have weight, and a short ranking for it: row, Y, Z
SHORT_LOOP = {
    "A": [[-1, 3], [-4, 6], [5, -20], [7, -11], [-2, 10], [-18, 2], [13, -5], [1, -16]],
    "A'": [[-13, 9], [14, 12], [18, -9], [8, -3], [15, -6], [-8, 4], [-12, 11], [-7, 16]],
    "b": [-7, 3, -5, 8, -2, 1, 6, -9],
}
SHORT = {"triples": [(1, 0, 7), (2, 4, 6), (5, 9, 8)]}

# ---- layouts: a list of (name, form, numbers) in 01's order, after length and kind

WIDTH = {"u16": 2, "i16": 2, "i32": 4}


def rows_layout(A, A_, b, names):
    parts = []
    for i, (now, then, right) in enumerate(zip(A, A_, b), 1):
        parts += [(names[0] + str(i), "i16", now), (names[1] + str(i), "i16", then), (names[2] + str(i), "i32", [right])]
    return parts


def layout(kind, c):
    if kind == 1:
        return [("n", "u16", [len(c["A"][0])]), ("m", "u16", [len(c["b"])])] + rows_layout(c["A"], c["A'"], c["b"], ("A", "A'", "b"))
    if kind == 2:
        return [("Y", "u16", c["Y"]), ("Z", "u16", c["Z"])]
    if kind == 3:
        return [("q", "u16", [c["q"]])] + [(name, "i32", c[name]) for name in "UVW"]
    if kind == 5:
        parts = [("n", "u16", [c["n"]]), ("paths", "u16", [len(c["paths"])])] + [("m", "u16", [len(p)]) for p in c["paths"]]
        for path in c["paths"]:
            parts += rows_layout(*zip(*path), ("A", "A'", "b"))
        return parts
    if kind == 6:
        parts = [("components", "u16", [len(c["components"])])] + [("component", "u16", [k]) for k, _ in c["parts"]]
        for r, start, fall in c["components"]:
            parts += [("r", "i32", r), ("δ0", "i32", [start]), ("δ", "i32", [fall])]
        return parts + [("weights", "u16", ys) for _, lists in c["parts"] for ys in lists]
    if kind == 7:
        return [("c", "u16", [len(c["triples"])])] + [("triple", "u16", list(t)) for t in c["triples"]]
    if kind == 8:
        return [("g", "i16", c["g"]), ("t", "i32", [c["t"]]), ("k", "u16", [c["k"]])] + [(name, "u16", c[name]) for name in "EYZ"]
    return (
        [("ms", "u16", [len(c["d"])])]
        + rows_layout(c["B"], c["B'"], c["d"], ("B", "B'", "d"))
        + [("s", "i16", c["s"]), ("s0", "i32", [c["s0"]]), ("k", "u16", [c["k"]]), ("T", "u16", c["T"]),
           ("k2", "u16", [c["k2"]]), ("H", "u16", c["H"]), ("h0", "u16", [c["h0"]]), ("Y", "u16", c["Y"]), ("Z", "u16", c["Z"])]
    )


def record(kind, c):
    body = b"".join((z % 2 ** (8 * WIDTH[form])).to_bytes(WIDTH[form], "little") for _, form, zs in layout(kind, c) for z in zs)
    return (2 + len(body)).to_bytes(4, "little") + kind.to_bytes(2, "little") + body


def whole_parts(kind, c):
    """The width of a row, or of a component, the place of the first, and how many there are."""
    if kind in (1, 4):
        rows = c.get("A") or c.get("B")
        return 4 * len(rows[0]) + 4, {1: 10, 4: 8}[kind], len(rows)
    if kind == 5:
        return 4 * c["n"] + 4, 10 + 2 * len(c["paths"]), sum(map(len, c["paths"]))
    if kind == 6:
        return 4 * len(c["components"][0][0]) + 8, 8 + 2 * len(c["parts"]), len(c["components"])
    return 0, 0, 0


def pairs(kind, c):
    """(width, first place, second place) of every two fields of one form, then of every two lists of one length and form, rows and
    components among them."""
    fields, lists, at = [], [], 6
    for name, form, zs in layout(kind, c):
        if len(zs) > 1 or name in ("Y", "Z", "T", "H", "U", "V", "W", "s"):
            lists.append((form, len(zs), at))
        for _ in zs:
            fields.append((form, at))
            at += WIDTH[form]
    row, first, count = whole_parts(kind, c)
    rows = [("row", 1, first + row * i) for i in range(count)]
    for (f, p), (g, q) in itertools.combinations(fields, 2):
        if f == g:
            yield WIDTH[f], p, q
    for (f, a, p), (g, b, q) in itertools.combinations(lists, 2):
        if (f, a) == (g, b) and a > 1:
            yield a * WIDTH[f], p, q
    for (_, _, p), (_, _, q) in itertools.combinations(rows, 2):
        yield row, p, q


def exchanged(data, width, p, q):
    return data[:p] + data[q:q + width] + data[p + width:q] + data[p:p + width] + data[q + width:]


# ---- 01's judge and 02's of short rankings and settlings, as plainly as it can be written: (number, place, record) of a refusal, or the outcome of an acceptance


class Refused(Exception):
    pass


def number(data, at, form):
    z = int.from_bytes(data[at:at + WIDTH[form]], "little")
    half = 2 ** (8 * WIDTH[form] - 1)
    return z - 2 * half if form != "u16" and z >= half else z


RANGE = {"entry": (-30000, 30000), "right": (-2000000000, 2000000000), "multiplier": (0, 60000), "scale": (1, 60000), "direction": (-60000, 60000), "fall": (1, 1000000)}
FORM = {"entry": "i16", "right": "i32", "multiplier": "u16", "scale": "u16", "direction": "i32", "fall": "i32"}


def take(data, at, what, count, about):
    zs = []
    for i in range(count):
        place = at + i * WIDTH[FORM[what]]
        z = number(data, place, FORM[what])
        least, most = RANGE[what]
        if not least <= z <= most:
            raise Refused(6, place, about)
        zs.append(z)
    return zs, at + count * WIDTH[FORM[what]]


def take_rows(data, at, n, count, about):
    rows = []
    for _ in range(count):
        now, at = take(data, at, "entry", n, about)
        then, at = take(data, at, "entry", n, about)
        right, at = take(data, at, "right", 1, about)
        rows.append((now, then, right[0]))
    return rows, at


def loop_of(data):
    n, m = number(data, 6, "u16"), number(data, 8, "u16")
    if not 1 <= n <= 16:
        raise Refused(5, 6, 1)
    if m > 64:
        raise Refused(5, 8, 1)
    if len(data) - 4 != 6 + m * (4 * n + 4):
        raise Refused(3, 0, 1)
    return n, take_rows(data, 10, n, m, 1)[0]


def total(weights, numbers):
    return sum(y * e for y, e in zip(weights, numbers))


def each(number, count, holds):
    """A condition in each of so many columns or rows: the first place where it fails is told."""
    for place in range(count):
        if not holds(place):
            raise Refused(number, place, 2)


def right_sides(number, holds):
    each(number, 1, lambda _: holds)


def column(rows, which, j):
    return [row[which][j] for row in rows]


def ranked(n, rows, Y, Z):
    b = [row[2] for row in rows]
    each(21, n, lambda j: total(Y, column(rows, 1, j)) == 0)
    each(22, n, lambda j: total(Y, column(rows, 0, j)) == total(Z, column(rows, 0, j)))
    each(23, n, lambda j: total(Z, column(rows, 0, j)) + total(Z, column(rows, 1, j)) == 0)
    right_sides(24, total(Z, b) < 0)
    return [total(Z, column(rows, 1, j)) for j in range(n)], -total(Y, b), -total(Z, b)


def triples_of(data, m):
    """Y and Z of every row: those of the triple with that row, 0 where there is none."""
    count = number(data, 6, "u16")
    if count > 64:
        raise Refused(5, 6, 2)
    if len(data) - 4 != 4 + 6 * count:
        raise Refused(3, 0, 2)
    places = range(8, 8 + 6 * count, 6)
    triples = [[number(data, at + 2 * i, "u16") for i in range(3)] for at in places]
    for i, (at, (row, y, z)) in enumerate(zip(places, triples)):
        if row >= m or (i > 0 and row <= triples[i - 1][0]):
            raise Refused(15, at, 2)
        if y == z == 0:
            raise Refused(16, at, 2)
    Y, Z = [0] * m, [0] * m
    for at, (row, _, _) in zip(places, triples):
        (Y[row], Z[row]), _ = take(data, at + 2, "multiplier", 2, 2)
    return Y, Z


def judge(loop, certificate):
    try:
        n, rows = loop_of(loop)
        m, kind = len(rows), number(certificate, 4, "u16")
        if kind == 2:
            Y, at = take(certificate, 6, "multiplier", m, 2)
            Z, at = take(certificate, at, "multiplier", m, 2)
            return ("rank",) + ranked(n, rows, Y, Z)
        if kind == 3:
            (q,), at = take(certificate, 6, "scale", 1, 2)
            U, at = take(certificate, at, "direction", n, 2)
            V, at = take(certificate, at, "direction", n, 2)
            W, at = take(certificate, at, "direction", n, 2)
            before = [w - v for w, v in zip(W, V)]
            each(31, m, lambda i: total(rows[i][0], V) + total(rows[i][1], U) <= 0)
            each(32, m, lambda i: total(rows[i][0], before) + total(rows[i][1], W) <= q * rows[i][2])
            return ("excluded", "whole" if all(z % q == 0 for z in V + W) else "fractions")
        if kind == 7:
            Y, Z = triples_of(certificate, m)
            return ("rank",) + ranked(n, rows, Y, Z)
        if kind == 8:
            if len(certificate) - 4 != 12 + 2 * n + 6 * m:
                raise Refused(3, 0, 2)
            g, at = take(certificate, 6, "entry", n, 2)
            (t,), at = take(certificate, at, "right", 1, 2)
            (k,), at = take(certificate, at, "scale", 1, 2)
            E, at = take(certificate, at, "multiplier", m, 2)
            Y, at = take(certificate, at, "multiplier", m + 1, 2)
            Z, at = take(certificate, at, "multiplier", m + 1, 2)
            each(61, n, lambda j: total(E, column(rows, 0, j)) == k * g[j])
            each(62, n, lambda j: total(E, column(rows, 1, j)) == -k * g[j])
            right_sides(63, total(E, [r[2] for r in rows]) <= -k)
            return ("settling",) + ranked(n, rows + [([-z for z in g], [0] * n, -t)], Y, Z)
        ms = number(certificate, 6, "u16")
        if ms > 64:
            raise Refused(5, 6, 2)
        if len(certificate) - 4 != 18 + 2 * n + ms * (4 * n + 6) + 6 * m:
            raise Refused(3, 0, 2)
        stem, at = take_rows(certificate, 8, n, ms, 2)
        s, at = take(certificate, at, "entry", n, 2)
        (s0,), at = take(certificate, at, "right", 1, 2)
        (k,), at = take(certificate, at, "scale", 1, 2)
        T, at = take(certificate, at, "multiplier", ms, 2)
        (k2,), at = take(certificate, at, "scale", 1, 2)
        H, at = take(certificate, at, "multiplier", m, 2)
        (h0,), at = take(certificate, at, "multiplier", 1, 2)
        Y, at = take(certificate, at, "multiplier", m + 1, 2)
        Z, at = take(certificate, at, "multiplier", m + 1, 2)
        each(41, n, lambda j: total(T, column(stem, 0, j)) == 0)
        each(42, n, lambda j: total(T, column(stem, 1, j)) == -k * s[j])
        right_sides(43, total(T, [r[2] for r in stem]) <= k * s0)
        each(44, n, lambda j: total(H, column(rows, 0, j)) - h0 * s[j] == 0)
        each(45, n, lambda j: total(H, column(rows, 1, j)) == -k2 * s[j])
        right_sides(46, total(H, [r[2] for r in rows]) + h0 * s0 <= k2 * s0)
        return ("lasso",) + ranked(n, rows + [([-z for z in s], [0] * n, s0)], Y, Z)
    except Refused as refusal:
        return ("refused",) + refusal.args


# ---- 02's judge of several paths


def paths_of(data):
    n, count = number(data, 6, "u16"), number(data, 8, "u16")
    if not 1 <= n <= 16:
        raise Refused(5, 6, 1)
    if not 1 <= count <= 8:
        raise Refused(5, 8, 1)
    if len(data) - 4 < 6 + 2 * count:
        raise Refused(3, 0, 1)
    ms = [number(data, 10 + 2 * j, "u16") for j in range(count)]
    for j, m in enumerate(ms):
        if m > 64:
            raise Refused(5, 10 + 2 * j, 1)
    if len(data) - 4 != 6 + 2 * count + sum(ms) * (4 * n + 4):
        raise Refused(3, 0, 1)
    paths, at = [], 10 + 2 * count
    for m in ms:
        rows, at = take_rows(data, at, n, m, 1)
        paths.append(rows)
    return n, paths


def argument_of(data, n, paths):
    count = number(data, 6, "u16")
    if not 1 <= count <= 8:
        raise Refused(5, 6, 2)
    owned = [number(data, 8 + 2 * j, "u16") for j in range(len(paths))]
    for j, k in enumerate(owned):
        if k >= count:
            raise Refused(14, 8 + 2 * j, 2)
    if len(data) - 4 != 4 + 2 * len(paths) + 4 * count * (n + 2) + sum(2 * len(p) * (2 + k) for p, k in zip(paths, owned)):
        raise Refused(3, 0, 2)
    components, lists, at = [], [], 8 + 2 * len(paths)
    for _ in range(count):
        r, at = take(data, at, "direction", n, 2)
        (start,), at = take(data, at, "right", 1, 2)
        (fall,), at = take(data, at, "fall", 1, 2)
        components.append((r, start, fall))
    for path, k in zip(paths, owned):
        held = []
        for _ in range(2 + k):
            ys, at = take(data, at, "multiplier", len(path), 2)
            held.append(ys)
        lists.append(held)
    return components, owned, lists


def judge_paths(loop, certificate):
    try:
        n, paths = paths_of(loop)
        components, owned, lists = argument_of(certificate, n, paths)
        for j, (rows, k, (bounded, ranking, *unaffecting)) in enumerate(zip(paths, owned, lists)):
            def weigh(ys, r, then, limit):
                return (
                    all(total(ys, column(rows, 0, i)) == -r[i] and total(ys, column(rows, 1, i)) == then * r[i] for i in range(n))
                    and total(ys, [row[2] for row in rows]) <= limit
                )
            r, start, fall = components[k]
            if not weigh(bounded, r, 0, -start):
                raise Refused(51, j, 2)
            if not weigh(ranking, r, 1, -fall):
                raise Refused(52, j, 2)
            if not all(weigh(ys, components[i][0], 1, 0) for i, ys in enumerate(unaffecting)):
                raise Refused(53, j, 2)
        return ("lexicographic",)
    except Refused as refusal:
        return ("refused",) + refusal.args


# ---- the tables

CASES = {
    "loop": (record(1, LOOP), record(2, RANKING), 1, 1, LOOP),
    "ranking": (record(1, LOOP), record(2, RANKING), 2, 2, RANKING),
    "exclusion": (record(1, ENDLESS_LOOP), record(3, EXCLUSION), 2, 3, EXCLUSION),
    "lasso": (record(1, LASSO_LOOP), record(4, LASSO), 2, 4, LASSO),
    "paths": (record(5, PATHS), record(6, ARGUMENT), 1, 5, PATHS),
    "argument": (record(5, PATHS), record(6, ARGUMENT), 2, 6, ARGUMENT),
    "one-path": (record(5, ONE_PATH), record(6, ONE_ARGUMENT), 1, 5, ONE_PATH),
    "one-argument": (record(5, ONE_PATH), record(6, ONE_ARGUMENT), 2, 6, ONE_ARGUMENT),
    "settled-loop": (record(1, SETTLING_LOOP), record(8, SETTLING), 1, 1, SETTLING_LOOP),
    "settling": (record(1, SETTLING_LOOP), record(8, SETTLING), 2, 8, SETTLING),
    "short": (record(1, SHORT_LOOP), record(7, SHORT), 2, 7, SHORT),
}

# the crates that have them
TABLES = {
    "verdict_exchanges": ("loop", "ranking", "exclusion", "lasso"),
    "verdict_paths_exchanges": ("paths", "argument", "one-path", "one-argument"),
    "verdict_settling_exchanges": ("settled-loop", "settling"),
    "verdict_short_exchanges": ("short",),
}


def answer(loop, certificate):
    return (judge_paths if number(loop, 4, "u16") == 5 else judge)(loop, certificate)


def judged(case, width, p, q):
    loop, certificate, which, _, _ = CASES[case]
    if which == 1:
        return answer(exchanged(loop, width, p, q), certificate)
    return answer(loop, exchanged(certificate, width, p, q))


def whole(z):
    return f"(pos {z})" if z >= 0 else f"(− {-z})"


def line(width, p, q, told):
    if told[0] == "refused":
        return f"({width} bytes-at {p} and {q} refused {told[1]} at {told[2]} of {told[3]})"
    if told[0] == "excluded":
        return f"({width} bytes-at {p} and {q} show Exclusion {told[1].capitalize()})"
    name = {"rank": "Ranking", "lasso": "Lasso", "settling": "Settling"}[told[0]]
    return f"({width} bytes-at {p} and {q} show {name} {whole(told[2])} {whole(told[3])})"


def table(cases):
    for case in cases:
        yield f"{case.replace('-', '_')}_exchanges ="
        accepted = answer(*CASES[case][:2])
        assert accepted[0] != "refused", (case, accepted)
        lines = []
        for width, p, q in pairs(*CASES[case][3:]):
            told = judged(case, width, p, q)
            assert told != accepted, (case, width, p, q)
            lines.append(line(width, p, q, told))
        yield "    " + lines[0]
        yield from ("    ∷ " + l for l in lines[1:])
        yield "    ∷ []"


def check():
    lines = 0
    for crate, cases in TABLES.items():
        path = os.path.join(os.path.dirname(__file__), "..", "crates", crate, "specs", "Exchanged.antt")
        with open(path, encoding="utf-8") as f:
            have = f.read().splitlines()
        have = [l for l in have if " bytes-at " in l or l.endswith("_exchanges =")]
        want = [l for l in table(cases) if l.strip() != "∷ []"]
        for a, b in itertools.zip_longest(have, want):
            if a != b:
                sys.exit(f"{path}\nhas    {a}\nwanted {b}")
        lines += sum(" bytes-at " in l for l in want)
    print(f"{lines} exchanges, none left out")


def records_of(case):
    loop, certificate, _, kind, c = CASES[case]
    yield certificate
    for width, p, q in pairs(kind, c):
        yield exchanged(certificate, width, p, q)


def words(count, told):
    if told[0] == "refused":
        return f"{count} refused {told[1]} {told[2]}"
    if told[0] == "excluded":
        return f"{count} excluded {told[1]}"
    return f"{count} {told[0]} {' '.join(map(str, told[1]))} from {told[2]} down {told[3]}"


def main():
    if sys.argv[1:] == ["table"]:
        print("\n".join(table(CASES)))
    elif sys.argv[1:] == ["check"]:
        check()
    elif len(sys.argv) == 3 and sys.argv[1] == "sheet":
        sys.stdout.buffer.write(CASES[sys.argv[2]][0] + b"".join(records_of(sys.argv[2])))
    elif len(sys.argv) == 3 and sys.argv[1] == "text":
        loop = CASES[sys.argv[2]][0]
        print("loop", *(number(loop, at, "u16") for at in (6, 8)))
        for count, certificate in enumerate(records_of(sys.argv[2]), 1):
            print(words(count, judge(loop, certificate)))
    else:
        sys.exit(__doc__)


main()
