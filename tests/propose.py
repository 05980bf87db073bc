#!/usr/bin/env python3
"""The proposer of examples/propose without z3, which the gate does not need: the loops that it reads, and what it refuses.

For each text of a loop the sheet that stands in samples/ begins with the record that the text makes. Wrong input, and z3 missing,
get one line on standard error and exit code 2. It prints nothing unless something is wrong.
"""
import os
import runpy
import subprocess
import sys
import tempfile
from pathlib import Path

ROOT = Path(__file__).resolve().parent.parent
FOLDER = ROOT / "examples/propose"
WITHOUT_Z3 = "import runpy, sys; sys.modules['z3'] = None; sys.argv = sys.argv[1:]; runpy.run_path(sys.argv[0], run_name='__main__')"
faults = []


def expect(holds, what):
    if not holds:
        faults.append(what)
        print(f"wrong: {what}")


def bytes_of(sample):
    digits = "".join(line.split("#")[0] for line in sample.read_text().splitlines())
    return bytes.fromhex("".join(digits.split()))


def refused(what, ending, *words):
    command = [sys.executable, "-X", "utf8", "-c", WITHOUT_Z3, FOLDER / "propose.py", *words]
    told = subprocess.run(command, capture_output=True, encoding="utf-8", check=False)
    lines = told.stderr.splitlines()
    expect(told.returncode == 2 and not told.stdout, f"{what}: exit code {told.returncode}")
    expect(len(lines) == 1 and lines[0].startswith("propose: ") and lines[0].endswith(ending), f"{what}: {told.stderr!r}")


proposer = runpy.run_path(str(FOLDER / "propose.py"))
loops = sorted(FOLDER.glob("*.loop"))
expect(len(loops) == 10, "ten loops")
for text in loops:
    record = proposer["loop_record"](*proposer["loop_of"](text.read_text()))
    expect(bytes_of(ROOT / f"samples/propose-{text.stem}.hex").startswith(record), f"the sheet of {text.name}")
signs = (["a", "b"], [([-1, 0], [0, 1], -3), ([0, 0], [0, 0], 1)])
expect(proposer["loop_of"]("2 * a - b' >= 3 + a\n\n0 <= 1 # a comment") == signs, "signs")
lines = (FOLDER / "propose.py").read_text().count("\n")
expect(lines < 150, f"{lines} lines, where fewer than 150 are promised")

with tempfile.TemporaryDirectory() as scratch:
    sheet = os.path.join(scratch, "sheet")
    refused("no names", "two names are wanted: propose.py LOOP SHEET (an example, and no part of the checker)")
    refused("a missing file", "missing: No such file or directory", os.path.join(scratch, "missing"), sheet)
    refused("a directory", "Is a directory", scratch, sheet)
    for what, text, ending in (
        ("a strict sign", "x < 3", "one of <=, >= and = is wanted, once: 'x < 3'"),
        ("two signs", "1 <= x <= 3", "one of <=, >= and = is wanted, once: '1 <= x <= 3'"),
        ("a true minus", "x <= 1\nx' <= x \u2212 1", "line 2: no sum of numbers and names: 'x \u2212 1'"),
        ("an open product", "x <= 3 *", "line 1: no sum of numbers and names: '3 *'"),
        ("a long numeral", "x <= " + "9" * 5000, "9'"),
        ("a factor out of range", "30001x <= 0", "a factor beyond 30,000 or a number beyond 2,000,000,000"),
        ("a number out of range", "x <= 2000000001", "a factor beyond 30,000 or a number beyond 2,000,000,000"),
        ("no variable", "1 <= 2", "0 variables and 1 rows: 1 to 16 and 0 to 64 are taken (= makes two rows)"),
        ("too many rows", "x = 1\n" * 33, "1 variables and 66 rows: 1 to 16 and 0 to 64 are taken (= makes two rows)"),
    ):
        Path(scratch, "loop").write_text(text, "utf-8")
        refused(what, ending, os.path.join(scratch, "loop"), sheet)
    if (ROOT / "target/bin/sheet").is_file():
        ending = "z3 is not installed for this python3 (Debian: apt-get install python3-z3, then /usr/bin/python3)"
        refused("without z3", ending, FOLDER / "p.loop", sheet)
    expect(not os.path.exists(sheet), "a refused call writes no sheet")
sys.exit(1 if faults else 0)
