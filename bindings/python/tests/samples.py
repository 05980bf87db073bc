"""The repository's samples, and records of the paper that the tests share."""
from __future__ import annotations

import functools
import re
import subprocess
from pathlib import Path

from cushiedoo import Argument, Component, Exclusion, Lasso, Loop, Part, PathLoop, Ranking, Row, Settling

ROOT = Path(__file__).resolve().parents[3]
FOLDER = ROOT / "samples"


def names() -> list[str]:
    """The names of all samples."""
    inputs = [*FOLDER.glob("*.hex"), *FOLDER.glob("*.in.sh")]
    return sorted(path.name.removesuffix(".hex").removesuffix(".in.sh") for path in inputs)


@functools.lru_cache(maxsize=None)
def sample(name: str) -> bytes:
    """The bytes of a sample."""
    digits = FOLDER / f"{name}.hex"
    if digits.exists():
        return bytes.fromhex(re.sub(r"#.*", "", digits.read_text(encoding="utf-8")))
    return subprocess.run(["bash", str(FOLDER / f"{name}.in.sh")], check=True, capture_output=True).stdout


P = Loop(2, (Row((-1, 1), (0, 0), -2), Row((-1, 0), (1, 0), -1), Row((0, 1), (0, -1), 0)), names=("x", "y"))
S1 = Ranking((1, 0, 0), (0, 1, 1))

S7_LOOP = Loop(1, (Row((-1,), (0,), 0), Row((2,), (1,), 10), Row((-2,), (-1,), -10)))
S7 = Exclusion(1, (-2,), (1,), (4,))

S10_LOOP = Loop(2, (Row((-1, 0), (0, 0), 0), Row((-1, 1), (1, 0), 0), Row((0, 1), (0, -1), 0)))
S10 = Lasso((Row((0, 0), (0, -1), -1),), (0, 1), -1, 1, (1,), 1, (0, 0, 1), 1, (1, 0, 0, 0), (0, 1, 0, 1))

CURVE = Loop(
    2,
    (
        Row((-1, 0), (0, 0), 0),
        Row((-1, -1), (1, 0), 0),
        Row((1, 1), (-1, 0), 0),
        Row((0, -1), (0, 1), -1),
        Row((0, 1), (0, -1), 1),
    ),
)
SETTLING = Settling((0, -1), 1, 1, (0, 0, 0, 1, 0), (1, 0, 0, 0, 0, 0), (0, 1, 0, 0, 0, 1))

DRAWN_ROWS = PathLoop(
    2,
    (
        (Row((-1, 0), (0, 0), -1), Row((0, -1), (0, 0), -1), Row((-1, 0), (1, 0), -1), Row((0, -1), (0, 1), 0)),
        (Row((1, 0), (0, 0), 0), Row((0, -1), (0, 0), -1), Row((0, -1), (0, 1), -1)),
    ),
)
ARGUMENT = Argument(
    (Component((0, 1), 1, 1), Component((1, 0), 1, 1)),
    (Part(1, (1, 0, 0, 0), (0, 0, 1, 0), ((0, 0, 0, 1),)), Part(0, (0, 1, 0), (0, 0, 1))),
)
PAIRS = ((P, S1), (S7_LOOP, S7), (S10_LOOP, S10), (CURVE, SETTLING), (DRAWN_ROWS, ARGUMENT))
