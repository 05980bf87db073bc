"""The fields of each kind of record, as docs/FORMAT.md lays them out.

Two things use them: kinds 5, 6 and 8, which the proved writer does not take, are packed by them; and a refusal that names a byte
is told by the field that stands there. No verdict is given here.
"""
from __future__ import annotations

from dataclasses import dataclass
from typing import Iterable, Iterator, NamedTuple, Sequence

from .notation import variable_names

# The forms of numbers: bytes, and whether there is a sign.
U16, I16, I32 = (2, False), (2, True), (4, True)

# The ranges of values.
ENTRY = (-30_000, 30_000)
RIGHT = (-2_000_000_000, 2_000_000_000)
MULTIPLIER = (0, 60_000)
SCALE = (1, 60_000)
WIDE = (-60_000, 60_000)
FALL = (1, 1_000_000)

VARIABLES = (1, 16)
ROWS = (0, 64)
FEW = (1, 8)  # paths, components
TRIPLES = (0, 64)

KINDS = {
    1: "loop",
    2: "ranking",
    3: "exclusion",
    4: "lasso",
    5: "loop of several paths",
    6: "lexicographic argument",
    7: "short ranking",
    8: "settling",
}


class Field(NamedTuple):
    """A field of a record: its name in words, its form and its range."""

    name: str
    form: tuple[int, bool]
    least: int
    most: int


@dataclass(frozen=True)
class Shape:
    """What a certificate must know of its loop: its kind, its variables, and the rows of each path (one path in kind 1)."""

    n: int
    rows: tuple[int, ...]
    kind: int = 1

    @property
    def m(self) -> int:
        """The rows of a loop of kind 1."""
        return self.rows[0]


def kind_of(data: bytes) -> int:
    """The kind that a record's bytes state, or 0 if they are too few."""
    return int.from_bytes(data[4:6], "little") if len(data) >= 6 else 0


def kind_name(kind: int) -> str:
    """A kind in words.

    >>> kind_name(7), kind_name(12)
    ('short ranking', 'unknown kind')
    """
    return KINDS.get(kind, "unknown kind")


def value_at(data: bytes, place: int, form: tuple[int, bool]) -> int:
    """The number that stands at a place."""
    width, signed = form
    return int.from_bytes(data[place : place + width], "little", signed=signed)


def packed(kind: int, values: Iterable[tuple[tuple[int, bool], int]]) -> bytes:
    """A record of a kind from forms and values. A value that its form cannot hold is packed as one that is out of every range, so
    that the archive refuses it at this place; it is never cut.

    >>> packed(8, [(I16, -1), (U16, -1), (U16, 70000)]).hex(" ", 2)
    '0800 0000 0800 ffff ffff ffff'
    """
    body = b"".join(_held(value, *form) for form, value in values)
    return (2 + len(body)).to_bytes(4, "little") + kind.to_bytes(2, "little") + body


def _held(value: int, width: int, signed: bool) -> bytes:
    most = 2 ** (8 * width - signed) - 1
    least = -most - 1 if signed else 0
    if not least <= value <= most:
        value = least if signed and value < 0 else most
    return value.to_bytes(width, "little", signed=signed)


def unpacked(data: bytes, place: int, forms: Sequence[tuple[int, bool]]) -> Iterator[int]:
    """The numbers that stand from a place on, by their forms."""
    for form in forms:
        yield value_at(data, place, form)
        place += form[0]


def row_fields(n: int, count: int, names: Sequence[str], letters: tuple[str, str, str], of: str = "") -> Iterator[Field]:
    """The fields of rows: A, A′ and b of one row after another."""
    called = variable_names(names, n)
    for i in range(1, count + 1):
        for letter in letters[:2]:
            for name in called:
                yield Field(f"the entry of {letter} for {name} in row {i}{of}", I16, *ENTRY)
        yield Field(f"the right side {letters[2]} of row {i}{of}", I32, *RIGHT)


def _multipliers(letter: str, count: int, added: str = "") -> Iterator[Field]:
    for i in range(1, count + 1):
        where = added if added and i == count else f"row {i}"
        yield Field(f"the multiplier {letter} of {where}", U16, *MULTIPLIER)


def _entries(letter: str, names: Sequence[str], form: tuple[int, bool], span: tuple[int, int], of: str = "") -> Iterator[Field]:
    return (Field(f"the entry of {letter} for {name}{of}", form, *span) for name in names)


def loop_fields(shape: Shape, names: Sequence[str] = ()) -> Iterator[Field]:
    """The values of a loop, after its counts."""
    if shape.kind == 1:
        yield from row_fields(shape.n, shape.m, names, ("A", "A′", "b"))
        return
    for path, count in enumerate(shape.rows, 1):
        yield from row_fields(shape.n, count, names, ("A", "A′", "b"), f" of path {path}")


def ranking_fields(shape: Shape) -> Iterator[Field]:
    """The values of a ranking."""
    yield from _multipliers("Y", shape.m)
    yield from _multipliers("Z", shape.m)


def exclusion_fields(shape: Shape, names: Sequence[str] = ()) -> Iterator[Field]:
    """The values of an exclusion."""
    yield Field("the denominator q", U16, *SCALE)
    for letter in "UVW":
        yield from _entries(letter, variable_names(names, shape.n), I32, WIDE)


def lasso_fields(shape: Shape, stem: int, names: Sequence[str] = ()) -> Iterator[Field]:
    """The values of a lasso, after its count of stem rows."""
    yield from row_fields(shape.n, stem, names, ("B", "B′", "d"), " of the stem")
    yield from _entries("s", variable_names(names, shape.n), I16, ENTRY)
    yield Field("s0", I32, *RIGHT)
    yield Field("the scale k", U16, *SCALE)
    yield from _multipliers("T", stem)
    yield Field("the scale k2", U16, *SCALE)
    yield from _multipliers("H", shape.m)
    yield Field("the multiplier h0", U16, *MULTIPLIER)
    yield from _multipliers("Y", shape.m + 1, "the added row")
    yield from _multipliers("Z", shape.m + 1, "the added row")


def argument_fields(shape: Shape, components: int, owners: Sequence[int], names: Sequence[str] = ()) -> Iterator[Field]:
    """The values of a lexicographic argument, after its counts. `owners` are the paths' component numbers."""
    for i in range(1, components + 1):
        yield from _entries("r", variable_names(names, shape.n), I32, WIDE, f" in component {i}")
        yield Field(f"δ0 of component {i}", I32, *RIGHT)
        yield Field(f"δ of component {i}", I32, *FALL)
    for path, (count, owner) in enumerate(zip(shape.rows, owners), 1):
        lists = ["bounded", "ranking"] + [f"unaffecting (component {i + 1})" for i in range(owner)]
        for name in lists:
            for row in range(1, count + 1):
                yield Field(f"the {name} multiplier of row {row} of path {path}", U16, *MULTIPLIER)


def settling_fields(shape: Shape, names: Sequence[str] = ()) -> Iterator[Field]:
    """The values of a settling."""
    yield from _entries("g", variable_names(names, shape.n), I16, ENTRY)
    yield Field("the threshold t", I32, *RIGHT)
    yield Field("the scale k", U16, *SCALE)
    yield from _multipliers("E", shape.m)
    yield from _multipliers("Y", shape.m + 1, "the added row")
    yield from _multipliers("Z", shape.m + 1, "the added row")
