"""What is wrong with a malformed record, in a sentence that names the field and the numbers.

The archive tells a number and a place. Here the tests of docs/FORMAT.md are gone through once more, in its order, so that a page
can say more. They decide nothing: a page compares their number and place with the archive's.
"""
from __future__ import annotations

from typing import Callable, Iterator, NamedTuple, Optional, Sequence, Union

from . import layouts
from .layouts import U16, Field, Shape, kind_name, kind_of, value_at
from .notation import number_text as shown

# A test: whether it holds; the number and the place if it does not; what to say then; and the field's bytes, if not 2.
Test = Union[tuple[bool, int, int, Callable[[], str]], tuple[bool, int, int, Callable[[], str], int]]


class Fault(NamedTuple):
    """A fault of a record: the refusal's number and place, what is wrong, and how many bytes the field there has."""

    number: int
    place: int
    sentence: str
    width: int = 2


def loop_fault(data: bytes, names: Sequence[str] = ()) -> Optional[Fault]:
    """The first fault of a loop record that is to be judged, or nothing.

    >>> loop_fault(b"abc").sentence
    'There are 3 bytes. A record starts with 4 bytes for its length L.'
    """
    return _first(_loop_tests(data, names))


def certificate_fault(data: bytes, shape: Shape, names: Sequence[str] = ()) -> Optional[Fault]:
    """The first fault of a certificate that is to be judged for a loop of this shape, or nothing."""
    return _first(_certificate_tests(data, shape, names))


def _first(tests: Iterator[Test]) -> Optional[Fault]:
    for holds, number, place, sentence, *width in tests:
        if not holds:
            return Fault(number, place, sentence(), *width)
    return None


def _frame(data: bytes, kinds: Sequence[int]) -> Iterator[Test]:
    size = len(data)
    yield size >= 4, 1, size, lambda: f"There are {shown(size)} bytes. A record starts with 4 bytes for its length L."
    stated = value_at(data, 0, (4, False))
    yield stated >= 2, 3, 0, lambda: f"L is {shown(stated)}. It counts the 2 bytes of the kind, so it is 2 at least."
    yield size >= 4 + stated, 1, size, lambda: (
        f"L is {shown(stated)}, so the record has {shown(4 + stated)} bytes. {shown(size)} are there."
    )
    yield size <= 4 + stated, 2, 4 + stated, lambda: (
        f"L is {shown(stated)}, so the record has {shown(4 + stated)} bytes. {shown(size)} are there."
    )
    listed = ", ".join(f"{kind} ({kind_name(kind)})" for kind in kinds)
    yield kind_of(data) in kinds, 4, 4, lambda: (
        f"The kind is {shown(kind_of(data))} ({kind_name(kind_of(data))}). One of these is wanted here: {listed}."
    )


def _room(data: bytes, least: int, what: str) -> Test:
    stated = value_at(data, 0, (4, False))
    return stated >= least, 3, 0, lambda: f"L is {shown(stated)}, and {what} need an L of {shown(least)} at least."


def _length(data: bytes, due: int) -> Test:
    stated = value_at(data, 0, (4, False))
    return stated == due, 3, 0, lambda: f"L is {shown(stated)}. With these counts it must be {shown(due)}."


def _count(data: bytes, place: int, name: str, span: tuple[int, int]) -> Test:
    value, (least, most) = value_at(data, place, U16), span
    return least <= value <= most, 5, place, lambda: f"{name} is {shown(value)}. It must be {least} to {most}."


def _values(data: bytes, place: int, fields: Iterator[Field]) -> Iterator[Test]:
    for name, form, least, most in fields:
        value = value_at(data, place, form)
        yield least <= value <= most, 6, place, lambda: (
            f"{name[0].upper() + name[1:]} is {shown(value)}. It must be {shown(least)} to {shown(most)}."
        ), form[0]
        place += form[0]


def _loop_tests(data: bytes, names: Sequence[str]) -> Iterator[Test]:
    yield from _frame(data, (1, 5))
    yield _room(data, 6, "its two counts")
    yield _count(data, 6, "The number of variables", layouts.VARIABLES)
    n = value_at(data, 6, U16)
    if kind_of(data) == 1:
        yield _count(data, 8, "The number of rows", layouts.ROWS)
        shape = Shape(n, (value_at(data, 8, U16),))
        place = 10
    else:
        yield _count(data, 8, "The number of paths", layouts.FEW)
        p = value_at(data, 8, U16)
        yield _room(data, 6 + 2 * p, "the counts of rows")
        for j in range(p):
            yield _count(data, 10 + 2 * j, f"The number of rows of path {j + 1}", layouts.ROWS)
        shape = Shape(n, tuple(value_at(data, 10 + 2 * j, U16) for j in range(p)), kind=5)
        place = 10 + 2 * p
    yield _length(data, place - 4 + sum(shape.rows) * (4 * n + 4))
    yield from _values(data, place, layouts.loop_fields(shape, names))


def _certificate_tests(data: bytes, shape: Shape, names: Sequence[str]) -> Iterator[Test]:
    yield from _frame(data, (6,) if shape.kind == 5 else (2, 3, 4, 7, 8))
    kind = kind_of(data)
    if kind == 6:
        yield from _argument_tests(data, shape, names)
        return
    n, m = shape.n, shape.m
    if kind == 2:
        yield _length(data, 2 + 4 * m)
        yield from _values(data, 6, layouts.ranking_fields(shape))
    elif kind == 3:
        yield _length(data, 4 + 12 * n)
        yield from _values(data, 6, layouts.exclusion_fields(shape, names))
    elif kind == 4:
        yield _room(data, 4, "the count of stem rows")
        yield _count(data, 6, "The number of stem rows", layouts.ROWS)
        stem = value_at(data, 6, U16)
        yield _length(data, 18 + 2 * n + stem * (4 * n + 6) + 6 * m)
        yield from _values(data, 8, layouts.lasso_fields(shape, stem, names))
    elif kind == 7:
        yield from _short_tests(data, m)
    else:
        yield _length(data, 12 + 2 * n + 6 * m)
        yield from _values(data, 6, layouts.settling_fields(shape, names))


def _argument_tests(data: bytes, shape: Shape, names: Sequence[str]) -> Iterator[Test]:
    p = len(shape.rows)
    yield _room(data, 4, "the count of components")
    yield _count(data, 6, "The number of components", layouts.FEW)
    components = value_at(data, 6, U16)
    yield _room(data, 4 + 2 * p, "the component numbers")
    owners = [value_at(data, 8 + 2 * j, U16) for j in range(p)]
    for j, owner in enumerate(owners):
        yield owner < components, 14, 8 + 2 * j, lambda: (
            f"Path {j + 1} has component number {owner}, counted from 0. There are {components} components."
        )
    weights = sum(2 * m * (2 + owner) for m, owner in zip(shape.rows, owners))
    yield _length(data, 4 + 2 * p + 4 * components * (shape.n + 2) + weights)
    yield from _values(data, 8 + 2 * p, layouts.argument_fields(shape, components, owners, names))


def _short_tests(data: bytes, m: int) -> Iterator[Test]:
    yield _room(data, 4, "the count of triples")
    yield _count(data, 6, "The number of triples", layouts.TRIPLES)
    count = value_at(data, 6, U16)
    yield _length(data, 4 + 6 * count)
    last = -1
    for i in range(count):
        row, y, z = layouts.unpacked(data, 8 + 6 * i, (U16,) * 3)
        yield row < m, 15, 8 + 6 * i, lambda: (
            f"Triple {i + 1} is for row {shown(row)}, counted from 0. The loop has {m} rows."
        )
        yield row > last, 15, 8 + 6 * i, lambda: (
            f"Triple {i + 1} is for row {row}, counted from 0, and the triple before it for row {last}. The rows must rise."
        )
        yield bool(y or z), 16, 8 + 6 * i, lambda: f"Triple {i + 1}, for row {row}, has Y = 0 and Z = 0. Such a row is left out."
        last = row
    fields = (Field(f"{letter} of triple {i + 1}", U16, 0, 60_000) for i in range(count) for letter in "YZ")
    places = (place for i in range(count) for place in (10 + 6 * i, 12 + 6 * i))
    for place, one in zip(places, fields):
        yield from _values(data, place, iter((one,)))
