"""Loops, rankings, exclusions and lassos: kinds 1 to 4, and kind 7 as the short form of a ranking.

`to_bytes` and `from_bytes` go through the proved writer and reader, `shorten` and `lengthen`, and answer a `Refusal` where these
do. A record whose lists do not fit each other cannot be made: that is a `ValueError`, as for any Python object.
"""
from __future__ import annotations

import itertools
import operator
from dataclasses import dataclass, field
from typing import Callable, ClassVar, Iterable, Sequence, Union

from . import calls
from .layouts import Shape, kind_of
from .notation import counted, name_fault, row_text
from .refusals import Record, Refusal


def whole_numbers(values: Iterable[int]) -> tuple[int, ...]:
    """A tuple of whole numbers. A float or a text is a TypeError."""
    return tuple(operator.index(value) for value in values)


def dot(left: Iterable[int], right: Iterable[int]) -> int:
    """The sum of the products of two lists."""
    return sum(one * other for one, other in zip(left, right))


def settle(record: object, *lists: str, single: Sequence[str] = ()) -> None:
    """Turns the named fields of a frozen record into tuples of whole numbers, and those in `single` into whole numbers."""
    for name in lists:
        object.__setattr__(record, name, whole_numbers(getattr(record, name)))
    for name in single:
        object.__setattr__(record, name, operator.index(getattr(record, name)))


def check_names(names: Sequence[str], n: int) -> tuple[str, ...]:
    """The names of n variables, if they are sound. Nothing is sound as well.

    >>> check_names(("x", "x"), 2)
    Traceback (most recent call last):
    ValueError: the name 'x' is there twice
    """
    named = tuple(names)
    if not named:
        return named
    if len(named) != n:
        raise ValueError(f"{counted(len(named), 'name')} for {counted(n, 'variable')}")
    for i, name in enumerate(named):
        fault = name_fault(name) or (f"the name {name!r} is there twice" if name in named[:i] else "")
        if fault:
            raise ValueError(fault)
    return named


@dataclass(frozen=True)
class Row:
    """A row of a loop or a stem: before·x + after·x′ ≤ right.

    >>> print(Row((-1, 1), (0, 0), -2))
    −x1 + x2 ≤ −2
    """

    before: tuple[int, ...]
    after: tuple[int, ...]
    right: int

    def __post_init__(self) -> None:
        settle(self, "before", "after", single=("right",))
        if len(self.before) != len(self.after):
            raise ValueError(f"a row has {len(self.before)} entries before a step and {len(self.after)} after it")

    def __str__(self) -> str:
        return row_text(self.before, self.after, self.right)

    @property
    def values(self) -> tuple[int, ...]:
        """The row as it lies in a record."""
        return self.before + self.after + (self.right,)

    def left(self, x: Sequence[int], after: Sequence[int]) -> int:
        """The left side at a pair of states."""
        return dot(self.before, x) + dot(self.after, after)

    def holds(self, x: Sequence[int], after: Sequence[int]) -> bool:
        """Whether a pair of states meets the row."""
        return self.left(x, after) <= self.right


def rows_of(values: Sequence[int], n: int) -> tuple[Row, ...]:
    """Rows from the values of a record."""
    width = 2 * n + 1
    return tuple(
        Row(tuple(values[i : i + n]), tuple(values[i + n : i + 2 * n]), values[i + 2 * n])
        for i in range(0, len(values), width)
    )


def check_rows(rows: Iterable[Row], n: int) -> tuple[Row, ...]:
    """The rows as a tuple, if each has n entries on either side."""
    listed = tuple(rows)
    for row in listed:
        if len(row.before) != n:
            raise ValueError(f"a row has {len(row.before)} entries for {n} variables")
    return listed


@dataclass(frozen=True)
class Loop:
    """A loop of n variables: its rows, all of which a step meets. Names of the variables are for printing alone.

    >>> p = Loop(2, [Row((-1, 1), (0, 0), -2), Row((-1, 0), (1, 0), -1), Row((0, 1), (0, -1), 0)])
    >>> data = p.to_bytes()
    >>> len(data), Loop.from_bytes(data) == p
    (46, True)
    >>> print(Loop(1, [Row((30001,), (0,), 0)]).to_bytes())
    loop, 6 at 10: a value is out of range
    """

    kind: ClassVar[int] = 1
    n: int
    rows: tuple[Row, ...]
    names: tuple[str, ...] = field(default=(), compare=False)

    def __post_init__(self) -> None:
        settle(self, single=("n",))
        object.__setattr__(self, "rows", check_rows(self.rows, self.n))
        object.__setattr__(self, "names", check_names(self.names, self.n))

    @property
    def m(self) -> int:
        """How many rows there are."""
        return len(self.rows)

    @property
    def shape(self) -> Shape:
        """What a certificate must know of the loop."""
        return Shape(self.n, (self.m,))

    def to_bytes(self) -> Union[bytes, Refusal]:
        """The record, by the proved writer."""
        values = [value for row in self.rows for value in row.values]
        return calls.write_record(1, self.n, self.m, values)

    @classmethod
    def from_bytes(cls, data: bytes, names: Sequence[str] = ()) -> Union["Loop", Refusal]:
        """The loop that a record holds, by the proved reader."""
        read = calls.read_loop(data)
        return read if isinstance(read, Refusal) else cls(read.n, rows_of(read.values, read.n), tuple(names))


@dataclass(frozen=True)
class Ranking:
    """A ranking: the multipliers Y and Z, one of each for every row of the loop.

    >>> ranking = Ranking((1, 0, 0), (0, 1, 1))
    >>> ranking.to_bytes().hex(" ", 2)
    '0e00 0000 0200 0100 0000 0000 0000 0100 0100'
    >>> Ranking.from_bytes(ranking.to_bytes(short=True), Shape(2, (3,))) == ranking
    True
    """

    kind: ClassVar[int] = 2
    y: tuple[int, ...]
    z: tuple[int, ...]

    def __post_init__(self) -> None:
        settle(self, "y", "z")
        if len(self.y) != len(self.z):
            raise ValueError(f"a ranking has {len(self.y)} multipliers Y and {len(self.z)} multipliers Z")

    def to_bytes(self, short: bool = False) -> Union[bytes, Refusal]:
        """The record of kind 2, by the proved writer; with `short`, of kind 7, by `cushiedoo_shorten`."""
        data = calls.write_record(2, 1, len(self.y), self.y + self.z)  # the record is the same for every n
        return calls.shorten(data, 1, len(self.y)) if short and isinstance(data, bytes) else data

    @classmethod
    def from_bytes(cls, data: bytes, loop: Union[Loop, Shape]) -> Union["Ranking", Refusal]:
        """The ranking that a record of kind 2 or 7 holds. One of kind 7 is lengthened first, by `cushiedoo_lengthen`."""
        long = calls.lengthen(data, loop.n, loop.m) if kind_of(data) == 7 else data
        if isinstance(long, Refusal):
            return long
        read = read_kind(2, long, loop)
        return read if isinstance(read, Refusal) else cls(read.values[: loop.m], read.values[loop.m :])


def read_kind(kind: int, data: bytes, loop: Union[Loop, Shape]) -> Union[calls.Values, Refusal]:
    """A reading of a certificate of one kind. Another kind is refused as the reader refuses a kind that is not wanted."""
    read = calls.read_certificate(data, loop.n, loop.m)
    if isinstance(read, calls.Values) and read.kind != kind:
        return Refusal(4, 4, Record.CERTIFICATE)
    return read


@dataclass(frozen=True)
class Exclusion:
    """An exclusion: a step from (W − V)/q to W/q, and a direction (V, U) that never leaves the rows.

    >>> s7 = Exclusion(q=1, u=(-2,), v=(1,), w=(4,))
    >>> Exclusion.from_bytes(s7.to_bytes(), Shape(1, (3,))) == s7
    True
    """

    kind: ClassVar[int] = 3
    q: int
    u: tuple[int, ...]
    v: tuple[int, ...]
    w: tuple[int, ...]

    def __post_init__(self) -> None:
        settle(self, "u", "v", "w", single=("q",))
        if not len(self.u) == len(self.v) == len(self.w):
            raise ValueError(f"an exclusion has {len(self.u)}, {len(self.v)} and {len(self.w)} entries of U, V and W")

    def to_bytes(self) -> Union[bytes, Refusal]:
        """The record, by the proved writer."""
        return calls.write_record(3, len(self.u), 0, (self.q,) + self.u + self.v + self.w)

    @classmethod
    def from_bytes(cls, data: bytes, loop: Union[Loop, Shape]) -> Union["Exclusion", Refusal]:
        """The exclusion that a record holds, by the proved reader."""
        read = read_kind(3, data, loop)
        if isinstance(read, Refusal):
            return read
        n, values = loop.n, read.values
        return cls(values[0], values[1 : n + 1], values[n + 1 : 2 * n + 1], values[2 * n + 1 :])


@dataclass(frozen=True)
class Lasso:
    """A lasso: the stem's rows, the invariant s·x + s0 ≥ 0, and the multipliers for start (T, with the scale k), kept (H and h0,
    with the scale k2) and ranking (Y and Z, with one more for the row −s·x ≤ s0).

    >>> s10 = Lasso(stem=[Row((0, 0), (0, -1), -1)], s=(0, 1), s0=-1, k=1, t=(1,), k2=1, h=(0, 0, 1), h0=1,
    ...             y=(1, 0, 0, 0), z=(0, 1, 0, 1))
    >>> Lasso.from_bytes(s10.to_bytes(), Shape(2, (3,))) == s10
    True
    """

    kind: ClassVar[int] = 4
    stem: tuple[Row, ...]
    s: tuple[int, ...]
    s0: int
    k: int
    t: tuple[int, ...]
    k2: int
    h: tuple[int, ...]
    h0: int
    y: tuple[int, ...]
    z: tuple[int, ...]

    def __post_init__(self) -> None:
        settle(self, "s", "t", "h", "y", "z", single=("s0", "k", "k2", "h0"))
        object.__setattr__(self, "stem", check_rows(self.stem, len(self.s)))
        if len(self.t) != len(self.stem):
            raise ValueError(f"a lasso has {len(self.t)} multipliers T for {len(self.stem)} rows of its stem")
        check_added(self.h, self.y, self.z, "H")

    @property
    def shape(self) -> Shape:
        """What it takes its loop to be."""
        return Shape(len(self.s), (len(self.h),))

    def to_bytes(self) -> Union[bytes, Refusal]:
        """The record, by the proved writer."""
        values = [len(self.stem)] + [value for row in self.stem for value in row.values]
        values += (*self.s, self.s0, self.k, *self.t, self.k2, *self.h, self.h0, *self.y, *self.z)
        return calls.write_record(4, len(self.s), len(self.h), values)

    @classmethod
    def from_bytes(cls, data: bytes, loop: Union[Loop, Shape]) -> Union["Lasso", Refusal]:
        """The lasso that a record holds, by the proved reader."""
        read = read_kind(4, data, loop)
        if isinstance(read, Refusal):
            return read
        n, m, ms = loop.n, loop.m, read.values[0]
        take = taker(read.values[1:])
        return cls(
            stem=rows_of(take(ms * (2 * n + 1)), n), s=take(n), s0=take(1)[0], k=take(1)[0], t=take(ms), k2=take(1)[0],
            h=take(m), h0=take(1)[0], y=take(m + 1), z=take(m + 1),
        )


def check_added(weights: Sequence[int], y: Sequence[int], z: Sequence[int], letter: str) -> None:
    """Y and Z have one multiplier more than the list for the loop's own rows."""
    if not len(y) == len(z) == len(weights) + 1:
        raise ValueError(
            f"there are {len(weights)} multipliers {letter}, {len(y)} Y and {len(z)} Z; Y and Z have one more, for the added row"
        )


def taker(values: Sequence[int]) -> Callable[[int], tuple[int, ...]]:
    """A function that hands out the next values of a list.

    >>> take = taker((1, 2, 3))
    >>> take(2), take(1)
    ((1, 2), (3,))
    """
    left = iter(values)
    return lambda count: tuple(itertools.islice(left, count))
