"""Kinds 5, 6 and 8: loops of several paths, lexicographic arguments for them, and settlings.

The proved reader and writer do not take these kinds, so **they are packed and unpacked here, in Python**. What is packed is
shown to the archive before it is handed out: `to_bytes` and `from_bytes` have the record judged, and answer the archive's own
refusal if it finds a fault in it. A value that its field cannot hold is packed as one that is out of range, so the archive
refuses it at its place.
"""
from __future__ import annotations

from dataclasses import dataclass, field
from typing import ClassVar, Iterator, Sequence, Union

from . import calls
from .layouts import I16, I32, U16, Shape, kind_of, packed, unpacked, value_at
from .parting import is_whole
from .records import Loop, Row, check_added, check_names, check_rows, rows_of, settle, taker, whole_numbers
from .refusals import Record, Refusal

Fields = Iterator[tuple[tuple[int, bool], int]]


def _row_fields(rows: Sequence[Row]) -> Fields:
    for row in rows:
        for value in row.before + row.after:
            yield I16, value
        yield I32, row.right


@dataclass(frozen=True)
class PathLoop:
    """A loop of several paths (kind 5). A step meets every row of one of them.

    >>> two = PathLoop(1, [[Row((-1,), (0,), -1), Row((-1,), (1,), -1)], [Row((-1,), (0,), -3), Row((-1,), (1,), -2)]])
    >>> PathLoop.from_bytes(two.to_bytes()) == two
    True
    >>> print(PathLoop(1, []).to_bytes())
    loop, 5 at 8: a count is out of range
    """

    kind: ClassVar[int] = 5
    n: int
    paths: tuple[tuple[Row, ...], ...]
    names: tuple[str, ...] = field(default=(), compare=False)

    def __post_init__(self) -> None:
        settle(self, single=("n",))
        object.__setattr__(self, "paths", tuple(check_rows(path, self.n) for path in self.paths))
        object.__setattr__(self, "names", check_names(self.names, self.n))

    @property
    def shape(self) -> Shape:
        """What a certificate must know of the loop."""
        return Shape(self.n, tuple(map(len, self.paths)), kind=5)

    def _fields(self) -> Fields:
        yield U16, self.n
        yield U16, len(self.paths)
        for path in self.paths:
            yield U16, len(path)
        for path in self.paths:
            yield from _row_fields(path)

    def to_bytes(self) -> Union[bytes, Refusal]:
        """The record, packed in Python, or the archive's refusal of it."""
        data = packed(5, self._fields())
        fault = _loop_fault(data)
        return data if fault is None else fault

    @classmethod
    def from_bytes(cls, data: bytes, names: Sequence[str] = ()) -> Union["PathLoop", Refusal]:
        """The loop that a record holds, unpacked in Python once the archive has found no fault in it."""
        fault = _loop_fault(data)
        if fault is not None:
            return fault
        n, p = unpacked(data, 6, (U16, U16))
        rows, place, paths = tuple(unpacked(data, 10, (U16,) * p)), 10 + 2 * p, []
        for m in rows:
            paths.append(rows_of(tuple(unpacked(data, place, ((I16,) * (2 * n) + (I32,)) * m)), n))
            place += m * (4 * n + 4)
        return cls(n, tuple(paths), tuple(names))


def _is_of_another_kind(data: bytes, kind: int) -> bool:
    """Whether bytes are one record, of another kind. They are refused as the readers refuse a kind that is not wanted."""
    return is_whole(data) and kind_of(data) != kind


def _loop_fault(data: bytes) -> Union[Refusal, None]:
    """What the archive finds wrong with a loop of several paths. Judging reads the loop before it looks at the certificate, which
    is empty here."""
    if _is_of_another_kind(data, 5):
        return Refusal(4, 4, Record.LOOP)
    verdict = calls.judge_bytes(data, b"")
    return verdict if isinstance(verdict, Refusal) and verdict.record is Record.LOOP else None


def _certificate_fault(shape: Shape, data: bytes) -> Union[Refusal, None]:
    """What the archive finds wrong with a certificate for a loop of this shape. The loop that it is judged with has zeros alone:
    judging looks at the record before it looks at any condition."""
    zeros: Union[Loop, PathLoop]
    paths = [[Row((0,) * shape.n, (0,) * shape.n, 0)] * m for m in shape.rows]
    zeros = Loop(shape.n, tuple(paths[0])) if shape.kind == 1 else PathLoop(shape.n, tuple(map(tuple, paths)))
    loop = zeros.to_bytes()
    if isinstance(loop, Refusal):  # there is no such loop: n, m or the paths are out of range
        return Refusal(5, 0, Record.CERTIFICATE)
    verdict = calls.judge_bytes(loop, data)
    return verdict if isinstance(verdict, Refusal) and not verdict.is_condition else None


@dataclass(frozen=True)
class Component:
    """A component of a lexicographic argument: r, δ0 and δ."""

    rank: tuple[int, ...]
    start: int
    fall: int

    def __post_init__(self) -> None:
        settle(self, "rank", single=("start", "fall"))


@dataclass(frozen=True)
class Part:
    """What an argument says of one path: its component, counted from 0, and its lists of multipliers. There is one unaffecting
    list for each earlier component."""

    component: int
    bounded: tuple[int, ...]
    ranking: tuple[int, ...]
    unaffecting: tuple[tuple[int, ...], ...] = ()

    def __post_init__(self) -> None:
        settle(self, "bounded", "ranking", single=("component",))
        object.__setattr__(self, "unaffecting", tuple(map(whole_numbers, self.unaffecting)))
        if len(self.unaffecting) != self.component:
            raise ValueError(f"a path of component {self.component} has {len(self.unaffecting)} unaffecting lists")
        if any(len(listed) != len(self.bounded) for listed in self.lists):
            raise ValueError("the lists of a path have different lengths")

    @property
    def lists(self) -> tuple[tuple[int, ...], ...]:
        """All lists, in the order of the layout."""
        return (self.bounded, self.ranking) + self.unaffecting


@dataclass(frozen=True)
class Argument:
    """A lexicographic argument (kind 6) for a loop of several paths: components, and a part for each path.

    >>> one = Argument([Component((1,), 1, 1)], [Part(0, (1, 0), (0, 1)), Part(0, (1, 0), (0, 1))])
    >>> Argument.from_bytes(one.to_bytes(), Shape(1, (2, 2), kind=5)) == one
    True
    >>> print(Argument([Component((1,), 1, 0)], [Part(0, (), ())]).to_bytes())
    certificate, 6 at 18: a value is out of range
    """

    kind: ClassVar[int] = 6
    components: tuple[Component, ...]
    parts: tuple[Part, ...]

    def __post_init__(self) -> None:
        object.__setattr__(self, "components", tuple(self.components))
        object.__setattr__(self, "parts", tuple(self.parts))
        if len({len(component.rank) for component in self.components}) > 1:
            raise ValueError("the components have different numbers of variables")

    @property
    def shape(self) -> Shape:
        """What it takes its loop to be."""
        n = len(self.components[0].rank) if self.components else 1
        return Shape(n, tuple(len(part.bounded) for part in self.parts), kind=5)

    def _fields(self) -> Fields:
        yield U16, len(self.components)
        for part in self.parts:
            yield U16, part.component
        for component in self.components:
            for value in component.rank + (component.start, component.fall):
                yield I32, value
        for part in self.parts:
            for listed in part.lists:
                for value in listed:
                    yield U16, value

    def to_bytes(self) -> Union[bytes, Refusal]:
        """The record, packed in Python, or the archive's refusal of it."""
        data = packed(6, self._fields())
        fault = _certificate_fault(self.shape, data)
        return data if fault is None else fault

    @classmethod
    def from_bytes(cls, data: bytes, loop: Union[PathLoop, Shape]) -> Union["Argument", Refusal]:
        """The argument that a record holds, unpacked in Python once the archive has found no fault in it."""
        shape = loop if isinstance(loop, Shape) else loop.shape
        fault = _certificate_fault(shape, data)
        if fault is not None:
            return fault
        n, p, count = shape.n, len(shape.rows), value_at(data, 6, U16)
        owners = tuple(unpacked(data, 8, (U16,) * p))
        place = 8 + 2 * p
        take = taker(tuple(unpacked(data, place, (I32,) * (count * (n + 2)))))
        components = [Component(take(n), *take(2)) for _ in range(count)]
        place += 4 * count * (n + 2)
        weights = sum(m * (2 + owner) for m, owner in zip(shape.rows, owners))
        take = taker(tuple(unpacked(data, place, (U16,) * weights)))
        parts = [Part(c, take(m), take(m), tuple(take(m) for _ in range(c))) for m, c in zip(shape.rows, owners)]
        return cls(tuple(components), tuple(parts))


@dataclass(frozen=True)
class Settling:
    """A settling (kind 8): g·x rises in every step by the multipliers E, with the scale k, and where it has reached the threshold
    t a ranking holds, with one more multiplier Y and Z for the row −g·x ≤ −t.

    >>> curve = Settling(g=(0, -1), t=1, k=1, e=(0, 0, 0, 1, 0), y=(1, 0, 0, 0, 0, 0), z=(0, 1, 0, 0, 0, 1))
    >>> Settling.from_bytes(curve.to_bytes(), Shape(2, (5,))) == curve
    True
    """

    kind: ClassVar[int] = 8
    g: tuple[int, ...]
    t: int
    k: int
    e: tuple[int, ...]
    y: tuple[int, ...]
    z: tuple[int, ...]

    def __post_init__(self) -> None:
        settle(self, "g", "e", "y", "z", single=("t", "k"))
        check_added(self.e, self.y, self.z, "E")

    @property
    def shape(self) -> Shape:
        """What it takes its loop to be."""
        return Shape(len(self.g), (len(self.e),))

    def _fields(self) -> Fields:
        for value in self.g:
            yield I16, value
        yield I32, self.t
        for value in (self.k,) + self.e + self.y + self.z:
            yield U16, value

    def to_bytes(self) -> Union[bytes, Refusal]:
        """The record, packed in Python, or the archive's refusal of it."""
        data = packed(8, self._fields())
        fault = _certificate_fault(self.shape, data)
        return data if fault is None else fault

    @classmethod
    def from_bytes(cls, data: bytes, loop: Union[Loop, Shape]) -> Union["Settling", Refusal]:
        """The settling that a record holds, unpacked in Python once the archive has found no fault in it."""
        n, m = loop.n, loop.m
        shape = Shape(n, (m,))
        if _is_of_another_kind(data, 8):
            return Refusal(4, 4, Record.CERTIFICATE)
        fault = _certificate_fault(shape, data)
        if fault is not None:
            return fault
        take = taker(tuple(unpacked(data, 6, (I16,) * n + (I32, U16) + (U16,) * (3 * m + 2))))
        return cls(g=take(n), t=take(1)[0], k=take(1)[0], e=take(m), y=take(m + 1), z=take(m + 1))
