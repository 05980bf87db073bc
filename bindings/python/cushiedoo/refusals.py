"""Refusals: their number, their place, the record they speak of, and what that means in words.

The table is that of docs/FORMAT.md and include/cushiedoo.h. A refusal is an answer like any other. It becomes an exception only
where the caller asks for one, by `Refusal.expect` or `expect`.
"""
from __future__ import annotations

import enum
from dataclasses import dataclass, field, replace
from typing import NoReturn, TypeVar, Union

from .notation import variable_names

T = TypeVar("T")


class Record(enum.IntEnum):
    """The record that a refusal speaks of."""

    NEITHER = 0
    LOOP = 1
    CERTIFICATE = 2


class Where(enum.Enum):
    """What the place of a refusal counts."""

    BYTES = "bytes"
    BYTE = "byte"
    ROOM = "room"
    ENTRY = "entry"
    ENTRIES = "entries"
    LENGTH = "length"
    RECORDS = "records"
    COLUMN = "column"
    ROW = "row"
    PATH = "path"
    NOTHING = "nothing"


# For each number what is wrong and what the place counts. A column, a row or a path is added to the words, and so are the room that
# is needed and the records that there are.
MEANINGS: dict[int, tuple[str, Where]] = {
    1: ("the bytes end early", Where.BYTES),
    2: ("there are bytes after the record", Where.BYTES),
    3: ("L is below 2, too small for the counts, or not the L that the counts give", Where.NOTHING),
    4: ("a kind that is not wanted here", Where.BYTE),
    5: ("a count is out of range", Where.BYTE),
    6: ("a value is out of range", Where.BYTE),
    7: ("the room is too small", Where.ROOM),
    9: ("an entry of the state is out of range", Where.ENTRY),
    10: ("the state does not have one entry for each variable", Where.ENTRIES),
    11: ("the state is outside the invariant of the lasso", Where.NOTHING),
    12: ("the list of values has the wrong length", Where.LENGTH),
    13: ("there are more than 32 records", Where.RECORDS),
    14: ("a component number does not exist", Where.BYTE),
    15: ("a row of the short ranking is not below m, or not above the row before it", Where.BYTE),
    16: ("Y and Z of a row of the short ranking are both zero", Where.BYTE),
    21: ("YA′ is not 0", Where.COLUMN),
    22: ("(Y − Z)A is not 0", Where.COLUMN),
    23: ("Z(A + A′) is not 0", Where.COLUMN),
    24: ("Zb is not below 0", Where.NOTHING),
    31: ("A·V + A′·U is above 0", Where.ROW),
    32: ("A·(W − V) + A′·W is above q b", Where.ROW),
    41: ("TB is not 0", Where.COLUMN),
    42: ("TB′ is not −k s", Where.COLUMN),
    43: ("Td is above k s0", Where.NOTHING),
    44: ("HA − h0 s is not 0", Where.COLUMN),
    45: ("HA′ is not −k2 s", Where.COLUMN),
    46: ("Hb + h0 s0 is above k2 s0", Where.NOTHING),
    51: ("the bounded rows do not add up to −r·x with a right side of at most −δ0", Where.PATH),
    52: ("the ranking rows do not add up to −r·x + r·x′ with a right side of at most −δ", Where.PATH),
    53: ("the unaffecting rows do not add up to −r·x + r·x′ of an earlier component with a right side of at most 0", Where.PATH),
    61: ("EA is not k g", Where.COLUMN),
    62: ("EA′ is not −k g", Where.COLUMN),
    63: ("Eb is above −k", Where.NOTHING),
}
UNKNOWN = ("a number that this package does not know", Where.NOTHING)
CONDITIONS = frozenset(number for number in MEANINGS if number >= 21)


class Refused(Exception):
    """A refusal as an exception, for callers who ask for one."""

    def __init__(self, refusal: "Refusal") -> None:
        super().__init__(str(refusal))
        self.refusal = refusal


@dataclass(frozen=True)
class Refusal:
    """A refusal. It prints in words, with the record, the number and the place. It counts as false.

    >>> print(Refusal(22, 1, Record.CERTIFICATE))
    certificate, 22 at 1: (Y − Z)A is not 0 in column 1 (x2)
    >>> print(Refusal(22, 1, Record.CERTIFICATE).named(("x", "y")))
    certificate, 22 at 1: (Y − Z)A is not 0 in column 1 (y)
    >>> print(Refusal(31, 2, Record.CERTIFICATE))
    certificate, 31 at 2: A·V + A′·U is above 0 in row 2
    >>> print(Refusal(1, 17, Record.LOOP))
    loop, 1 at 17: the bytes end early
    >>> print(Refusal(10, 3))
    10 at 3: the state does not have one entry for each variable
    >>> print(Refusal(13, 40))
    13 at 40: there are more than 32 records, 40 in all
    """

    number: int
    place: int
    record: Record = Record.NEITHER
    names: tuple[str, ...] = field(default=(), compare=False)

    accepted = False

    def __bool__(self) -> bool:
        return False

    @property
    def meaning(self) -> str:
        """What is wrong, without the place."""
        return MEANINGS.get(self.number, UNKNOWN)[0]

    @property
    def where(self) -> Where:
        """What the place counts."""
        return MEANINGS.get(self.number, UNKNOWN)[1]

    @property
    def is_condition(self) -> bool:
        """Whether the record is sound and a condition of its kind fails."""
        return self.number in CONDITIONS

    @property
    def words(self) -> str:
        """What is wrong, with the column, the row or the path, which count from 0 as the place does; or with the room that is
        needed, or the records that there are."""
        if self.where is Where.COLUMN:
            name = variable_names(self.names, self.place + 1)[self.place]
            return f"{self.meaning} in column {self.place} ({name})"
        if self.where in (Where.ROW, Where.PATH):
            return f"{self.meaning} in {self.where.value} {self.place}"
        if self.where is Where.ROOM:
            return f"{self.meaning}, {self.place} needed"
        if self.where is Where.RECORDS:
            return f"{self.meaning}, {self.place} in all"
        return self.meaning

    def __str__(self) -> str:
        record = {Record.NEITHER: "", Record.LOOP: "loop, ", Record.CERTIFICATE: "certificate, "}[self.record]
        return f"{record}{self.number} at {self.place}: {self.words}"

    def named(self, names: tuple[str, ...]) -> "Refusal":
        """The same refusal, which prints these names of the variables."""
        return replace(self, names=tuple(names))

    def expect(self) -> NoReturn:
        """Raises `Refused`: for a caller who wants an exception."""
        raise Refused(self)


def expect(answer: Union[T, Refusal]) -> T:
    """The answer, or the exception `Refused` if it is a refusal.

    >>> expect(b"bytes")
    b'bytes'
    >>> expect(Refusal(24, 0, Record.CERTIFICATE))
    Traceback (most recent call last):
    cushiedoo.refusals.Refused: certificate, 24 at 0: Zb is not below 0
    """
    if isinstance(answer, Refusal):
        raise Refused(answer)
    return answer
