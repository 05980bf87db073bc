"""The sheet: the text that the program prints for a loop and its certificates, and what its lines say."""
from __future__ import annotations

from dataclasses import dataclass
from typing import NamedTuple, Optional, Union

from .answers import Excluded, Grade, LassoRanked, Ranked, Verdict
from .calls import sheet_text
from .refusals import Record, Refusal

TOO_LONG = "input too long"


class Counts(NamedTuple):
    """What a sheet's first line says of a loop: its variables and its rows."""

    n: int
    m: int


@dataclass(frozen=True)
class Sheet:
    """The text of a sheet and what it says. `loop` is nothing if the input is too long; the verdicts stand in the order of the
    certificates."""

    text: str
    loop: Optional[Union[Counts, Refusal]]
    verdicts: tuple[Verdict, ...]

    @property
    def too_long(self) -> bool:
        """Whether the input has more than 65,536 bytes, so that nothing was judged."""
        return self.loop is None

    @property
    def lines(self) -> tuple[str, ...]:
        """The lines of the text."""
        return tuple(self.text.splitlines())


def sheet(data: bytes) -> Sheet:
    """The sheet of an input: one loop record, then certificate records to the end.

    >>> from cushiedoo import Loop, Ranking, Row
    >>> p = Loop(2, [Row((-1, 1), (0, 0), -2), Row((-1, 0), (1, 0), -1), Row((0, 1), (0, -1), 0)])
    >>> answer = sheet(p.to_bytes() + Ranking((1, 0, 0), (0, 1, 1)).to_bytes() + Ranking((1, 0, 0), (0, 1, 0)).to_bytes())
    >>> print(answer.text, end="")
    loop 2 3
    1 rank 1 -1 from 2 down 1
    2 refused 22 1
    >>> answer.loop, answer.verdicts[0]
    (Counts(n=2, m=3), Ranked(rank=(1, -1), start=2, fall=1, names=()))
    """
    text = sheet_text(data)
    lines = text.splitlines()
    if lines == [TOO_LONG]:
        return Sheet(text, None, ())
    words = lines[0].split(" ")
    loop: Union[Counts, Refusal]
    if words[1] == "refused":
        loop = Refusal(int(words[2]), int(words[3]), Record.LOOP)
    else:
        loop = Counts(int(words[1]), int(words[2]))
    return Sheet(text, loop, tuple(map(line_verdict, lines[1:])))


def line_verdict(line: str) -> Verdict:
    """The verdict that a certificate's line tells.

    >>> line_verdict("3 excluded whole")
    Excluded(grade=<Grade.WHOLE: 1>)
    """
    _, word, *rest = line.split(" ")
    if word == "refused":
        return Refusal(int(rest[0]), int(rest[1]), Record.CERTIFICATE)
    if word == "excluded":
        return Excluded(Grade[rest[0].upper()])
    rank, start, fall = tuple(map(int, rest[:-4])), int(rest[-3]), int(rest[-1])
    return LassoRanked(rank, start, fall) if word == "lasso" else Ranked(rank, start, fall)
