"""What judging and bound answer, as types that print in words.

A verdict is one of `Ranked`, `LassoRanked`, `Excluded`, `Ordered` and `Settled`, or a `Refusal`. The first five count as true and
have `accepted`; a refusal does not.
"""
from __future__ import annotations

import enum
from dataclasses import dataclass, field
from typing import ClassVar, TypeVar, Union

from .notation import counted, number_text, sum_text
from .refusals import Refusal

A = TypeVar("A", bound="Accepted")


class Outcome(enum.IntEnum):
    """What an accepted certificate is: the number of its kind. A short ranking (kind 7) is a ranking."""

    RANKING = 2
    EXCLUSION = 3
    LASSO = 4
    LEXICOGRAPHIC = 6
    SETTLING = 8


class Grade(enum.IntEnum):
    """Over which numbers an exclusion shows that there is no linear ranking function."""

    WHOLE = 1  # neither over fractions nor over whole numbers
    FRACTIONS = 2  # not over fractions


@dataclass(frozen=True)
class Accepted:
    """A certificate that meets the conditions of its kind."""

    outcome: ClassVar[Outcome]
    accepted: ClassVar[bool] = True

    def __bool__(self) -> bool:
        return True

    def expect(self: A) -> A:
        """The verdict itself; of a refusal it is an exception."""
        return self


@dataclass(frozen=True)
class _WithRank(Accepted):
    rank: tuple[int, ...]
    start: int
    fall: int
    names: tuple[str, ...] = field(default=(), compare=False, kw_only=True)

    def _falls(self) -> str:
        rank = sum_text(self.rank, (), self.names)
        return f"{rank} is at least {number_text(self.start)} before each step and falls by at least {number_text(self.fall)} in it"


@dataclass(frozen=True)
class Ranked(_WithRank):
    """An accepted ranking, long or short: r·x is at least `start` before each step and falls by at least `fall` in it.

    >>> print(Ranked((1, -1), 2, 1, names=("x", "y")))
    ranking accepted: x − y is at least 2 before each step and falls by at least 1 in it
    """

    outcome = Outcome.RANKING

    def __str__(self) -> str:
        return f"ranking accepted: {self._falls()}"


@dataclass(frozen=True)
class LassoRanked(_WithRank):
    """An accepted lasso: the same, in every run whose first state follows a step of the stem."""

    outcome = Outcome.LASSO

    def __str__(self) -> str:
        return f"lasso accepted: after a step of the stem {self._falls()}"


@dataclass(frozen=True)
class Excluded(Accepted):
    """An accepted exclusion. It does not say that the loop runs for ever.

    >>> print(Excluded(Grade.WHOLE))
    exclusion accepted: no linear ranking function over whole numbers or fractions; the loop may end all the same
    """

    outcome = Outcome.EXCLUSION
    grade: Grade

    def __str__(self) -> str:
        over = "whole numbers or fractions" if self.grade is Grade.WHOLE else "fractions"
        return f"exclusion accepted: no linear ranking function over {over}; the loop may end all the same"


@dataclass(frozen=True)
class Ordered(Accepted):
    """An accepted lexicographic argument: no run through the paths goes on for ever."""

    outcome = Outcome.LEXICOGRAPHIC

    def __str__(self) -> str:
        return "lexicographic argument accepted: no run through the paths goes on for ever"


@dataclass(frozen=True)
class Settled(_WithRank):
    """An accepted settling: g·x rises in every step, and once it has reached t, r·x is at least `start` and falls."""

    outcome = Outcome.SETTLING

    def __str__(self) -> str:
        return f"settling accepted: no run goes on for ever; once settled, {self._falls()}"


Verdict = Union[Ranked, LassoRanked, Excluded, Ordered, Settled, Refusal]


@dataclass(frozen=True)
class Bounded:
    """The bound at a state, beside the outcome of judging. Of a settling it counts the steps from states that have not settled.

    >>> print(Bounded(Outcome.RANKING, 2, 1, 3))
    at most 3 steps
    """

    outcome: Outcome
    start: int
    fall: int
    bound: int

    accepted: ClassVar[bool] = True

    def expect(self) -> "Bounded":
        """The answer itself; of a refusal it is an exception."""
        return self

    def __str__(self) -> str:
        before = " before it has settled" if self.outcome is Outcome.SETTLING else ""
        return f"at most {counted(self.bound, 'step')}{before}"
