"""The sums behind a verdict, worked out once more in Python so that a page can show them.

They decide nothing. `disagreements` compares them with the archive's verdict, and a page that finds any says so.
"""
from __future__ import annotations

from typing import Iterable, Iterator, NamedTuple, Optional, Sequence, Union

from .answers import Excluded, Grade, LassoRanked, Ranked, Settled, Verdict
from .judging import AnyLoop, Certificate
from .notation import number_text, tuple_text
from .packed import Argument, PathLoop, Settling
from .records import Exclusion, Lasso, Loop, Ranking, Row
from .refusals import Refusal


def combined(rows: Sequence[Row], weights: Sequence[int], n: int) -> Row:
    """The rows, each times its multiplier, added into one row.

    >>> print(combined([Row((-1, 0), (1, 0), -1), Row((0, 1), (0, -1), 0)], (1, 1), 2))
    −x1 + x2 + x1′ − x2′ ≤ −1
    """
    used = [(row, weight) for row, weight in zip(rows, weights) if weight]
    before = tuple(sum(weight * row.before[j] for row, weight in used) for j in range(n))
    after = tuple(sum(weight * row.after[j] for row, weight in used) for j in range(n))
    return Row(before, after, sum(weight * row.right for row, weight in used))


def negative(values: Iterable[int]) -> tuple[int, ...]:
    """A list with the signs changed."""
    return tuple(-value for value in values)


class Condition(NamedTuple):
    """A condition at one place: the number found there, how it must stand to another number, and that number. `spot` is the term of
    the combined row that it speaks of: the variable, and whether it has a prime. `listed` is the list of a path, for kind 6."""

    number: int
    place: int
    found: int
    relation: str  # "=", "≤" or "<"
    wanted: int
    spot: Optional[tuple[int, bool]] = None
    listed: int = 0

    @property
    def holds(self) -> bool:
        """Whether the two numbers stand to each other as they must."""
        if self.relation == "=":
            return self.found == self.wanted
        return self.found <= self.wanted if self.relation == "≤" else self.found < self.wanted


def with_added_row(loop: Loop, certificate: Union[Ranking, Lasso, Settling]) -> tuple[Row, ...]:
    """The rows that a certificate's ranking goes over: the loop's own, and the added one of a lasso or a settling."""
    none = (0,) * loop.n
    if isinstance(certificate, Lasso):
        return loop.rows + (Row(negative(certificate.s), none, certificate.s0),)
    if isinstance(certificate, Settling):
        return loop.rows + (Row(negative(certificate.g), none, -certificate.t),)
    return loop.rows


def _columns(number: int, found: Sequence[int], wanted: Sequence[int], primed: bool) -> Iterator[Condition]:
    for j, (one, other) in enumerate(zip(found, wanted)):
        yield Condition(number, j, one, "=", other, (j, primed))


def ranking_conditions(rows: Sequence[Row], y: Sequence[int], z: Sequence[int], n: int) -> Iterator[Condition]:
    """The four conditions of a ranking, 21 to 24."""
    by_y, by_z = combined(rows, y, n), combined(rows, z, n)
    yield from _columns(21, by_y.after, (0,) * n, True)
    yield from _columns(22, by_y.before, by_z.before, False)
    yield from _columns(23, by_z.before, negative(by_z.after), False)
    yield Condition(24, 0, by_z.right, "<", 0)


def kept_rows(loop: Loop, lasso: Lasso) -> tuple[tuple[Row, ...], tuple[int, ...]]:
    """The rows and multipliers that show that a lasso's invariant is kept: the loop's with H, and −s·x ≤ s0 with h0."""
    return with_added_row(loop, lasso), lasso.h + (lasso.h0,)


def _lasso_conditions(loop: Loop, lasso: Lasso) -> Iterator[Condition]:
    n, none = loop.n, (0,) * loop.n
    start = combined(lasso.stem, lasso.t, n)
    yield from _columns(41, start.before, none, False)
    yield from _columns(42, start.after, tuple(-lasso.k * one for one in lasso.s), True)
    yield Condition(43, 0, start.right, "≤", lasso.k * lasso.s0)
    kept = combined(*kept_rows(loop, lasso), n)
    yield from _columns(44, kept.before, none, False)
    yield from _columns(45, kept.after, tuple(-lasso.k2 * one for one in lasso.s), True)
    yield Condition(46, 0, kept.right, "≤", lasso.k2 * lasso.s0)
    yield from ranking_conditions(with_added_row(loop, lasso), lasso.y, lasso.z, n)


def _settling_conditions(loop: Loop, settling: Settling) -> Iterator[Condition]:
    rise = combined(loop.rows, settling.e, loop.n)
    yield from _columns(61, rise.before, tuple(settling.k * one for one in settling.g), False)
    yield from _columns(62, rise.after, tuple(-settling.k * one for one in settling.g), True)
    yield Condition(63, 0, rise.right, "≤", -settling.k)
    yield from ranking_conditions(with_added_row(loop, settling), settling.y, settling.z, loop.n)


def exclusion_sides(loop: Loop, exclusion: Exclusion) -> Iterator[tuple[int, int, int]]:
    """For each row its left side along the direction, its left side at the step times q, and q times its right side."""
    before = tuple(w - v for v, w in zip(exclusion.v, exclusion.w))
    for row in loop.rows:
        yield row.left(exclusion.v, exclusion.u), row.left(before, exclusion.w), exclusion.q * row.right


def _exclusion_conditions(loop: Loop, exclusion: Exclusion) -> Iterator[Condition]:
    sides = list(exclusion_sides(loop, exclusion))
    for i, (direction, _, _) in enumerate(sides):
        yield Condition(31, i, direction, "≤", 0)
    for i, (_, step, right) in enumerate(sides):
        yield Condition(32, i, step, "≤", right)


def path_targets(argument: Argument, path: int) -> Iterator[tuple[int, Row]]:
    """For each list of a path the number of its condition and the row that its sum must be, with the most that its right side may be."""
    part = argument.parts[path]
    own = argument.components[part.component]
    none = (0,) * len(own.rank)
    yield 51, Row(negative(own.rank), none, -own.start)
    yield 52, Row(negative(own.rank), own.rank, -own.fall)
    for earlier in argument.components[: part.component]:
        yield 53, Row(negative(earlier.rank), earlier.rank, 0)


def _argument_conditions(loop: PathLoop, argument: Argument) -> Iterator[Condition]:
    for path, (rows, part) in enumerate(zip(loop.paths, argument.parts)):
        for listed, ((number, target), weights) in enumerate(zip(path_targets(argument, path), part.lists)):
            total = combined(rows, weights, loop.n)
            for primed, found, wanted in ((False, total.before, target.before), (True, total.after, target.after)):
                for j, (one, other) in enumerate(zip(found, wanted)):
                    yield Condition(number, path, one, "=", other, (j, primed), listed)
            yield Condition(number, path, total.right, "≤", target.right, None, listed)


def conditions(loop: AnyLoop, certificate: Certificate) -> Iterator[Condition]:
    """All conditions of a certificate in the order in which they are told."""
    if isinstance(loop, PathLoop):
        if isinstance(certificate, Argument):
            yield from _argument_conditions(loop, certificate)
    elif isinstance(certificate, Ranking):
        yield from ranking_conditions(loop.rows, certificate.y, certificate.z, loop.n)
    elif isinstance(certificate, Exclusion):
        yield from _exclusion_conditions(loop, certificate)
    elif isinstance(certificate, Lasso):
        yield from _lasso_conditions(loop, certificate)
    elif isinstance(certificate, Settling):
        yield from _settling_conditions(loop, certificate)


def first_failure(loop: AnyLoop, certificate: Certificate) -> Optional[Condition]:
    """The first condition that fails, or nothing."""
    return next((condition for condition in conditions(loop, certificate) if not condition.holds), None)


def disagreements(loop: AnyLoop, certificate: Certificate, verdict: Verdict) -> Iterator[str]:
    """Where the sums that are worked out here and the archive's verdict differ. There is nothing to tell as a rule."""
    failure = first_failure(loop, certificate)
    if isinstance(verdict, Refusal):
        if failure is None:
            yield f"the checker refuses with {verdict.number} at {verdict.place}, and the page finds that every condition holds"
        elif (failure.number, failure.place) != (verdict.number, verdict.place):
            yield (
                f"the checker refuses with {verdict.number} at {verdict.place}, "
                f"and the page finds that {failure.number} fails at {failure.place}"
            )
        return
    if failure is not None:
        yield f"the checker accepts, and the page finds that condition {failure.number} fails at {failure.place}"
    if isinstance(verdict, (Ranked, LassoRanked, Settled)) and isinstance(loop, Loop):
        yield from _other_rank(loop, certificate, verdict)
    if isinstance(verdict, Excluded) and isinstance(certificate, Exclusion):
        whole = all(value % certificate.q == 0 for value in certificate.v + certificate.w)
        if whole != (verdict.grade is Grade.WHOLE):
            yield f"the checker grades the exclusion {verdict.grade.name.lower()}, and the page does not"
    if int(verdict.outcome) != certificate.kind:
        yield f"the checker accepts a certificate of kind {int(verdict.outcome)}, and the page reads one of kind {certificate.kind}"


def _other_rank(loop: Loop, certificate: Certificate, verdict: Union[Ranked, LassoRanked, Settled]) -> Iterator[str]:
    if not isinstance(certificate, (Ranking, Lasso, Settling)):
        return
    rows = with_added_row(loop, certificate)
    by_y, by_z = combined(rows, certificate.y, loop.n), combined(rows, certificate.z, loop.n)
    told = (verdict.rank, verdict.start, verdict.fall)
    if told != (by_z.after, -by_y.right, -by_z.right):
        yield (
            f"the checker tells the rank {tuple_text(verdict.rank)}, the start {number_text(verdict.start)} and the fall "
            f"{number_text(verdict.fall)}, and the page finds {tuple_text(by_z.after)}, {number_text(-by_y.right)} and "
            f"{number_text(-by_z.right)}"
        )
