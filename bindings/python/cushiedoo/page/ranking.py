"""A ranking's argument: the rows times Y, and the rows times Z. Lassos and settlings end with the same."""
from __future__ import annotations

from typing import Iterator, Optional, Sequence, Union

from ..notation import MINUS, number_text
from ..packed import Settling
from ..records import Lasso, Ranking, Row
from ..sums import Condition, combined
from .markup import RIGHT, Formulas, Mark, heading, paragraph, strong, variable
from .tables import sum_table

Failure = Optional[Condition]


def differs(formulas: Formulas, failure: Condition, why: str = "") -> str:
    """The sentence with the two numbers that differ."""
    found, wanted = strong(failure.found), strong(failure.wanted)
    if failure.spot is not None:
        return paragraph(f"In the column of {formulas.name(*failure.spot)} the sum is {found}. It must be {wanted}{why}.", "fails")
    most = "below" if failure.relation == "<" else "at most"
    return paragraph(f"The right side of the sum is {found}. It must be {most} {wanted}{why}.", "fails")


def marks_of(failure: Condition) -> tuple[Mark, ...]:
    """The place in a sum where a condition fails."""
    return (RIGHT,) if failure.spot is None else (failure.spot,)


def ranking_account(
    formulas: Formulas, rows: Sequence[tuple[str, Row]], certificate: Union[Ranking, Lasso, Settling], failure: Failure,
    before: str = "Before each step", during: str = "In each step",
) -> Iterator[str]:
    """The argument of kinds 2 and 7, and the end of those of kinds 4 and 8."""
    plain = [row for _, row in rows]
    by_y, by_z = combined(plain, certificate.y, formulas.n), combined(plain, certificate.z, formulas.n)
    number = failure.number if failure else 0
    y_marks: tuple[Mark, ...] = (failure.spot,) if failure and number in (21, 22) else ()
    z_marks: tuple[Mark, ...] = ()
    if failure and number in (22, 23, 24):
        z_marks = {22: (failure.spot,), 23: ((failure.place, False), (failure.place, True)), 24: (RIGHT,)}[number]

    yield heading(3, before)
    yield paragraph(f"Take each row times its multiplier {variable('Y')} and add.")
    yield sum_table(formulas, rows, certificate.y, by_y, y_marks)
    if failure and number == 21:
        yield differs(formulas, failure, ", since this sum is to speak of the state before the step alone")
        return
    if not failure:
        yield paragraph(f"That is {formulas.formula(f'{formulas.sum(by_z.after)} ≥ {number_text(-by_y.right)}')}.", "that")
    yield heading(3, during)
    yield paragraph(f"Take each row times its multiplier {variable('Z')} and add.")
    yield sum_table(formulas, rows, certificate.z, by_z, z_marks)
    if failure:
        yield _fails(formulas, failure)
        return
    yield paragraph(f"That is {formulas.formula(f'{formulas.falls(by_z.after)} ≥ {number_text(-by_z.right)}')}.", "that")


def _fails(formulas: Formulas, failure: Condition) -> str:
    found, wanted = strong(failure.found), strong(failure.wanted)
    if failure.number == 22:
        name, y, z = formulas.name(failure.place), variable("Y"), variable("Z")
        return paragraph(
            f"In the column of {name} the sum with {y} is {found} and the sum with {z} is {wanted}. They must be the same number, "
            "so that both sums speak of one rank.", "fails")
    if failure.number == 23:
        one, other = formulas.name(failure.place), formulas.name(failure.place, True)
        return paragraph(
            f"The column of {one} has {found} and the column of {other} has {number_text(-failure.wanted)}. They must be opposite "
            f"numbers, but {found} is not {wanted}.", "fails")
    return differs(formulas, failure, ", so that the rank falls")


def falls_sentence(formulas: Formulas, rank: Sequence[int], start: int, fall: int) -> str:
    """What a rank does, in words: `x − y is at least 2 before each step and falls by at least 1`."""
    shown = formulas.formula(formulas.sum(rank))
    return f"{shown} is at least {number_text(start)} before each step and falls by at least {number_text(fall)}"


def bound_sentence(start: int, fall: int) -> str:
    """The bound's formula with the numbers of a ranking."""
    over = f"(<i>v</i> {'+' if start < 0 else MINUS} {number_text(abs(start))})" if start else "<i>v</i>"
    divided = f"{over}/{number_text(fall)}" if fall > 1 else over
    rounded = ", rounded down" if fall > 1 else ""
    return (
        f"Where it has the value <i>v</i>, at most {Formulas.formula(f'{divided} + 1')} steps follow{rounded}; "
        f"none if <i>v</i> is below {number_text(start)}."
    )
