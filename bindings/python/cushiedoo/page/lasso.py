"""A lasso's argument: start, kept, ranking."""
from __future__ import annotations

from typing import Iterator, Sequence

from ..notation import MINUS, number_text
from ..records import Lasso, Loop, Row
from ..sums import Condition, combined, kept_rows, negative, with_added_row
from .markup import Formulas, heading, paragraph, variable
from .ranking import Failure, differs, marks_of, ranking_account
from .tables import labelled, row_list, sum_table


def lasso_account(formulas: Formulas, loop: Loop, lasso: Lasso, failure: Failure) -> Iterator[str]:
    """The argument of kind 4: the stem starts the invariant, the loop keeps it, and with it the ranking holds."""
    invariant = formulas.formula(f"{formulas.affine(lasso.s, lasso.s0)} ≥ 0")
    yield heading(3, "The stem and the invariant")
    if lasso.stem:
        yield paragraph("One step of the stem comes before the loop. It meets each of these rows:")
        yield row_list(formulas, _stem_rows(lasso))
    else:
        yield paragraph("One step of the stem comes before the loop. The stem has no rows: every pair of states is such a step.")
    yield paragraph(f"The invariant is {invariant}. As a row it is (I): {formulas.inequality(with_added_row(loop, lasso)[-1])}.")

    yield heading(3, "Start: after a step of the stem the invariant holds")
    total = combined(lasso.stem, lasso.t, formulas.n)
    fails = failure if failure and failure.number in (41, 42, 43) else None
    yield paragraph(f"Take each row of the stem times its multiplier {variable('T')} and add.")
    yield sum_table(formulas, _stem_rows(lasso), lasso.t, total, marks_of(fails) if fails else ())
    if fails:
        yield differs(formulas, fails, _scaled_why(fails, 41, "k", lasso.k))
        return
    yield _scaled(formulas, lasso, "k", lasso.k, total.right)
    yield paragraph(f"So {formulas.formula(f'{formulas.affine(lasso.s, lasso.s0, True)} ≥ 0')} after every step of the stem.", "that")

    yield heading(3, "Kept: a step of the loop keeps the invariant")
    rows, weights = kept_rows(loop, lasso)
    total = combined(rows, weights, formulas.n)
    fails = failure if failure and failure.number in (44, 45, 46) else None
    yield paragraph(f"Take each row times its multiplier {variable('H')}, and (I) times {variable('h0')}, and add.")
    yield sum_table(formulas, labelled(rows, "(I)"), weights, total, marks_of(fails) if fails else ())
    if fails:
        yield differs(formulas, fails, _scaled_why(fails, 44, "k2", lasso.k2))
        return
    yield _scaled(formulas, lasso, "k2", lasso.k2, total.right)
    yield paragraph(
        f"So {formulas.formula(f'{formulas.affine(lasso.s, lasso.s0, True)} ≥ 0')} after a step, if {invariant} before it.", "that")

    yield from ranking_account(
        formulas, labelled(with_added_row(loop, lasso), "(I)"), lasso, failure,
        "Ranking: before each step, with (I)", "Ranking: in each step, with (I)")


def _stem_rows(lasso: Lasso) -> list[tuple[str, Row]]:
    return [(f"(S{i})", row) for i, row in enumerate(lasso.stem, 1)]


def _scaled_why(failure: Condition, first: int, letter: str, scale: int) -> str:
    """Why a lasso's sum must be what it must be: no state before, −k s after, and at most k s0 on the right."""
    if failure.number == first:
        return ", since this sum is to speak of the state after the step alone"
    if failure.number == first + 1:
        return f", that is {MINUS}{variable(letter)} times the entry of {variable('s')}, with {variable(letter)} = {number_text(scale)}"
    return f", that is {variable(letter)} times {variable('s0')}, with {variable(letter)} = {number_text(scale)}"


def _scaled(formulas: Formulas, lasso: Lasso, letter: str, scale: int, right: int) -> str:
    shown = formulas.formula(f"{MINUS}({formulas.sum((), lasso.s)})" if _several(lasso.s) else formulas.sum((), negative(lasso.s)))
    return paragraph(
        f"The left side is {variable(letter)} = {number_text(scale)} times {shown}. The right side, {number_text(right)}, is at most "
        f"{variable(letter)} times {variable('s0')}, which is {number_text(scale * lasso.s0)}.")


def _several(values: Sequence[int]) -> bool:
    return sum(1 for value in values if value) > 1
