"""A settling's argument: the rise, then the ranking."""
from __future__ import annotations

from typing import Iterator

from ..notation import MINUS, number_text
from ..packed import Settling
from ..records import Loop
from ..sums import combined, with_added_row
from .markup import Formulas, heading, paragraph, variable
from .ranking import Failure, differs, marks_of, ranking_account
from .tables import labelled, sum_table


def settling_account(formulas: Formulas, loop: Loop, settling: Settling, failure: Failure) -> Iterator[str]:
    """The argument of kind 8: g·x rises, and once it has reached t the ranking holds."""
    g = formulas.formula(formulas.sum(settling.g))
    yield heading(3, "The rise")
    total = combined(loop.rows, settling.e, formulas.n)
    fails = failure if failure and failure.number in (61, 62, 63) else None
    yield paragraph(f"Take each row times its multiplier {variable('E')} and add.")
    yield sum_table(formulas, labelled(loop.rows), settling.e, total, marks_of(fails) if fails else ())
    if fails:
        k = variable("k")
        times = f"{k} times the entry of {variable('g')}, with {k} = {number_text(settling.k)}"
        why = {
            61: f", that is {times}",
            62: f", that is {MINUS}{times}",
            63: f", that is {MINUS}{k}, so that {g} grows by 1 at least",
        }
        yield differs(formulas, fails, why[fails.number])
        return
    yield paragraph(
        f"The left side is {variable('k')} = {number_text(settling.k)} times {formulas.formula(formulas.falls(settling.g))}. The right "
        f"side, {number_text(total.right)}, is at most {number_text(-settling.k)}. So {g} grows by at least 1 in each step.", "that")
    yield paragraph(
        f"Once {g} is at least {number_text(settling.t)}, it stays so. From then on this row holds as well, (G): "
        f"{formulas.inequality(with_added_row(loop, settling)[-1])}.")
    yield from ranking_account(
        formulas, labelled(with_added_row(loop, settling), "(G)"), settling, failure,
        "Then: before each step, with (G)", "Then: in each step, with (G)")
