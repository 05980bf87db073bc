"""An exclusion's argument: the step and the direction, and why no linear ranking function exists."""
from __future__ import annotations

from fractions import Fraction
from typing import Iterator

from ..answers import Excluded, Grade
from ..notation import number_text
from ..records import Exclusion, Loop
from ..sums import exclusion_sides
from .markup import Formulas, heading, marked, paragraph, strong
from .ranking import Failure


def exclusion_account(formulas: Formulas, loop: Loop, exclusion: Exclusion, failure: Failure) -> Iterator[str]:
    """The argument of kind 3: a step, and a direction that never leaves the rows."""
    q = exclusion.q
    old = [Fraction(w - v, q) for v, w in zip(exclusion.v, exclusion.w)]
    new = [Fraction(w, q) for w in exclusion.w]
    add = [Fraction(v, q) for v in exclusion.v]
    states = Formulas.fractions
    yield heading(3, "The step and the direction")
    told = f"The step goes from {states(old)} to {states(new)}."
    if any(exclusion.u + exclusion.v):
        yield paragraph(
            f"{told} The direction adds {states(map(Fraction, exclusion.v))} to the state before the step and "
            f"{states(map(Fraction, exclusion.u))} to the state after it, as often as one likes. It leaves no row if it adds at most 0 to "
            "each left side.")
    else:
        yield paragraph(f"{told} The direction is 0: it adds nothing.")
    if loop.rows:
        yield _exclusion_table(formulas, loop, exclusion, failure)
    if failure:
        row = f"Row ({failure.place + 1})"
        if failure.number == 31:
            yield paragraph(f"{row}: the direction adds {strong(failure.found)}. It must add at most {strong(0)}.", "fails")
        else:
            times = f", both sides times q = {number_text(q)}" if q > 1 else ""
            yield paragraph(
                f"{row}: at the step the left side is {strong(failure.found)}. It must be at most {strong(failure.wanted)}{times}.",
                "fails")
        return
    if any(exclusion.u + exclusion.v):
        yield paragraph("So all these pairs are steps: the one above, and the same with the direction added once, twice and so on.", "that")
    else:
        yield paragraph("So this pair of states is a step.", "that")
    yield heading(3, "Why no linear ranking function exists")
    if any(exclusion.v):
        yield paragraph(
            f"The step adds {states(add)} to the state. A ranking function <i>r</i>·<i>x</i> falls in every step, so it falls when "
            f"this is added. But from {states(old)} on, the direction adds {states(map(Fraction, exclusion.v))} again and again, and "
            "all these states take a step. There <i>r</i>·<i>x</i> would sink below every start. So there is no such function.")
    else:
        yield paragraph("The step leaves the state as it is. So no function of the state falls in it.")


def _exclusion_table(formulas: Formulas, loop: Loop, exclusion: Exclusion, failure: Failure) -> str:
    lines = []
    for i, (row, (direction, step, right)) in enumerate(zip(loop.rows, exclusion_sides(loop, exclusion))):
        fails = failure.number if failure and failure.place == i else 0
        at_step, along = _compared(step, right), _compared(direction, 0)
        if fails == 32:
            at_step = marked(at_step)
        if fails == 31:
            along = marked(along)
        left, bound = formulas.row(row)
        lines.append(
            f'<tr><th scope="row">({i + 1})</th> <td class="l">{left}</td> <td class="r">≤ {bound}</td> '
            f'<td class="v">{at_step}</td> <td class="v">{along}</td></tr>\n'
        )
    times = f", times {number_text(exclusion.q)}" if exclusion.q > 1 else ""
    head = (
        f'<tr><td></td> <th scope="col" colspan="2">row</th> <th scope="col">at the step{times}</th> '
        '<th scope="col">the direction adds</th></tr>'
    )
    return f'<table class="step"><thead>{head}</thead><tbody>\n{"".join(lines)}</tbody></table>\n'


def _compared(left: int, right: int) -> str:
    return f"{number_text(left)} {'≤' if left <= right else '&gt;'} {number_text(right)}"


def exclusion_sentence(verdict: Excluded) -> str:
    """What an accepted exclusion shows."""
    if verdict.grade is Grade.WHOLE:
        return "The loop has no linear ranking function, neither over whole numbers nor over fractions."
    return "The loop has no linear ranking function over fractions. Whether it has one over whole numbers is not said."
