"""The sentences of a page: the verdict before an argument, and what follows from it after."""
from __future__ import annotations

from typing import Union

from ..answers import Excluded, LassoRanked, Ordered, Ranked, Settled, Verdict
from ..judging import AnyLoop
from ..notation import number_text
from ..packed import Settling
from ..records import Loop, Row
from ..refusals import Record, Refusal, Where
from ..sums import negative
from .argument import ORDERED
from .exclusion import exclusion_sentence
from .markup import Formulas, escaped, paragraph
from .ranking import bound_sentence, falls_sentence

# A loop that has an exclusion and ends: the example beside each exclusion.
ENDING = (Row((-1,), (0,), 0), Row((2,), (1,), 10), Row((-2,), (-1,), -10))
ITS_RUN = "from 3 it goes to 4, 2, 6 and −2, and there it ends"


def verdict_sentence(formulas: Formulas, verdict: Verdict) -> str:
    """The verdict in a sentence or two."""
    if isinstance(verdict, Refusal):
        record = "" if verdict.record is Record.CERTIFICATE else f"{verdict.record.name.lower()}, "
        here = {Where.ROW: f", that is row ({verdict.place + 1})", Where.PATH: f", that is path {verdict.place + 1}"}
        words = escaped(_capital(verdict.words)) + here.get(verdict.where, "")
        return f"Refused: {record}{verdict.number} at {verdict.place}. {words}."
    if isinstance(verdict, Excluded):
        return f"Accepted. {exclusion_sentence(verdict)}"
    if isinstance(verdict, Ordered):
        return f"Accepted. {ORDERED}"
    falls = falls_sentence(formulas, verdict.rank, verdict.start, verdict.fall)
    if not any(verdict.rank):
        return f"Accepted. {_no_step(verdict)}"
    if isinstance(verdict, LassoRanked):
        return f"Accepted. In every run that starts after a step of the stem, {falls}. So such a run ends."
    if isinstance(verdict, Settled):
        return f"Accepted. Once a run has settled, {falls}. So no run goes on for ever."
    return f"Accepted. {falls}. So the loop ends."


def follows(formulas: Formulas, loop: AnyLoop, verdict: Verdict, certificate: object) -> str:
    """What follows from an accepted argument: the bound's formula, or an exclusion's warning."""
    if isinstance(verdict, Excluded):
        return paragraph(
            "<strong>This does not say that the loop runs for ever.</strong> It says that no linear ranking function exists. The loop may "
            f"end all the same. {_ending_example(loop)}", "warning")
    if not isinstance(verdict, (Ranked, LassoRanked, Settled)):
        return ""
    if not any(verdict.rank):
        return paragraph(f"The last sum is never true. {_no_step(verdict)}", "so")
    falls = falls_sentence(formulas, verdict.rank, verdict.start, verdict.fall)
    if isinstance(verdict, Settled) and isinstance(certificate, Settling):
        g = formulas.formula(formulas.sum(certificate.g))
        return paragraph(
            f"So {g} grows until it has reached {number_text(certificate.t)}. From a first state that takes at most "
            f"{formulas.formula(formulas.affine(negative(certificate.g), certificate.t))} steps, or none if this is below 0. "
            f"From then on {falls}. {bound_sentence(verdict.start, verdict.fall)}", "so")
    return paragraph(f"So {falls}. {bound_sentence(verdict.start, verdict.fall)}", "so")


def _ending_example(loop: AnyLoop) -> str:
    """A loop that has an exclusion and ends all the same."""
    if isinstance(loop, Loop) and loop.rows == ENDING:
        return f"This very loop does: {ITS_RUN}."
    named = Formulas(("x",), 1)
    first, second, third = map(named.inequality, ENDING)
    return f"An example: the loop with the rows {first}, {second} and {third} has an exclusion too; {ITS_RUN}."


def _no_step(verdict: Union[Ranked, LassoRanked, Settled]) -> str:
    """The rank is 0: the rows contradict each other."""
    if isinstance(verdict, LassoRanked):
        return "The rows and the invariant contradict each other, so no step is taken after a step of the stem."
    if isinstance(verdict, Settled):
        return "Once a run has settled, the rows contradict each other, so no step is taken any more. No run goes on for ever."
    return "The rows contradict each other, so no pair of states is a step. The loop takes none."


def _capital(text: str) -> str:
    return text[:1].upper() + text[1:]
