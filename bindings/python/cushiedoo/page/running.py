"""A run from a first state, its staircase and its bound, for an accepted ranking, lasso or settling.

The bound is the archive's. The run is found in Python, and everything that the verdict promises of it is looked at: each pair of
states is a step, r·x is at least the start before each step and falls by the fall, and no more steps are taken than the archive's
bound at any state of the run allows.
"""
from __future__ import annotations

from typing import Iterable, Iterator, Optional, Sequence, Union

from ..answers import LassoRanked, Outcome, Ranked, Settled
from ..calls import bound_bytes
from ..notation import counted, number_text, sum_text, tuple_text
from ..packed import Settling
from ..records import Lasso, Loop, Ranking, dot
from ..refusals import Refusal
from ..runs import LIMIT, MOST_STEPS, Run, find_run, is_run
from .markup import Formulas, element, heading, paragraph
from .svg import Level, staircase

WithRank = Union[Ranked, LassoRanked, Settled]
SHOWN = 12  # states in the table; of a longer run the first ones and the last
ACROSS = 64  # characters that a table across the page may have


class Running:
    """A certificate's run from a state."""

    def __init__(
        self, formulas: Formulas, loop: Loop, certificate: Union[Ranking, Lasso, Settling], verdict: WithRank,
        state: tuple[int, ...], records: tuple[bytes, bytes],
    ) -> None:
        self.formulas, self.loop, self.certificate, self.verdict = formulas, loop, certificate, verdict
        self.records = records
        self.bound = bound_bytes(*records, state)
        self.run: Run = find_run(loop.rows, state, verdict.rank)
        self.settled = self._settled()

    def _settled(self) -> int:
        """How many states of the run come before the first that has settled; 0 for kinds that do not settle."""
        if not isinstance(self.certificate, Settling):
            return 0
        g, t = self.certificate.g, self.certificate.t
        return sum(1 for state in self.run.states if dot(g, state) < t)

    def disagreements(self) -> Iterator[str]:
        """Where the run does not keep what the verdict and the bound promise."""
        states, verdict = self.run.states, self.verdict
        if not is_run(self.loop.rows, states):
            yield "the page’s run has a pair of states that is no step"
        if isinstance(self.bound, Refusal):
            return  # of a lasso whose invariant does not hold at the state nothing is promised
        if self.bound.outcome is not verdict.outcome or (self.bound.start, self.bound.fall) != (verdict.start, verdict.fall):
            yield "judging and bound tell different outcomes of the certificate"
        values = [dot(verdict.rank, state) for state in states]
        for i in range(self.settled, self.run.steps):
            if values[i] < verdict.start or values[i] - values[i + 1] < verdict.fall:
                yield f"in the page’s run the rank does not keep start and fall at {tuple_text(states[i])}"
        for i, state in enumerate(states):
            left = bound_bytes(*self.records, state)
            steps = self.run.steps - i
            if self.bound.outcome is Outcome.SETTLING:
                steps = max(min(self.settled, self.run.steps) - i, 0)
            if isinstance(left, Refusal) or left.bound < steps:
                yield f"the page’s run takes {counted(steps, 'step')} from {tuple_text(state)}, and the checker’s bound is lower"

    def html(self) -> Iterator[str]:
        """The run on the page."""
        first = tuple_text(self.run.states[0])
        yield heading(3, f"A run from {self.formulas.listed()} = {first}")
        yield paragraph(self._bound_sentence(first), "that")
        yield paragraph(self._run_sentence())
        yield self._table()
        if isinstance(self.certificate, Settling):
            values = [dot(self.certificate.g, state) for state in self.run.states]
            yield self._figure(self.certificate.g, values, Level(self.certificate.t, "settled"))
        yield self._figure(self.verdict.rank, [dot(self.verdict.rank, s) for s in self.run.states], Level(self.verdict.start, "start"))

    def _bound_sentence(self, first: str) -> str:
        if isinstance(self.bound, Refusal):
            return f"The checker tells no bound at {first} ({self.bound.number}): {self.bound.meaning}."
        steps = f"<strong>{counted(self.bound.bound, 'step')}</strong>"
        if self.bound.outcome is Outcome.SETTLING:
            assert isinstance(self.certificate, Settling)
            g = self.formulas.formula(self.formulas.sum(self.certificate.g))
            return (
                f"The checker’s bound: from {first} at most {steps} come before {g} has reached {number_text(self.certificate.t)}. "
                "How many follow, the rank bounds from the state that is reached then."
            )
        after = " This holds if the run starts after a step of the stem." if self.bound.outcome is Outcome.LASSO else ""
        return f"The checker’s bound: a run from {first} takes at most {steps}.{after}"

    def _run_sentence(self) -> str:
        run, last = self.run, tuple_text(self.run.states[-1])
        found = f"This run takes {counted(run.steps, 'step')}. It is one of many: each next state was chosen to keep the rank large."
        if run.open:
            looked = "" if run.steps == MOST_STEPS else ", as far as it was looked for"
            return f"This is the start of a run, {counted(run.steps, 'step')}{looked}. It is one of many, and it may go on."
        if run.failing is not None:
            row = self.formulas.inequality(self.loop.rows[run.failing])
            return f"{found} At {last} it ends, since row ({run.failing + 1}), {row}, does not hold there."
        return f"{found} From {last} no next state was found with entries within {number_text(LIMIT)} either way."

    def _table(self) -> str:
        """The states and the values there: across the page if there is room, else down."""
        states = self.run.states
        shown: list[Optional[int]] = list(range(len(states)))
        if len(states) > SHOWN:
            shown = [*range(SHOWN - 2), None, len(states) - 1]
        extra = [self.certificate.g] if isinstance(self.certificate, Settling) else []
        lines = [["steps", self.formulas.listed(), *(self.formulas.sum(one) for one in [*extra, self.verdict.rank])]]
        for i in shown:
            values = [] if i is None else [number_text(dot(one, states[i])) for one in [*extra, self.verdict.rank]]
            lines.append(["⋮"] if i is None else [number_text(i), tuple_text(states[i]), *values])
        if None not in shown and sum(len(max(line, key=len)) for line in lines[1:]) <= ACROSS:
            return _cells("across", zip(*lines), "row")
        return _cells("run", lines, "col")

    def _figure(self, factors: Sequence[int], values: Sequence[int], level: Level) -> str:
        name = sum_text(factors, (), self.formulas.names)
        what = f"The values of {name} in this run: {', '.join(map(number_text, values))}. {level.name}: {number_text(level.value)}."
        split = self.settled if isinstance(self.certificate, Settling) else None
        caption = f"The values of {self.formulas.formula(self.formulas.sum(factors))} in this run. "
        caption += _levels(level)
        if split and split < len(values):
            caption += f" The dotted line: after {counted(split, 'step')} the run has settled."
        return element("figure", staircase(values, level, what, split) + element("figcaption", caption)) + "\n"


def _cells(kind: str, lines: Iterable[Sequence[str]], heads: str) -> str:
    """A table whose heads stand in the first line (col) or before each line (row)."""
    made = []
    for i, line in enumerate(lines):
        cells = [
            f'<th scope="{heads}">{cell}</th>' if (i if heads == "col" else j) == 0 else f"<td>{cell}</td>" for j, cell in enumerate(line)
        ]
        made.append(f"<tr>{' '.join(cells)}</tr>\n")
    return f'<table class="{kind}"><tbody>\n{"".join(made)}</tbody></table>\n'


def _levels(level: Level) -> str:
    if level.name == "settled":
        return f"The broken line is at {number_text(level.value)}: a run has settled once this is reached."
    return f"The broken line is the start, {number_text(level.value)}: below it no step is taken."
