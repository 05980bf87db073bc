"""A run of a loop from a first state, found step by step.

Most loops leave a choice: this is one run of many. From each state the next one is looked for by narrowing the limits of each
variable, row by row, and then fixing one variable after another, so that r·x stays as large as it can. That finds the next state
of the loops that figures have; it is no proof that there is none, but for a row that fails whatever the next state is.
"""
from __future__ import annotations

from dataclasses import dataclass
from typing import Optional, Sequence

from .records import Row, dot

LIMIT = 1_000_000  # a state's entries go so far either way
MOST_STEPS = 60
MOST_VISITS = 60_000  # rows looked at in all, so that a large loop does not take long
MOST_ROUNDS = 30

State = tuple[int, ...]
Limits = list[tuple[int, int]]


@dataclass(frozen=True)
class Run:
    """A run: its states, and how it ended. `failing` is the row, counted from 0, that no next state can meet; `open` says that more
    steps may follow; otherwise no next state was found."""

    states: tuple[State, ...]
    failing: Optional[int] = None
    open: bool = False

    @property
    def steps(self) -> int:
        """How many steps it takes."""
        return len(self.states) - 1


class _Spent(Exception):
    """The visits are spent."""


class _Search:
    """The search for next states, with its count of visits."""

    def __init__(self, rows: Sequence[Row], rank: Sequence[int]) -> None:
        self.rows = rows
        self.rank = rank
        # A row on the next state: its entries that are not 0, by variable.
        self.entries = [[(j, a) for j, a in enumerate(row.after) if a] for row in rows]
        # Variables with weight in the rank first, those with the most weight before others.
        self.order = sorted(range(len(rank)), key=lambda j: -abs(rank[j]))
        self.visits = 0

    def failing(self, x: State) -> Optional[int]:
        """The first row that says nothing of the next state and does not hold."""
        for i, (row, entries) in enumerate(zip(self.rows, self.entries)):
            if not entries and dot(row.before, x) > row.right:
                return i
        return None

    def next_state(self, x: State) -> Optional[State]:
        """A next state, or nothing if none was found."""
        rights = [row.right - dot(row.before, x) for row in self.rows]
        limits: Optional[Limits] = [(-LIMIT, LIMIT)] * len(x)
        limits = self.narrowed(limits, rights)
        return None if limits is None else self.fixed(limits, rights, x, 0)

    def narrowed(self, limits: Optional[Limits], rights: Sequence[int]) -> Optional[Limits]:
        """Limits that the rows leave, or nothing if they leave none."""
        if limits is None:
            return None
        limits = list(limits)
        for _ in range(MOST_ROUNDS):
            changed = False
            for entries, right in zip(self.entries, rights):
                if not entries:
                    continue
                self.visits += 1
                if self.visits > MOST_VISITS:
                    raise _Spent
                least = sum(a * limits[j][0 if a > 0 else 1] for j, a in entries)
                if least > right:
                    return None
                for j, a in entries:
                    low, high = limits[j]
                    spare = right - least + a * (low if a > 0 else high)  # what a·x_j may be at most
                    if a > 0 and spare // a < high:
                        limits[j], changed = (low, spare // a), True
                    elif a < 0 and -(spare // -a) > low:
                        limits[j], changed = (-(spare // -a), high), True
                    if limits[j][0] > limits[j][1]:
                        return None
            if not changed:
                break
        return limits

    def fixed(self, limits: Limits, rights: Sequence[int], x: State, depth: int) -> Optional[State]:
        """A state within the limits that meets the rows, fixing one variable after another."""
        if depth == len(self.order):
            found = tuple(low for low, _ in limits)
            met = all(sum(a * found[j] for j, a in entries) <= right for entries, right in zip(self.entries, rights))
            return found if met else None
        j = self.order[depth]
        low, high = limits[j]
        near = min(max(x[j], low), high)
        wanted = (high, near, low) if self.rank[j] > 0 else (low, near, high) if self.rank[j] < 0 else (near, low, high)
        for value in dict.fromkeys(wanted):
            tried = list(limits)
            tried[j] = (value, value)
            state = self.narrowed(tried, rights)
            found_state = None if state is None else self.fixed(state, rights, x, depth + 1)
            if found_state is not None:
                return found_state
        return None


def find_run(rows: Sequence[Row], first: Sequence[int], rank: Sequence[int]) -> Run:
    """A run from the first state, as far as one is found, 60 steps at most.

    >>> p = [Row((-1, 1), (0, 0), -2), Row((-1, 0), (1, 0), -1), Row((0, 1), (0, -1), 0)]
    >>> find_run(p, (5, 1), (1, -1))
    Run(states=((5, 1), (4, 1), (3, 1), (2, 1)), failing=0, open=False)
    """
    search = _Search(rows, rank)
    states = [tuple(first)]
    while len(states) <= MOST_STEPS:
        failing = search.failing(states[-1])
        if failing is not None:
            return Run(tuple(states), failing)
        try:
            following = search.next_state(states[-1])
        except _Spent:
            return Run(tuple(states), open=True)
        if following is None:
            return Run(tuple(states))
        states.append(following)
    return Run(tuple(states), open=True)


def is_run(rows: Sequence[Row], states: Sequence[State]) -> bool:
    """Whether each state and the next meet every row.

    >>> is_run([Row((-1,), (1,), -1)], [(3,), (2,), (0,)]), is_run([Row((-1,), (1,), -1)], [(3,), (3,)])
    (True, False)
    """
    return all(row.holds(x, after) for x, after in zip(states, states[1:]) for row in rows)
