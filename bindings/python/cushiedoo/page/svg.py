"""A staircase: the values of a function along a run, with a level line, as a small drawing."""
from __future__ import annotations

from typing import NamedTuple, Optional, Sequence

from ..notation import number_text
from .markup import escaped

WIDTH, HEIGHT = 640, 210
LEFT, RIGHT, TOP, BOTTOM = 66, 24, 26, 40
MOST_LABELS = 14


class Level(NamedTuple):
    """A line across the drawing: its value and its name."""

    value: int
    name: str


def staircase(values: Sequence[int], level: Level, what: str, split: Optional[int] = None) -> str:
    """The values after 0, 1, 2, .. steps as a staircase. With `split` a line stands before that step. `what` says in plain words what
    is drawn.

    >>> drawing = staircase([4, 3, 2], Level(2, "start"), "a run")
    >>> drawing.startswith('<svg viewBox="0 0 640 210" role="img"'), drawing.count("<text")
    (True, 9)
    """
    count = len(values)
    low, high = min(*values, level.value), max(*values, level.value)
    span = max(high - low, 1)
    across, up = WIDTH - LEFT - RIGHT, HEIGHT - TOP - BOTTOM

    def x(step: int) -> str:
        return f"{LEFT + across * step / count:.1f}"

    def y(value: int) -> str:
        return f"{TOP + up * (high - value) / span:.1f}"

    parts = [f'<svg viewBox="0 0 {WIDTH} {HEIGHT}" role="img" aria-label="{escaped(what)}">']
    ground = HEIGHT - BOTTOM + 8
    parts.append(f'<line class="axis" x1="{LEFT}" y1="{ground}" x2="{WIDTH - RIGHT}" y2="{ground}"/>')
    if split is not None and 0 < split < count:
        parts.append(f'<line class="split" x1="{x(split)}" y1="{TOP - 10}" x2="{x(split)}" y2="{ground}"/>')

    steps = f"M{x(0)} {y(values[0])}H{x(1)}" + "".join(f"V{y(v)}H{x(i + 2)}" for i, v in enumerate(values[1:]))
    parts.append(f'<path class="area" d="{steps}V{ground}H{x(0)}Z"/>')
    line = y(level.value)
    parts.append(f'<line class="level" x1="{LEFT - 8}" y1="{line}" x2="{WIDTH - RIGHT}" y2="{line}"/>')
    parts.append(f'<path class="stairs" d="{steps}"/>')

    parts.append(_text(LEFT - 12, float(line) - 2, level.name, "end"))
    parts.append(_text(LEFT - 12, float(line) + 11, number_text(level.value), "end"))
    every = _every(values)
    for i, value in enumerate(values):
        middle = LEFT + across * (i + 0.5) / count
        if i % every == 0 or i == count - 1 and (count - 1) % every > every // 2:
            parts.append(_text(middle, float(y(value)) - 5, number_text(value), "middle", "value"))
            parts.append(_text(middle, ground + 14, number_text(i), "middle"))
    parts.append(_text(LEFT + across / 2, HEIGHT - 5, "steps taken", "middle"))
    return "".join(parts) + "</svg>"


def _every(values: Sequence[int]) -> int:
    """Which steps get a label, so that labels do not run into each other."""
    widest = max(len(number_text(value)) for value in values)
    room = max(1, min(MOST_LABELS, 90 // (widest + 2)))
    return -(-len(values) // room)


def _text(x: float, y: float, content: str, anchor: str, kind: str = "") -> str:
    named = f' class="{kind}"' if kind else ""
    return f'<text{named} x="{x:.1f}" y="{y:.1f}" text-anchor="{anchor}">{escaped(content)}</text>'
