"""HTML that is well formed as XML too, and formulas in it. Whatever comes from outside is escaped here."""
from __future__ import annotations

import functools
import html
import re
from fractions import Fraction
from typing import Iterable, Optional, Sequence

from ..notation import MINUS, PRIME, joint, number_text, terms, variable_names
from ..records import Row

Mark = Optional[tuple[int, bool]]
RIGHT: Mark = (-1, False)  # marks a right side
WIDE = 6  # a sum of more terms may be broken between them
_LETTER_AND_DIGITS = re.compile(r"([^\W\d_])([0-9]+)")


def escaped(text: str) -> str:
    """Text from outside, safe in an element and in an attribute.

    >>> escaped('<b & "c">')
    '&lt;b &amp; &quot;c&quot;&gt;'
    """
    return html.escape(text, quote=True)


def element(name: str, content: str, kind: str = "", **attributes: str) -> str:
    """An element with content that is HTML already.

    >>> element("p", "done", "so")
    '<p class="so">done</p>'
    """
    named = {"class": kind, **attributes} if kind else attributes
    listed = "".join(f' {key}="{escaped(value)}"' for key, value in named.items())
    return f"<{name}{listed}>{content}</{name}>"


def paragraph(content: str, kind: str = "") -> str:
    """A paragraph."""
    return element("p", content, kind) + "\n"


def section(content: str, kind: str = "", **attributes: str) -> str:
    """A section of the page."""
    return "\n" + element("section", "\n" + content, kind, **attributes) + "\n"


def heading(level: int, content: str) -> str:
    """A heading."""
    return element(f"h{level}", content) + "\n"


def marked(content: str) -> str:
    """What the reader shall look at: it has a frame, so that it is seen without colour."""
    return f"<mark>{content}</mark>"


def strong(value: int) -> str:
    """A number that matters."""
    return f"<strong>{number_text(value)}</strong>"


def variable(name: str, primed: bool = False) -> str:
    """A variable: letters in italics, digits after a single letter below the line.

    >>> variable("x1", True), variable("speed")
    ('<i>x</i><sub>1</sub>′', '<i>speed</i>')
    """
    parts = _LETTER_AND_DIGITS.fullmatch(name)
    shown = f"<i>{escaped(parts[1])}</i><sub>{parts[2]}</sub>" if parts else f"<i>{escaped(name)}</i>"
    return shown + (PRIME if primed else "")


def fraction_text(value: Fraction) -> str:
    """A fraction, or a whole number.

    >>> fraction_text(Fraction(-3, 2)), fraction_text(Fraction(4))
    ('−3/2', '4')
    """
    whole = number_text(value.numerator)
    return whole if value.denominator == 1 else f"{whole}/{number_text(value.denominator)}"


class Formulas:
    """Formulas over the variables of one loop."""

    def __init__(self, names: Sequence[str], n: int) -> None:
        self.names = variable_names(names, n)
        self.n = n
        self._single = [len(name) == 1 or bool(_LETTER_AND_DIGITS.fullmatch(name)) for name in self.names]
        self._shown = {primed: [variable(name, primed) for name in self.names] for primed in (False, True)}
        self.row = functools.lru_cache(maxsize=4096)(self._row)

    def name(self, j: int, primed: bool = False) -> str:
        """A variable by its number."""
        return self._shown[primed][j]

    def listed(self, primed: bool = False) -> str:
        """All variables, in brackets if they are several."""
        names = ", ".join(self._shown[primed])
        return f"({names})" if self.n > 1 else names

    def sum(self, before: Sequence[int], after: Sequence[int] = (), marks: Iterable[Mark] = ()) -> str:
        """A sum over x and x′. A marked term is there even if it is 0."""
        spots = [mark for mark in marks if mark is not None and mark != RIGHT]
        parts: list[str] = []
        for sign, factor, j, primed in terms(before, after, spots):
            term = joint(factor, self._single[j]) + self._shown[primed][j]
            if parts:
                term = f"{sign} {term}"
            elif sign == MINUS:
                term = MINUS + term
            parts.append(marked(term) if (j, primed) in spots else term)
        if len(parts) > WIDE:
            parts = [f"<span>{part}</span>" for part in parts]
        return " ".join(parts) or "0"

    def _row(self, row: Row, marks: tuple[Mark, ...] = ()) -> tuple[str, str]:
        """Both sides of a row."""
        right = number_text(row.right)
        return self.sum(row.before, row.after, marks), marked(right) if RIGHT in marks else right

    def inequality(self, row: Row) -> str:
        """A row in one piece."""
        left, right = self.row(row)
        return self.formula(f"{left} ≤ {right}")

    def affine(self, factors: Sequence[int], constant: int, primed: bool = False) -> str:
        """factors·x + constant."""
        linear = self.sum((), factors) if primed else self.sum(factors)
        if constant == 0:
            return linear
        if linear == "0":
            return number_text(constant)
        return f"{linear} {MINUS if constant < 0 else '+'} {number_text(abs(constant))}"

    def falls(self, rank: Sequence[int]) -> str:
        """r·x − r·x′."""
        used = [one for one in rank if one]
        if len(used) > 1:
            return f"({self.sum(rank)}) {MINUS} ({self.sum((), rank)})"
        return self.sum(rank, tuple(-one for one in rank))

    @staticmethod
    def formula(content: str) -> str:
        """A formula within a sentence."""
        return f'<span class="f">{content}</span>'

    @staticmethod
    def fractions(values: Iterable[Fraction]) -> str:
        """A state that may have fractions."""
        shown = [fraction_text(value) for value in values]
        return shown[0] if len(shown) == 1 else f"({', '.join(shown)})"
