"""School notation: numbers, names and sums as a textbook prints them, with the true minus sign U+2212 and never a hyphen."""
from __future__ import annotations

from typing import Iterable, Iterator, NamedTuple, Sequence

MINUS = "\u2212"
PRIME = "\u2032"
THIN = "\u202f"  # a narrow blank that is not broken, between groups of three digits

# What would be read as a part of a formula does not belong into a name.
_NOT_IN_NAMES = "-+,'\u2212\u2032\u2264\u2265\u00b7"
_LONGEST_NAME = 40


def number_text(value: int) -> str:
    """A number with the true minus sign. Five digits and more are parted in groups of three.

    >>> number_text(-5), number_text(1234), number_text(-2000000) == "−2\u202f000\u202f000"
    ('−5', '1234', True)
    """
    digits = str(abs(value))
    if len(digits) > 4:
        digits = f"{abs(value):,}".replace(",", THIN)
    return (MINUS if value < 0 else "") + digits


def tuple_text(values: Iterable[int]) -> str:
    """A list of numbers in brackets; a single one stands alone.

    >>> tuple_text((5, -1)), tuple_text((3,))
    ('(5, −1)', '3')
    """
    listed = [number_text(value) for value in values]
    return listed[0] if len(listed) == 1 else "(" + ", ".join(listed) + ")"


def variable_names(names: Sequence[str], count: int) -> tuple[str, ...]:
    """The given names, or x1, x2, .. where none are given.

    >>> variable_names((), 3), variable_names(("x", "y"), 2)
    (('x1', 'x2', 'x3'), ('x', 'y'))
    """
    return tuple(names) if names and len(names) >= count else tuple(f"x{i + 1}" for i in range(count))


def name_fault(name: str) -> str:
    """What is wrong with a name for a variable, or nothing.

    >>> name_fault("speed"), name_fault("x-1")
    ('', "the name 'x-1' has the sign '-', which a formula would show as its own")
    """
    if not name:
        return "a name is empty"
    if not name.isprintable():
        return f"the name {ascii(name)} has characters that cannot be printed"
    if len(name) > _LONGEST_NAME:
        return f"the name {name[:10]!r}.. is longer than {_LONGEST_NAME} characters"
    if name[0].isdigit():
        return f"the name {name!r} starts with a digit, which a formula would show as a factor"
    for sign in name:
        if sign in _NOT_IN_NAMES:
            return f"the name {name!r} has the sign {sign!r}, which a formula would show as its own"
    return ""


class Term(NamedTuple):
    """A term of a sum: its sign, its factor without the sign, the variable's number from 0, and whether it has a prime."""

    sign: str
    factor: int
    variable: int
    primed: bool


def terms(before: Sequence[int], after: Sequence[int] = (), shown: Iterable[tuple[int, bool]] = ()) -> Iterator[Term]:
    """The terms of before·x + after·x′ that are not 0, and those that are to be shown all the same."""
    wanted = frozenset(shown)
    for primed, factors in ((False, before), (True, after)):
        for variable, factor in enumerate(factors):
            if factor or (variable, primed) in wanted:
                yield Term(MINUS if factor < 0 else "+", abs(factor), variable, primed)


def joint(factor: int, single: bool) -> str:
    """What stands before a name: nothing for 1, else the factor, with a dot unless the name is a single letter.

    >>> joint(1, True), joint(2, True), joint(2, False)
    ('', '2', '2·')
    """
    if factor == 1:
        return ""
    return number_text(factor) + ("" if single else "·")


def sum_text(before: Sequence[int], after: Sequence[int] = (), names: Sequence[str] = ()) -> str:
    """A sum in plain text.

    >>> sum_text((-1, 1)), sum_text((0, 2), (1, -3), ("x", "y")), sum_text((0,))
    ('−x1 + x2', '2y + x′ − 3y′', '0')
    """
    called = variable_names(names, max(len(before), len(after)))
    text = ""
    for sign, factor, variable, primed in terms(before, after):
        one = joint(factor, len(called[variable]) == 1) + called[variable] + (PRIME if primed else "")
        text += f" {sign} {one}" if text else (MINUS if sign == MINUS else "") + one
    return text or "0"


def row_text(before: Sequence[int], after: Sequence[int], right: int, names: Sequence[str] = ()) -> str:
    """A row in plain text.

    >>> row_text((-1, 1), (0, 0), -2, ("x", "y"))
    '−x + y ≤ −2'
    """
    return f"{sum_text(before, after, names)} ≤ {number_text(right)}"


def counted(count: int, one: str, many: str = "") -> str:
    """A count with its word.

    >>> counted(1, "step"), counted(0, "step"), counted(2, "entry", "entries")
    ('1 step', '0 steps', '2 entries')
    """
    return f"{number_text(count)} {one if count == 1 else many or one + 's'}"
