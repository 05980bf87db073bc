"""A sheet in words: each line of its text as a sentence."""
from __future__ import annotations

from typing import Iterator, Sequence

from .calls import judge_bytes, judge_list_bytes
from .layouts import kind_name, kind_of
from .notation import counted, variable_names
from .parting import loop_and_certificates
from .records import check_names
from .refusals import Refusal, expect
from .sheets import TOO_LONG, sheet


def words(data: bytes, names: Sequence[str] = ()) -> Iterator[str]:
    """The lines of an input's sheet in words. A kind that a sheet does not take is judged by itself, and that is said as well.

    >>> from cushiedoo import Loop, Ranking, Row
    >>> p = Loop(2, [Row((-1, 1), (0, 0), -2), Row((-1, 0), (1, 0), -1), Row((0, 1), (0, -1), 0)])
    >>> good, bad = Ranking((1, 0, 0), (0, 1, 1)), Ranking((1, 0, 0), (0, 1, 0))
    >>> print(*words(p.to_bytes() + good.to_bytes() + bad.to_bytes(), ("x", "y")), sep="\\n")
    loop of 2 variables (x, y) and 3 rows
    1: ranking accepted: x − y is at least 2 before each step and falls by at least 1 in it
    2: refused: certificate, 22 at 1: (Y − Z)A is not 0 in column 1 (y)
    """
    told = sheet(data)
    if told.too_long:
        yield f"{TOO_LONG}: a sheet has 65,536 bytes at most, and nothing of this one is judged"
        return
    loop, certificates = loop_and_certificates(data)
    if isinstance(told.loop, Refusal):
        yield f"refused: {told.loop}" + (_not_on_a_sheet(loop) if told.loop.number == 4 else "")
        return
    assert told.loop is not None
    named = check_names(names, told.loop.n)
    listed = ", ".join(variable_names(named, told.loop.n))
    yield f"loop of {counted(told.loop.n, 'variable')} ({listed}) and {counted(told.loop.m, 'row')}"
    lines = list(zip(told.verdicts, certificates))
    accepted = iter(expect(judge_list_bytes(loop, [data_of_it for verdict, data_of_it in lines if verdict.accepted], named)))
    for count, (verdict, data_of_it) in enumerate(lines, 1):
        if isinstance(verdict, Refusal):
            more = _judged_alone(loop, data_of_it, named) if verdict.number == 4 else ""
            yield f"{count}: refused: {verdict.named(named)}{more}"
        else:
            yield f"{count}: {next(accepted)}"


def _not_on_a_sheet(record: bytes) -> str:
    if kind_of(record) != 5:
        return ""
    return f" (a sheet takes no {kind_name(5)}, kind 5; the page judges it)"


def _judged_alone(loop: bytes, certificate: bytes, names: Sequence[str]) -> str:
    """What judging says of a kind that a sheet does not take."""
    verdict = judge_bytes(loop, certificate, names)
    if isinstance(verdict, Refusal) and verdict.number == 4:
        return ""
    kind = kind_of(certificate)
    refused = "refused: " if isinstance(verdict, Refusal) else ""
    return f" (a sheet takes no {kind_name(kind)}, kind {kind}; judged by itself: {refused}{verdict})"
