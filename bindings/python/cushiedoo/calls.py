"""The proved calls, over bytes. Nothing is decided here: each function hands its arguments to the archive and gives the answer a
type. A call that cannot give what was asked for answers a `Refusal`.
"""
from __future__ import annotations

from typing import Any, Iterable, Iterator, NamedTuple, Optional, Sequence, Union

from .answers import Bounded, Excluded, Grade, LassoRanked, Ordered, Outcome, Ranked, Settled, Verdict
from .library import RawBatch, RawBounded, RawVerdict, library, number, numbers, room, row
from .parting import is_whole
from .refusals import Record, Refusal

MOST_VARIABLES = 16
MOST_RECORDS = 32  # of a batch


class Values(NamedTuple):
    """A record that was read: its kind, its counts (0 for a certificate) and its values in the order of the layout."""

    kind: int
    n: int
    m: int
    values: tuple[int, ...]


def read_loop(data: bytes) -> Union[Values, Refusal]:
    """Reads a loop record (kind 1).

    >>> read_loop(bytes.fromhex("0e000000 0100 0100 0100 ffff 0000 00000000"))
    Values(kind=1, n=1, m=1, values=(-1, 0, 0))
    >>> print(read_loop(b""))
    loop, 1 at 0: the bytes end early
    """
    data = bytes(data)
    return _read("cushiedoo_read_loop", (data, len(data)), Record.LOOP)


def read_certificate(data: bytes, n: int, m: int) -> Union[Values, Refusal]:
    """Reads a certificate record (kinds 2 to 4) for a loop of n variables and m rows."""
    data = bytes(data)
    return _read("cushiedoo_read_certificate", (data, len(data), number(n), number(m)), Record.CERTIFICATE)


def _read(name: str, arguments: tuple[Any, ...], record: Record) -> Union[Values, Refusal]:
    call = getattr(library(), name)
    values, size = numbers(())
    answer = call(*arguments, values, size)
    if answer.number == 7:  # the room that its place tells is enough
        values, size = numbers((0,) * answer.place)
        answer = call(*arguments, values, size)
    if answer.number:
        return Refusal(answer.number, answer.place, record)
    return Values(answer.kind, answer.n, answer.m, tuple(values[: answer.count]))


def write_record(kind: int, n: int, m: int, values: Iterable[int]) -> Union[bytes, Refusal]:
    """Writes a record of kinds 1 to 4 from its values, which are those that a reading gives.

    >>> write_record(2, 1, 2, [1, 0, 0, 1]).hex(" ", 2)
    '0a00 0000 0200 0100 0000 0000 0100'
    >>> print(write_record(2, 1, 2, [1, 0, 0, 60001]))
    certificate, 6 at 12: a value is out of range
    """
    entries, length = numbers(values)
    record = Record.LOOP if kind == 1 else Record.CERTIFICATE
    return _write("cushiedoo_write_record", (number(kind), number(n), number(m), entries, length), record)


def shorten(ranking: bytes, n: int, m: int) -> Union[bytes, Refusal]:
    """A ranking (kind 2) as a short one (kind 7), which names the rows that have weight only."""
    ranking = bytes(ranking)
    return _write("cushiedoo_shorten", (ranking, len(ranking), number(n), number(m)), Record.CERTIFICATE)


def lengthen(ranking: bytes, n: int, m: int) -> Union[bytes, Refusal]:
    """A short ranking (kind 7) as the ranking (kind 2) that it stands for."""
    ranking = bytes(ranking)
    return _write("cushiedoo_lengthen", (ranking, len(ranking), number(n), number(m)), Record.CERTIFICATE)


def sheet_text(data: bytes) -> str:
    """The text that the program `sheet` prints for an input.

    >>> sheet_text(b"")
    'loop refused 1 0\\n'
    """
    data = bytes(data)
    text = _write("cushiedoo_sheet", (data, len(data)), Record.NEITHER)
    assert isinstance(text, bytes), "the only refusal of a sheet is 7"
    return text.decode("ascii")


def _write(name: str, arguments: tuple[Any, ...], record: Record) -> Union[bytes, Refusal]:
    call = getattr(library(), name)
    size, filled = 0, room(0)
    answer = call(*arguments, filled, size)
    if answer.number == 7:  # the room that its place tells is enough
        size, filled = answer.place, room(answer.place)
        answer = call(*arguments, filled, size)
    if answer.number:
        return Refusal(answer.number, answer.place, record)
    return bytes(filled[: answer.written])


def judge_bytes(loop: bytes, certificate: bytes, names: Sequence[str] = ()) -> Verdict:
    """Judges a certificate's bytes for a loop's bytes."""
    loop, certificate = bytes(loop), bytes(certificate)
    rank, size = numbers((0,) * MOST_VARIABLES)
    answer = library().cushiedoo_judge(loop, len(loop), certificate, len(certificate), rank, size)
    n = int.from_bytes(loop[6:8], "little")
    return verdict_of(answer, tuple(rank[: min(n, size)]), tuple(names))


def judge_all_bytes(loop: bytes, records: bytes, names: Sequence[str] = ()) -> Union[tuple[Verdict, ...], Refusal]:
    """Judges the bytes of at most 32 certificates, laid end to end, for a loop's bytes. The room is always enough."""
    loop, records = bytes(loop), bytes(records)
    n = min(int.from_bytes(loop[6:8], "little"), MOST_VARIABLES)  # of a loop that is sound
    verdicts, named = row(MOST_RECORDS), tuple(names)
    ranks, size = numbers((0,) * (MOST_RECORDS * n))
    answer: RawBatch = library().cushiedoo_judge_all(
        loop, len(loop), records, len(records), verdicts, MOST_RECORDS, ranks, size
    )
    if answer.number:
        return Refusal(answer.number, answer.place, Record(answer.record), named)
    return tuple(verdict_of(verdicts[i], tuple(ranks[i * n : (i + 1) * n]), named) for i in range(answer.count))


def judge_list_bytes(
    loop: bytes, records: Iterable[bytes], names: Sequence[str] = ()
) -> Union[tuple[Verdict, ...], Refusal]:
    """Judges the bytes of certificates, each by its own bytes, for a loop's bytes. The only refusals are those of the loop."""
    judged: list[Verdict] = []
    for run, alone in _runs(records):
        told = judge_all_bytes(loop, run, names)
        if isinstance(told, Refusal):
            return told
        judged += told
        if alone is not None:
            judged.append(judge_bytes(loop, alone, names))
    return tuple(judged)


def _runs(records: Iterable[bytes]) -> Iterator[tuple[bytes, Optional[bytes]]]:
    """A list in runs: at most 32 records end to end, each of which parting cuts off as it is, and the record after them that it
    would not, if there is one."""
    run: list[bytes] = []
    for record in records:
        whole = is_whole(record)
        if not whole or len(run) == MOST_RECORDS:
            yield b"".join(run), None if whole else record
            run = []
        if whole:
            run.append(record)
    yield b"".join(run), None


def bound_bytes(loop: bytes, certificate: bytes, state: Sequence[int], names: Sequence[str] = ()) -> Union[Bounded, Refusal]:
    """How many steps a run from the state takes at most, by the certificate's bytes."""
    loop, certificate = bytes(loop), bytes(certificate)
    entries, length = numbers(state)
    answer: RawBounded = library().cushiedoo_bound(loop, len(loop), certificate, len(certificate), entries, length)
    if answer.number:
        return Refusal(answer.number, answer.place, Record(answer.record), tuple(names))
    return Bounded(Outcome(answer.outcome), answer.start, answer.fall, answer.bound)


def verdict_of(answer: RawVerdict, rank: tuple[int, ...], names: tuple[str, ...]) -> Verdict:
    """An answer of judging with its type."""
    if answer.number:
        return Refusal(answer.number, answer.place, Record(answer.record), names)
    outcome = Outcome(answer.outcome)
    if outcome is Outcome.EXCLUSION:
        return Excluded(Grade(answer.grade))
    if outcome is Outcome.LEXICOGRAPHIC:
        return Ordered()
    if outcome is Outcome.LASSO:
        return LassoRanked(rank, answer.start, answer.fall, names=names)
    if outcome is Outcome.SETTLING:
        return Settled(rank, answer.start, answer.fall, names=names)
    return Ranked(rank, answer.start, answer.fall, names=names)
