"""Judging and bound of records, as objects or as bytes, and judging of several at once. The verdict is always the archive's."""
from __future__ import annotations

from typing import Iterable, Sequence, TypeVar, Union

from .answers import Bounded, Verdict
from .calls import bound_bytes, judge_all_bytes, judge_bytes, judge_list_bytes
from .layouts import Shape, kind_of, value_at, U16
from .notation import counted
from .packed import Argument, PathLoop, Settling
from .records import Exclusion, Lasso, Loop, Ranking
from .refusals import Record, Refusal

AnyLoop = Union[Loop, PathLoop]
Certificate = Union[Ranking, Exclusion, Lasso, Argument, Settling]
T = TypeVar("T")
BYTES = (bytes, bytearray, memoryview)


def judge(loop: Union[AnyLoop, bytes], certificate: Union[Certificate, bytes]) -> Verdict:
    """Judges a certificate for a loop.

    >>> from cushiedoo import Row
    >>> p = Loop(2, [Row((-1, 1), (0, 0), -2), Row((-1, 0), (1, 0), -1), Row((0, 1), (0, -1), 0)], names=("x", "y"))
    >>> judge(p, Ranking((1, 0, 0), (0, 1, 1)))
    Ranked(rank=(1, -1), start=2, fall=1, names=('x', 'y'))
    >>> verdict = judge(p, Ranking((1, 0, 0), (0, 1, 0)))
    >>> print(verdict)
    certificate, 22 at 1: (Y − Z)A is not 0 in column 1 (y)
    >>> verdict.accepted
    False
    >>> verdict.expect()
    Traceback (most recent call last):
    cushiedoo.refusals.Refused: certificate, 22 at 1: (Y − Z)A is not 0 in column 1 (y)
    """
    packed = _packed(loop, certificate)
    if isinstance(packed, Refusal):
        return packed
    return _fitting(certificate, packed[0], judge_bytes(*packed, names=_names(loop)))


def judge_all(loop: Union[AnyLoop, bytes], records: bytes) -> Union[tuple[Verdict, ...], Refusal]:
    """Judges certificates that are laid end to end, at most 32, and gives for each in turn the verdict that `judge` gives. The loop
    is checked once, not once a record. No bytes are no records.

    L alone says where a record ends, as on a sheet (`parted`). So a wrong L moves what follows it. `judge_list` keeps records
    apart.

    The whole is refused for its loop, or with 13 and the count of all records if that is over 32. A record that is refused has its
    refusal as its verdict, and the next is judged as ever.

    >>> from cushiedoo import Row
    >>> p = Loop(2, [Row((-1, 1), (0, 0), -2), Row((-1, 0), (1, 0), -1), Row((0, 1), (0, -1), 0)], names=("x", "y"))
    >>> good, bad = Ranking((1, 0, 0), (0, 1, 1)).to_bytes(), Ranking((1, 0, 0), (0, 1, 0)).to_bytes()
    >>> print(*judge_all(p, good + bad), sep="\\n")
    ranking accepted: x − y is at least 2 before each step and falls by at least 1 in it
    certificate, 22 at 1: (Y − Z)A is not 0 in column 1 (y)
    >>> print(judge_all(p, 33 * good))
    13 at 33: there are more than 32 records, 33 in all
    """
    if not isinstance(records, BYTES):
        raise TypeError("judge_all takes the bytes of records that are laid end to end; judge_list takes a list of certificates")
    looped = _bytes_of(loop)
    return looped.named(_names(loop)) if isinstance(looped, Refusal) else judge_all_bytes(looped, records, _names(loop))


def judge_list(
    loop: Union[AnyLoop, bytes], certificates: Iterable[Union[Certificate, bytes]]
) -> Union[tuple[Verdict, ...], Refusal]:
    """Judges a list of certificates, of any length, and gives for each the verdict that `judge` gives. The whole is refused for its
    loop alone. A certificate that was made for a loop of other counts is a `ValueError`, as it is with `judge`.

    Records that part from each other when they are laid end to end are judged in batches of up to 32. One that would not be cut off
    whole, by an L that is not that of its bytes, would take bytes of those behind it or leave them its own; it is judged by itself.

    >>> from cushiedoo import Row
    >>> p = Loop(2, [Row((-1, 1), (0, 0), -2), Row((-1, 0), (1, 0), -1), Row((0, 1), (0, -1), 0)])
    >>> good = Ranking((1, 0, 0), (0, 1, 1))
    >>> longer = b"\\x0f" + good.to_bytes()[1:]  # an L that asks for one byte more
    >>> [verdict.accepted for verdict in judge_all(p, longer + good.to_bytes())]
    [False, False]
    >>> [verdict.accepted for verdict in judge_list(p, [longer, good])]
    [False, True]
    """
    if isinstance(certificates, BYTES):
        raise TypeError("judge_list takes a list of certificates; judge_all takes the bytes of records that are laid end to end")
    looped, names = _bytes_of(loop), _names(loop)
    if isinstance(looped, Refusal):
        return looped.named(names)
    listed = list(certificates)
    packed = list(map(_bytes_of, listed))
    judged = judge_list_bytes(looped, (data for data in packed if isinstance(data, bytes)), names)
    if isinstance(judged, Refusal):
        return judged
    verdicts = iter(judged)
    told: list[Verdict] = []
    for i, (certificate, data) in enumerate(zip(listed, packed)):
        if isinstance(data, Refusal):
            told.append(data.named(names))
        else:
            told.append(_fitting(certificate, looped, next(verdicts), f"the certificate at index {i}"))
    return tuple(told)


def bound(
    loop: Union[AnyLoop, bytes], certificate: Union[Certificate, bytes], state: Sequence[int]
) -> Union[Bounded, Refusal]:
    """How many steps a run from a state takes at most; of a settling, how many before it has settled.

    >>> from cushiedoo import Row
    >>> p = Loop(2, [Row((-1, 1), (0, 0), -2), Row((-1, 0), (1, 0), -1), Row((0, 1), (0, -1), 0)])
    >>> bound(p, Ranking((1, 0, 0), (0, 1, 1)), (5, 1)).bound
    3
    >>> print(bound(p, Ranking((1, 0, 0), (0, 1, 1)), (5,)))
    10 at 1: the state does not have one entry for each variable
    """
    packed = _packed(loop, certificate)
    if isinstance(packed, Refusal):
        return packed
    return _fitting(certificate, packed[0], bound_bytes(*packed, state, names=_names(loop)))


def loop_from_bytes(data: bytes, names: Sequence[str] = ()) -> Union[AnyLoop, Refusal]:
    """The loop that a record holds, of kind 1 or 5."""
    return PathLoop.from_bytes(data, names) if kind_of(data) == 5 else Loop.from_bytes(data, names)


def certificate_from_bytes(data: bytes, loop: AnyLoop) -> Union[Certificate, Refusal]:
    """The certificate for a loop that a record holds, of any kind that is judged with this loop.

    >>> from cushiedoo import Row
    >>> certificate_from_bytes(Ranking((1,), (2,)).to_bytes(), Loop(1, [Row((0,), (0,), 0)]))
    Ranking(y=(1,), z=(2,))
    """
    if isinstance(loop, PathLoop):
        return Argument.from_bytes(data, loop)
    kinds = {3: Exclusion, 4: Lasso, 8: Settling}
    return kinds.get(kind_of(data), Ranking).from_bytes(data, loop)  # type: ignore[attr-defined,no-any-return]


def _names(loop: Union[AnyLoop, bytes]) -> tuple[str, ...]:
    return () if isinstance(loop, BYTES) else loop.names


def _bytes_of(record: Union[AnyLoop, Certificate, bytes]) -> Union[bytes, Refusal]:
    return bytes(record) if isinstance(record, BYTES) else record.to_bytes()


def _packed(loop: Union[AnyLoop, bytes], certificate: Union[Certificate, bytes]) -> Union[tuple[bytes, bytes], Refusal]:
    both = []
    for record in (loop, certificate):
        data = _bytes_of(record)
        if isinstance(data, Refusal):
            return data.named(_names(loop))
        both.append(data)
    return both[0], both[1]


def _fitting(certificate: Union[Certificate, bytes], loop: bytes, answer: T, which: str = "the certificate") -> T:
    """The answer, unless it is about other numbers than the caller's. A certificate's record does not tell how many variables and rows
    its loop has. One that was made for another loop is refused by its length as a rule; but two lassos, settlings or arguments of
    different shapes can have the same length, and then the one would be read as the other."""
    made_for = getattr(certificate, "shape", None)
    if made_for is None or (isinstance(answer, Refusal) and (answer.record is Record.LOOP or answer.number in (3, 4))):
        return answer
    shape = _shape(loop)
    if shape is not None and made_for != shape:
        raise ValueError(f"{which} was made for {_counts(made_for)}, and the loop has {_counts(shape)}")
    return answer


def _shape(loop: bytes) -> Union[Shape, None]:
    if len(loop) < 10:
        return None
    n, count = value_at(loop, 6, U16), value_at(loop, 8, U16)
    if kind_of(loop) == 5:
        return Shape(n, tuple(value_at(loop, 10 + 2 * i, U16) for i in range(count)), kind=5)
    return Shape(n, (count,))


def _counts(shape: Shape) -> str:
    rows = " and ".join(map(str, shape.rows)) + " rows" if len(shape.rows) != 1 else counted(shape.rows[0], "row")
    return f"{counted(shape.n, 'variable')} and {rows}"
