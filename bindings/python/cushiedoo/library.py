"""The shared library with the proved calls: where it is, what it answers, and how it is called.

`bindings/python/build` makes the library from the archive. It is looked for in this order: the file that the environment's
CUSHIEDOO_LIBRARY names, `libcushiedoo.so` beside this file, `target/python/libcushiedoo.so` of the repository.

A call is a line of `CALLS`. A call that a later archive brings is added by one more line and, if its answer has a new form, by
one more structure. `OPTIONAL` names the calls that an archive may lack.
"""
from __future__ import annotations

import ctypes
import functools
import os
from pathlib import Path
from typing import Any, Iterable

ENVIRONMENT = "CUSHIEDOO_LIBRARY"
FILE_NAME = "libcushiedoo.so"

_u64, _i64, _size = ctypes.c_uint64, ctypes.c_int64, ctypes.c_size_t
_bytes = ctypes.c_char_p
_room, _numbers = ctypes.POINTER(ctypes.c_uint8), ctypes.POINTER(ctypes.c_int64)


class LibraryMissing(Exception):
    """The shared library is not there, cannot be loaded, or lacks a call."""


class Reading(ctypes.Structure):
    """`cushiedoo_reading` of the header."""

    _fields_ = [(name, _u64) for name in ("number", "place", "kind", "n", "m", "count")]


class Writing(ctypes.Structure):
    """`cushiedoo_writing` of the header."""

    _fields_ = [(name, _u64) for name in ("number", "place", "written")]


class RawVerdict(ctypes.Structure):
    """`cushiedoo_verdict` of the header."""

    _fields_ = [(name, _u64) for name in ("number", "place", "record", "outcome")] + [
        ("start", _i64),
        ("fall", _i64),
        ("grade", _u64),
    ]


class RawBounded(ctypes.Structure):
    """`cushiedoo_bounded` of the header."""

    _fields_ = RawVerdict._fields_ + [("bound", _u64)]


class RawBatch(ctypes.Structure):
    """`cushiedoo_batch` of the header."""

    _fields_ = [(name, _u64) for name in ("number", "place", "record", "count")]


_row = ctypes.POINTER(RawVerdict)

# The answer and the arguments of each call, as in include/cushiedoo.h.
CALLS: dict[str, tuple[type, tuple[Any, ...]]] = {
    "cushiedoo_read_loop": (Reading, (_bytes, _size, _numbers, _size)),
    "cushiedoo_read_certificate": (Reading, (_bytes, _size, _u64, _u64, _numbers, _size)),
    "cushiedoo_write_record": (Writing, (_u64, _u64, _u64, _numbers, _size, _room, _size)),
    "cushiedoo_shorten": (Writing, (_bytes, _size, _u64, _u64, _room, _size)),
    "cushiedoo_lengthen": (Writing, (_bytes, _size, _u64, _u64, _room, _size)),
    "cushiedoo_sheet": (Writing, (_bytes, _size, _room, _size)),
    "cushiedoo_judge": (RawVerdict, (_bytes, _size, _bytes, _size, _numbers, _size)),
    "cushiedoo_judge_all": (RawBatch, (_bytes, _size, _bytes, _size, _row, _size, _numbers, _size)),
    "cushiedoo_bound": (RawBounded, (_bytes, _size, _bytes, _size, _numbers, _size)),
}
OPTIONAL: frozenset[str] = frozenset()


def candidates() -> list[Path]:
    """The files that are tried, in order."""
    named = os.environ.get(ENVIRONMENT)
    if named:
        return [Path(named)]
    here = Path(__file__).resolve().parent
    return [here / FILE_NAME, here.parents[2] / "target" / "python" / FILE_NAME]


def find() -> Path:
    """The library's file. `LibraryMissing` if there is none."""
    tried = candidates()
    for path in tried:
        if path.is_file():
            return path
    raise LibraryMissing(f"{tried[-1]} is not there: bindings/python/build makes it from the archive")


@functools.lru_cache(maxsize=None)
def library() -> ctypes.CDLL:
    """The library, loaded at the first call that needs it."""
    path = find()
    try:
        loaded = ctypes.CDLL(str(path))
    except OSError as fault:
        raise LibraryMissing(f"{path} cannot be loaded: {fault}") from None
    for name, (answer, arguments) in CALLS.items():
        try:
            call = getattr(loaded, name)
        except AttributeError:
            if name in OPTIONAL:
                continue
            raise LibraryMissing(f"{path} has no call {name}: make it again with bindings/python/build") from None
        call.restype, call.argtypes = answer, arguments
    return loaded


def has(name: str) -> bool:
    """Whether the library has a call.

    >>> has("cushiedoo_judge")
    True
    """
    return hasattr(library(), name)


def number(value: int) -> int:
    """A count for a call. One that 64 bits cannot hold becomes one that is out of every range.

    >>> number(16), number(-1) == number(2**64) == 2**64 - 1
    (16, True)
    """
    return value if 0 <= value < 2**64 else 2**64 - 1


def numbers(values: Iterable[int]) -> tuple[Any, int]:
    """A list of numbers for a call, and its length. Every range is far within 64 bits, so a number beyond them becomes the
    nearest one that they hold, which is out of range as well; it is never taken modulo a power of two.

    >>> entries, length = numbers([1, -2, 2**64 + 5])
    >>> length, entries[0], entries[1], entries[2] == 2**63 - 1
    (3, 1, -2, True)
    """
    held = [min(max(value, -(2**63)), 2**63 - 1) for value in values]
    return (ctypes.c_int64 * max(len(held), 1))(*held), len(held)


def room(size: int) -> Any:
    """Bytes for a call to fill. There is always one, since a call wants no null pointer."""
    return (ctypes.c_uint8 * max(size, 1))()


def row(count: int) -> Any:
    """Verdicts for a call to fill. There is always one, as of bytes."""
    return (RawVerdict * max(count, 1))()
