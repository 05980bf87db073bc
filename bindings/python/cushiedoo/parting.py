"""How bytes end to end are cut into records, as the program `sheet` does it.

A record takes 4 + L bytes. One that has fewer than 4 bytes, an L below 2, or an L beyond the bytes that are left takes all the rest,
and is the last. The loop record is parted from the input by the same rule. `crates/record_parting/specs` has this as a definition.
"""
from __future__ import annotations

MOST_BYTES = 65_536


def taken(data: bytes) -> int:
    """How many bytes the first record takes.

    >>> taken(bytes([2, 0, 0, 0, 7, 0, 9])), taken(bytes([1, 0, 0, 0, 9])), taken(b"abc")
    (6, 5, 3)
    """
    stated = int.from_bytes(data[:4], "little")
    whole = len(data) >= 4 and stated >= 2 and 4 + stated <= len(data)
    return 4 + stated if whole else len(data)


def is_whole(data: bytes) -> bool:
    """Whether bytes are one record by their own L, so that they are cut off as they are, whatever follows them.

    >>> is_whole(bytes([2, 0, 0, 0, 7, 0])), is_whole(bytes([2, 0, 0, 0, 7, 0, 9])), is_whole(bytes(4))
    (True, False, False)
    """
    return len(data) >= 6 and len(data) == 4 + int.from_bytes(data[:4], "little")


def parted(data: bytes) -> list[bytes]:
    """The records that bytes hold, one after another to the end. No bytes are no records.

    >>> parted(bytes([2, 0, 0, 0, 7, 0, 9]))
    [b'\\x02\\x00\\x00\\x00\\x07\\x00', b'\\t']
    """
    found = []
    while data:
        size = taken(data)
        found.append(data[:size])
        data = data[size:]
    return found


def loop_and_certificates(data: bytes) -> tuple[bytes, list[bytes]]:
    """The loop record of an input and the certificates after it. The loop of an empty input has no bytes."""
    size = taken(data)
    return data[:size], parted(data[size:])
