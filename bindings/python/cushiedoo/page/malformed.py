"""What is wrong with a malformed record, and its bytes around the place."""
from __future__ import annotations

from typing import Optional

from ..faults import Fault
from .markup import escaped, marked, paragraph


def malformed(data: bytes, fault: Optional[Fault]) -> str:
    """What is wrong with a record, and its bytes around the place."""
    if fault is None:
        return ""
    return paragraph(escaped(fault.sentence), "fails") + _bytes_at(data, fault)


def _bytes_at(data: bytes, fault: Fault) -> str:
    """The bytes of a record around a fault, with those that it speaks of marked."""
    start = {1: len(data), 2: fault.place, 3: 0}.get(fault.number, fault.place)
    end = {1: start, 2: len(data), 3: min(4, len(data)), 15: start + 2, 16: start + 6}.get(fault.number, start + fault.width)
    first = max(0, start - 8) // 8 * 8
    last = min(len(data), max(end, first + 24), first + 48)
    shown = [f"{byte:02x}" for byte in data[first:last]]
    inside = slice(max(start - first, 0), max(min(end, last) - first, 0))
    if shown[inside]:
        shown[inside] = [marked(" ".join(shown[inside]))]
    text = " ".join(shown)
    if fault.number == 1:
        text += " " + marked("end")
    dots = ("… " if first else "") + text + (" …" if last < len(data) else "")
    return paragraph(f"The bytes from byte {first} on: <code>{dots}</code>", "bytes")
