"""The command line: `python3 -m cushiedoo sheet|words|page FILE`.

What is wrong with the input or the arguments is one line on standard error, and the exit code is 2. A page whose own sums differ from
the checker's verdicts is written all the same, says so in red, and the exit code is 1.
"""
from __future__ import annotations

import argparse
import os
import sys
from pathlib import Path
from typing import NoReturn, Optional, Sequence

from .calls import sheet_text
from .layouts import U16, value_at
from .library import LibraryMissing
from .notation import counted
from .page import make_page
from .parting import MOST_BYTES, taken
from .records import check_names
from .runs import LIMIT
from .sheets import TOO_LONG
from .wording import words

PROGRAM = "cushiedoo"
BAD_INPUT, DISAGREES = 2, 1


class BadInput(Exception):
    """What is wrong, in one line."""


class _Parser(argparse.ArgumentParser):
    """A parser that tells a fault in one line."""

    def error(self, message: str) -> NoReturn:
        """Raises what is wrong, where argparse would print its usage as well."""
        raise BadInput(f"{message} (python3 -m {PROGRAM} --help tells the commands)")


def _parser() -> argparse.ArgumentParser:
    parser = _Parser(prog=f"python3 -m {PROGRAM}", description="Sheets, words and pages from the proved checker.", allow_abbrev=False)
    commands = parser.add_subparsers(dest="command", metavar="COMMAND", required=True, parser_class=_Parser)
    file_help = "a loop record and certificates after it, as bytes; - is standard input"

    one = commands.add_parser("sheet", help="print the sheet's text, as the program sheet does", allow_abbrev=False)
    one.add_argument("file", metavar="FILE", help=file_help)

    one = commands.add_parser("words", help="print each line of the sheet in words", allow_abbrev=False)
    one.add_argument("file", metavar="FILE", help=file_help)
    one.add_argument("--names", help="names of the variables, parted by commas: --names x,y")

    one = commands.add_parser("page", help="write a page (HTML) that sets the arguments out", allow_abbrev=False)
    one.add_argument("file", metavar="FILE", help=file_help)
    one.add_argument("-o", "--output", metavar="OUT", help="the file that gets the page; standard output if it is - or not named")
    one.add_argument("--names", help="names of the variables, parted by commas: --names x,y")
    one.add_argument("--state", help="a first state, for a run and its bound: --state 5,3 (--state=-5,3 if it starts with a sign)")
    return parser


def main(arguments: Optional[Sequence[str]] = None) -> int:
    """Runs a command and gives the exit code."""
    try:
        chosen = _parser().parse_args(arguments)
        if getattr(chosen, "output", None) == "-":
            chosen.output = None
        if sys.stdout is None and getattr(chosen, "output", None) is None:
            raise BadInput("standard output: cannot be written: it is closed")
        return {"sheet": _sheet, "words": _words, "page": _page}[chosen.command](chosen)
    except (BadInput, LibraryMissing) as fault:
        return _tell(str(fault), BAD_INPUT)
    except BrokenPipeError:
        _forget_output()
        return _tell("cannot write standard output: its reader is gone", BAD_INPUT)
    except KeyboardInterrupt:
        return 130


def _tell(message: str, code: int) -> int:
    line = " ".join(message.split())
    if sys.stderr is not None:  # it is nothing where standard error is closed
        print(f"{PROGRAM}: {line}".encode("utf-8", "backslashreplace").decode("utf-8"), file=sys.stderr)
    return code


def _forget_output() -> None:
    """Keeps the interpreter from writing what is left when it ends."""
    os.dup2(os.open(os.devnull, os.O_WRONLY), 1)


# ---- the commands


def _sheet(chosen: argparse.Namespace) -> int:
    data = _input(chosen.file)
    _output(None, sheet_text(data).encode("ascii"))
    return _whole(chosen.file, data)


def _words(chosen: argparse.Namespace) -> int:
    data = _input(chosen.file)
    names = _names(chosen.names, data)
    lines = list(words(data, names))
    _output(None, "".join(f"{line}\n" for line in lines).encode("utf-8"))
    return _whole(chosen.file, data)


def _page(chosen: argparse.Namespace) -> int:
    data = _input(chosen.file)
    names = _names(chosen.names, data)
    state = _state(chosen.state, data)
    if chosen.output is not None and chosen.file != "-" and _same_file(chosen.file, chosen.output):
        raise BadInput(f"{chosen.output}: the page would take the place of the input")
    page = make_page(data, names, state, _title(chosen.file))
    _output(chosen.output, page.html.encode("utf-8"))
    if page.disagreements:
        more = f" (and {len(page.disagreements) - 1} more)" if len(page.disagreements) > 1 else ""
        return _tell(f"the page and the checker disagree: {page.disagreements[0]}{more}", DISAGREES)
    return _whole(chosen.file, data)


def _whole(name: str, data: bytes) -> int:
    """The exit code after the output: an input that is too long is bad input, whatever was printed of it."""
    return _tell(f"{name}: {TOO_LONG}, more than {MOST_BYTES:,} bytes", BAD_INPUT) if len(data) > MOST_BYTES else 0


# ---- what they read and write


def _input(name: str) -> bytes:
    """The bytes of a file, and one more than a sheet may have at most: more are not looked at."""
    if name == "-" and sys.stdin is None:
        raise BadInput("standard input: cannot be read: it is closed")
    try:
        if name == "-":
            return sys.stdin.buffer.read(MOST_BYTES + 1)
        with open(name, "rb") as file:
            return file.read(MOST_BYTES + 1)
    except (OSError, ValueError) as fault:
        raise BadInput(f"{name}: cannot be read: {_reason(fault)}") from None


def _output(name: Optional[str], content: bytes) -> None:
    try:
        if name is not None:
            Path(name).write_bytes(content)
            return
        sys.stdout.buffer.write(content)
        sys.stdout.buffer.flush()
    except BrokenPipeError:
        raise
    except (OSError, ValueError) as fault:
        if name is None:
            _forget_output()
        raise BadInput(f"{name or 'standard output'}: cannot be written: {_reason(fault)}") from None


def _reason(fault: Exception) -> str:
    return getattr(fault, "strerror", None) or str(fault)


def _same_file(one: str, other: str) -> bool:
    try:
        return os.path.samefile(one, other)
    except (OSError, ValueError):
        return False


def _title(name: str) -> str:
    shown = "standard input" if name == "-" else os.path.basename(name) or name
    return os.fsencode(shown).decode("utf-8", "replace")


# ---- names and states


def _variables(data: bytes) -> Optional[int]:
    """How many variables the loop has, if its record has so many bytes; the checker looks at the rest."""
    size = taken(data)
    n = value_at(data, 6, U16)
    return n if size >= 10 and 1 <= n <= 16 else None


def _names(given: Optional[str], data: bytes) -> tuple[str, ...]:
    if given is None:
        return ()
    names = tuple(part.strip() for part in given.split(","))
    n = _variables(data)
    try:
        check_names(names, len(names) if n is None else n)
        return () if n is None else names
    except ValueError as fault:
        raise BadInput(f"--names {given}: {fault}") from None


def _state(given: Optional[str], data: bytes) -> Optional[tuple[int, ...]]:
    if given is None:
        return None
    entries = []
    for part in given.split(","):
        sign, digits = ("-", part.strip()[1:]) if part.strip()[:1] in ("-", "\u2212") else ("", part.strip())
        if not (digits.isascii() and digits.isdigit() and len(digits) <= 20):
            raise BadInput(f"--state {given}: {part.strip()!r} is not a whole number")
        entries.append(int(sign + digits))
    n = _variables(data)
    if n is not None and len(entries) != n:
        raise BadInput(f"--state {given}: {counted(len(entries), 'number')} for {counted(n, 'variable')}")
    for entry in entries:
        if abs(entry) > LIMIT:
            raise BadInput(f"--state {given}: {entry} is beyond 1,000,000")
    return tuple(entries)
