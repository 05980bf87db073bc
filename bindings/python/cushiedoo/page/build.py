"""The page of an input: the loop, then each certificate with its verdict and its argument."""
from __future__ import annotations

from dataclasses import dataclass
from typing import Iterator, Optional, Sequence, Union

from ..answers import Excluded, LassoRanked, Ordered, Ranked, Settled, Verdict
from ..calls import judge_bytes
from ..faults import Fault, certificate_fault, loop_fault
from ..judging import AnyLoop, certificate_from_bytes, loop_from_bytes
from ..layouts import kind_name, kind_of
from ..notation import MINUS, counted
from ..packed import PathLoop, Settling
from ..parting import MOST_BYTES, loop_and_certificates
from ..records import Lasso, Loop, Ranking, check_names
from ..refusals import Refusal
from ..runs import LIMIT
from ..sheets import TOO_LONG, Sheet, line_verdict, sheet
from ..sums import disagreements, first_failure
from .account import account
from .malformed import malformed
from .markup import Formulas, element, escaped, heading, paragraph, section
from .running import Running
from .sentences import follows, verdict_sentence
from .style import STYLE
from .tables import labelled, row_list

NO_PATHS = " A sheet’s text takes no loop of several paths; here each certificate is judged by itself."


@dataclass(frozen=True)
class Page:
    """A page, and where its own sums and the archive's verdicts differ: nowhere, as a rule."""

    html: str
    disagreements: tuple[str, ...]


def make_page(
    data: bytes, names: Sequence[str] = (), state: Optional[Sequence[int]] = None, title: str = "a sheet"
) -> Page:
    """The page of an input. `title` is what the page calls the input, a file's name for example.

    >>> page = make_page(b"")
    >>> page.html.count("loop refused 1 0"), page.disagreements
    (1, ())
    """
    return _Builder(data, names, state, title).page()


class _Builder:
    def __init__(self, data: bytes, names: Sequence[str], state: Optional[Sequence[int]], title: str) -> None:
        self.data, self.title = bytes(data), title
        self.names = tuple(names)
        self.state = None if state is None else tuple(state)
        self.sheet: Sheet = sheet(self.data)
        self.faults: list[str] = []
        self.tally: dict[str, list[int]] = {}

    # ---- the whole

    def page(self) -> Page:
        """The page."""
        sections = list(self._too_long() if self.sheet.too_long else self._sections())
        size = "" if self.sheet.too_long else f", {counted(len(self.data), 'byte')}"
        head = heading(1, "A loop and its certificates")
        head += paragraph(element("code", escaped(self.title), "file") + size, "file")
        top = element("header", head) + "\n" + "".join(paragraph(self._disagree(fault), "disagree") for fault in self.faults)
        body = top + "".join(sections) + element("footer", self._footer())
        return Page(
            '<!DOCTYPE html>\n<html lang="en"><head><meta charset="utf-8"/>'
            '<meta name="viewport" content="width=device-width, initial-scale=1"/>'
            f"\n<title>A loop and its certificates: {escaped(self.title)}</title>\n<style>{STYLE}</style></head>\n"
            f"<body>\n{body}\n</body></html>\n",
            tuple(self.faults),
        )

    @staticmethod
    def _disagree(fault: str) -> str:
        return f"The page and the checker disagree: {escaped(fault)}. Do not rely on this page."

    def _footer(self) -> str:
        agree = "they disagree, see the top of the page" if self.faults else "they agree"
        return paragraph(
            "Every verdict and every bound on this page was given by Cushiedoo’s proved checker. The page sets the argument out so "
            f"that it can be followed by hand. It worked out each sum once more and compared it with the checker’s answer: {agree}."
        )

    def _too_long(self) -> Iterator[str]:
        told = f"The input is longer than {MOST_BYTES:,} bytes. Nothing of it was judged."
        yield section(paragraph(told, "verdict") + _line(TOO_LONG), "refused")

    def _sections(self) -> Iterator[str]:
        record, certificates = loop_and_certificates(self.data)
        loop = loop_from_bytes(record, ())
        if isinstance(loop, Refusal):
            yield self._refused_loop(record, loop)
            return
        check_names(self.names, loop.n)
        if self.state is not None and (len(self.state) != loop.n or any(abs(entry) > LIMIT for entry in self.state)):
            raise ValueError(f"the state {self.state} is not {loop.n} numbers within {LIMIT:,} either way")
        formulas = Formulas(self.names, loop.n)
        lines = self.sheet.lines[1:]
        if isinstance(loop, Loop) and len(lines) != len(certificates):
            self.faults.append(f"the sheet has {len(lines)} lines for {len(certificates)} certificates")
        sections = [
            self._certificate(formulas, loop, record, one, i, lines[i] if i < len(lines) else "")
            for i, one in enumerate(certificates)
        ]
        yield self._loop(formulas, loop)
        yield self._summary(len(certificates))
        yield from sections

    # ---- the loop

    def _refused_loop(self, record: bytes, refusal: Refusal) -> str:
        fault = loop_fault(record)
        self._compare("the loop", refusal, fault)
        told, note = self.sheet.loop, ""
        if isinstance(told, Refusal) and (told.number, told.place) == (4, 4) and kind_of(record) == 5:
            note = NO_PATHS
        elif not isinstance(told, Refusal) or (told.number, told.place) != (refusal.number, refusal.place):
            self.faults.append("the sheet and the reader tell different refusals of the loop")
        return section(
            heading(2, "The loop" + _badge(False))
            + paragraph(f"Refused. {escaped(str(refusal))}. Nothing after it was judged.", "verdict")
            + malformed(record, fault) + _line(self.sheet.lines[0], note),
            "loop refused",
        )

    def _loop(self, formulas: Formulas, loop: AnyLoop) -> str:
        parts = [heading(2, "The loop")]
        before, after = formulas.listed(), formulas.listed(True)
        of = f"The loop has {counted(loop.n, 'variable')}. A step takes {before} to {after}"
        if isinstance(loop, PathLoop):
            parts.append(paragraph(f"{of} on one of {counted(len(loop.paths), 'path')}, and meets each row of that path."))
            for i, rows in enumerate(loop.paths, 1):
                parts.append(heading(3, f"Path {i}"))
                parts.append(row_list(formulas, labelled(rows)) if rows else paragraph("No row: every pair of states is such a step."))
            note = NO_PATHS
        else:
            known = self.sheet.loop
            if isinstance(known, Refusal) or known is None or (known.n, known.m) != (loop.n, loop.m):
                self.faults.append("the sheet and the reader tell different counts of the loop")
            if loop.rows:
                parts.append(paragraph(f"{of} and meets each of {'this row' if loop.m == 1 else f'these {loop.m} rows'}."))
                parts.append(row_list(formulas, labelled(loop.rows)))
            else:
                parts.append(paragraph(f"{of}. There are no rows, so every pair of states is a step."))
            note = ""
        parts.append(_line(self.sheet.lines[0], note))
        return section("".join(parts), "loop")

    def _summary(self, count: int) -> str:
        if not count:
            return section(paragraph("No certificate follows the loop, so nothing is shown of it."))
        refused = len(self.tally.get("refused", ()))
        told = f"{counted(count, 'certificate')}: {count - refused} accepted, {refused} refused."
        items = "".join(
            f"<li>{sentence} {_which(self.tally[kind])}</li>"
            for kind, sentence in (
                ("ranking", "The loop ends, from whatever state it starts."),
                ("lasso", "The loop ends in every run that starts after a step of the stem."),
                ("settling", "The loop ends, from whatever state it starts: no run goes on for ever."),
                ("ordered", "The loop ends, from whatever state it starts: no run through its paths goes on for ever."),
                ("excluded", "The loop has no linear ranking function. It may end all the same."),
            )
            if kind in self.tally
        )
        if not items:
            items = "<li>Nothing is shown of the loop. That does not mean that it runs for ever.</li>"
        return section(heading(2, "What is shown") + paragraph(told) + element("ul", items, "follows"), "shown")

    # ---- a certificate

    def _certificate(self, formulas: Formulas, loop: AnyLoop, record: bytes, data: bytes, index: int, line: str) -> str:
        verdict = judge_bytes(record, data, formulas.names)
        what = f"certificate {index + 1}"
        note = self._sheet_note(what, verdict, data, line)
        self.tally.setdefault(_tally_name(verdict), []).append(index + 1)
        certificate = certificate_from_bytes(data, loop)
        if isinstance(verdict, Refusal) and not verdict.is_condition:
            fault = certificate_fault(data, loop.shape, formulas.names)
            self._compare(what, verdict, fault)
            argument = malformed(data, fault)
        elif isinstance(certificate, Refusal):
            self.faults.append(f"{what} is judged, and cannot be read: {certificate}")
            argument = ""
        else:
            found = [f"{what}: {fault}" for fault in disagreements(loop, certificate, verdict)]
            self.faults.extend(found)
            failure = first_failure(loop, certificate)
            argument = "".join(account(formulas, loop, certificate, failure)) + follows(formulas, loop, verdict, certificate)
            if self.state is not None and isinstance(loop, Loop) and isinstance(certificate, (Ranking, Lasso, Settling)):
                argument += self._run(formulas, loop, certificate, verdict, (record, data), what)
        accepted = not isinstance(verdict, Refusal)
        name = kind_name(kind_of(data)) if kind_of(data) else "no kind"
        title = heading(2, f"Certificate {index + 1}: {name}{_badge(accepted)}")
        sentence = paragraph(verdict_sentence(formulas, verdict), "verdict")
        last = _line(line, note) if line else ""
        kind = f"certificate {'accepted' if accepted else 'refused'}"
        return section(title + sentence + argument + last, kind, id=f"certificate{index + 1}")

    def _sheet_note(self, what: str, verdict: Verdict, data: bytes, line: str) -> str:
        """Compares the sheet's line with judging. A kind that the sheet does not take it tells as 4, and that is said."""
        if not line:
            return ""
        told = line_verdict(line)
        if told == verdict:
            return ""
        if isinstance(told, Refusal) and (told.number, told.place) == (4, 4) and kind_of(data) in (6, 7, 8):
            return f" A sheet’s text does not take kind {kind_of(data)}; judged by itself the certificate has the verdict above."
        self.faults.append(f"{what}: the sheet and judging tell different verdicts")
        return ""

    def _compare(self, what: str, refusal: Refusal, fault: Optional[Fault]) -> None:
        if fault is None or (fault.number, fault.place) != (refusal.number, refusal.place):
            found = "finds no fault in the record" if fault is None else f"finds {fault.number} at {fault.place}"
            self.faults.append(f"{what}: the checker refuses with {refusal.number} at {refusal.place}, and the page {found}")

    def _run(
        self, formulas: Formulas, loop: Loop, certificate: Union[Ranking, Lasso, Settling], verdict: Verdict,
        records: tuple[bytes, bytes], what: str,
    ) -> str:
        if not isinstance(verdict, (Ranked, LassoRanked, Settled)):
            return ""
        assert self.state is not None
        running = Running(formulas, loop, certificate, verdict, self.state, records)
        self.faults.extend(f"{what}: {fault}" for fault in running.disagreements())
        return "".join(running.html())

def _tally_name(verdict: Verdict) -> str:
    named = {Ranked: "ranking", LassoRanked: "lasso", Excluded: "excluded", Ordered: "ordered", Settled: "settling"}
    return named.get(type(verdict), "refused")


def _which(numbers: Sequence[int]) -> str:
    listed = ", ".join(map(str, numbers[:6])) + (" and more" if len(numbers) > 6 else "")
    return f"({'certificate' if len(numbers) == 1 else 'certificates'} {listed})"


def _badge(accepted: bool) -> str:
    return f' <span class="badge">{"✓ accepted" if accepted else "✗ refused"}</span>'


def _line(line: str, note: str = "") -> str:
    shown = escaped(line.replace("-", MINUS))
    return paragraph(f'The sheet’s line: <code class="sheet">{shown}</code>.{note}', "line")
