"""The page of every sample, and what a page shows."""
import dataclasses
import re
import unittest
import xml.etree.ElementTree as ElementTree
from html.parser import HTMLParser
from unittest import mock

from cushiedoo import Excluded, Grade, Loop, Ranked, Ranking, Refusal, Record, Row, judge, sheet
from cushiedoo.page import Page, build, make_page, running

from .samples import ARGUMENT, CURVE, DRAWN_ROWS, P, S1, S7, S7_LOOP, S10, S10_LOOP, SETTLING, names, sample

EMPTY = {"meta"}
LARGE = 1_000_000  # html.parser takes long for more; the XML parser reads every page


class Tags(HTMLParser):
    """Whether each element is closed where it must be."""

    def __init__(self) -> None:
        super().__init__()
        self.open: list[str] = []
        self.faults: list[str] = []

    def handle_starttag(self, tag: str, attrs: list) -> None:
        if tag not in EMPTY:
            self.open.append(tag)

    def handle_startendtag(self, tag: str, attrs: list) -> None:
        pass

    def handle_endtag(self, tag: str) -> None:
        if not self.open or self.open.pop() != tag:
            self.faults.append(tag)


def tree(page: Page) -> ElementTree.Element:
    """The page as a tree. It is well formed as XML too."""
    return ElementTree.fromstring(page.html)


def is_kind(element: ElementTree.Element, kind: str) -> bool:
    return kind in element.get("class", "").split()


def visible(element: ElementTree.Element) -> str:
    """The text that a reader sees or hears, without the file's name."""
    if element.tag in ("style", "title") or element.tag == "code" and is_kind(element, "file"):
        return element.tail or ""
    inner = "".join(visible(child) for child in element)
    return f"{element.get('aria-label', '')}{element.text or ''}{inner}{element.tail or ''}"


def text_of(page: Page) -> str:
    return " ".join(visible(tree(page)).split())


def lines_of(root: ElementTree.Element) -> list[str]:
    """The lines of the sheet that a page has."""
    return ["".join(one.itertext()) for one in root.iter("code") if is_kind(one, "sheet")]


class EverySample(unittest.TestCase):
    def check(self, page: Page, data: bytes) -> None:
        self.assertEqual(page.disagreements, ())
        root = tree(page)
        if len(page.html) < LARGE:
            tags = Tags()
            tags.feed(page.html)
            tags.close()
            self.assertEqual((tags.open, tags.faults), ([], []))
        self.assertNotIn("-", visible(root), "a hyphen where a minus may be meant")
        told = [line.replace("-", "−") for line in sheet(data).lines]
        self.assertEqual(lines_of(root), told)
        self.assertEqual(len(set(told)), len(told))
        self.assertIsNone(re.search(r"<script|<link|<img|<iframe|@import|url\(|src=|href=|https?:", page.html))

    def test_pages(self) -> None:
        for name in names():
            with self.subTest(sample=name):
                data = sample(name)
                self.check(make_page(data, title=f"{name}.sheet"), data)

    def test_pages_with_a_state(self) -> None:
        for name in names():
            data = sample(name)
            told = sheet(data).loop
            if isinstance(told, Refusal) or told is None or name == "longest":
                continue
            with self.subTest(sample=name):
                self.check(make_page(data, state=(7,) + (1,) * (told.n - 1)), data)

    def test_kinds_that_a_sheet_does_not_take(self) -> None:
        self.assertIn("no run through the paths goes on for ever", text_of(make_page(sample("paths-as-loop"))))
        text = text_of(make_page(sample("settling-after-curve"), ("x", "y")))
        self.assertIn("Accepted. Once a run has settled, x is at least 0 before each step and falls by at least 1.", text)
        self.assertIn("The sheet’s line: 1 refused 4 4. A sheet’s text does not take kind 8", text)


class WhatAPageShows(unittest.TestCase):
    def page(self, loop: Loop, *certificates: object, **more: object) -> str:
        data = loop.to_bytes() + b"".join(one.to_bytes() for one in certificates)
        return text_of(make_page(data, **more))

    def test_a_ranking(self) -> None:
        text = self.page(P, S1, names=("x", "y"))
        for part in ("−x + y ≤ −2", "−x + y + x′ − y′ ≤ −1", "That is x − y ≥ 2.", "That is (x − y) − (x′ − y′) ≥ 1.",
                     "So x − y is at least 2 before each step and falls by at least 1."):
            self.assertIn(part, text)
        self.assertIn("−x1 + x2 ≤ −2", self.page(P, S1))

    def test_a_run_and_its_bound(self) -> None:
        page = make_page(P.to_bytes() + S1.to_bytes(), ("x", "y"), (8, 1))
        text = text_of(page)
        self.assertIn("a run from (8, 1) takes at most 6 steps.", text)
        self.assertIn("This run takes 6 steps. It is one of many", text)
        self.assertIn("At (2, 1) it ends, since row (1), −x + y ≤ −2, does not hold there.", text)
        self.assertIn("The values of x − y in this run: 7, 6, 5, 4, 3, 2, 1. start: 2.", text)
        self.assertEqual(page.html.count("<svg"), 1)

    def test_a_short_ranking_reads_as_a_ranking(self) -> None:
        text = text_of(make_page(P.to_bytes() + S1.to_bytes(short=True), ("x", "y"), (8, 1)))
        self.assertIn("So x − y is at least 2 before each step and falls by at least 1.", text)
        self.assertIn("takes at most 6 steps", text)

    def test_a_lasso(self) -> None:
        text = self.page(S10_LOOP, S10, names=("x", "y"), state=(5, 1))
        for part in ("The invariant is y − 1 ≥ 0.", "So y′ − 1 ≥ 0 after every step of the stem.",
                     "So y′ − 1 ≥ 0 after a step, if y − 1 ≥ 0 before it.", "That is x − x′ ≥ 1.", "at most 6 steps"):
            self.assertIn(part, text)
        text = self.page(S10_LOOP, S10, names=("x", "y"), state=(5, 0))
        self.assertIn("The checker tells no bound at (5, 0) (11): the state is outside the invariant of the lasso.", text)

    def test_an_exclusion_and_its_warning(self) -> None:
        text = self.page(S7_LOOP, S7, names=("x",))
        self.assertIn("The step goes from 3 to 4.", text)
        self.assertIn("This does not say that the loop runs for ever.", text)
        self.assertIn("from 3 it goes to 4, 2, 6 and −2, and there it ends", text)
        other = text_of(make_page(sample("s9")))
        self.assertIn("The step goes from 1/2 to 1/2.", other)
        self.assertIn("An example: the loop with the rows −x ≤ 0, 2x + x′ ≤ 10 and −2x − x′ ≤ −10", other)

    def test_a_settling(self) -> None:
        page = make_page(CURVE.to_bytes() + SETTLING.to_bytes(), ("x", "y"), (0, 5))
        text = text_of(page)
        self.assertIn("So −y grows by at least 1 in each step.", text)
        self.assertIn("at most 6 steps come before −y has reached 1", text)
        self.assertEqual(page.html.count("<svg"), 2)

    def test_refusals_show_the_two_numbers(self) -> None:
        text = self.page(P, Ranking((1, 0, 0), (0, 1, 0)), names=("x", "y"))
        self.assertIn("Refused: 22 at 1. (Y − Z)A is not 0 in column 1 (y).", text)
        self.assertIn("In the column of y the sum with Y is 1 and the sum with Z is 0.", text)
        marked = make_page(P.to_bytes() + Ranking((1, 0, 0), (0, 1, 0)).to_bytes(), ("x", "y")).html
        self.assertEqual(marked.count("<mark>"), 2)
        text = self.page(S7_LOOP, dataclasses.replace(S7, v=(-1,)), names=("x",))
        self.assertIn("Refused: 31 at 0. A·V + A′·U is above 0 in row 0, that is row (1).", text)
        self.assertIn("Row (1): the direction adds 1. It must add at most 0.", text)
        text = self.page(CURVE, dataclasses.replace(SETTLING, k=2), names=("x", "y"))
        self.assertIn("In the column of y the sum is −1. It must be −2, that is k times the entry of g, with k = 2.", text)
        swapped = dataclasses.replace(ARGUMENT, components=(ARGUMENT.components[0], dataclasses.replace(ARGUMENT.components[1], start=2)))
        text = self.page(DRAWN_ROWS, swapped)
        self.assertIn("in path 0, that is path 1.", text)
        self.assertIn("The right side of the sum is −1. It must be at most −2, that is −start of the component.", text)

    def test_malformed_records(self) -> None:
        text = text_of(make_page(P.to_bytes() + S1.to_bytes()[:-1]))
        self.assertIn("L is 14, so the record has 18 bytes. 17 are there.", text)
        paths = bytearray(DRAWN_ROWS.to_bytes())
        paths[8] = 9
        page = make_page(bytes(paths))
        self.assertEqual(page.disagreements, ())
        self.assertIn("The number of paths is 9. It must be 1 to 8.", text_of(page))
        text = text_of(make_page(b""))
        self.assertIn("Refused. loop, 1 at 0: the bytes end early. Nothing after it was judged.", text)
        long = bytearray(S1.to_bytes())
        long[6:8] = b"\xff\xff"
        self.assertIn("The multiplier Y of row 1 is 65 535. It must be 0 to 60 000.", text_of(make_page(P.to_bytes() + bytes(long))))

    def test_no_step_and_no_row(self) -> None:
        never = Loop(1, [Row((0,), (0,), -1)])
        self.assertIn("The rows contradict each other, so no pair of states is a step.", self.page(never, Ranking((0,), (1,))))
        self.assertIn("There are no rows, so every pair of states is a step.", self.page(Loop(1, ()), Ranking((), ())))
        self.assertIn("No certificate follows the loop", self.page(P))

    def test_names_are_escaped(self) -> None:
        page = make_page(P.to_bytes() + S1.to_bytes(), ("<b>&\"", "π2"), (8, 1), title='<b>"&\'.sheet')
        self.assertIn("<i>&lt;b&gt;&amp;&quot;</i> ", page.html)
        self.assertNotIn("<b", page.html.replace("<body", ""))
        self.assertIn('That is <b>&" − π2 ≥ 2.', text_of(page))

    def test_names_and_states_that_do_not_fit(self) -> None:
        for more in ({"names": ("x",)}, {"names": ("x", "x")}, {"state": (1,)}, {"state": (1, 1_000_001)}):
            self.assertRaises(ValueError, lambda: make_page(P.to_bytes() + S1.to_bytes(), **more))

    def test_the_largest_loop_with_a_state(self) -> None:
        data = sample("large-bound")
        page = make_page(data, tuple(f"v{i}" for i in range(16)), (1_000_000,) * 16)
        self.assertEqual(page.disagreements, ())


class Disagreement(unittest.TestCase):
    """A checker that tells something else than the page finds: the page says so in red."""

    def disagree(self, answer: object) -> str:
        with mock.patch.object(build, "judge_bytes", lambda *_, **__: answer):
            page = make_page(P.to_bytes() + S1.to_bytes())
        self.assertTrue(page.disagreements)
        self.assertIn('<p class="disagree">The page and the checker disagree: ', page.html)
        self.assertIn("they disagree, see the top of the page", page.html)
        ElementTree.fromstring(page.html)
        return page.disagreements[-1]

    def test_other_verdicts(self) -> None:
        self.disagree(Ranked((1, -1), 2, 2))
        self.disagree(Ranked((1, 1), 2, 1))
        self.disagree(Refusal(22, 1, Record.CERTIFICATE))
        self.disagree(Refusal(6, 6, Record.CERTIFICATE))
        self.disagree(Excluded(Grade.WHOLE))

    def test_a_lower_bound(self) -> None:
        told = running.bound_bytes

        def lower(*arguments: object) -> object:
            return dataclasses.replace(told(*arguments), bound=2)

        with mock.patch.object(running, "bound_bytes", lower):
            page = make_page(P.to_bytes() + S1.to_bytes(), state=(8, 1))
        self.assertIn("the page’s run takes 6 steps from (8, 1), and the checker’s bound is lower", page.disagreements[0])

    def test_another_sheet(self) -> None:
        with mock.patch.object(build, "sheet", lambda data: sheet(P.to_bytes() + Ranking((2, 0, 0), (0, 2, 2)).to_bytes())):
            page = make_page(P.to_bytes() + S1.to_bytes())
        self.assertIn("the sheet and judging tell different verdicts", page.disagreements[0])

    def test_none_without_reason(self) -> None:
        self.assertTrue(judge(P, S1).accepted)
        self.assertEqual(make_page(P.to_bytes() + S1.to_bytes()).disagreements, ())
