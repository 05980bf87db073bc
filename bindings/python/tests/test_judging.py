"""Verdicts, bounds and sheets: the paper's samples, and how refusals print."""
import dataclasses
import unittest

from cushiedoo import (
    Bounded, Excluded, Exclusion, Grade, LassoRanked, Loop, Ordered, Outcome, Ranked, Ranking, Record, Refusal, Refused, Row, Settled,
    bound, expect, judge, loop_and_certificates, parted, sheet, words,
)
from cushiedoo.refusals import MEANINGS, Where

from .samples import ARGUMENT, CURVE, DRAWN_ROWS, P, S1, S7, S7_LOOP, S10, S10_LOOP, SETTLING, names, sample


class ThePapersSamples(unittest.TestCase):
    def test_rankings(self) -> None:
        self.assertEqual(judge(P, S1), Ranked((1, -1), 2, 1))
        self.assertEqual(judge(P, Ranking((2, 0, 0), (0, 2, 2))), Ranked((2, -2), 4, 2))
        self.assertEqual(judge(P, Ranking((0, 0, 0), (0, 0, 0))), Refusal(24, 0, Record.CERTIFICATE))
        for state, steps in (((5, 1), 3), ((3, 1), 1), ((2, 1), 0)):
            self.assertEqual(bound(P, S1, state), Bounded(Outcome.RANKING, 2, 1, steps))
        two = Loop(1, [Row((-1,), (0,), 0), Row((-1,), (1,), -2)])
        falling = Ranking((1, 0), (0, 1))
        self.assertEqual([expect(bound(two, falling, (x,))).bound for x in (-1, 0, 1, 2)], [0, 1, 1, 2])
        never = Loop(1, [Row((0,), (0,), -1)])
        self.assertEqual(judge(never, Ranking((0,), (1,))), Ranked((0,), 0, 1))
        self.assertEqual(expect(bound(never, Ranking((0,), (1,)), (-1_000_000,))).bound, 1)

    def test_exclusions(self) -> None:
        self.assertEqual(judge(S7_LOOP, S7), Excluded(Grade.WHOLE))
        self.assertEqual(judge(S7_LOOP, Exclusion(2, (-4,), (2,), (8,))), Excluded(Grade.WHOLE))
        half = Loop(1, [Row((2,), (0,), 1), Row((-2,), (0,), -1), Row((-1,), (1,), 0), Row((1,), (-1,), 0)])
        self.assertEqual(judge(half, Exclusion(2, (0,), (0,), (1,))), Excluded(Grade.FRACTIONS))
        free = Loop(1, ())
        self.assertEqual(judge(free, Exclusion(1, (0,), (0,), (0,))), Excluded(Grade.WHOLE))
        self.assertEqual(judge(free, Ranking((), ())), Refusal(24, 0, Record.CERTIFICATE))
        self.assertEqual(bound(S7_LOOP, S7, (3,)), Refusal(4, 4, Record.CERTIFICATE))

    def test_lassos(self) -> None:
        self.assertEqual(judge(S10_LOOP, S10), LassoRanked((1, 0), 0, 1))
        self.assertEqual(expect(bound(S10_LOOP, S10, (5, 1))).bound, 6)
        self.assertEqual(bound(S10_LOOP, S10, (5, 0)), Refusal(11, 0, Record.CERTIFICATE))

    def test_later_kinds(self) -> None:
        self.assertEqual(judge(DRAWN_ROWS, ARGUMENT), Ordered())
        self.assertEqual(judge(CURVE, SETTLING), Settled((1, 0), 0, 1))
        self.assertEqual(bound(CURVE, SETTLING, (0, 5)), Bounded(Outcome.SETTLING, 0, 1, 6))
        self.assertEqual(expect(bound(CURVE, SETTLING, (3, -2))).bound, 0)
        self.assertEqual(judge(CURVE, dataclasses.replace(SETTLING, k=2)), Refusal(61, 1, Record.CERTIFICATE))
        self.assertEqual(judge(CURVE, dataclasses.replace(SETTLING, t=0)), Refusal(24, 0, Record.CERTIFICATE))
        self.assertEqual(bound(DRAWN_ROWS, ARGUMENT, (1, 1)), Refusal(4, 4, Record.LOOP))

    def test_states(self) -> None:
        self.assertEqual(bound(P, S1, ()), Refusal(10, 0))
        self.assertEqual(bound(P, S1, (1, 2, 3)), Refusal(10, 3))
        for far in (1_000_001, 2**64 + 5, -(2**64) - 5):
            self.assertEqual(bound(P, S1, (0, far)), Refusal(9, 1))


class InWords(unittest.TestCase):
    def test_a_refusal_is_no_exception_unless_asked_for(self) -> None:
        refusal = judge(P, Ranking((1, 0, 0), (0, 1, 0)))
        self.assertIsInstance(refusal, Refusal)
        self.assertFalse(refusal)
        self.assertTrue(judge(P, S1))
        self.assertEqual(str(refusal), "certificate, 22 at 1: (Y − Z)A is not 0 in column 1 (y)")
        with self.assertRaises(Refused) as caught:
            refusal.expect()
        self.assertEqual(caught.exception.refusal, refusal)
        self.assertEqual(judge(P, S1).expect(), judge(P, S1))

    def test_every_number_has_words_and_no_hyphen(self) -> None:
        for number in MEANINGS:
            text = str(Refusal(number, 3, Record.CERTIFICATE))
            self.assertRegex(text, rf"^certificate, {number} at 3: \S")
            self.assertNotIn("-", text)
        self.assertIn("does not know", str(Refusal(99, 0)))
        self.assertIs(Refusal(99, 0).where, Where.NOTHING)

    def test_accepted_verdicts(self) -> None:
        self.assertIn("after a step of the stem", str(judge(S10_LOOP, S10)))
        self.assertIn("may end all the same", str(judge(S7_LOOP, S7)))
        self.assertIn("goes on for ever", str(judge(DRAWN_ROWS, ARGUMENT)))
        self.assertIn("once settled", str(judge(CURVE, SETTLING)))
        self.assertEqual(str(bound(CURVE, SETTLING, (0, 5))), "at most 6 steps before it has settled")


class Sheets(unittest.TestCase):
    def test_lines_and_certificates(self) -> None:
        for name in names():
            data = sample(name)
            with self.subTest(sample=name):
                answer = sheet(data)
                loop, certificates = loop_and_certificates(data)
                self.assertEqual(answer.too_long, len(data) > 65_536)
                if isinstance(answer.loop, Refusal) or answer.loop is None:
                    self.assertEqual(answer.verdicts, ())
                    continue
                self.assertEqual(len(answer.verdicts), len(certificates))
                for line, one in zip(answer.verdicts, certificates):
                    if int.from_bytes(one[4:6], "little") in (2, 3, 4):
                        self.assertEqual(line, judge(loop, one))

    def test_words(self) -> None:
        told = list(words(sample("p"), ("x", "y")))
        self.assertEqual(told[2], "2: refused: certificate, 22 at 1: (Y − Z)A is not 0 in column 1 (y)")
        self.assertIn("kind 5", list(words(sample("paths-as-loop")))[0])
        self.assertIn("judged by itself: settling accepted", list(words(sample("settling-after-curve")))[1])
        self.assertEqual(len(list(words(sample("too-long")))), 1)
        self.assertEqual(list(words(b"")), ["refused: loop, 1 at 0: the bytes end early"])
        for name in names():
            self.assertEqual(len(list(words(sample(name)))), len(sheet(sample(name)).lines), name)

    def test_words_of_many_certificates(self) -> None:
        rankings = [Ranking((k, 0, 0), (0, k, k if k % 3 else 0)) for k in range(1, 71)]  # every third is refused
        told = list(words(P.to_bytes() + b"".join(one.to_bytes() for one in rankings), ("x", "y")))
        for count, verdict in enumerate((judge(P, one) for one in rankings), 1):
            self.assertEqual(told[count], f"{count}: {'' if verdict else 'refused: '}{verdict}")
            self.assertEqual(bool(verdict), count % 3 > 0)

    def test_parting(self) -> None:
        self.assertEqual(parted(b""), [])
        self.assertEqual(loop_and_certificates(b""), (b"", []))
        self.assertEqual(loop_and_certificates(P.to_bytes() + b"\n"), (P.to_bytes(), [b"\n"]))
        self.assertEqual(sheet(P.to_bytes() + b"\n").text, "loop 2 3\n1 refused 1 1\n")
        self.assertEqual(parted(bytes(4) + S1.to_bytes()), [bytes(4) + S1.to_bytes()])
        self.assertEqual(parted(b"\xff\xff\xff\xff\x02\x00"), [b"\xff\xff\xff\xff\x02\x00"])
        self.assertEqual(sheet(b"\x01" * 65_536).text, "loop refused 1 65536\n")
        self.assertEqual(sheet(b"\x01" * 65_537).text, "input too long\n")
