"""Several certificates at once: records end to end, and lists of records, against judging one by one."""
import dataclasses
import random
import unittest
from unittest import mock

from cushiedoo import (
    MOST_RECORDS, Loop, Ranked, Ranking, Record, Refusal, Refused, Row, Settling, calls, expect, judge, judge_all, judge_list,
    library, loop_and_certificates, parted,
)
from cushiedoo.refusals import Where

from .samples import CURVE, DRAWN_ROWS, P, PAIRS, S1, S7, S10_LOOP, SETTLING, names, sample

SECOND = Ranking((1, 0, 0), (0, 1, 0))  # the second certificate of the sheet of P
S2 = Ranking((2, 0, 0), (0, 2, 2))
LOOP, GOOD = P.to_bytes(), S1.to_bytes()
ACCEPTED = Ranked((1, -1), 2, 1)


def refused(number: int, place: int) -> Refusal:
    """A refusal of a certificate."""
    return Refusal(number, place, Record.CERTIFICATE)


def one_by_one(loop: object, records: object) -> tuple:
    """The verdicts of judging."""
    return tuple(judge(loop, record) for record in records)


def with_length(length: int) -> bytes:
    """S1 with another L, which is 14."""
    return bytes([length]) + GOOD[1:]


class EndToEnd(unittest.TestCase):
    def test_four_certificates_of_p(self) -> None:
        four = (S1, SECOND, S2, S7)  # the last is for a loop over one variable
        expected = (ACCEPTED, refused(22, 1), Ranked((2, -2), 4, 2), refused(3, 0))
        records = [one.to_bytes() for one in four]
        data = b"".join(records)
        self.assertEqual(len(data), 74)
        for loop in (P, LOOP, bytearray(LOOP), memoryview(LOOP)):
            for bytes_of_them in (data, bytearray(data), memoryview(data)):
                self.assertEqual(judge_all(loop, bytes_of_them), expected)
            self.assertEqual(judge_list(loop, four), expected)
            self.assertEqual(judge_list(loop, records), expected)
        self.assertEqual(one_by_one(P, four), expected)
        for told in (judge_all(P, data), judge_list(P, four)):
            self.assertEqual(str(told[1]), "certificate, 22 at 1: (Y − Z)A is not 0 in column 1 (y)")
            self.assertEqual(str(told[2]), "ranking accepted: 2x − 2y is at least 4 before each step and falls by at least 2 in it")

    def test_none_and_32_at_the_most(self) -> None:
        self.assertEqual(judge_all(P, b""), ())
        self.assertEqual(judge_all(P, GOOD), (ACCEPTED,))
        self.assertEqual(MOST_RECORDS, 32)
        self.assertEqual(judge_all(P, 32 * GOOD), (ACCEPTED,) * 32)
        for more, count in ((33 * GOOD, 33), (40 * GOOD, 40), (32 * GOOD + b"\n", 33)):
            refusal = judge_all(P, more)
            self.assertEqual(refusal, Refusal(13, count))
            self.assertEqual(str(refusal), f"13 at {count}: there are more than 32 records, {count} in all")
            self.assertIs(refusal.where, Where.RECORDS)
        self.assertEqual(expect(judge_all(P, GOOD)), (ACCEPTED,))
        self.assertRaisesRegex(Refused, "^13 at 33: there are more", expect, judge_all(P, 33 * GOOD))

    def test_how_bytes_are_parted(self) -> None:
        self.assertEqual(judge_all(P, GOOD + GOOD[:-1]), (ACCEPTED, refused(1, 17)))
        self.assertEqual(judge_all(P, GOOD + bytes(4) + GOOD), (ACCEPTED, refused(3, 0)))
        self.assertEqual(judge_all(P, with_length(15) + GOOD), (refused(3, 0), refused(1, 17)))
        self.assertEqual(judge_all(P, GOOD + b"\n"), (ACCEPTED, refused(1, 1)))

    def test_a_refused_loop(self) -> None:
        far = Loop(1, [Row((30_001,), (0,), 0)], names=("x",))
        for loop, number, place in ((b"", 1, 0), (LOOP[:-1], 1, 45), (LOOP + b"\n", 2, 46), (GOOD, 4, 4), (far, 6, 10)):
            for records in (b"", GOOD, GOOD[:-1], 33 * GOOD):
                self.assertEqual(judge_all(loop, records), Refusal(number, place, Record.LOOP))
        self.assertEqual(str(judge_all(LOOP[:-1], GOOD)), "loop, 1 at 45: the bytes end early")

    def test_every_kind_with_every_loop(self) -> None:
        records = [one.to_bytes() for _, one in PAIRS] + [S1.to_bytes(short=True), SECOND.to_bytes(), LOOP, DRAWN_ROWS.to_bytes()]
        outcomes = set()
        for loop, _ in PAIRS:
            for again in range(3):
                random.Random(again).shuffle(records)
                told = judge_all(loop, b"".join(records))
                self.assertEqual(told, one_by_one(loop.to_bytes(), records))
                outcomes |= {verdict.outcome for verdict in told if verdict.accepted}
        self.assertEqual(outcomes, {2, 3, 4, 6, 8})

    def test_the_largest_loop(self) -> None:
        loop = Loop(16, [Row((-1,) + (0,) * 15, (0,) * 16, 0)] * 63 + [Row((-1,) + (0,) * 15, (1,) + (0,) * 15, -1)])
        rankings = [Ranking((0,) * i + (1,) + (0,) * (63 - i), (0,) * 63 + (1,)) for i in range(32)]
        rankings[5] = Ranking((2,) + (0,) * 63, (0,) * 63 + (2,))
        told = judge_all(loop, b"".join(one.to_bytes() for one in rankings))
        self.assertEqual(told, one_by_one(loop, rankings))
        self.assertEqual([verdict.rank[0] for verdict in told], [1] * 5 + [2] + [1] * 26)


class Lists(unittest.TestCase):
    def test_none_and_many(self) -> None:
        self.assertEqual(judge_list(P, []), ())
        for count, batches in ((1, 1), (32, 1), (33, 2), (64, 2), (75, 3)):
            with mock.patch.object(calls, "judge_all_bytes", wraps=calls.judge_all_bytes) as counted:
                self.assertEqual(judge_list(P, (S1 for _ in range(count))), (ACCEPTED,) * count)
            self.assertEqual(counted.call_count, batches)

    def test_each_record_has_its_own_verdict(self) -> None:
        strays = [b"", b"\x0e", GOOD[:4], GOOD[:5], GOOD[:17], GOOD + b"\0", 2 * GOOD, bytes(4), b"\xff" * 18]
        strays += map(with_length, (0, 1, 2, 13, 15, 255))
        for stray in strays:
            with self.subTest(stray=stray):
                around = [GOOD, stray, GOOD, stray, stray]
                expected = one_by_one(P, around)
                self.assertEqual((expected[0], expected[2]), (ACCEPTED, ACCEPTED))
                self.assertFalse(expected[1])
                self.assertEqual(judge_list(P, around), expected)
                self.assertEqual(judge_list(P, [stray]), expected[1:2])
                self.assertNotEqual(judge_all(P, b"".join(around)), expected)
        many = [GOOD] * 40 + strays + [S2] * 75
        self.assertEqual(judge_list(P, many), one_by_one(P, many))

    def test_records_that_cannot_be_packed(self) -> None:
        for loop, good, bad, fault in (
            (P, S1, Ranking((60_001, 0, 0), (0, 1, 1)), refused(6, 6)),
            (CURVE, SETTLING, dataclasses.replace(SETTLING, k=0), refused(6, 14)),
        ):
            accepted = judge(loop, good)
            self.assertTrue(accepted)
            self.assertEqual(judge_list(loop, [good, bad, good, bad]), (accepted, fault, accepted, fault))
            self.assertEqual(judge_list(loop, [bad]), (judge(loop, bad),))

    def test_a_certificate_for_another_loop(self) -> None:
        self.assertEqual(judge_list(P, [S1, Ranking((1, 0), (0, 1)), S7]), (ACCEPTED, refused(3, 0), refused(3, 0)))
        # Both have an L of 26, so the one would be read as the other.
        loop = Loop(1, [Row((0,), (0,), 0)])
        other = Settling((0, 0, 0, 0), 0, 1, (), (1,), (1,))
        with self.assertRaisesRegex(ValueError, "the certificate at index 1 was made for 4 variables and 0 rows, and the loop"):
            judge_list(loop, [Ranking((0,), (0,)), other])

    def test_a_refused_loop(self) -> None:
        for loop in (b"", GOOD, LOOP[:-1], Loop(1, [Row((30_001,), (0,), 0)])):
            for records in ([], [b""], [S1], [Ranking((60_001,), (0,))], [GOOD] * 40):
                refusal = judge_list(loop, records)
                self.assertIsInstance(refusal, Refusal)
                self.assertEqual(refusal, judge(loop, GOOD))
                self.assertIs(refusal.record, Record.LOOP)

    def test_bytes_are_no_list_and_a_list_is_no_bytes(self) -> None:
        for data in (GOOD, bytearray(GOOD), memoryview(GOOD)):
            self.assertRaisesRegex(TypeError, "judge_all takes the bytes", judge_list, P, data)
        for listed in ([GOOD], (S1,), S1, list(GOOD), 5, "text"):
            self.assertRaisesRegex(TypeError, "judge_list takes a list", judge_all, P, listed)


class AgainstJudging(unittest.TestCase):
    def compare(self, loop: bytes, records: list) -> None:
        """Compares a list, and its records end to end, with judging one by one."""
        expected, laid = one_by_one(loop, records), b"".join(records)
        pieces = parted(laid)
        sound = judge_all(loop, b"")
        if isinstance(sound, Refusal):
            self.assertEqual((judge_list(loop, records), judge_all(loop, laid)), (sound, sound))
            self.assertEqual(set(expected), {sound} if records else set())
            return
        self.assertEqual(judge_list(loop, records), expected)
        together = one_by_one(loop, pieces) if len(pieces) <= 32 else Refusal(13, len(pieces))
        self.assertEqual(judge_all(loop, laid), together)

    def test_samples(self) -> None:
        for name in names():
            if name != "too-long":
                with self.subTest(sample=name):
                    loop, certificates = loop_and_certificates(sample(name))
                    self.compare(loop, certificates)
                    self.compare(loop, certificates[:32])

    def test_records_changed_at_random(self) -> None:
        chance = random.Random(4)
        records = [one.to_bytes() for _, one in PAIRS] + [S1.to_bytes(short=True), SECOND.to_bytes(), S2.to_bytes()]
        for _ in range(150):
            loop = bytearray(chance.choice((P, P, S10_LOOP, CURVE, DRAWN_ROWS)).to_bytes())
            if chance.random() < 0.1:
                loop[chance.randrange(len(loop))] = chance.randrange(256)
            listed = []
            for _ in range(chance.choice((0, 1, 2, 5, 31, 32, 33, 40))):
                one = bytearray(chance.choice(records))
                if chance.random() < 0.1:
                    one[chance.choice((0, 4, 6, chance.randrange(len(one))))] = chance.choice((0, 1, 7, 13, 255))
                if chance.random() < 0.03:
                    one = one[: chance.randrange(len(one))]
                listed.append(bytes(one))
            self.compare(bytes(loop), listed)


class Rooms(unittest.TestCase):
    """The call itself, with rooms that the package does not lend."""

    def call(self, verdicts: int, numbers: int) -> tuple:
        """Three records for P: the answer, the verdicts' row and the rank numbers, which held 99 and 9 before."""
        row, (ranks, _) = library.row(verdicts), library.numbers((9,) * numbers)
        for one in row:
            one.number = 99
        answer = library.library().cushiedoo_judge_all(LOOP, len(LOOP), 3 * GOOD, 3 * len(GOOD), row, verdicts, ranks, numbers)
        return (answer.number, answer.place, answer.record, answer.count), [one.number for one in row], list(ranks[:numbers])

    def test_too_little_room_changes_nothing(self) -> None:
        for verdicts, numbers, place in ((2, 5, 3), (2, 6, 3), (3, 5, 6), (3, 0, 6)):
            self.assertEqual(self.call(verdicts, numbers), ((7, place, 0, 0), [99] * verdicts, [9] * numbers))
        self.assertEqual(str(Refusal(7, 6)), "7 at 6: the room is too small, 6 needed")

    def test_what_is_left_over_stays(self) -> None:
        self.assertEqual(self.call(3, 6), ((0, 0, 0, 3), [0] * 3, [1, -1] * 3))
        self.assertEqual(self.call(5, 8), ((0, 0, 0, 3), [0] * 3 + [99] * 2, [1, -1] * 3 + [9] * 2))
