"""The sums and faults that a page works out itself, against the archive, on the samples and on the samples changed at random."""
import random
import unittest

from cushiedoo import Record, Refusal, Row, certificate_from_bytes, judge, loop_and_certificates, loop_from_bytes
from cushiedoo.faults import certificate_fault, loop_fault
from cushiedoo.runs import find_run, is_run
from cushiedoo.sums import disagreements

from .samples import ARGUMENT, CURVE, DRAWN_ROWS, P, S7_LOOP, SETTLING, names, sample


class AgainstTheArchive(unittest.TestCase):
    def compare(self, loop: bytes, certificate: bytes) -> int:
        """Compares what the page would say of two records with the archive's verdict, and gives the number of that."""
        verdict = judge(loop, certificate)
        refused = isinstance(verdict, Refusal)
        fault = loop_fault(loop)
        if refused and verdict.record is Record.LOOP:
            self.assertEqual((fault.number, fault.place), (verdict.number, verdict.place))
            return verdict.number
        self.assertIsNone(fault)
        read = loop_from_bytes(loop)
        fault = certificate_fault(certificate, read.shape)
        if refused and not verdict.is_condition:
            self.assertEqual((fault.number, fault.place), (verdict.number, verdict.place))
            self.assertEqual(certificate_from_bytes(certificate, read), verdict)
            return verdict.number
        self.assertIsNone(fault)
        self.assertEqual(list(disagreements(read, certificate_from_bytes(certificate, read), verdict)), [])
        return verdict.number if refused else 0

    def pairs(self) -> list[tuple[bytes, bytes]]:
        found = [(DRAWN_ROWS.to_bytes(), ARGUMENT.to_bytes()), (CURVE.to_bytes(), SETTLING.to_bytes())] * 10
        for name in names():
            if name not in ("longest", "too-long"):
                loop, certificates = loop_and_certificates(sample(name))
                found += [(loop, one) for one in certificates]
        return found

    def test_samples(self) -> None:
        numbers = {self.compare(loop, certificate) for loop, certificate in self.pairs()}
        self.assertLessEqual({0, 1, 3, 4, 5, 6, 15, 16, 21, 22, 23, 24, 31, 32, 41, 42, 43, 44, 45}, numbers)

    def test_samples_changed_at_random(self) -> None:
        chance, pairs, numbers = random.Random(1), self.pairs(), set()
        for _ in range(1500):
            both = [bytearray(one) for one in chance.choice(pairs)]
            for _ in range(chance.choice((1, 1, 2))):
                one = chance.choice((both[0], both[1], both[1]))
                if one:
                    place = chance.randrange(min(len(one), chance.choice((12, 40, 10_000))))
                    one[place] = chance.choice((0, 1, 2, 7, 8, 9, 17, 65, 255, chance.randrange(256)))
            if chance.random() < 0.1:
                both[1] = both[1][: chance.randrange(len(both[1]) + 1)] if both[1] else both[1]
            numbers.add(self.compare(bytes(both[0]), bytes(both[1])))
        self.assertLessEqual({0, 1, 2, 3, 4, 5, 6, 14, 21, 22, 51, 52, 53, 61}, numbers)

    def test_random_bytes(self) -> None:
        chance = random.Random(2)
        for _ in range(500):
            loop = chance.choice((P.to_bytes(), bytes(chance.choices(range(3), k=chance.randrange(40)))))
            self.compare(loop, bytes(chance.choices(range(256), k=chance.randrange(40))))


class Runs(unittest.TestCase):
    def test_the_run_of_s7(self) -> None:
        run = find_run(S7_LOOP.rows, (3,), (1,))
        self.assertEqual(run.states, ((3,), (4,), (2,), (6,), (-2,)))
        self.assertEqual(run.failing, 0)

    def test_a_run_that_goes_on(self) -> None:
        run = find_run([Row((-1,), (1,), 0)], (7,), (1,))
        self.assertTrue(run.open)
        self.assertEqual(run.steps, 60)

    def test_no_next_state(self) -> None:
        even = [Row((0,), (2,), 3), Row((0,), (-2,), -3)]  # 2x′ = 3
        run = find_run(even, (0,), (1,))
        self.assertEqual((run.steps, run.failing, run.open), (0, None, False))
        far = [Row((0,), (-1,), -1_000_001)]
        self.assertEqual(find_run(far, (0,), (1,)).steps, 0)

    def test_large_loops_take_little_time(self) -> None:
        chance = random.Random(3)
        for _ in range(3):
            rows = [
                Row(chance.choices(range(-9, 10), k=16), chance.choices(range(-9, 10), k=16), chance.randrange(1_000_000))
                for _ in range(64)
            ]
            run = find_run(rows, (0,) * 16, (1, -1) * 8)
            self.assertTrue(is_run(rows, run.states))

    def test_limits_that_move_by_one(self) -> None:
        rows = [Row((0, 0), (1, -1), -1), Row((0, 0), (-1, 1), -1)]  # x′ < y′ and y′ < x′
        self.assertEqual(find_run(rows, (0, 0), (1, 0)).steps, 0)
