"""Records to bytes and back. What is packed is judged."""
import dataclasses
import unittest

from cushiedoo import (
    Argument, Component, Exclusion, Lasso, Loop, Part, PathLoop, Ranking, Record, Refusal, Row, Settling, Shape, certificate_from_bytes,
    judge, lengthen, loop_from_bytes, shorten,
)

from .samples import ARGUMENT, CURVE, DRAWN_ROWS, P, PAIRS, S1, S7, S10, S10_LOOP, SETTLING, sample


def told(answer: object) -> tuple:
    """A refusal as numbers."""
    assert isinstance(answer, Refusal), answer
    return answer.number, answer.place, answer.record


class RoundTrips(unittest.TestCase):
    def test_every_kind_comes_back_and_is_accepted(self) -> None:
        for loop, certificate in PAIRS:
            with self.subTest(kind=certificate.kind):
                data, proof = loop.to_bytes(), certificate.to_bytes()
                self.assertEqual(loop_from_bytes(data), loop)
                self.assertEqual(certificate_from_bytes(proof, loop), certificate)
                self.assertTrue(judge(loop, certificate).accepted)
                self.assertEqual(judge(data, proof), judge(loop, certificate))

    def test_packed_bytes_are_those_of_the_format(self) -> None:
        self.assertEqual(DRAWN_ROWS.to_bytes() + ARGUMENT.to_bytes(), sample("paths-as-loop"))
        self.assertTrue(sample("settling-after-curve").startswith(CURVE.to_bytes() + SETTLING.to_bytes()))
        self.assertTrue(sample("p").startswith(P.to_bytes() + S1.to_bytes()))
        self.assertTrue(sample("s10-s11").startswith(S10_LOOP.to_bytes() + S10.to_bytes()))

    def test_short_rankings(self) -> None:
        short = S1.to_bytes(short=True)
        self.assertEqual(short[4], 7)
        self.assertEqual(lengthen(short, 2, 3), S1.to_bytes())
        self.assertEqual(shorten(S1.to_bytes(), 2, 3), short)
        self.assertEqual(judge(P.to_bytes(), short), judge(P, S1))
        self.assertEqual(Ranking.from_bytes(short, P), S1)
        self.assertEqual(told(lengthen(S1.to_bytes(), 2, 3)), (4, 4, Record.CERTIFICATE))
        self.assertEqual(told(shorten(short, 2, 65)), (4, 4, Record.CERTIFICATE))
        self.assertEqual(told(lengthen(short, 2, 2)), (15, 20, Record.CERTIFICATE))

    def test_the_largest_and_the_least(self) -> None:
        for n, m in ((1, 0), (16, 64), (16, 0), (1, 64)):
            loop = Loop(n, [Row((30_000,) * n, (-30_000,) * n, 2_000_000_000)] * m)
            for certificate in (
                Ranking((60_000,) * m, (0,) * m),
                Exclusion(60_000, (-60_000,) * n, (60_000,) * n, (0,) * n),
                Lasso((), (-30_000,) * n, -2_000_000_000, 1, (), 60_000, (1,) * m, 0, (0,) * (m + 1), (1,) * (m + 1)),
                Settling((30_000,) * n, -2_000_000_000, 60_000, (2,) * m, (0,) * (m + 1), (60_000,) * (m + 1)),
            ):
                with self.subTest(n=n, m=m, kind=certificate.kind):
                    self.assertEqual(certificate_from_bytes(certificate.to_bytes(), loop), certificate)
                    verdict = judge(loop, certificate)
                    self.assertTrue(verdict.accepted or verdict.is_condition, verdict)
        paths = PathLoop(16, [[Row((1,) * 16, (0,) * 16, 0)] * 64] * 8)
        parts = [Part(c, (1,) * 64, (2,) * 64, ((3,) * 64,) * c) for c in range(8)]
        argument = Argument([Component((60_000,) * 16, 2_000_000_000, 1_000_000)] * 8, parts)
        self.assertEqual(PathLoop.from_bytes(paths.to_bytes()), paths)
        self.assertEqual(Argument.from_bytes(argument.to_bytes(), paths), argument)
        self.assertEqual(told(judge(paths, argument)), (51, 0, Record.CERTIFICATE))


class OutOfRange(unittest.TestCase):
    def test_the_writer_refuses(self) -> None:
        row = Row((0,), (0,), 0)
        self.assertEqual(told(Loop(17, ()).to_bytes()), (5, 6, Record.LOOP))
        self.assertEqual(told(Loop(0, ()).to_bytes()), (5, 6, Record.LOOP))
        self.assertEqual(told(Loop(-1, ()).to_bytes()), (5, 6, Record.LOOP))
        self.assertEqual(told(Loop(1, [row] * 65).to_bytes()), (5, 8, Record.LOOP))
        self.assertEqual(told(Loop(1, [Row((30_001,), (0,), 0)]).to_bytes()), (6, 10, Record.LOOP))
        self.assertEqual(told(Ranking((0,), (60_001,)).to_bytes()), (6, 8, Record.CERTIFICATE))
        self.assertEqual(told(Ranking((-1,), (0,)).to_bytes()), (6, 6, Record.CERTIFICATE))
        self.assertEqual(told(Exclusion(0, (0,), (0,), (0,)).to_bytes()), (6, 6, Record.CERTIFICATE))

    def test_no_number_is_cut(self) -> None:
        for huge in (2**16, 2**31, 2**63, 2**64, 2**64 + 1, 2**200, -(2**63) - 1, -(2**64), -(2**200)):
            self.assertEqual(told(Loop(1, [Row((huge,), (0,), 0)]).to_bytes()), (6, 10, Record.LOOP))
            self.assertEqual(told(Ranking((huge,), (0,)).to_bytes()), (6, 6, Record.CERTIFICATE))
            self.assertEqual(told(PathLoop(1, [[Row((huge,), (0,), 0)]]).to_bytes()), (6, 12, Record.LOOP))
            settling = dataclasses.replace(SETTLING, k=huge)
            self.assertEqual(told(settling.to_bytes()), (6, 14, Record.CERTIFICATE))
            argument = Argument([Component((huge,), 0, 1)], [Part(0, (), ())])
            self.assertEqual(told(argument.to_bytes()), (6, 10, Record.CERTIFICATE))

    def test_packed_kinds_are_refused_by_the_archive(self) -> None:
        row = Row((0,), (0,), 0)
        self.assertEqual(told(PathLoop(17, [()]).to_bytes()), (5, 6, Record.LOOP))
        self.assertEqual(told(PathLoop(1, [()] * 9).to_bytes()), (5, 8, Record.LOOP))
        self.assertEqual(told(PathLoop(1, [(), [row] * 65]).to_bytes()), (5, 12, Record.LOOP))
        component = Component((1,), 0, 1)
        self.assertEqual(told(Argument([component] * 9, [Part(0, (), ())]).to_bytes()), (5, 6, Record.CERTIFICATE))
        self.assertEqual(told(Argument([component], [Part(1, (), (), ((),))]).to_bytes()), (14, 8, Record.CERTIFICATE))
        self.assertEqual(told(Argument([component], [Part(0, (0,) * 65, (0,) * 65)]).to_bytes()), (5, 0, Record.CERTIFICATE))
        self.assertEqual(told(dataclasses.replace(SETTLING, k=0).to_bytes()), (6, 14, Record.CERTIFICATE))
        self.assertEqual(told(dataclasses.replace(SETTLING, t=2_000_000_001).to_bytes()), (6, 10, Record.CERTIFICATE))
        self.assertEqual(told(dataclasses.replace(SETTLING, g=(0, 30_001)).to_bytes()), (6, 8, Record.CERTIFICATE))

    def test_readers_refuse(self) -> None:
        self.assertEqual(told(Loop.from_bytes(b"")), (1, 0, Record.LOOP))
        self.assertEqual(told(Loop.from_bytes(P.to_bytes() + b"\n")), (2, 46, Record.LOOP))
        self.assertEqual(told(Loop.from_bytes(DRAWN_ROWS.to_bytes())), (4, 4, Record.LOOP))
        self.assertEqual(told(PathLoop.from_bytes(P.to_bytes())), (4, 4, Record.LOOP))
        self.assertEqual(told(PathLoop.from_bytes(DRAWN_ROWS.to_bytes()[:-1])), (1, 97, Record.LOOP))
        self.assertEqual(told(Ranking.from_bytes(S7.to_bytes(), Shape(1, (3,)))), (4, 4, Record.CERTIFICATE))
        self.assertEqual(told(Exclusion.from_bytes(S1.to_bytes(), P)), (4, 4, Record.CERTIFICATE))
        self.assertEqual(told(Lasso.from_bytes(S1.to_bytes(), P)), (4, 4, Record.CERTIFICATE))
        self.assertEqual(told(Settling.from_bytes(S1.to_bytes(), P)), (4, 4, Record.CERTIFICATE))
        self.assertEqual(told(Settling.from_bytes(SETTLING.to_bytes(), P)), (3, 0, Record.CERTIFICATE))
        self.assertEqual(told(Argument.from_bytes(S1.to_bytes(), DRAWN_ROWS)), (4, 4, Record.CERTIFICATE))


class Shapes(unittest.TestCase):
    def test_lists_that_do_not_fit_each_other(self) -> None:
        for make in (
            lambda: Row((1, 2), (3,), 0),
            lambda: Loop(2, [Row((1,), (1,), 0)]),
            lambda: Loop(2, [], names=("x",)),
            lambda: Loop(2, [], names=("x", "x")),
            lambda: Ranking((1,), ()),
            lambda: Exclusion(1, (1,), (1, 2), (1,)),
            lambda: dataclasses.replace(S10, t=()),
            lambda: dataclasses.replace(S10, y=(1, 0, 0)),
            lambda: dataclasses.replace(SETTLING, e=(1,)),
            lambda: Part(1, (1,), (1,)),
            lambda: Part(0, (1,), (1, 2)),
            lambda: Argument([Component((1,), 0, 1), Component((1, 2), 0, 1)], []),
        ):
            self.assertRaises(ValueError, make)
        self.assertRaises(TypeError, lambda: Ranking((1.5,), (0,)))  # type: ignore[arg-type]

    def test_a_certificate_for_another_loop(self) -> None:
        self.assertEqual(told(judge(P, Ranking((1, 0), (0, 1)))), (3, 0, Record.CERTIFICATE))
        self.assertEqual(told(judge(DRAWN_ROWS, S1)), (4, 4, Record.CERTIFICATE))
        # Both have an L of 26, so the one would be read as the other.
        loop = Loop(1, [Row((0,), (0,), 0)])
        other = Settling((0, 0, 0, 0), 0, 1, (), (1,), (1,))
        self.assertEqual(len(other.to_bytes()), len(Settling((0,), 0, 1, (0,), (0, 0), (0, 0)).to_bytes()))
        with self.assertRaisesRegex(ValueError, "made for 4 variables and 0 rows, and the loop has 1 variable and 1 row"):
            judge(loop, other)
