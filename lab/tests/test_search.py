"""Suprema, infima and thresholds against values by hand."""

import unittest
from fractions import Fraction
from unittest import mock

import plift_lab
from plift_lab.program import Program
from plift_lab.regions import Region

from .helpers import LINKS, RETRY


def lost(p: Fraction, q: Fraction) -> Fraction:
    """What examples/links.drn loses: four attempts over two links."""
    total = Fraction(0)
    for first in range(1, 5):  # the first link succeeds at this attempt
        total += p ** (first - 1) * (1 - p) * q ** (4 - first)
    return total + p**4


class Bounds(unittest.TestCase):
    def test_hull(self) -> None:
        found = plift_lab.bounds(RETRY, 'lost', 'p=1/10..3/10,q=1/20..1/5')
        self.assertEqual(
            (found.sup.most, found.inf.least, found.precision),
            (Fraction(14843406975, 549755813888), Fraction(1099511627, 1099511627776), 40),
        )

    def test_width(self) -> None:
        width = Fraction(1, 1000)
        found = plift_lab.bounds(LINKS, 'lost', 'p=1/10..1/2,q=1/10..1/2', width)
        half, tenth = Fraction(1, 2), Fraction(1, 10)
        for side, value in ((found.sup, lost(half, half)), (found.inf, lost(tenth, tenth))):
            self.assertLessEqual(side.most - side.least, width)
            self.assertTrue(side.least <= value <= side.most)
            self.assertEqual(sum(share(region) for region, _ in side.cover), 1)
            self.assertFalse(side.is_short)
        self.assertTrue(all(end.value <= found.sup.most for _, end in found.sup.cover))
        self.assertTrue(all(end.value >= found.inf.least for _, end in found.inf.cover))

    def test_inside(self) -> None:
        """p (1 - p), which is greatest in the middle: 1/4 at p = 1/2."""
        model = (
            b'@type: DTMC\n@parameters\np\n@model\nstate 0 init\n1 : p\n2 : 1-p\nstate 1\n2 : p\n3 : 1-p\n'
            b'state 2\n2 : 1\nstate 3 both\n3 : 1\n'
        )
        found = plift_lab.bounds(model, 'both', 'p=1/10..9/10', '1/100')
        self.assertTrue(found.sup.least <= Fraction(1, 4) <= found.sup.most)
        self.assertTrue(found.inf.least <= Fraction(9, 100) <= found.inf.most)
        self.assertLessEqual(found.sup.most - found.sup.least, Fraction(1, 100))

    def test_stops_at_its_calls(self) -> None:
        for calls in (2, 3, 5, 8):
            found = plift_lab.bounds(LINKS, 'lost', 'p=1/10..1/2,q=1/10..1/2', '1e-9', calls=calls)
            self.assertTrue(found.sup.is_short and found.inf.is_short)
            self.assertEqual({found.sup.short, found.inf.short}, {'calls'})
            self.assertLessEqual(found.calls, calls)
            half, tenth = Fraction(1, 2), Fraction(1, 10)
            self.assertTrue(found.sup.least <= lost(half, half) <= found.sup.most)
            self.assertTrue(found.inf.least <= lost(tenth, tenth) <= found.inf.most)

    def test_calls_are_starts(self) -> None:
        """As many as are told are counted."""
        with mock.patch.object(Program, 'verify', autospec=True, side_effect=Program.verify) as started:
            found = plift_lab.bounds(LINKS, 'lost', 'p=1/10..1/2,q=1/10..1/2', '1e-3')
        self.assertEqual(started.call_count, found.calls)
        self.assertLess(found.calls, 30)

    def test_a_width_below_rounding(self) -> None:
        found = plift_lab.bounds(str(RETRY), 'lost', 'p=1/10..3/10,q=1/20', '1e-14', precision=8)
        self.assertEqual((found.sup.short, found.sup.rounding > 0), ('rounding', True))
        self.assertLess(found.calls, 30)
        self.assertLessEqual(found.sup.least, Fraction(27, 1000))
        self.assertGreaterEqual(found.sup.most, Fraction(27, 1000))

    def test_unreachable(self) -> None:
        found = plift_lab.bounds(
            b'@type: DTMC\n@model\nstate 0 init\n0 : 1\nstate 1 goal\n1 : 1\n', 'goal', width='1e-6'
        )
        self.assertEqual((found.sup.most, found.inf.least), (0, 0))


def share(region: Region) -> Fraction:
    """Of the unit that the tests' regions of two sides of 2/5 have."""
    volume = Fraction(1)
    for _, low, high in region.intervals:
        volume *= (high - low) / Fraction(2, 5)
    return volume


class Threshold(unittest.TestCase):
    def test_greatest(self) -> None:
        edge = plift_lab.threshold(LINKS, 'lost', '1/20', 'p', 'p=1/10..1/2,q=1/10..1/5', '1e-5')
        fifth = Fraction(1, 5)
        self.assertLessEqual(lost(edge.good, fifth), Fraction(1, 20))
        self.assertGreater(lost(edge.limit, fifth), Fraction(1, 20))
        self.assertLess(edge.limit - edge.good, Fraction(1, 10**4))
        self.assertEqual((edge.inside.verdict, edge.inside.region['p']), ('accepted', (Fraction(1, 10), edge.good)))

    def test_few_starts(self) -> None:
        """Points are asked, and the region only where they say."""
        with mock.patch.object(Program, 'verify', autospec=True, side_effect=Program.verify) as started:
            edge = plift_lab.threshold(LINKS, 'lost', '1/20', 'p', 'p=1/10..1/2,q=1/10..1/5', '1e-5')
        self.assertLess(started.call_count, 35)
        self.assertEqual(edge.outside.origin.fixed['q'], Fraction(1, 5))

    def test_where_the_worst_point_changes(self) -> None:
        """p q + (1 - p) (1 - q) over q from 0 to 1: at most max(p, 1 - p), so from p = 1/4 to 3/4 no more than 3/4."""
        model = (
            b'@type: DTMC\n@parameters\np q\n@model\nstate 0 init\n1 : p\n2 : 1-p\nstate 1\n3 : q\n4 : 1-q\n'
            b'state 2\n3 : 1-q\n4 : q\nstate 3 a\n3 : 1\nstate 4\n4 : 1\n'
        )
        region = 'p=1/10..9/10,q=1/10..9/10'
        least = Fraction(1, 10) * Fraction(1, 10) + Fraction(81, 100)
        for bound, good in (('3/4', Fraction(1, 10)), ('83/100', Fraction(9, 10))):
            edge = plift_lab.threshold(model, 'a', bound, 'p', region, '1/1000')
            self.assertEqual((edge.good, edge.inside is None), (good, good == Fraction(1, 10)), (bound, float(least)))

    def test_least(self) -> None:
        edge = plift_lab.threshold(LINKS, 'delivered', '9/10', 'p', 'p=1/10..1/2,q=1/10..1/5', '1e-4', least=True)
        tenth = Fraction(1, 10)
        self.assertLessEqual(1 - lost(edge.good, tenth), Fraction(9, 10))
        self.assertGreater(1 - lost(edge.limit, tenth), Fraction(9, 10))
        self.assertLess(edge.good - edge.limit, Fraction(1, 1000))

    def test_all_and_nothing(self) -> None:
        self.assertEqual(plift_lab.threshold(LINKS, 'lost', 1, 'p', 'p=1/10..1/2,q=1/10..1/5').good, Fraction(1, 2))
        nothing = plift_lab.threshold(LINKS, 'lost', 0, 'p', 'p=1/10..1/2,q=1/10..1/5')
        self.assertIsNone(nothing.inside)
        self.assertIsNotNone(nothing.limit)


if __name__ == '__main__':
    unittest.main()
