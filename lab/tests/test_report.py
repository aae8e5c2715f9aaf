"""Reports as data."""

import unittest
from fractions import Fraction
from pathlib import Path

import plift_lab
from plift_lab import Report

from .helpers import EXAMPLES, LINKS, RANGE, RETRY, TREE, InFolder


class Read(InFolder):
    def test_tree(self) -> None:
        report = plift_lab.read(TREE)
        self.assertEqual(report.soundness, 'sound accept 1 reject 2 unknown 3')
        self.assertEqual(
            (report.verdict, report.depth, report.precision, report.bound), ('mixed', 4, 10, Fraction(1, 40))
        )
        self.assertEqual(
            report.shares, {'accept': Fraction(1, 16), 'reject': Fraction(3, 4), 'unknown': Fraction(3, 16)}
        )
        leaves = list(report.leaves())
        self.assertEqual(
            [leaf.kind for leaf in leaves], ['accept', 'unknown', 'unknown', 'unknown', 'reject', 'reject']
        )
        self.assertEqual([leaf.depth for leaf in leaves], [4, 4, 4, 4, 2, 1])
        self.assertEqual(
            leaves[0].rectangle, {'p': (Fraction(1, 10), Fraction(1, 5)), 'q': (Fraction(1, 10), Fraction(1, 5))}
        )
        self.assertEqual(
            leaves[4].rectangle, {'p': (Fraction(1, 10), Fraction(3, 10)), 'q': (Fraction(3, 10), Fraction(1, 2))}
        )
        self.assertEqual([leaf.value for leaf in leaves[3:]], [None, Fraction(27, 1024), Fraction(27, 1024)])
        self.assertEqual(
            [report.schedulers[leaves[place].scheduler] for place in (4, 5)],
            [[1, 1, 1, None, None], [0, 0, 0, None, None]],
        )
        self.assertEqual(sum(leaf.share for leaf in leaves), 1)

    def test_a_range_of_precisions(self) -> None:
        report = plift_lab.read(self.file('range.report', RANGE))
        self.assertEqual(report.soundness, 'sound accept 1 reject 1 unknown 1')
        self.assertEqual((report.verdict, report.least_precision, report.precision), ('mixed', 1, 4))
        leaves = list(report.leaves())
        self.assertEqual([leaf.kind for leaf in leaves], ['accept', 'unknown', 'reject'])
        self.assertEqual([leaf.precision for leaf in leaves], [1, 4, 4])
        self.assertEqual([leaf.value for leaf in leaves], [Fraction(1, 2), None, Fraction(11, 16)])
        self.assertEqual(
            [leaf.rectangle['p'] for leaf in leaves],
            [(Fraction(1, 10), Fraction(1, 2)), (Fraction(1, 2), Fraction(7, 10)), (Fraction(7, 10), Fraction(9, 10))],
        )
        self.assertEqual(plift_lab.read(TREE).least_precision, 10)

    def test_other_versions(self) -> None:
        with self.assertRaisesRegex(plift_lab.Fault, 'version 3'):
            Report(RANGE.replace(b'plift 2', b'plift 3'), '')

    def test_without_parameters(self) -> None:
        report = plift_lab.read(str(EXAMPLES / 'plain.report'))
        self.assertEqual((report.verdict, report.region.text), ('accepted', ''))
        self.assertEqual([leaf.rectangle for leaf in report.leaves()], [{}])

    def test_verdicts(self) -> None:
        head = (EXAMPLES / 'coin.report').read_bytes().partition(b'reject')[0].replace(b'depth 0', b'depth 2')
        a, r, u = b'accept 1 2 3\n', b'reject e 1 k 1 m 1 b 1/16\ny 1 2 3\nchoice 0 - -\nrank 1 0 -\n', b'unknown\n'
        for halves, verdict in (
            (a + a, 'accepted'),
            (r + r, 'rejected'),
            (a + r, 'mixed'),
            (r + u, 'mixed'),
            (a + u, 'unknown'),
            (u + u, 'unknown'),
        ):
            self.assertEqual(Report(head + b'split 0\n' + halves, '').verdict, verdict)

    def test_live_parameters(self) -> None:
        self.assertEqual(plift_lab.read(TREE).live, ['p', 'q'])
        model = b'@type: DTMC\n@parameters\na p\n@model\nstate 0 init goal\n0 : p\n1 : 1-p\nstate 1\n1 : 1\n'
        self.assertEqual(plift_lab.verify(model, 'goal', 1, '0<=a<=1,0<=p<=1').live, ['p'])

    def test_its_model_is_the_one_that_was_read(self) -> None:
        for name, goal, region in (
            ('retry', 'lost', 'p=0..1,q=0..1'),
            ('relay', 'lost', 'p=0..1,q=0..1'),
            ('die', 'one', 'p=1/10..9/10'),
            ('chain', 'lost', 'p=0..1,q=0..1,r=0..1'),
            ('plain', 'heads', ''),
        ):
            first = plift_lab.verify(EXAMPLES / (name + '.drn'), goal, '1/3', region, precision=12)
            again = plift_lab.verify(first.model_text, 'goal', '1/3', region, precision=12)
            self.assertEqual(first.data, again.data, name)

    def test_a_stranger_file_beside_it(self) -> None:
        data = (EXAMPLES / 'coin.report').read_bytes()
        for beside in (b'', b'{}', b'[]', b'\xff', b'{"sha256": 3}', b'[' * 100000):
            name = self.file('x.report', data)
            self.file('x.report.json', beside)
            try:
                self.assertEqual(plift_lab.read(name).origin.scale, {})
            except plift_lab.Fault as fault:
                self.assertIn('move it away', str(fault))


class Verify(InFolder):
    def test_as_the_program(self) -> None:
        self.assertEqual(
            plift_lab.verify(RETRY, 'lost', '1/40', 'p=1/10..1/2,q=1/10..1/2', 4, 10).data, Path(TREE).read_bytes()
        )

    def test_relative_leaves_are_in_the_own_parameters(self) -> None:
        model = (
            b'@type: DTMC\n@parameters\np s\n@model\nstate 0 init\n1 : p\n2 : 1-p\nstate 1\n3 : 1-s\n2 : s\n'
            b'state 2\n2 : 1\nstate 3 bad\n3 : 1\n'
        )
        region = '1e-6<=p<=1e-4,0.5<=s<=0.9'
        plain = plift_lab.verify(model, 'bad', '1e-5', region, 8)
        scaled = plift_lab.verify(model, 'bad', '1e-5', region, 8, relative=True)
        self.assertEqual(plain.shares['accept'] + plain.shares['reject'], 0)
        self.assertLess(scaled.shares['unknown'], Fraction(1, 5))
        self.assertEqual(scaled.region, plift_lab.Region.read(region))
        for leaf in scaled.leaves():
            (p, up), (s, high) = leaf.rectangle['p'], leaf.rectangle['s']
            self.assertTrue(Fraction(1, 10**6) <= p < up <= Fraction(1, 10**4))
            self.assertTrue(Fraction(1, 2) <= s < high <= Fraction(9, 10))
            if leaf.kind == 'accept':
                self.assertLessEqual(up * (1 - s), Fraction(1, 10**5))
            if leaf.kind == 'reject':
                self.assertGreater(p * (1 - high), Fraction(1, 10**5))

    def test_coverage(self) -> None:
        report = plift_lab.verify(LINKS, 'lost', '1/10', 'p=1/10..1/2,q=1/10..1/2', coverage='90%')
        self.assertLessEqual(report.shares['unknown'], Fraction(1, 10))
        self.assertEqual(report.depth, 10)  # at depth 8 29 of 256 are unknown

    def test_precision_goes_down_where_there_is_no_room(self) -> None:
        model = b'@type: DTMC\n@parameters\np q r s\n@model\nstate 0 init\n1 : p*q*r*s\n0 : 1-p*q*r*s\n'
        model += b'state 1 done\n1 : 1\n'
        region = ','.join('%s=1/1000003..2000005/4000012' % name for name in 'pqrs')
        report = plift_lab.verify(model, 'done', 1, region)
        self.assertLess(report.precision, 40)
        with self.assertRaisesRegex(plift_lab.Refused, 'too wide'):
            plift_lab.verify(model, 'done', 1, region, precision=40)

    def test_kept_reports_are_used_again(self) -> None:
        keep = str(self.folder / 'kept')
        for _ in range(2):
            plift_lab.verify(RETRY, 'lost', '1/40', 'p=1/10..1/2,q=1/10..1/2', 4, keep=keep)
            self.assertEqual(sorted(path.name for path in (self.folder / 'kept').glob('*.report')), ['1.report'])
        (self.folder / 'kept/1.report').write_bytes(b'changed\n')
        report = plift_lab.verify(RETRY, 'lost', '1/40', 'p=1/10..1/2,q=1/10..1/2', 4, keep=keep)
        self.assertEqual(report.path, str(self.folder / 'kept/2.report'))

    def test_floats_are_refused(self) -> None:
        with self.assertRaisesRegex(plift_lab.Fault, 'exact'):
            plift_lab.verify(RETRY, 'lost', 0.1, 'p=0..1,q=0..1')


if __name__ == '__main__':
    unittest.main()
