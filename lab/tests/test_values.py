"""Numbers and regions, as they are written and shown."""

import unittest
from fractions import Fraction

from plift_lab.faults import Fault
from plift_lab.regions import Region
from plift_lab.values import above, below, exact, near, percent, read_bound, read_count, read_number, read_share


class Numbers(unittest.TestCase):
    def test_forms(self) -> None:
        for text, value in (
            ('1/10', Fraction(1, 10)),
            ('0.1', Fraction(1, 10)),
            ('1e-1', Fraction(1, 10)),
            ('-3/4', Fraction(-3, 4)),
            ('1e-6/3', Fraction(1, 3000000)),
            (' 2 ', Fraction(2)),
        ):
            self.assertEqual(read_number(text), value)

    def test_refused(self) -> None:
        for text in ('', '.1', '1.', 'p', '1/0', '1e999', '1//2', '--1', '1/-2', '٣', '1' * 1000, 'nan', 'inf', '0x1'):
            with self.assertRaises(Fault, msg=text):
                read_number(text)

    def test_shares_and_bounds(self) -> None:
        self.assertEqual(read_share('95%'), Fraction(19, 20))
        self.assertEqual(read_bound('3%'), Fraction(3, 100))
        for text in ('3', '101%', '-1/2', '1/4294967296'):
            with self.assertRaises(Fault, msg=text):
                read_bound(text)

    def test_counts(self) -> None:
        self.assertEqual(read_count('7', '--depth', 0, 20), 7)
        for text in ('21', '-1', '1.5', '', '9' * 100):
            with self.assertRaises(Fault, msg=text):
                read_count(text, '--depth', 0, 20)

    def test_decimals_are_rounded_outwards(self) -> None:
        third = Fraction(1, 3)
        self.assertEqual((below(third, 3), near(third, 3), above(third, 3)), ('0.333', '0.333', '0.334'))
        self.assertEqual(above(Fraction(1, 3000000), 3), '3.34e-7')
        self.assertEqual(below(Fraction(-1, 3), 2), '-0.34')
        self.assertEqual((near(Fraction(0)), near(Fraction(20)), exact(Fraction(3, 1))), ('0', '20', '3'))

    def test_percent_says_all_only_of_all(self) -> None:
        self.assertEqual(percent(Fraction(1)), '100 %')
        self.assertEqual(percent(Fraction(999999, 1000000)), '> 99.99 %')
        self.assertEqual(percent(Fraction(1, 1000000)), '< 0.01 %')
        self.assertEqual(percent(Fraction(1, 8)), '12.50 %')
        self.assertEqual((percent(Fraction(41, 1024)), percent(Fraction(1, 25))), ('4.00 %', '4 %'))


class Regions(unittest.TestCase):
    def test_forms(self) -> None:
        region = Region.read('1/10<=p<=3/10, q=0.05..1/5 ,r=1/4')
        self.assertEqual(region.text, '1/10<=p<=3/10,1/20<=q<=1/5')
        self.assertEqual(region.fixed, (('r', Fraction(1, 4)),))
        self.assertEqual(Region.read('-1<=p<=1').text, ' -1<=p<=1')
        self.assertEqual(Region.read(Region.read('-1<=p<=1').text), Region.read('-1<=p<=1'))
        self.assertEqual(Region.read('').text, '')

    def test_refused(self) -> None:
        for text in (
            'p',
            '1<p<2',
            'p=1..',
            '0.3<=p<=0.1',
            '0<=p<=1,p=1/2',
            '0<=2p<=1',
            '0<=p<=1,',
            'p in [0,1]',
            '0<=p',
            '=',
            'p=a..b',
        ):
            with self.assertRaises(Fault, msg=text):
                Region.read(text)

    def test_halves_share_the_midpoint(self) -> None:
        lower, upper = Region.read('0<=p<=1,0<=q<=1').halves('q')
        self.assertEqual((lower['q'], upper['q'], lower['p']), ((0, Fraction(1, 2)), (Fraction(1, 2), 1), (0, 1)))

    def test_fit(self) -> None:
        with self.assertRaisesRegex(Fault, 'no parameter z; it has p, q'):
            Region.read('0<=p<=1,0<=z<=1').fit(['p', 'q'])
        with self.assertRaisesRegex(Fault, 'no interval for q'):
            Region.read('0<=p<=1').fit(['p', 'q'])


if __name__ == '__main__':
    unittest.main()
