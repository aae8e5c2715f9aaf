"""Powers and shared parameters: what a row becomes reaches each target as often as the row says, and plift reads it."""

from __future__ import annotations

import os
import random
import re
import subprocess
import unittest
from fractions import Fraction
from math import comb
from typing import Dict, List
from unittest import mock

from plift_lab.api import verify
from plift_lab.faults import Fault
from plift_lab.fit import Fitted, Wants, fit
from plift_lab.fit.bernstein import Toss, coefficients
from plift_lab.fit.polynomials import ONE, Polynomial
from plift_lab.fit.refusal import Unfit
from plift_lab.fit.tosses import composed, lengths, tossed
from plift_lab.program import find_program
from plift_lab.regions import Region

from .fitted import reached, reached_within, read

HEAD = '@type: DTMC\n@parameters\np q\n@model\n'
TAIL = 'state 1 a\n0 : 1/3\n1 : 2/3\nstate 2 b\n2 : 1\nstate 3 done\n3 : 1\nstate 4\n1 : 1/2\n3 : 1/2\n'
ROWS = int(os.environ.get('PLIFT_FIT_ROWS', '40'))
"""Random rows; the more, the longer it takes."""
P, Q = Polynomial.parameter(0), Polynomial.parameter(1)


def model(row: str) -> bytes:
    """A row in front of some states."""
    return (HEAD + 'state 0 init\n' + row + TAIL).encode()


def distribution(draw: random.Random) -> List[Fraction]:
    """Shares of five targets, some of them 0."""
    parts = [draw.choice([0, 0, 1, draw.randint(1, 9)]) for _ in range(5)]
    parts[draw.randrange(5)] += 1
    return [Fraction(part, sum(parts)) for part in parts]


def bernstein_row(draw: random.Random) -> str:
    """A random row, given by what is due for each count of heads of p and q, each tossed up to 4 times."""
    n, m = draw.randint(0, 4), draw.randint(1, 4)
    terms: List[List[str]] = [[] for _ in range(5)]
    for k in range(n + 1):
        for j in range(m + 1):
            for target, share in enumerate(distribution(draw)):
                if share:
                    term = '%s*%d*p^%d*(1-p)^%d*q^%d*(1-q)^%d' % (share, comb(n, k) * comb(m, j), k, n - k, j, m - j)
                    terms[target].append(term)
    return ''.join('%d : %s\n' % (target, '+'.join(each)) for target, each in enumerate(terms) if each)


def square_row(draw: random.Random) -> str:
    """A random row with squares, which aren't below 0, though what is due for some counts of heads is."""
    first = '1/4*(p-%s)^2+%s' % (Fraction(draw.randint(3, 5), 8), Fraction(draw.randint(1, 3), 48))
    second = '1/4*(q-%s)^2*p^%d+1/8' % (Fraction(draw.randint(0, 8), 8), draw.choice([0, 2]))
    return '1 : %s\n2 : %s\n3 : 1-(%s)-(%s)\n' % (first, second, first, second)


class Rows(unittest.TestCase):
    """State 4 of these models is reached by some rows alone; where it isn't, steps in between begin with number 4."""

    def same(self, text: bytes, fitted: Fitted, valuations: List[Dict[str, Fraction]]) -> None:
        """Exact reach of both models is the same."""
        before, after = read(text.decode()), read(fitted.text.decode())
        for valuation in valuations:
            for goal in ('done', 'b'):
                self.assertEqual(
                    reached(before, valuation, goal), reached(after, valuation, goal), (text, fitted.text, valuation)
                )

    def test_random_rows(self) -> None:
        draw = random.Random(int(os.environ.get('PLIFT_FIT_SEED', '1')))
        places = [Fraction(number, 7) for number in range(8)]
        valuations = [dict(p=draw.choice(places), q=draw.choice(places)) for _ in range(8)]
        valuations += [dict(p=Fraction(0), q=Fraction(1)), dict(p=Fraction(1, 3), q=Fraction(2, 5))]
        between = more = 0
        for number in range(ROWS):
            is_square = number % 4 == 0
            text = model(square_row(draw) if is_square else bernstein_row(draw))
            with mock.patch('plift_lab.fit.trial.MOST_VALUATIONS', 1):
                fitted = fit(text, Wants())
            self.same(text, fitted, valuations)
            told = '\n'.join(fitted.told.lines())
            self.assertIn('tested: ', told)
            between += fitted.text.count(b'state') - 5
            more += is_square and re.search('tosses .*p [3-9]', told) is not None
            if number % 25 == 0:
                self.assertEqual(reads(fitted.text), '', fitted.text)
        self.assertGreater(between, 6 * ROWS)
        self.assertGreater(more, ROWS // 20, 'too few rows had to be tossed more often than their power')

    def test_by_hand(self) -> None:
        # The states in between by hand: two tosses of p, and what is due for no, one and two heads.
        fitted = fit(model('1 : p^2\n2 : 2*p*(1-p)\n3 : (1-p)*(1-p)\n'), Wants()).text.decode()
        self.assertIn('state 0 init\n5 : p\n4 : 1-p\n', fitted)
        self.assertIn('state 4\n2 : p\n3 : 1-p\nstate 5\n1 : p\n2 : 1-p\n', fitted)

    def test_two_modules_in_one_step(self) -> None:
        # Both toss p at once: as one after the other, with a state in between for each of the first one's sides.
        text = model('1 : p^2\n2 : p*(1-p)\n0 : (1-p)*p\n3 : (1-p)*(1-p)\n')
        fitted = fit(text, Wants())
        self.assertIn('state 0 init\n5 : p\n4 : 1-p\n', fitted.text.decode())
        self.assertIn('state 5\n1 : p\n2 : 1/2-1/2*p\n0 : 1/2-1/2*p\n', fitted.text.decode())
        self.same(text, fitted, [dict(p=Fraction(place, 5), q=Fraction(0)) for place in range(1, 5)])
        self.assertEqual(reads(fitted.text), '')

    def test_a_chain_of_tosses(self) -> None:
        # All three copies: where the first toss fails, nothing else is tossed.
        fitted = fit(model('1 : p^3\n3 : 1-p^3\n'), Wants()).text.decode()
        self.assertIn('state 0 init\n5 : p\n3 : 1-p\n', fitted)
        self.assertIn('state 4\n1 : p\n3 : 1-p\nstate 5\n4 : p\n3 : 1-p\n', fitted)

    def test_five_parameters(self) -> None:
        text = '@type: DTMC\n@parameters\na b c d e\n@model\nstate 0 init\n1 : a*b*c*d*e\n2 : 1-a*b*c*d*e\n'
        fitted = fit((text + 'state 1 x\n1 : 1\nstate 2\n2 : 1\n').encode(), Wants())
        self.assertEqual(reads(fitted.text, ','.join('0<=%s<=1' % name for name in 'abcde'), 'x'), '')

    def test_scale_of_the_interval(self) -> None:
        # 2p^2 is no probability up to p = 1, and is one up to p = 7/10.
        text = model('1 : 2*p^2\n3 : 1-2*p^2\n')
        with self.assertRaises(Unfit) as found:
            fit(text, Wants())
        self.assertEqual(
            str(found.exception),
            'model: line 6: Power: state 0 choice 0: to state 3 the coefficient for 2 of 2 heads of p is -1, and '
            'tossing up to 32 times doesn\'t mend it; it would do for p from 0 to 45/64, by --region and --relative',
        )
        region = Region.read('1/10<=p<=7/10,0<=q<=1')
        with self.assertRaisesRegex(Unfit, '; --relative does$'):
            fit(text, Wants(region=region))
        fitted = fit(text, Wants(region=region, is_relative=True))
        self.assertIn('on the scale from 1/10 to 7/10', '\n'.join(fitted.told.lines()))
        self.same(text, fitted, [dict(p=Fraction(place, 10), q=Fraction(0)) for place in range(1, 8)])
        self.assertEqual(reads(fitted.text, '1/10<=p<=7/10,0<=q<=1'), '')

    def test_beyond_one(self) -> None:
        text, region = model('1 : p^2/9\n3 : 1-p*p/9\n'), Region.read('1<=p<=3,0<=q<=1')
        with self.assertRaisesRegex(Unfit, 'isn\'t within 0 to 1: --relative'):
            fit(text, Wants(region=region))
        self.same(text, fit(text, Wants(region=region, is_relative=True)), [dict(p=Fraction(5, 2), q=Fraction(1))])

    def test_too_many_tosses(self) -> None:
        with self.assertRaisesRegex(Unfit, 'line 6: Power: .* at most 32'):
            fit(model('1 : p^33\n3 : 1-p^33\n'), Wants())

    def test_steps(self) -> None:
        uneven = fit(model('1 : p^2\n3 : 1-p^2\n'), Wants())
        self.assertIn('`bounded` isn\'t the same question of this text', '\n'.join(uneven.told.lines()))
        for text in (uneven.text, fit(uneven.text, Wants()).text):
            with self.assertRaisesRegex(Fault, 'within a number of steps is another question of this text'):
                verify(text, formula='P<=1/2 [F<=2 "done"]', region='p=1/5..1/3,q=0..1')
        self.assertEqual(verify(uneven.text, 'done', '1', 'p=1/5..1/3,q=0..1').verdict, 'accepted')
        plain = fit(b'@type: DTMC\n@model\nstate 0 init\n1 : 1/2\n0 : 1/2\nstate 1 b\n1 : 1\n', Wants()).text
        self.assertTrue(plain.startswith(b'// Fitted by plift-lab fit\n@type'))
        self.assertEqual(verify(plain, formula='P<=3/4 [F<=2 "b"]').verdict, 'accepted')
        row = '1 : p^2\n2 : 2*p*(1-p)\n3 : (1-p)*(1-p)\n'
        given = (
            '@type: DTMC\n@parameters\np\n@model\nstate 0 init\n%sstate 1 a\n%sstate 2\n2 : 1\nstate 3 b\n3 : 1\n'
            % (row, row)
        )
        fitted = fit(given.encode(), Wants())
        told = '\n'.join(fitted.told.lines())
        self.assertIn('each step is now 2 steps: `bounded --steps S` is asked as --steps 2*S', told)
        self.assertTrue(
            fitted.text.startswith(b'// Fitted by plift-lab fit\n// Steps in between: each step is 2 steps\n@type')
        )
        self.assertEqual(fit(fitted.text, Wants()).text, fitted.text)
        with self.assertRaisesRegex(Fault, 'each step is 2: F<=S of the model before is F<=2[*]S here .plift itself'):
            verify(fitted.text, formula='P<=1/2 [F<=3 "b"]', region='p=1/5..1/3')
        # By hand, at p = 1/4: 9/16 in one step, and 9/16+9/256 in two.
        for steps, verdict in ((2, 'accepted'), (4, 'rejected')):
            found = verify(fitted.text, formula='P<=19/32 [F<=%d "b"]' % steps, region='p=1/4')
            self.assertEqual(found.verdict, verdict)
        before, after, valuation = read(given), read(fitted.text.decode()), {'p': Fraction(1, 3)}
        for steps in range(5):
            worth = reached_within(before, valuation, 'b', steps)
            self.assertEqual(reached_within(after, valuation, 'b', 2 * steps), worth)
            self.assertEqual(worth > 0, steps > 0)


class Polynomials(unittest.TestCase):
    def test_coefficients(self) -> None:
        # By hand: p^2 over 3 tosses is 0, 0, 1/3, 1; and q p over one is 0, q.
        squared = coefficients(P * P, Toss(0, 3))
        self.assertEqual([each.constant for each in squared], [0, 0, Fraction(1, 3), 1])
        self.assertEqual(coefficients(P * Q, Toss(0, 1)), [Polynomial({}), Q])
        # p from 2 to 4 is 2+2x, and its square 4+8x+4x^2: 4, 8, 16.
        scaled = coefficients(P * P, Toss(0, 2, Fraction(2), Fraction(4)))
        self.assertEqual([each.constant for each in scaled], [4, 8, 16])

    def test_composition(self) -> None:
        row = {0: P * P * Q, 1: ONE - P * P * Q}
        steps = tossed(row, {}, [{}])
        self.assertEqual((composed(steps), lengths(steps)), (row, (1, 2)))

    def test_text(self) -> None:
        value = (P * Q).scaled(Fraction(-3, 4)) + P + Polynomial.number(Fraction(1, 2))
        self.assertEqual(value.text(['p', 'q']), '1/2+p-3/4*p*q')
        self.assertEqual((P - P).text(['p']), '0')
        self.assertEqual(value.least({0: (Fraction(0), Fraction(2))}), 0.5)


def reads(text: bytes, region: str = '1/10<=p<=1/5,1/10<=q<=1/5', goal: str = 'done') -> str:
    """What plift says of a text; nothing where it reads it."""
    words = [str(find_program().path), 'verify', '--goal', goal, '--bound', '1', '--region', region]
    done = subprocess.run(words, input=text, stdout=subprocess.DEVNULL, stderr=subprocess.PIPE)
    return done.stderr.decode()


if __name__ == '__main__':
    unittest.main()
