"""Models as an engineer brings them: they fit, what they are asked is answered, and as computed by elimination."""

from __future__ import annotations

import unittest
from fractions import Fraction
from typing import Dict

import plift_lab
from plift_lab.fit import Wants, fit
from plift_lab.search import ROUNDING

from .fitted import reached, read
from .helpers import InFolder, run
from .test_fit import STORM

# Three copies, of which two have to be whole; each cycle ends with a scrub, and the mission with a chance of its own.
COPIES = '''@type: DTMC
@parameters
p m
@reward_models
repairs cycles
@model
state 0 [0,1] init up
9 : {end}
1 : 1-{end}
state 1 [0,0] up
4 : {p}
2 : 1-{p}
state 2 [0,0] up
5 : {p}
3 : 1-{p}
state 3 [0,0] up
6 : {p}
0 : 1-{p}
state 4 [0,0] up
8 : {p}
5 : 1-{p}
state 5 [0,0] up
8 : {p}
6 : 1-{p}
// the scrub, which finds the copy with m
state 6 [1,0] up degraded
0 : m
7 : 1-m
state 7 [0,1] up degraded
8 : 2*{p}
6 : 1-2*{p}
state 8 failed
8 : 1
state 9 done up
9 : 1
'''
FAST = COPIES.format(p='p', end='1e-5')
SCALED = COPIES.format(p='(1e-6+99e-6*p)', end='1e-5')
RARE = COPIES.format(p='p', end='1e-7')
# A message may be lost, with l, and its answer be late, with d; who waits short or long may send again.
RETRIES = '''@type: MDP
@parameters
l d
@reward_models
ms sends
@model
state 0 [1,1] init
\taction short
\t\t1 : l
\t\t2 : 1-l
\taction long
\t\t3 : l
\t\t2 : 1-l
state 1 [10,0]
\taction [0,0]
\t\t0 : 1
state 2 [2,0]
\taction ack
\t\t4 : d
\t\t5 : 1-d
state 3 [50,0]
\taction a
\t\t0 : 1
// late, and sent again in a quarter of the cases
state 4 [5,0]
\taction a
\t\t0 : 1/4
\t\t5 : 3/4
state 5 [0,0] done
\taction loop
\t\t5 : 1
'''
HALF = Fraction(1, 2)


def exactly(text: str, goal: str, **valuation: Fraction) -> Fraction:
    """What is reached there, by an elimination that shares nothing with the tools."""
    known: Dict[str, Fraction] = dict(valuation)
    return reached(read(text), known, goal)


class Copies(InFolder):
    def test_both_scales(self) -> None:
        most = exactly(FAST, 'failed', p=Fraction(1, 10**4), m=HALF)
        least = exactly(FAST, 'failed', p=Fraction(1, 10**6), m=Fraction(1))
        self.assertEqual(most, exactly(SCALED, 'failed', p=Fraction(1), m=HALF))
        for text, region in ((FAST, 'p=1e-6..1e-4,m=1/2..1'), (SCALED, 'p=0..1,m=1/2..1')):
            found = plift_lab.bounds(text, 'failed', region, '1e-4')
            for side, value in ((found.sup, most), (found.inf, least)):
                self.assertTrue(side.least <= value <= side.most)
                self.assertLessEqual(side.most - side.least, Fraction(1, 10**4))
            self.assertLessEqual(found.calls, 12)

    def test_a_bound_that_needs_the_scale(self) -> None:
        model = self.file('copies.drn', FAST.encode())
        words = ['verify', model, '--goal', 'failed', '--bound', '1e-3', '--region', 'p=1e-6..1e-4,m=1/2..1']
        status, told, _ = run(*words, '--depth', '4')
        self.assertEqual((status, told.splitlines()[0]), (0, 'unknown: P( reach failed ) <= 1/1000'))
        self.assertIn('--relative compares them by what they are of their intervals', told)
        told = run(*words, '--relative', '--coverage', '90%')[1]
        self.assertRegex(told, 'decided: 9[0-9.]+ % at depth ')

    def test_rates_of_failures_in_time(self) -> None:
        # P is 9.0e-7 at the worst corner, which no certificate of 40 bits shows; that is told, with no wrong advice.
        worst = exactly(RARE, 'failed', p=Fraction(1, 10**7), m=HALF)
        self.assertTrue(Fraction(89, 10**8) < worst < Fraction(91, 10**8), float(worst))
        found = plift_lab.bounds(RARE, 'failed', 'p=1e-9..1e-7,m=1/2..1', '1e-7')
        self.assertTrue(found.sup.least <= worst <= found.sup.most)
        self.assertEqual((found.sup.short, found.inf.short), (ROUNDING, ROUNDING))
        self.assertLessEqual(found.calls, 12)
        model = self.file('rare.drn', RARE.encode())
        told = run('bounds', model, '--goal', 'failed', '--region', 'p=1e-9..1e-7,m=1/2..1', '--width', '1e-7')[1]
        self.assertIn('so no width below 5.5e-5 can be had, and no halving helps; ask of fewer steps', told)
        told = run('bounds', model, '--goal', 'failed', '--region', 'p=1e-9..1e-7,m=1/2..1')[1]
        self.assertIn('rounding is most of what is between: 40 bits round by 2.8e-5 at a point inside; ask of', told)
        told = run('bounds', model, '--goal', 'failed', '--region', 'p=1e-9..1e-7,m=1/2..1', '--calls', '2')[1]
        self.assertNotIn('rounding', told)
        report = str(self.folder / 'rare.report')
        words = ['--bound', '1e-6', '--region', 'p=1e-9..1e-7,m=1/2..1', '--relative', '--depth', '2']
        run('verify', model, '--goal', 'failed', *words, '--report', report)
        told = run('verdict', report, '--look', '1')[1]
        self.assertIn('rounding is what is left', told)
        self.assertIn('neither more precision nor more depth helps', told)

    def test_a_cost_that_counts_up_to_the_goal(self) -> None:
        # What fails with less than 1 % costs little before: other tools say infinity, and so does the check of P.
        region = 'p=1e-6..1e-4,m=1/2..1'
        found = plift_lab.bounds(FAST, formula='R{"repairs"}=? [F "failed"]', region=region)
        self.assertLess(found.sup.most, 100)
        sure = plift_lab.verify(FAST, formula='P>=1 [F "failed"]', region=region)
        self.assertEqual(sure.verdict, 'rejected')


class Retries(unittest.TestCase):
    REGION = 'l=0.01..0.3,d=0.1..0.5'

    def test_costs_by_hand(self) -> None:
        # At l = 3/10, d = 1/2: E = 1 + (3/10 + 7/80) E sends; and of ms, waiting long, E = 383/20 + (31/80) E.
        for reward, value in (('sends', Fraction(80, 49)), ('ms', Fraction(1532, 49))):
            found = plift_lab.bounds(RETRIES, formula='R{"%s"}=? [F "done"]' % reward, region=self.REGION)
            self.assertTrue(0 <= found.sup.most - value < Fraction(1, 10**6), reward)

    def test_sure_and_in_time(self) -> None:
        sure = plift_lab.verify(RETRIES, formula='P>=1 [F "done"]', region=self.REGION)
        self.assertEqual(sure.verdict, 'accepted')
        # Within two steps nothing may be lost or late; within three it may be late.
        found = plift_lab.bounds(RETRIES, formula='P=? [F<=2 "done"]', region='l=1/10,d=1/5')
        self.assertTrue(0 <= found.sup.most - Fraction(18, 25) < Fraction(1, 10**9))
        found = plift_lab.bounds(RETRIES, formula='P=? [F<=3 "done"]', region='l=1/10,d=1/5')
        self.assertTrue(0 <= found.sup.most - Fraction(171, 200) < Fraction(1, 10**9))


class Exported(unittest.TestCase):
    def test_both_ends_by_hand(self) -> None:
        # `one` by 1 with p and then q, by 2 with 1-p, twice: p q + (1-p)^2.
        text = fit(STORM.encode(), Wants()).text
        found = plift_lab.bounds(text, 'one', 'p=1/5,q=1/4..1/2', '1/1000')
        for side, value in ((found.sup, Fraction(37, 50)), (found.inf, Fraction(69, 100))):
            self.assertTrue(side.least <= value <= side.most)


class Fitted(unittest.TestCase):
    def test_they_stay_as_they_are(self) -> None:
        for text, labels in ((FAST, 'failed'), (SCALED, 'failed'), (RARE, 'failed'), (RETRIES, 'done')):
            found = fit(text.encode(), Wants(goal=labels))
            told = '\n'.join(found.told.lines())
            self.assertIn('nothing had to be changed but the way in which it is written', told)
            self.assertIn('tested: from each of ', told)
            self.assertEqual(fit(found.text, Wants(goal=labels)).text, found.text)
        fitted = fit(FAST.encode(), Wants()).text
        region = 'p=1e-6..1e-4,m=1/2..1'
        one, other = (plift_lab.bounds(text, 'failed', region) for text in (FAST, fitted))
        self.assertEqual((one.sup.most, one.inf.least), (other.sup.most, other.inf.least))


if __name__ == '__main__':
    unittest.main()
