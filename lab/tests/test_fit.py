"""What `plift-lab fit` mends, what it refuses, and what it writes."""

from __future__ import annotations

import gzip
import os
import random
import subprocess
import sys
import unittest
from fractions import Fraction
from pathlib import Path
from typing import Tuple
from unittest import mock

from plift_lab.faults import Fault
from plift_lab.fit import Wants, fit
from plift_lab.fit.decimals import rounded, simplest
from plift_lab.fit.labels import Formula
from plift_lab.program import find_program

from .fitted import reached, read
from .helpers import EXAMPLES, TOP, InFolder, run

MUTATED, SEED = int(os.environ.get('PLIFT_FIT_TEXTS', '400')), int(os.environ.get('PLIFT_FIT_SEED', '7'))
"""Texts with random changes; the more, the longer it takes."""
HEAD = '@type: DTMC\n@parameters\np\n'
COIN = HEAD + '@model\nstate 0 init\n1 : p\n2 : 1-p\nstate 1 done\n1 : 1\nstate 2\n2 : 1\n'
STORM = '''// Exported by storm
// Original model type: DTMC
@type: DTMC
@value_type: rational-function
@parameters
p q 
@placeholders
$0 : ((-1) * (p+-1))/(1)
$1 : (-1)*q+1
@reward_models
time coin_flips 
@nr_states
5
@nr_choices
5
@model
state 0 init
//[s=0 & d=0]
\taction flip [0, 1]
\t\t1 : p
\t\t2 : $0
state 1
//[s=1]
\taction flip [0, 1]
\t\t3 : q
\t\t4 : $1
state 2 deadlock
\taction flip [0, 1]
\t\t3 : ((-1) * (p+-1))/(1)
\t\t4 : p
state 3 done one
\taction flip [0, 1]
\t\t3 : 1
state 4 done two
\taction flip [0, 1]
\t\t4 : 1
'''  # noqa: W291
TMR = '''@type: DTMC
@parameters
p m
@reward_models
cycles
@model
state 0 [1] up init
0 : (1-p)^3
1 : 3*p*(1-p)^2
2 : 3*p^2*(1-p)+p^3
state 1 [1] up degraded
0 : m*(1-p)*(1-p)
1 : (1-m)*(1-p)*(1-p)
2 : 1-(1-p)*(1-p)
state 2 failed
2 : 1
'''


def fitted(text: str, **wants: object) -> Tuple[str, str]:
    """The fitted text, and what was changed."""
    found = fit(text.encode('latin-1'), Wants(**wants))  # type: ignore[arg-type]
    return found.text.decode(), '\n'.join(found.told.lines())


def asked(text: str, *words: str) -> str:
    """What plift says of a text on standard error, and then the end of what it writes."""
    done = subprocess.run([str(find_program().path), *words], input=text.encode(), capture_output=True)
    return done.stderr.decode() or done.stdout.decode().splitlines()[-1]


class Texts(unittest.TestCase):
    def refused(self, text: str, note: str, **wants: object) -> None:
        """A text is refused with this note, status 3 and in one line of printable ASCII."""
        with self.assertRaises(Fault) as found:
            fitted(text, **wants)
        told = str(found.exception)
        self.assertIn(note, told)
        self.assertEqual((found.exception.status, told.isascii() and told.isprintable()), (3, True))

    def test_exported(self) -> None:
        text, told = fitted(STORM)
        self.assertIn('\nstate 0 [0,1] init\naction flip\n1 : p\n2 : 1-p\n', text)
        self.assertIn('rewards of actions are moved to their state (5)', told)
        self.assertIn('tested: from each of 5 states', told)
        words = '--goal done --reward coin_flips --budget 2 --cap 4 --region 1/10<=p<=1/2,0<=q<=1 --precision 10'
        self.assertTrue(asked(text, 'cost', *words.split()).startswith('accept '))
        self.assertIn('ActionReward', asked(STORM, 'cost', *words.split()))

    def test_natural_row_of_three_copies(self) -> None:
        text, told = fitted(TMR, goal='failed')
        self.assertIn('tested: from each of 3 states reach of `failed` is the same', told)
        words = '--goal failed --bound 1 --region 1/100000<=p<=1/1000,1/2<=m<=1'
        self.assertEqual(asked(text, 'verify', *words.split())[:7], 'accept ')
        self.assertIn('Power', asked(TMR, 'verify', *words.split()))
        words = '--goal failed --reward cycles --budget 999 --cap 1000 --region 1/4<=p<=1/2,1/2<=m<=1'
        self.assertEqual(asked(text, 'cost', *words.split())[:7], 'accept ')

    def test_examples_stay(self) -> None:
        # But for one, whose row has five parameters.
        for path in sorted(set(EXAMPLES.glob('*.drn')) - {EXAMPLES / 'five.drn'}):
            before = path.read_text()
            text, told = fitted(before)
            self.assertNotIn('in between', told)
            self.assertEqual(fitted(text)[0], text, path)
            self.assertIn('tested: ', told)

    def test_type(self) -> None:
        for form in ('@type: dtmc', '@type:"DTMC"', '@Type :  dtmc ', '\t@type: DTMC\r'):
            self.assertIn('\n@type: DTMC\n', fitted(COIN.replace('@type: DTMC', form))[0])
        self.refused(COIN.replace('DTMC', 'POMDP'), 'model: line 1: UnsupportedType: POMDP: plift reads models of')
        self.refused(COIN.replace('DTMC', '\x1b[2J'), 'model: line 1: UnsupportedType: \\x1b[2J: ')

    def test_continuous_time(self) -> None:
        # Rates 3 and 1 by hand: the next jump is the first one in 3 of 4 cases. A state without rates is never left.
        text = (
            '@type: CTMC\n@reward_models\na\n@model\nstate 0 !4 [1] init\n1 : 3\n2 : 1\nstate 1 !0 done\nstate 2 !0\n'
        )
        text, told = fitted(text)
        self.assertTrue(
            text.endswith('@model\nstate 0 init\n1 : 3/4\n2 : 1/4\nstate 1 done\n1 : 1\nstate 2\n2 : 1\n'), text
        )
        for line in ('the type CTMC is written DTMC', 'rewards are left out', 'tested: from each of 3 states'):
            self.assertIn(line, told)
        self.assertEqual(asked(text, 'verify', '--goal', 'done', '--bound', '3/4', '--region', '')[:7], 'accept ')
        shared = COIN.replace('DTMC', 'CTMC').replace('1-p', '2*(1-p)+p').replace('1 : p', '1 : 2*p')
        self.refused(shared, 'model: line 6: ParametricDivisor: the rates of state 0 sum to 2+p')
        shared = COIN.replace('DTMC', 'CTMC').replace('1-p', '3*(1-p)').replace('1 : p', '1 : 3*p')
        self.assertIn('1 : p\n2 : 1-p\n', fitted(shared)[0])
        self.assertIn('1 : p\n2 : 1-p\n', fitted(COIN.replace('DTMC', 'CTMC').replace('state 0', 'state 0 !7'))[0])

    def test_sections(self) -> None:
        text, told = fitted(COIN.replace('@model', '@choice_labelling\na b\nc\n@value_type: double\n@model'))
        self.assertIn('the section @choice_labelling is dropped\n    lines 4 to 6\n  why: it names choices', told)
        self.assertIn('@value_type is left out', told)
        self.assertNotIn('choice_labelling', text)
        odd = COIN.replace('@model', '@rates\n3\n@model')
        self.refused(odd, 'model: line 4: UnknownSection: @rates isn\'t known')
        self.assertIn('you said by --drop', fitted(odd, dropped=['rates'])[1])
        self.assertIn('@state_valuations', fitted(COIN + '@state_valuations\n0 x=1\n')[1])
        self.refused(COIN + '@model\n', 'model: line 12: UnknownSection')
        self.refused(COIN.replace('@model', '@parameters\nq\n@model'), 'model: line 4: RepeatedSection')

    def test_places_and_constants(self) -> None:
        places = '@placeholders\n$a : p/2\n$b : 1-$a\n@model\nstate 0 init\n1 : 1-$b\n2 : 1/2*$b+1/2*(1-$a)\n'
        text = fitted(COIN.replace('@model\nstate 0 init\n1 : p\n2 : 1-p\n', places))[0]
        self.assertIn('1 : 1/2*p\n2 : 1-1/2*p\n', text)
        self.refused(COIN.replace('1 : p', '1 : $x'), 'model: line 6: UnknownPlace: `$x`')
        power = COIN.replace('1 : p\n2 : 1-p', '1 : p/N^2\n2 : 1-p/N^2')
        self.refused(power, 'model: line 6: UnknownName: `N` is declared nowhere: --define N=NUMBER')
        self.assertIn('1 : 1/256*p\n', fitted(power, defined={'N': Fraction(16)})[0])
        text = fitted(COIN, defined={'p': Fraction(1, 3)})[0]
        self.assertIn('@type: DTMC\n@nr_states\n3\n', text)
        with self.assertRaisesRegex(Fault, '--define M: the model has no'):
            fitted(COIN, defined={'M': Fraction(1)})

    def test_values(self) -> None:
        for value in ('2*p^1*.5', 'p**1', '+p', 'p // heads', '1.*p', '(p)^2/(2-1)-p*(p-1)', '1e0*p', '((((p))))'):
            self.assertIn('1 : p\n2 : 1-p\n', fitted(COIN.replace('1 : p\n', '1 : %s\n' % value))[0], value)
        for value, cause in (
            ('1/p', 'ParametricDivisor'),
            ('p/0', 'DivisionByZero'),
            ('p^p', 'Power'),
            ('p^-1', 'Power'),
            ('2^9999', 'Power'),
            ('9^999^999', 'Wide'),
            ('1e9999', 'Wide'),
            ('((2^999)^999)^999', 'Wide'),
            ('9' * 2000, 'Wide'),
            ('(' * 80 + 'p' + ')' * 80, 'Deep'),
            ('-' * 80 + 'p', 'Deep'),
            ('+'.join('p' * 70000), 'Long'),
            ('p p', 'Syntax'),
            ('2p', 'Syntax'),
            ('', 'Syntax'),
            ('p*', 'Syntax'),
            ('[0.1, 0.2]', 'Syntax: an interval is no value'),
            ('\x07', 'Syntax: `\\x07`'),
            ('q', 'UnknownName'),
        ):
            self.refused(COIN.replace('1 : p\n', '1 : %s\n' % value), 'model: line 6: %s' % cause)
        names = ['p%d' % number for number in range(12)]
        power = '(' + '+'.join(names) + ')^20'
        self.refused(COIN.replace('\np\n', '\n%s\n' % ' '.join(names)).replace('1 : p\n', '1 : %s\n' % power), 'Long')

    def test_states(self) -> None:
        text, told = fitted(
            '@type: DTMC\n@model\nstate 7 done\n7 : 1\nstate 2 init\n7 : 1/2\n2 : 1/4\n7 : 1/4\nstate 3\n2 : 1\n'
        )
        self.assertTrue(text.endswith('@model\nstate 0 init\n1 : 3/4\n0 : 1/4\nstate 1 done\n1 : 1\n'), text)
        for line in ('states are sorted', 'to the same state are joined', '1 state: 3', 'states have other numbers'):
            self.assertIn(line, told)
        self.refused(COIN.replace('state 2', 'state 1'), 'StateOrder: state 1 stands twice')
        self.refused(COIN.replace('2 : 1-p', '9 : 1-p'), 'model: line 6: TargetRange: a transition leads to state 9')
        self.refused(COIN.replace('2 : 1\n', '2 : 1\naction b\n1 : 1\n'), 'model: line 12: ExtraChoice')
        self.refused(COIN.replace('state 2', 'state 2 init'), 'InitCount: the states 0, 2 have the label init: a new')
        self.refused(COIN.replace(' init', ''), 'InitCount: no state has the label init')
        self.refused(COIN.replace('state 2', 'state 2 !3'), 'model: line 10: ExitRate')
        self.refused(COIN.replace('state 2', 'state 2 {1}'), 'model: line 10: Observation')
        self.refused(HEAD + '@model\n', 'NoState')
        self.refused(HEAD, 'model: line 3: MissingSection')
        self.refused('', 'model: line 0: MissingSection')
        self.refused('dtmc\nmodule a\n', 'model: line 1: Syntax: `dtmc` stands in no section')
        self.refused('\xff\xfe@\x00t\x00', 'model: line 1: NotText: `\\xff\\xfe@\\x00t\\x00`')

    def test_unreached_goal(self) -> None:
        # The label can still be asked for, and the answer is 0.
        text, told = fitted(COIN + 'state 3 bad\n1 : 1\nstate 4 bad\n3 : 1\n')
        self.assertIn('state 3 bad\n3 : 1\n', text)
        self.assertIn('stays, with a loop', told)
        words = '--goal bad --bound 0 --region 0<=p<=1'
        self.assertEqual(asked(text, 'verify', *words.split())[:7], 'accept ')

    def test_deadlocks_and_counts(self) -> None:
        dead = COIN.replace('2 : 1\n', '')
        self.refused(dead, 'model: line 10: NoChoice: state 2 has no transitions: --loops')
        self.assertIn('state 2\n2 : 1\n', fitted(dead, is_looped=True)[0])
        goal = COIN.replace('1 : 1\n', '')
        self.assertIn('state 1 done\n1 : 1\n', fitted(goal, goal='done')[0])
        counted = COIN.replace('@model', '@nr_states\n4\n@model')
        self.refused(counted, 'model: line 5: CountMismatch: @nr_states says 4, and there are 3: is the text cut off?')
        self.assertIn('@nr_states\n3\n', fitted(counted, is_recounted=True)[0])

    def test_names(self) -> None:
        text, told = fitted(COIN.replace('\np\n', '\np.x q\n').replace(': p', ': p.x').replace('-p', '-p.x'))
        self.assertIn('@parameters\np_x q\n', text)
        self.assertIn('2 : 1-p_x\n', text)
        self.assertIn('p.x is p_x', told)
        many = ' '.join('q%d' % number for number in range(20))
        text, told = fitted(COIN.replace('\np\n', '\np %s\n' % many))
        self.assertIn('@parameters\np\n', text)
        self.assertIn('parameters that stand nowhere are left out', told)
        text, told = fitted(COIN.replace('done', '"fertig \xfc" done'))
        self.assertIn('state 1 "fertig \\xfc" done\n', text)
        self.assertIn('written in plain ASCII', told)

    def test_packed(self) -> None:
        packed = gzip.compress(COIN.encode())
        self.assertIn('the file is unpacked', '\n'.join(fit(packed, Wants()).told.lines()))
        for wrong in (packed[:-9], packed[:20] + b'\x00' + packed[21:], packed + b'x'):
            with self.assertRaisesRegex(Fault, 'model: line 0: NotText'):
                fit(wrong, Wants())
        with mock.patch('plift_lab.fit.lines.MOST_BYTES', 1000), self.assertRaisesRegex(Fault, 'more than 1000 bytes'):
            fit(gzip.compress(bytes(10**6)), Wants())

    def test_mutated(self) -> None:
        draw = random.Random(SEED)
        texts = [path.read_bytes() for path in sorted(EXAMPLES.glob('*.drn')) if path.stat().st_size < 2000]
        texts += [STORM.encode(), TMR.encode()]
        fitting = 0
        for _ in range(MUTATED):
            text = bytearray(draw.choice(texts))
            for _ in range(draw.randint(1, 4)):
                place = draw.randrange(len(text) + 1)
                kind = draw.randrange(4)
                if kind == 0:
                    text[place : place + 1] = bytes([draw.randrange(256)])
                elif kind == 1:
                    text[place:place] = draw.choice(
                        [b'^', b'(', b'"', b'[', b'0', b'\n', b'@', b'p', b' ', b'/', b'e9']
                    )
                elif kind == 2:
                    del text[place : place + draw.randint(1, 9)]
                elif draw.random() < 0.3:
                    del text[max(1, place) :]
            wants = Wants(is_rounded=draw.random() < 0.5, is_looped=draw.random() < 0.5)
            try:
                found = fit(bytes(text), wants)
                told = '\n'.join([found.text.decode('ascii'), *found.told.lines()])
                fitting += 1
            except Fault as fault:
                self.assertEqual(fault.status, 3, (bytes(text), fault))
                told = str(fault)
                self.assertRegex(told, '^model: line [0-9]+: [A-Z][A-Za-z]+(: |$)')
            self.assertTrue(told.isascii() and told.replace('\n', '').isprintable(), (bytes(text), told))
        self.assertTrue(MUTATED // 9 < fitting < MUTATED * 8 // 9, fitting)


class Rewards(unittest.TestCase):
    def test_choices_that_cost_alike(self) -> None:
        two = '@type: MDP\n@reward_models\na b\n@model\nstate 0 [1,1/2] init\n'
        two += 'action x [2,0.5]\n1 : 1\naction y [2, 0.5]\n1 : 1\nstate 1\n1 : 1\n'
        self.assertIn('state 0 [3,1] init\naction x\n', fitted(two)[0])
        text, told = fitted(two.replace('y [2', 'y [3'))
        self.assertIn('action y [3,1/2]\n', text)
        self.assertIn('`cost` refuses this text (ActionReward)', told)

    def test_odd_rewards(self) -> None:
        text, told = fitted(COIN.replace('@model', '@reward_models\na b\n@model').replace('state 0', 'state 0 [p,2]'))
        self.assertIn('@reward_models\nb\n', text)
        self.assertIn('state 0 [2] init', text)
        self.assertIn('a: line 7: `p`: a parameter stands in it', told)
        text, told = fitted(COIN.replace('@model', '@reward_models\n\n@model').replace('state 0', 'state 0 [2]'))
        self.assertIn('@reward_models\nreward\n', text)
        self.assertIn('rewards without a name are called reward', told)
        text, told = fitted(COIN.replace('@model', '@reward_models\na\n@model').replace('state 0', 'state 0 [2,3]'))
        self.assertNotIn('@reward_models', text)
        self.assertIn('has 2 values, and there are 1 reward models', told)


class Rounding(unittest.TestCase):
    def row(self, *values: str) -> str:
        """A chain whose first row has these values."""
        states = ''.join(
            'state %d%s\n%d : 1\n' % (place, ' done' * (place == 1), place) for place in range(1, len(values))
        )
        row = ''.join('%d : %s\n' % entry for entry in enumerate(values))
        return '@type: DTMC\n@model\nstate 0 init\n%s%s' % (row, states)

    def test_distance(self) -> None:
        with self.assertRaises(Fault) as found:
            fitted(self.row('0.97999999999999998', '0.02'))
        self.assertEqual(
            str(found.exception),
            'model: line 4: RowSum: state 0 choice 0 sums to 1 - 1/50000000000000000, about 2e-17 below 1; --round '
            'finds numbers near by that sum to 1',
        )
        with self.assertRaisesRegex(Fault, 'sums to 1 - 1/10000, about 0.0001 below 1$'):
            fitted(self.row('0.3333', '0.3333', '0.3333'))
        with self.assertRaisesRegex(Fault, 'no numbers within 10\\^-12 do$'):
            fitted(self.row('0.3333', '0.3333', '0.3333'), is_rounded=True)
        with self.assertRaisesRegex(Fault, 'line 6: RowSum: state 0 choice 0 misses 1 by p$'):
            fitted(COIN.replace('1-p', '1'))

    def test_simplest(self) -> None:
        text, told = fitted(self.row('0.97999999999999998', '0.02'), is_rounded=True)
        self.assertIn('0 : 49/50\n1 : 1/50\n', text)
        self.assertIn('state 0 choice 0: 0.97999999999999998 is 49/50', told)
        third = '0.33333333333333331'
        self.assertIn('0 : 1/3\n1 : 1/3\n2 : 1/3\n', fitted(self.row(third, third, third), is_rounded=True)[0])
        text = COIN.replace('1 : p\n', '1 : %s*p\n' % third).replace('1-p', '1-0.33333333333333337*p')
        self.assertIn('1 : 1/3*p\n2 : 1-1/3*p\n', fitted(text, is_rounded=True)[0])

    def test_many_digits(self) -> None:
        values = ('0.1234567890123456', '0.3141592653589793', '0.2718281828459045', '0.2905557627827706')
        text = fitted(self.row(*values), is_rounded=True)[0]
        row = read(text).choices[0][0]
        self.assertEqual(sum(Fraction(value.strip()) for _, value in row), 1)
        for (_, new), old in zip(row, values):
            self.assertLessEqual(abs(Fraction(new.strip()) - Fraction(old)), Fraction(1, 10**12))
        self.assertEqual(asked(text, 'verify', '--goal', 'done', '--bound', '1', '--region', '')[:7], 'accept ')

    def test_random_rows(self) -> None:
        draw = random.Random(3)
        for _ in range(150):
            parts = [draw.random() ** draw.choice([1, 9]) for _ in range(draw.randint(2, 7))]
            values = [Fraction('%.17f' % (part / sum(parts))) for part in parts]
            values = [value for value in values if value]
            found = rounded(values, Fraction(1), draw.random() < 0.5) or []
            self.assertEqual((len(found), sum(found)), (len(values), 1))
            for new, old in zip(found, values):
                self.assertLessEqual(abs(new - old), min(Fraction(1, 10**12), old / 10**6))

    def test_simplest_by_hand(self) -> None:
        for value, within, want in (('0.3332', '0.001', '1/3'), ('0.5', '0.1', '1/2'), ('3.14', '0.01', '22/7')):
            self.assertEqual(simplest(Fraction(value), Fraction(within)), Fraction(want))
        self.assertEqual(simplest(Fraction(-7, 10), Fraction(1, 20)), Fraction(-2, 3))


class Labels(InFolder):
    def test_formulas(self) -> None:
        for text, names, holds in (
            ('a', 'a', True),
            ('a & !b', 'a', True),
            ('a & !b', 'a b', False),
            ('a | b & c', 'a', True),
            ('(a | b) & c', 'a', False),
            ('!!a', 'a', True),
            ('!(a|b)', '', True),
            ('a && b || c', 'c', True),
            ('"a" & ! "b"', 'a', True),
        ):
            self.assertEqual(Formula(text, '--goal').holds([name.encode() for name in names.split()]), holds, text)
        for text in ('', 'a &', '(a', 'a)', 'a b', '"a', '& a', '!' * 200 + 'a', '(' * 5000):
            with self.assertRaisesRegex(Fault, '^--goal is no formula of labels'):
                Formula(text, '--goal')

    def test_goal_and_safe(self) -> None:
        text = (
            '@type: MDP\n@parameters\np\n@model\nstate 0 a init\naction x\n1 : p^2\n2 : 1-p^2\naction y\n3 : 1\n'
            'state 1 a\n2 : p*p\n3 : 1-p*p\nstate 2 b\n2 : 1\nstate 3 a b\n3 : 1\n'
        )
        new, told = fitted(text, goal='b & !a', safe='!b')
        self.assertIn('state 2 b goal\n', new)
        self.assertIn('state 1 a safe\n', new)
        self.assertIn('the label `goal` stands where b & !a holds', told)
        for picks in ((0, 0, 0, 0), (1, 0, 0, 0)):
            for p in (Fraction(0), Fraction(1, 3), Fraction(1)):
                before = text.replace('state 2 b', 'state 2 b goal')
                before = before.replace('state 0 a', 'state 0 a safe').replace('state 1 a', 'state 1 a safe')
                worth = [reached(read(each), {'p': p}, 'goal', picks, 'safe') for each in (before, new)]
                self.assertEqual(*worth)
        formula = 'P<=99/100 ["safe" U "goal"]'
        self.assertIn(asked(new, 'property', '--formula', formula, '--region', '1/10<=p<=1/5')[:2], ('x ', 'ra', 'un'))

    def test_names(self) -> None:
        self.assertIn('state 1 done goal goal_2\n', fitted(COIN.replace('done', 'done goal'), goal='!init & goal')[0])
        self.assertIn('state 1 done\n', fitted(COIN, goal='done')[0])
        with self.assertRaisesRegex(Fault, 'line 11: UnknownLabel: --goal asks for the label `dome`, .* done, init'):
            fitted(COIN, goal='!dome')
        with self.assertRaisesRegex(Fault, 'UnknownLabel: --goal holds in no state'):
            fitted(COIN, goal='done & init')


class Trials(unittest.TestCase):
    def test_a_difference_is_found(self) -> None:
        # A fault in what is written: then nothing is.
        with mock.patch('plift_lab.fit.write.Writer._entries', lambda self, row, lines: lines.append('1 : 1')):
            with self.assertRaises(Fault) as found:
                fitted(COIN)
        self.assertEqual(found.exception.status, 70)
        self.assertIn('the fitted model isn\'t the same: reach of done from state', str(found.exception))

    def test_choices_are_compared(self) -> None:
        text = COIN.replace('DTMC', 'MDP').replace('2 : 1-p\n', '2 : 1-p\naction b\n1 : p^2\n2 : 1-p^2\n')
        self.assertIn('10 valuations from 0 to 1, the choices drawn at random', fitted(text)[1])

    def test_small_rates(self) -> None:
        text = COIN.replace('1 : p\n', '1 : 10^8*p\n').replace('1-p', '1-10^8*p')
        self.assertIn('at 10 valuations from 0 to 1', fitted(text)[1])
        text = COIN.replace('1 : p\n', '1 : p+1\n').replace('1-p', '-p')
        self.assertIn('not tested: no valuation from 0 to 1', fitted(text)[1])


class Command(InFolder):
    def test_files(self) -> None:
        model, out, log = self.file('model.drn', TMR.encode()), str(self.folder / 'a.drn'), str(self.folder / 'a.log')
        status, told, error = run('fit', model, '--out', out, '--log', log)
        self.assertEqual((status, told, error), (0, '', ''))
        self.assertEqual(Path(out).read_text(), fitted(TMR)[0])
        self.assertIn('tosses p 3 times', Path(log).read_text())
        for words in (('--out', model), ('--log', model), ('--out', out, '--log', out), ('--out', '')):
            self.assertEqual(run('fit', model, *words)[0], 2, words)
        self.assertEqual(Path(model).read_bytes(), TMR.encode())

    def test_nothing_is_written_of_a_refusal(self) -> None:
        model, out, log = self.file('m.drn', b'@type: DTMC\n@model\n\xffstate'), self.folder / 'o', self.folder / 'l'
        status, told, error = run('fit', model, '--out', str(out), '--log', str(log))
        self.assertEqual((status, told, error.count('\n')), (3, '', 1))
        self.assertIn('model: line 3: Syntax: `\\xffstate`', error)
        self.assertFalse(out.exists() or log.exists())

    def test_streams(self) -> None:
        command = [sys.executable, str(TOP / 'lab/plift_lab/__main__.py'), 'fit', '-', '--define', 'm=1']
        done = subprocess.run(
            command, input=TMR.encode(), capture_output=True, env=dict(os.environ, PYTHONOPTIMIZE='1')
        )
        self.assertEqual(done.stdout.decode(), fitted(TMR, defined={'m': Fraction(1)})[0])
        self.assertIn(b'plift-lab fit: -\n', done.stderr)

    def test_words(self) -> None:
        model = self.file('model.drn', COIN.encode())
        for words in (
            ('--define', 'N'),
            ('--define', 'p=1,p=2'),
            ('--define', 'p=x'),
            ('--relative',),
            ('--region', 'q=0..1'),
            ('--region', ''),
            ('--goal', 'a b'),
            ('--region', 'p=1/2', '--define', 'p=1/2'),
        ):
            status, _, error = run('fit', model, *words)
            self.assertEqual((status, error.count('\n')), (2, 1), (words, error))
        status, told, _ = run('--help', 'fit')
        self.assertEqual(status, 0)
        self.assertEqual(told, run('fit', '--help')[1])

    def test_values_in_a_region(self) -> None:
        out = self.folder / 'a.drn'
        self.assertEqual(
            run('fit', self.file('m.drn', TMR.encode()), '--region', 'p=0..1/2,m=0.5', '--out', str(out))[0], 0
        )
        self.assertIn('@parameters\np\n', out.read_text())


if __name__ == '__main__':
    unittest.main()
