"""Formulas: how they are read, and what every command answers to them, against values worked out by hand."""

import json
import os
import unittest
from fractions import Fraction
from pathlib import Path
from unittest import mock

from plift_lab.faults import Fault
from plift_lab.forms import Asked, Form, read_formula
from plift_lab.judging import RECHECK
from plift_lab.program import Program, find_program
from plift_lab.session import Session

from .helpers import EXAMPLES, RETRY, InFolder, run

REGION = 'p=1/10..3/10,q=1/20..1/5'
SENDS, LOOP, TWIN, RELAY = (str(EXAMPLES / name) for name in ('sends.drn', 'loop.drn', 'twin.drn', 'relay.drn'))
DELIVERED = '[F "delivered"]'
# Up states 0 and 1, a down state 2; the goal 3 is reached from 0 with p by way of 1, and with 1-p by way of 2.
WAYS = (
    b'@type: DTMC\n@parameters\np\n@model\nstate 0 init up\n1 : p\n2 : 1-p\nstate 1 up\n3 : 1\nstate 2\n3 : 1\n'
    b'state 3 done\n3 : 1\n'
)


class Reading(unittest.TestCase):
    def test_formulas(self) -> None:
        quarter = Fraction(1, 4)
        for text, due in (
            ('P<=1/4 [F "g"]', Asked('g', quarter, Form())),
            (' P <= 25% [ F g ] ', Asked('g', quarter, Form())),
            ('P<0.25[F "g"]', Asked('g', quarter, Form('<'))),
            ('P>=0.25 ["a" U "g"]', Asked('g', quarter, Form('>=', 'a'))),
            ('P>1/4 [a U g]', Asked('g', quarter, Form('>', 'a'))),
            ('P<=1/4 [F<=12 "g"]', Asked('g', quarter, Form(steps=12))),
            ('R{"r"}<=1/4 [F "g"]', Asked('g', quarter, Form(reward='r', cap=9))),
            ('P=? [F "g"]', Asked('g', None, Form())),
            ('Pmax=? [F "g h"]', Asked('g h', None, Form())),
            ('Pmin=? ["a" U "g"]', Asked('g', None, Form('>=', 'a'))),
            ('R{"r"}max=? [F "g"]', Asked('g', None, Form(reward='r', cap=9))),
        ):
            self.assertEqual(read_formula(text, 9), due, text)

    def test_what_is_refused(self) -> None:
        for text, says in (
            ('', 'isn\'t read'),
            ('P<=1/4', 'isn\'t read'),
            ('P<= [F "g"]', 'a bound stands'),
            ('P=?1/4 [F "g"]', 'a bound stands'),
            ('Pmax<=1/4 [F "g"]', 'a bound stands'),
            ('P<=1/4 [G "g"]', 'never to be reached'),
            ('P<=1/4 [X "g"]', 'F<=1 "goal"'),
            ('P<=1/4 [F "g" & "h"]', 'a label of their own'),
            ('R<=4 [F "g"]', 'name the reward model'),
            ('Rmax=? [F "g"]', 'name the reward model'),
            ('R{"r"}<=4 [C<=10]', 'up to a goal'),
            ('P<=x [F "g"]', 'no number'),
            ('P<=2 [F "g"]', 'no share'),
            ('P>=1/4 [F<=3 "g"]', 'within a number of steps'),
            ('P<=1/4 [F<=65 "g"]', 'from 1 to 64'),
            ('R{"r"}>=1 [F "g"]', 'of costs'),
            ('R{"r"}min=? [F "g"]', 'of costs'),
            ('R{"r"}<=10 [F "g"]', 'the budget'),
        ):
            with self.assertRaisesRegex(Fault, says, msg=text):
                read_formula(text, 9)


class Judges(InFolder):
    def judged_by(self, audit: str) -> str:
        """Who judges a text of `property`, where the program answers `audit` like this."""
        script = '#!/bin/sh\nif [ "$1" = audit ]; then\n%s\nfi\nexec "%s" "$@"\n' % (audit, find_program().path)
        stand_in = self.file('plift', script.encode())
        Path(stand_in).chmod(0o755)
        with mock.patch.dict(os.environ, {'PLIFT_PROGRAM': stand_in}):
            words = ('--formula', 'P>=0.9 [F "delivered"]', '--region', REGION, '--json')
            status, told, fault = run('verify', RETRY, *words)
        return str(json.loads(told)[0]['behind']['judge']) if status == 0 else '%d: %s' % (status, fault)

    def test_the_program_where_it_can(self) -> None:
        sound = 'cat > /dev/null; echo sound holds 1 fails 0 unknown 0; exit 0'
        self.assertEqual(self.judged_by(sound), '%s audit' % (self.folder / 'plift'))

    def test_the_second_checker_else(self) -> None:
        self.assertEqual(self.judged_by('cat > /dev/null; echo usage: words >&2; exit 2'), str(RECHECK))

    def test_what_is_not_sound(self) -> None:
        told = self.judged_by('cat > /dev/null; echo not sound: line 1: Syntax >&2; exit 1')
        self.assertIn('2: plift-lab: plift refuses this: not sound: line 1: Syntax', told)
        report = self.file('a.text', b'plift-property 1\nkind mdp\n')
        status, out, fault = run('verdict', report)
        self.assertEqual((status, out), (2, ''))
        self.assertIn('a.text: not sound: line 3: Truncated', fault)


class Answers(InFolder):
    def test_verdicts(self) -> None:
        """Lost are at most p^3 and at least q^3 of the messages, whichever is chosen where p is above q."""
        seen = set()
        for model, formula, region, verdict, more in (
            (RETRY, 'P>=97.3% [F "delivered"]', REGION, 'unknown', ()),
            (RETRY, 'P>=0.97 [F "delivered"]', REGION, 'accepted', ()),
            (RETRY, 'P>=9999/10000 [F "delivered"]', REGION, 'rejected', ('--depth', '2')),
            (RETRY, 'P<=0.03 [F "lost"]', REGION, 'accepted', ()),
            (RETRY, 'P>=0.99 [F "delivered"]', REGION, 'mixed', ('--depth', '6')),
            (TWIN, 'P>=1/2 [F "heads"]', 'p=3/5..9/10', 'rejected', ()),
            (LOOP, 'P<=1/10 [F<=2 "heads"]', 'p=1/5..2/5', 'rejected', ()),
            (SENDS, 'R{"sends"}<=7/5 [F "done"]', REGION, 'accepted', ('--cap', '3')),
            (SENDS, 'R{"sends"}<=5/4 [F "done"]', REGION, 'unknown', ('--cap', '3')),
            (self.file('w.drn', WAYS), 'P>=1/2 ["up" U "done"]', 'p=1/2..3/4', 'accepted', ()),
            (self.file('w.drn', WAYS), 'P<1/2 ["up" U "done"]', 'p=1/2..3/4', 'rejected', ()),
        ):
            report = str(self.folder / 'a.text')
            words = ('verify', model, '--formula', formula, '--region', region, '--report', report, *more)
            status, told, fault = run(*words)
            self.assertEqual((status, told.partition(':')[0]), (0, verdict), (formula, told, fault))
            status = {'accepted': 10, 'rejected': 20, 'mixed': 30, 'unknown': 40}[verdict]
            self.assertEqual(run('verdict', report, '--brief')[:2], (status, told.splitlines()[0] + '\n'))
            judge = ' check' if 'P<=' in formula and 'F<=' not in formula else str(RECHECK)
            self.assertIn('judged by', told)
            self.assertIn(judge, told.replace(', built without proofs', ''))
            command = Path(report).read_bytes().partition(b'\n')[0]
            if command in seen:  # the others are told in the same way
                continue
            seen.add(command)
            data = json.loads(run('leaves', report, '--json')[1])
            self.assertEqual((data['verdict'], sum(Fraction(leaf['share']) for leaf in data['leaves'])), (verdict, 1))
            page = run('view', report)[1]
            self.assertIn(
                '<title>%s</title>' % data['question'].replace('<', '&lt;').replace('"', '&quot;').replace('>', '&gt;'),
                page,
            )

    def test_numbers(self) -> None:
        """p and q to the third, the sums of sends, and twice p(1-p) + p."""
        tenth, steps = Fraction(1, 10), Fraction(2, 5)
        for model, formula, region, most, least in (
            (RETRY, 'Pmax=? [F "lost"]', REGION, Fraction(27, 1000), tenth**3),
            (RETRY, 'Pmin=? [F "delivered"]', REGION, 1 - tenth**3, 1 - Fraction(27, 1000)),
            (LOOP, 'P=? [F<=2 "heads"]', 'p=1/5..2/5', steps * Fraction(3, 4), Fraction(1, 5) * Fraction(3, 4)),
            (self.file('w.drn', WAYS), 'P=? ["up" U "done"]', 'p=1/2..3/4', Fraction(3, 4), Fraction(1, 2)),
        ):
            words = ('bounds', model, '--formula', formula, '--region', region, '--width', '1/100000', '--json')
            status, told, fault = run(*words)
            self.assertEqual((status, fault), (0, ''), formula)
            found = json.loads(told)
            for name, due in (('sup', most), ('inf', least)):
                low, high = (Fraction(found[name][end]) for end in ('least', 'most'))
                self.assertTrue(low <= due <= high, (formula, name, float(low), float(high)))
                self.assertLessEqual(high - low, Fraction(1, 100000))

    def test_costs(self) -> None:
        """At most 1 + 3/10 + 9/100 transmissions; a cap is found, and no cost is shown from below."""
        words = ('bounds', SENDS, '--formula', 'R{"sends"}=? [F "done"]', '--region', REGION)
        status, told, _ = run(*words)
        self.assertEqual((status, told.splitlines()[0][:18]), (0, 'at most 1.39000001'))
        self.assertIn('no cost from below', told)
        found = json.loads(run(*words, '--width', '1/1000', '--json')[1])
        self.assertEqual((found['sup']['least'], found['sup']['short']), ('0', False))
        self.assertTrue(0 <= Fraction(found['sup']['most']) - Fraction(139, 100) < Fraction(1, 1000))
        status, _, fault = run('bounds', LOOP, '--formula', 'R{"x"}=? [F "heads"]', '--region', 'p=1/5..2/5')
        self.assertEqual((status, fault.count('\n') >= 1), (2, True))
        status, _, fault = run('verify', SENDS, '--formula', 'R{"sends"}<=7/5 [F "done"]', '--region', REGION)
        self.assertEqual((status, '--cap C is due' in fault), (2, True))

    def test_a_goal_that_may_be_missed(self) -> None:
        """A run that is stuck with a cost behind it: the cost counts, and that is told."""
        text = (
            b'@type: DTMC\n@parameters\np\n@reward_models\nc\n@model\nstate 0 [1] init\n1 : p\n2 : 1-p\n'
            b'state 1 [0] done\n1 : 1\nstate 2 [0]\n2 : 1\n'
        )
        for question in ('<=1', '=?'):
            command = 'verify' if '1' in question else 'bounds'
            words = ('--formula', 'R{"c"}%s [F "done"]' % question, '--region', 'p=1/4..1/2', '--cap', '2')
            told = run(command, self.file('m.drn', text), *words)[1]
            self.assertIn('done isn\'t shown to be reached for sure', told)
            told = run(
                command, SENDS, '--formula', 'R{"sends"}%s [F "done"]' % question, '--region', REGION, '--cap', '4'
            )[1]
            self.assertNotIn('reached for sure', told)

    def test_sides_of_different_scale(self) -> None:
        words = (
            'verify',
            RETRY,
            '--goal',
            'lost',
            '--bound',
            '1/40',
            '--region',
            'p=0.05..0.06,q=0..1/2',
            '--depth',
            '2',
        )
        self.assertIn('--relative compares them', run(*words)[1])
        self.assertNotIn('--relative', run(*words, '--relative')[1])

    def test_a_threshold(self) -> None:
        words = ('threshold', RETRY, '--formula', 'P>=0.99 [F "delivered"]', '--parameter', 'p', '--region', REGION)
        status, told, _ = run(*words, '--json')
        found = json.loads(told)
        edge = float(Fraction(found['accepted_to']))
        self.assertEqual(status, 0)
        self.assertTrue(edge**3 <= 0.01 < (edge + 0.001) ** 3, edge)
        self.assertGreaterEqual(float(Fraction(found['rejected_at'])) ** 3, 0.01)

    def test_a_threshold_of_costs(self) -> None:
        """1 + p + p^2 is 13/10 at p = .2416; a point that would be rejected isn't asked for, since none is."""
        formula = ('--formula', 'R{"sends"}<=1.3 [F "done"]', '--cap', '3')
        with mock.patch.object(Program, 'verify', autospec=True, side_effect=Program.verify) as started:
            words = ('--parameter', 'p', '--region', 'p=1/20..1/2,q=1/20..1/10', '--json')
            status, told, _ = run('threshold', SENDS, *formula, *words)
        edge = float(Fraction(json.loads(told)['accepted_to']))
        self.assertEqual((status, json.loads(told)['rejected_at']), (1, None))
        self.assertTrue(edge + edge**2 <= 0.3 < edge + 0.0005 + (edge + 0.0005) ** 2, edge)
        self.assertLess(started.call_count, 20)

    def test_why_it_is_unknown(self) -> None:
        report = str(self.folder / 'a.text')
        words = ('verify', RETRY, '--formula', 'P>=0.99 [F "delivered"]', '--region', REGION, '--report', report)
        self.assertEqual(run(*words)[0], 0)
        told = run('verdict', report)[1]
        self.assertIn('between 0.972999999 and 0.999000001 at 40 bits; the bound is 99/100', told)
        self.assertIn('halving p', told)

    def test_coverage(self) -> None:
        words = ('verify', RETRY, '--formula', 'P>=0.99 [F "delivered"]', '--region', REGION, '--coverage', '90%')
        keep = str(self.folder / 'k')
        status, told, _ = run(*words, '--keep', keep)
        self.assertEqual((status, told.splitlines()[1][:20]), (0, '  decided: 93.75 % a'))
        with Session() as session:
            reports = [session.read(str(path)) for path in Path(keep).glob('*.report')]
        self.assertEqual({report.command for report in reports}, {'property'})
        self.assertEqual(run(*words, '--keep', keep)[1], told)  # all is there already

    def test_a_range_of_precisions(self) -> None:
        """The text of version 2 that is joined has the bytes of the one that is asked at that depth."""
        formula, report, again = 'P>=0.99 [F "delivered"]', str(self.folder / 'a'), str(self.folder / 'b')
        words = ('verify', RETRY, '--formula', formula, '--region', REGION, '--precision', '12', '--from', '1')
        status, told, fault = run(*words, '--coverage', '93%', '--report', report)
        self.assertEqual((status, fault), (0, ''))
        with Session() as session:
            read = session.read(report)
        self.assertEqual((read.command, read.version, read.least_precision, read.precision), ('property', 2, 1, 12))
        self.assertLess(min(read.precisions), 12)
        self.assertEqual(run(*words, '--depth', str(read.depth), '--report', again)[0], 0)
        self.assertEqual(Path(report).read_bytes(), Path(again).read_bytes())

    def test_words_that_do_not_go_together(self) -> None:
        formula = ('--formula', 'P<=1/4 [F "lost"]')
        for words, says in (
            (('verify', RETRY, *formula, '--bound', '1/4'), 'leave --bound out'),
            (('verify', RETRY, *formula, '--goal', 'lost'), 'not both'),
            (('verify', RETRY, '--formula', 'P=? [F "lost"]'), 'a bound is due'),
            (('verify', RETRY, '--formula', 'P<=1/4 [F<=3 "lost"]', '--from', '3'), '--from goes with'),
            (('verify', RETRY, '--formula', 'P>=1/4 [F "lost"]', '--from', '41'), '--from is a whole number'),
            (('verify', RETRY, *formula, '--cap', '0'), '--cap is a whole number'),
        ):
            status, _, fault = run(*words, '--region', REGION)
            self.assertEqual(status, 2, words)
            self.assertIn(says, fault)

    def test_a_formula_of_several(self) -> None:
        words = ('--formula', 'P<=0.03 [F "lost"]', '--formula', 'P>=0.97 [F "delivered"]')
        status, told, _ = run('verify', RETRY, *words, '--region', REGION)
        self.assertEqual((status, told.count('accepted: ')), (0, 2))


if __name__ == '__main__':
    unittest.main()
