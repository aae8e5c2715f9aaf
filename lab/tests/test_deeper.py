"""Reports that are taken deeper: whichever parts are asked again, the bytes are those of a single answer."""

import unittest
from contextlib import contextmanager
from dataclasses import replace
from fractions import Fraction
from pathlib import Path
from typing import Any, Iterator, List
from unittest import mock

from plift_lab.cover import cover, levels_due
from plift_lab.deeper import Deepening
from plift_lab.faults import Fault, Refused
from plift_lab.forms import read_formula
from plift_lab.evidence import read_file
from plift_lab.models import Model
from plift_lab.pace import Pace
from plift_lab.parts import cheapest_parts, unknown_parts
from plift_lab.program import MOST_CHECKED_BYTES, Program
from plift_lab.regions import Region
from plift_lab.report import Report
from plift_lab.session import Question, Session

from .helpers import EXAMPLES, RANGE, TREE, InFolder, run

deepen = Session.deepen
REGION = 'p=1/10..1/2,q=1/10..1/2'
RETRY = Question(Model((EXAMPLES / 'retry.drn').read_bytes()), 'lost', Fraction(1, 40), Region.read(REGION), 4, 10)
# A product of four parameters, whose corners need the more room the finer the grid is.
PRODUCT = (
    b'@type: DTMC\n@parameters\np q r s\n@model\nstate 0 init\n1 : p*q*r*s\n2 : 1-p*q*r*s\nstate 1 a\n1 : 1\n'
    b'state 2\n2 : 1\n'
)
NARROW = ','.join('%s=0.10001..0.9' % name for name in 'pqrs')


def questions() -> Iterator[Question]:
    """Some of one version and some of the other, of chains and of decision processes."""
    for name, goal, bound, region, precision in (
        ('coin.drn', 'heads', '1/3', 'p=1/10..9/10', 10),
        ('links.drn', 'lost', '1/10', 'p=1/20..2/5,q=1/20..2/5', 16),
        ('chain.drn', 'lost', '1/2', 'p=3/5..9/10,q=3/5..9/10,r=3/5..9/10', 16),
        ('retry.drn', 'lost', '1/40', 'q=1/10..1/2,p=1/10..1/2', 40),
    ):
        question = Question(
            Model((EXAMPLES / name).read_bytes()), goal, Fraction(bound), Region.read(region), 0, precision
        )
        yield question
        yield replace(question, is_relative=True, least_precision=1)


def formulas() -> Iterator[Question]:
    """Questions whose answers are texts of `property`, `bounded` and `cost`."""
    for name, formula, cap in (
        ('retry.drn', 'P>=24/25 [F "delivered"]', None),
        ('retry.drn', 'P<1/20 [F "lost"]', None),
        ('coin.drn', 'P>1/3 [F "heads"]', None),
        ('retry.drn', 'P<=1/2 [F<=2 "lost"]', None),
        ('retry.drn', 'P<=1/40 [F<=3 "lost"]', None),
        ('sends.drn', 'R{"sends"}<=7/5 [F "done"]', 3),
    ):
        asked = read_formula(formula, cap)
        region = 'p=1/10..9/10' if name == 'coin.drn' else REGION
        model = Model((EXAMPLES / name).read_bytes())
        yield Question(model, asked.goal, asked.bound or Fraction(0), Region.read(region), 0, 10, form=asked.form)


@contextmanager
def costing(start: float, rectangle: float) -> Iterator[None]:
    """A model that takes so long."""
    with mock.patch.object(Pace, 'costs', (start, rectangle)), mock.patch('plift_lab.deeper.COLD', 0):
        yield


class Bytes(unittest.TestCase):
    def test_whatever_is_asked_again(self) -> None:
        for question in questions():
            with Session() as session:
                due = {depth: session.ask(replace(question, depth=depth)).data for depth in (3, 6, 8)}
            for costs in ((0.0, 1.0), (4.0, 1.0), (20.0, 1.0), (10.0**6, 1.0)):
                with self.subTest(words=question.words(question.region, 0), costs=costs), costing(
                    *costs
                ), Session() as session:
                    report = session.ask(replace(question, depth=3))
                    for depth in (6, 8):
                        report = session.deepen(replace(question, depth=depth), report)
                        self.assertEqual(report.data, due[depth])
                        self.assertEqual(report.origin.words[report.origin.words.index('--depth') + 1], str(depth))

    def test_texts(self) -> None:
        parts = 0
        for question in formulas():
            with Session() as session, self.subTest(words=question.words(question.region, 0)):
                base, due = (session.ask(replace(question, depth=depth)) for depth in (2, 5))
                parts += len(unknown_parts(base))
                for costs in ((0.0, 1.0), (4.0, 1.0)):
                    with costing(*costs), Session() as other:
                        report = other.deepen(replace(question, depth=5), base)
                        self.assertEqual((report.data, report.soundness), (due.data, due.soundness))
                        asked = other.asked
                        self.assertEqual(other.shorten(replace(question, depth=2), report).data, base.data)
                        self.assertEqual(other.asked, asked)
        self.assertGreater(parts, 9)

    def test_what_is_decided_is_not_asked_again(self) -> None:
        asked = []

        def verify(self: Program, words: List[str], *others: Any) -> float:
            asked.append((words[words.index('--bound') + 1], words[words.index('--region') + 1]))
            return real(self, words, *others)

        real = Program.verify
        with Session() as session:
            base = session.ask(RETRY)
            with costing(0.0, 1.0), mock.patch.object(Program, 'verify', verify):
                session.deepen(replace(RETRY, depth=6), base)
        regions = [
            Region(tuple((name, *ends) for name, ends in leaf.rectangle.items())).text
            for leaf in base.leaves()
            if leaf.kind == 'unknown'
        ]
        # First the whole, with the bound 1: has it room at this depth?
        self.assertEqual(asked, [('1', RETRY.region.text)] + [('1/40', region) for region in regions])

    def test_fewer_bits_where_the_finer_grid_has_no_room(self) -> None:
        question = Question(Model(PRODUCT), 'a', Fraction(1, 10), Region.read(NARROW))
        with Session() as session:
            base = session.ask(replace(question, depth=2))
            deeper = session.deepen(replace(question, depth=8), base)
            self.assertLess(deeper.precision, base.precision)
            self.assertEqual(deeper.data, session.ask(replace(question, depth=8)).data)

    def test_an_answer_of_another_job_is_refused(self) -> None:
        def ask(region: Region, depth: int, report: Path, is_open: bool = False) -> float:
            report.write_bytes(RANGE)
            return 0.0

        with Session() as session, costing(0.0, 1.0):
            base = session.ask(RETRY)
            with self.assertRaisesRegex(Fault, 'what plift wrote of a part of the region isn\'t of this job'):
                Deepening(base, 6, Pace(), ask).write(session.evidence.folder / 'x')
            self.assertEqual([path.name for path in session.evidence.folder.glob('part-of*')], [])


class Cover(unittest.TestCase):
    def slowly(self, question: Question, *shares: Fraction) -> Iterator[Report]:
        """What is found by asking the whole at every second depth."""
        with Session() as session:
            depth, report = 0, session.ask(replace(question, depth=0))
            for share in shares:
                while report.shares['unknown'] > 1 - share:
                    depth += 2
                    report = session.ask(replace(question, depth=depth))
                yield report

    def test_the_least_depth(self) -> None:
        shares = Fraction(1, 2), Fraction(9, 10), Fraction(19, 20)
        for question in questions():
            for share, due in zip(shares, self.slowly(question, *shares)):
                with self.subTest(words=question.words(question.region, 0), share=share), Session() as session:
                    found = cover(session, question, share, lambda report: None)
                    self.assertEqual((found.data, found.origin), (due.data, due.origin))

    def test_a_report_that_went_too_far_is_cut(self) -> None:
        question = replace(RETRY, bound=Fraction(1, 1000), depth=0)
        with Session() as session:
            asked: List[int] = []

            def told(self: Session, *one: Any) -> Any:
                asked.append(one[0].depth)
                return deepen(self, *one)

            with mock.patch.object(Session, 'deepen', told):
                found = cover(session, question, Fraction(9, 10), lambda report: None)
            self.assertEqual(
                [path.name for path in session.evidence.folder.glob('*.report')], [found.path.rpartition('/')[2]]
            )
        self.assertGreater(asked[-1], found.depth)
        self.assertEqual(found.data, next(self.slowly(question, Fraction(9, 10))).data)

    def test_a_leap_that_is_refused(self) -> None:
        """Where a report is too long the next one may not be."""

        def refuses(self: Session, question: Question, base: Report) -> Report:
            if question.depth > base.depth + 2 or question.depth > 8:
                raise Refused(7, 'too long', [], b'')
            return deepen(self, question, base)

        with Session() as session, mock.patch.object(Session, 'deepen', refuses):
            self.assertEqual(cover(session, replace(RETRY, depth=0), Fraction(1), lambda report: None).depth, 8)

    def test_levels(self) -> None:
        with Session() as session:
            first = session.ask(replace(RETRY, depth=0))
            later = session.ask(replace(RETRY, depth=8))
        self.assertEqual(
            [levels_due(first, share) for share in (Fraction(1, 2), Fraction(19, 20), Fraction(1))], [2, 6, 6]
        )
        self.assertEqual(levels_due(later, 1 - later.shares['unknown'] / 2), 2)
        self.assertEqual(levels_due(later, 1 - later.shares['unknown'] / 4), 4)


class Parts(unittest.TestCase):
    def setUp(self) -> None:
        with Session() as session:
            self.report = session.ask(replace(RETRY, depth=8))

    def test_starts_that_cost_nothing(self) -> None:
        self.assertEqual(cheapest_parts(self.report, 0.0, 1.0), unknown_parts(self.report))
        self.assertEqual(len(unknown_parts(self.report)), self.report.nodes.count('unknown'))

    def test_starts_that_are_dear(self) -> None:
        # All that is unknown lies in a quarter of the region.
        self.assertEqual([part.depth for part in cheapest_parts(self.report, 10.0**6, 1.0)], [2])

    def test_in_between(self) -> None:
        """All that is unknown is in one part, and no part costs more than what it stands for."""
        parts = cheapest_parts(self.report, 4.0, 1.0)
        self.assertEqual([part.start for part in parts], sorted(part.start for part in parts))
        left = [
            part for part in unknown_parts(self.report) if not any(one.start <= part.start < one.stop for one in parts)
        ]
        self.assertEqual(left, [])
        self.assertTrue(1 < len(parts) < self.report.nodes.count('unknown'))

    def test_nothing_is_unknown(self) -> None:
        with Session() as session:
            report = session.ask(replace(RETRY, bound=Fraction(1)))
        self.assertEqual(cheapest_parts(report, 1.0, 1.0), [])

    def test_pace(self) -> None:
        pace = Pace()
        self.assertIsNone(pace.costs)
        pace.note(1, 1, 3.0)
        self.assertIsNone(pace.costs)
        pace.note(1, 11, 23.0)
        self.assertEqual(pace.costs, (1.0, 2.0))
        pace.note(1, 21, 1.0)  # a clock that says less for more
        self.assertEqual(pace.costs, (3.0, 0.0))


class Commands(InFolder):
    def test_coverage(self) -> None:
        keep, report = str(self.folder / 'k'), str(self.folder / 'a.report')
        words = ('verify', str(EXAMPLES / 'retry.drn'), '--goal', 'lost', '--bound', '1/40', '--region', REGION)
        status, told, _ = run(*words, '--coverage', '95%', '--keep', keep, '--report', report)
        self.assertEqual((status, told.splitlines()[1]), (0, '  decided: 96.97 % at depth 10, and 95 % was asked'))
        self.assertEqual(run(*words, '--depth', '10', '--report', report + '.once')[0], 0)
        self.assertEqual(read_file(report), read_file(report + '.once'))
        with mock.patch.object(Program, 'verify', side_effect=AssertionError):  # all is there already
            self.assertEqual(run(*words, '--coverage', '95%', '--keep', keep, '--report', report)[:2], (0, told))

    def test_a_range_of_precisions(self) -> None:
        report = str(self.folder / 'a.report')
        words = (
            'verify',
            str(EXAMPLES / 'retry.drn'),
            '--goal',
            'lost',
            '--bound',
            '1/40',
            '--region',
            REGION,
            '--precision',
            '12',
        )
        status, told, _ = run(*words, '--from', '1', '--coverage', '95%', '--report', report)
        self.assertEqual((status, told.splitlines()[1]), (0, '  decided: 96.97 % at depth 10, and 95 % was asked'))
        with Session() as session:
            read = session.read(report)
        self.assertEqual((read.version, read.least_precision, read.precision), (2, 1, 12))
        self.assertLess(min(read.precisions), 12)
        for wrong in ('0', '13', 'x', ''):
            status, told, fault = run(*words, '--from', wrong)
            says = 'plift-lab: --from is a whole number from 1 to 12, and not %r\n' % wrong
            self.assertEqual((status, told, fault), (2, '', says))

    def test_a_word_without_anything_in_it(self) -> None:
        words = (str(EXAMPLES / 'retry.drn'), '--goal', 'lost', '--region', REGION)
        for command, option in (
            ('verify', '--coverage'),
            ('verify', '--precision'),
            ('verify', '--report'),
            ('verify', '--keep'),
            ('bounds', '--width'),
            ('threshold', '--width'),
        ):
            asked = ('--bound', '1/40') * (command != 'bounds') + ('--parameter', 'p') * (command == 'threshold')
            status, told, fault = run(command, *words, *asked, option, '')
            self.assertEqual((status, told, fault.count('\n')), (2, '', 1), (command, option))


class Long(unittest.TestCase):
    def test_a_report_may_be_longer_than_a_model(self) -> None:
        with Session() as session, mock.patch('plift_lab.session.read_file', wraps=read_file) as read:
            session.read(TREE)
            session.ask(RETRY)
        self.assertEqual([one.args[1] for one in read.call_args_list], [MOST_CHECKED_BYTES] * 2)


class Texts(unittest.TestCase):
    def test_where_nodes_begin(self) -> None:
        for data in (RANGE, read_file(TREE)):
            report = Report(data, '')
            ends = [*report.starts[1:], len(data)]
            nodes = [data[start:end] for start, end in zip(report.starts, ends)]
            self.assertEqual(data[report.tree_begin :], b''.join(nodes))
            self.assertEqual(len(nodes), len(report.nodes))
            for node, text in zip(report.nodes, nodes):
                self.assertIn(b'split %d\n' % node if isinstance(node, int) else node.encode(), text)


if __name__ == '__main__':
    unittest.main()
