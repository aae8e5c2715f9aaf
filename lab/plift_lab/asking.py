"""Words that several commands take, and how an answer names what stands behind it."""

from __future__ import annotations

import argparse
import json
import sys
from dataclasses import replace
from fractions import Fraction
from typing import Any, Dict, Iterable, List, Optional, TextIO

from .evidence import read_file
from .faults import Fault
from .forms import MOST_CAP, Asked, Form, read_formula
from .models import Model
from .plain import plain
from .regions import Region
from .report import UNKNOWN, Report
from .session import MOST_BITS, Question, Session
from .values import read_bound, read_count, read_part


def add_model(words: argparse.ArgumentParser, several: bool = False) -> None:
    """The model, the goal or a formula (or several), and the region."""
    words.add_argument('model', metavar='MODEL', help='a file with a model text; - for standard input')
    words.add_argument('--goal', metavar='LABEL', help='the label of the states to be reached')
    words.add_argument(
        '--formula',
        metavar='F',
        action='append' if several else 'store',
        help='in the place of goal and bound: P>=0.9 [F "done"], P<=1%% ["up" U "lost"], P<=1/2 [F<=10 "lost"], '
        'R{"sends"}<=7/5 [F "done"]; =? in the place of the bound asks for numbers, as Pmin=? [F "done"]',
    )
    words.add_argument('--cap', metavar='C', help='the cost that 2^W stands for, where a formula is of costs')
    words.add_argument(
        '--region',
        default='',
        metavar='R',
        help='an interval for each parameter: 1/10<=p<=3/10,0<=q<=1 or p=1/10..3/10,q=0..1; '
        'p=1/10 writes a value into the model',
    )
    words.add_argument(
        '--precision',
        metavar='W',
        help='bits of a certificate\'s numbers, 1 to 40; if left out 40, ' 'or as many as the rows leave room for',
    )


def add_session(words: argparse.ArgumentParser) -> None:
    """Where reports are kept, and what is told meanwhile."""
    words.add_argument(
        '--keep',
        metavar='FOLDER',
        help='keeps the reports behind the answer in a folder; the same words '
        'with the same folder go on where they stopped',
    )
    words.add_argument(
        '--progress', action='store_true', help='tells how far it is also where standard error is no terminal'
    )
    words.add_argument('--quiet', action='store_true', help='tells no progress')
    words.add_argument('--json', action='store_true', help='writes the answer as JSON')


def session(given: argparse.Namespace) -> Session:
    """The session that the words ask for."""
    return Session(given.keep, is_told=not given.quiet and (given.progress or sys.stderr.isatty()))


def model_of(given: argparse.Namespace) -> Model:
    """The model that the words name."""
    return Model(read_file(given.model))


def region_of(given: argparse.Namespace) -> Region:
    """The region that the words name."""
    return Region.read(given.region)


def precision_of(given: argparse.Namespace) -> Optional[int]:
    """The precision that was asked for, if any."""
    return read_count(given.precision, '--precision', 1, MOST_BITS) if given.precision is not None else None


def asked_of(given: argparse.Namespace, bound: Optional[str] = None, formula: Optional[str] = None) -> Asked:
    """What is asked: a formula, or a goal with its bound."""
    formula = given.formula if formula is None else formula
    if (given.goal is None) == (formula is None):
        raise Fault('name a goal by --goal LABEL, or ask a formula by --formula F, but not both')
    cap = read_count(given.cap, '--cap', 1, MOST_CAP) if given.cap is not None else None
    if formula is not None:
        asked = read_formula(formula, cap)
        if (bound is not None) and asked.bound is not None:
            raise Fault('the formula has a bound, and --bound names another one')
        return asked if bound is None else asked._replace(bound=read_bound(bound))
    return Asked(given.goal, None if bound is None else read_bound(bound), Form())


def require_bound(asked: Asked) -> None:
    """Refuses a question without a bound, and one of costs without a cap."""
    if asked.bound is None:
        raise Fault('a bound is due: --bound B, or P<=B in the formula; for numbers ask `plift-lab bounds`')
    require_cap(asked.form, asked.bound)


def require_cap(form: Form, budget: Fraction) -> None:
    """Refuses costs without a cap, which is above the budget."""
    if form.reward is not None and form.cap is None:
        raise Fault(
            '--cap C is due, the cost that certificates count up to: above the budget, as %d' % (2 * budget + 1)
        )


def question_of(given: argparse.Namespace) -> Question:
    """A question whose bound doesn't matter."""
    asked = asked_of(given)
    return Question(model_of(given), asked.goal, Fraction(1), region_of(given), 0, precision_of(given), form=asked.form)


def width_of(given: argparse.Namespace) -> Optional[Fraction]:
    """How close the answer has to be, if that was asked for."""
    width = read_part(given.width) if given.width is not None else None
    if width is not None and width <= 0:
        raise Fault('--width is a number above 0, and not %s' % given.width)
    return width


def bits_advice(precision: int) -> str:
    """What to do where rounding is what is left."""
    if precision < MOST_BITS:
        return 'a greater --precision rounds less (%d is the greatest)' % MOST_BITS
    return 'ask of fewer steps, as a shorter mission: each step on the way rounds once more'


def advice_lines(question: Question, report: Report) -> List[str]:
    """What is worth knowing of an answer."""
    told = []
    if report.shares[UNKNOWN] and not question.is_relative and question.region.is_uneven(report.live):
        told.append(
            '  sides differ by more than ten times: --relative compares them by what they are of their ' 'intervals'
        )
    if report.shares[UNKNOWN] and report.command == 'cost':
        told.append(
            '  unknown isn\'t more: plift shows no cost from below; `bounds` tells the least budget that it shows'
        )
    return told


def missed_lines(session: Session, question: Question) -> List[str]:
    """That the goal may be missed, where costs are counted all the same."""
    if question.form.reward is None:
        return []
    sure = replace(question, form=Form('>='), bound=Fraction(1), depth=0, is_relative=False, least_precision=None)
    if session.ask(sure).verdict == 'accepted':
        return []
    return [
        '  %s isn\'t shown to be reached for sure: what is spent counts also where it is missed, and PRISM and Storm '
        'say infinity there' % plain(question.goal)
    ]


def behind(report: Report) -> Dict[str, Any]:
    """A report as evidence, for JSON."""
    return {
        'report': report.path,
        'check': report.soundness,
        'judge': report.judge,
        'question': report.question,
        'region': report.region.text,
        'depth': report.depth,
        'precision': report.precision,
        'words': report.origin.words,
    }


def behind_lines(reports: Iterable[Report], asked: Session) -> List[str]:
    """The reports behind an answer, for people; those that the user has are named by their files."""
    lines, judges, is_lost = [], [], False
    for report in reports:
        is_held = asked.evidence.holds(report.path)
        lines.append('  %s' % report.soundness if is_held else '  %s: %s' % (report.path, report.soundness))
        judges.append(report.judge)
        is_lost = is_lost or is_held
    return lines + ['  ' + line for line in judge_lines(judges, is_lost)]


def judge_lines(judges: Iterable[str], is_lost: bool) -> List[str]:
    """Who judged the reports, and how to keep them where they are lost."""
    told = ['judged by %s' % judge for judge in dict.fromkeys(judges)]
    return told + ['kept nowhere: --keep FOLDER keeps the reports behind the answer'] * is_lost


def put_json(answer: Any, out: Optional[TextIO] = None) -> None:
    """An answer as JSON; on standard output unless something else is told."""
    (out or sys.stdout).write(json.dumps(answer, indent=1) + '\n')
