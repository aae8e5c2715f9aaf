"""Whether a bound holds over a region, for one bound or several.

Asks what `plift verify` asks, with the model's file as a word, tells the verdict with its shares, and keeps the report
where --report or --keep says. With --coverage the depth grows until so much of the region is decided; each time what is
unknown is asked again, and the joined report has the bytes of a single `plift verify` at that depth.

    plift-lab verify examples/retry.drn --goal lost --bound 1/40 --bound 1/20 --region p=1/10..1/2,q=1/10..1/2 --depth 4
    plift-lab verify examples/retry.drn --formula 'P>=19/20 [F "delivered"]' --region p=1/10..3/10,q=1/20..1/5
"""

from __future__ import annotations

import argparse
import sys
from fractions import Fraction
from typing import Any, Dict, List, Optional

from .. import asking
from ..api import find_verdict
from ..evidence import read_file
from ..faults import DONE, SHORT, Fault
from ..outputs import Output, beside
from ..report import UNKNOWN, Report
from ..session import MOST_BITS, MOST_DEPTH, Question, Session
from ..values import percent, read_count, read_share


def add_words(words: argparse.ArgumentParser) -> None:
    """The words of the command."""
    asking.add_model(words, several=True)
    words.add_argument('--bound', action='append', metavar='B', help='the bound; as often as there are bounds')
    words.add_argument('--depth', default='0', metavar='H', help='how often the region may be halved; 0 if left out')
    words.add_argument(
        '--from',
        metavar='V',
        dest='least',
        help='decides each part at the least precision from V on that does, in a report or text of version 2',
    )
    words.add_argument(
        '--relative',
        action='store_true',
        help='rescales each parameter to its interval, so that sides are compared by what they are of it',
    )
    words.add_argument('--coverage', metavar='SHARE', help='goes deeper until so much is decided, as 95%%')
    words.add_argument(
        '--report', metavar='FILE', help='writes the report of a single question there; - for standard output'
    )
    asking.add_session(words)


def run(given: argparse.Namespace) -> int:
    """Does it."""
    share = read_share(given.coverage) if given.coverage is not None else None
    questions = _questions(given)
    if given.report is not None and len(questions) > 1:
        raise Fault('--report takes the report of one question; --keep FOLDER keeps those of several')
    kept = Output(given.report, [given.model]) if given.report is not None else None
    kept_beside = beside(kept, [given.model]) if kept else None
    told = sys.stderr if given.report == '-' else sys.stdout
    status, answers = DONE, []
    with asking.session(given) as session:
        for place, question in enumerate(questions):
            if share is None:
                with session.progress.part(place / len(questions), (place + 1) / len(questions)):
                    report = find_verdict(session, question, share)
            else:
                report = find_verdict(session, question, share)
            session.progress.clear()
            if share is not None and report.shares[UNKNOWN] > 1 - share:
                status = SHORT
            if kept:
                kept.write(report.data)
                if kept_beside:
                    kept_beside.write(read_file(report.path + '.json'))
                if given.report != '-':
                    report.path = given.report
            if given.json:
                answers.append(_data(report))
                continue
            told.write('\n'.join(_lines(question, report, share, session)) + '\n')
        if given.json:
            asking.put_json(answers, told)
    return status


def _questions(given: argparse.Namespace) -> List[Question]:
    """A question for each formula, or for each bound of a goal."""
    asked = [asking.asked_of(given, None, formula) for formula in given.formula or []]
    asked = asked or [asking.asked_of(given, bound) for bound in given.bound or [None]]
    if given.formula and given.bound:
        raise Fault('a formula has its bound: leave --bound out')
    depth = read_count(given.depth, '--depth', 0, MOST_DEPTH)
    precision = asking.precision_of(given)
    least = read_count(given.least, '--from', 1, precision or MOST_BITS) if given.least is not None else None
    if least is not None and any(one.form.command not in ('verify', 'property') for one in asked):
        raise Fault('--from goes with F and U alone, and with no number of steps and no cost')
    for one in asked:
        asking.require_bound(one)
    model, region = asking.model_of(given), asking.region_of(given)
    made: List[Question] = []
    for one in asked:
        bound = one.bound if one.bound is not None else Fraction(1)
        made.append(Question(model, one.goal, bound, region, depth, precision, given.relative, least, one.form))
    return made


def _data(report: Report) -> Dict[str, Any]:
    return {
        'verdict': report.verdict,
        'bound': str(report.bound),
        'behind': asking.behind(report),
        'shares': {kind: str(part) for kind, part in report.shares.items()},
    }


def _lines(question: Question, report: Report, share: Optional[Fraction], session: Session) -> List[str]:
    lines = [report.verdict_line]
    if share is not None:
        decided = percent(1 - report.shares[UNKNOWN])
        lines.append('  decided: %s at depth %d, and %s was asked' % (decided, report.depth, percent(share)))
    lines += asking.advice_lines(question, report) + asking.missed_lines(session, question)
    return lines + asking.behind_lines([report], session)
