"""What a report says: one line, and a status of its own.

    accepted  10  the bound holds all over the region
    rejected  20  it is exceeded all over the region (by the choices that the report prints)
    mixed     30  it is exceeded in a part of the region, and not shown to be exceeded in all of it
    unknown   40  it is exceeded nowhere as far as is shown, and not shown to hold everywhere

Of unknown leaves it tells between which numbers they lie, and whether more precision or more depth would help.

    plift-lab verdict examples/retry-tree.report
"""

from __future__ import annotations

import argparse
from typing import List

from .. import asking
from ..diagnosis import Finding, examine
from ..regions import shown
from ..report import UNKNOWN, Report
from ..session import Session
from ..values import above, below, exact, read_count

STATUS = {'accepted': 10, 'rejected': 20, 'mixed': 30, 'unknown': 40}


def add_words(words: argparse.ArgumentParser) -> None:
    """The words of the command."""
    words.add_argument('report', metavar='REPORT', help='a file with a report; - for standard input')
    words.add_argument('--brief', action='store_true', help='one line and no more')
    words.add_argument(
        '--look', default='3', metavar='N', help='looks at so many unknown leaves, the greatest first; 3 if left out'
    )
    asking.add_session(words)


def run(given: argparse.Namespace) -> int:
    """Does it."""
    most = 0 if given.brief else read_count(given.look, '--look', 0, 1000)
    with asking.session(given) as session:
        report = session.read(given.report)
        if not given.json:  # at once: looking at unknown leaves may take a while
            print(report.verdict_line, flush=True)
        found = examine(session, report, most)
        session.progress.clear()
        if given.json:
            asking.put_json(
                {
                    'verdict': report.verdict,
                    'question': report.question,
                    'behind': asking.behind(report),
                    'shares': {kind: exact(share) for kind, share in report.shares.items()},
                    'unknown': [
                        {
                            'region': shown(one.leaf.rectangle).strip(),
                            'least': exact(one.coarse.least),
                            'most': exact(one.coarse.most),
                            'rounding': exact(one.rounding),
                            'help': one.help,
                            'axis': one.axis,
                        }
                        for one in found
                    ],
                }
            )
        elif not given.brief:
            print('\n'.join(_lines(report, found, session)))
    return STATUS[report.verdict]


def _lines(report: Report, found: List[Finding], session: Session) -> List[str]:
    lines = ['  %s, judged by %s' % (report.soundness, report.judge)]
    for one in found:
        lines.append('unknown%s' % _where(one))
        if report.command == 'cost':  # none is shown from below
            told = (
                'at most %s' % above(one.coarse.most, 9) if one.coarse.most <= report.form.unit else 'more than the cap'
            )
        else:
            told = 'between %s and %s' % (below(one.coarse.least, 9), above(one.coarse.most, 9))
        lines.append('  %s at %d bits; the bound is %s' % (told, report.precision, report.bound))
        if one.sharp != one.coarse:
            sharp = below(one.sharp.least, 13), above(one.sharp.most, 13)
            lines.append('  between %s and %s at the most bits' % sharp)
        lines.append('  ' + one.advice)
    others = sum(count for (kind, _), count in report.counts.items() if kind == UNKNOWN) - len(found)
    if found and others:
        lines.append('and %d other unknown leaves, at most as large (--look N looks at more)' % others)
    return lines


def _where(one: Finding) -> str:
    text = shown(one.leaf.rectangle).strip()
    return ' for ' + text if text else ''
