"""Least upper and greatest lower bound of a probability over a region.

Two numbers: no scheduler reaches the goal with more than the upper one, at no valuation inside the region; and at each
some scheduler reaches it with the lower one or more. With --width the region is split where it helps, until supremum
and infimum (of what the best choices reach) are known to that width, or the calls are used up (status 1).

    plift-lab bounds examples/retry.drn --goal lost --region p=1/10..3/10,q=1/20..1/5 --width 1/1000
"""

from __future__ import annotations

import argparse
from fractions import Fraction
from typing import Any, Dict, List, Optional

from .. import asking
from ..api import Bounds, find_bounds
from ..brackets import End
from ..faults import DONE, SHORT
from ..search import CALLS, DEPTH, FINE, ROUNDING, Side
from ..session import Session
from ..values import above, below, exact, read_count


def add_words(words: argparse.ArgumentParser) -> None:
    """The words of the command."""
    asking.add_model(words)
    words.add_argument('--width', metavar='E', help='goes on until both are known to this width, as 1/1000 or 0.1%%')
    words.add_argument('--calls', default='1000', metavar='N', help='starts plift at most so often; 1000 if left out')
    words.add_argument('--list', action='store_true', help='tells all rectangles, not only those that decide')
    asking.add_session(words)


def run(given: argparse.Namespace) -> int:
    """Does it."""
    width = asking.width_of(given)
    calls = read_count(given.calls, '--calls', 2, 10**6)
    with asking.session(given) as session:
        question = asking.question_of(given)
        found = find_bounds(session, question, width, calls)
        missed = [] if given.json else asking.missed_lines(session, question)
        session.progress.clear()
        if given.json:
            asking.put_json(_data(found, session))
        else:
            print('\n'.join(_lines(found, width, given.list, session) + missed))
    return SHORT if found.sup.is_short or found.inf.is_short else DONE


def _lines(found: Bounds, width: Optional[Fraction], is_listed: bool, session: Session) -> List[str]:
    if found.form.reward is not None:
        lines = _cost_lines(found, session)
        lines += _short_lines(found, width) if width is not None else []
    elif width is not None:
        lines = [line for side in (found.sup, found.inf) for line in _side_lines(side, session, is_listed)]
        lines += _short_lines(found, width)
    else:
        lines = _hull_lines(found, session)
    is_lost = not session.evidence.is_kept
    return lines + ['%d bits' % found.precision] + asking.judge_lines(found.judges, is_lost)


def _hull_lines(found: Bounds, session: Session) -> List[str]:
    (_, upper), (_, lower) = found.sup.critical, found.inf.critical
    every, some = (', whatever is chosen', ' by the best choices') if found.is_process else ('', '')
    if found.form.is_of_least:
        every, some = (' by the choices that reach least', ', whatever is chosen') if found.is_process else ('', '')
    lines = [
        'at most %s is reached%s, anywhere in the region' % (above(upper.value, 9), every),
        '  %s%s' % (exact(upper.value), _file(upper, session)),
        'at least %s is reached%s, everywhere in the region' % (below(lower.value, 9), some),
        '  %s%s' % (exact(lower.value), _file(lower, session)),
    ]
    rounding = found.sup.rounding
    if 2 * rounding > upper.value - lower.value:
        told = 'rounding is most of what is between: %d bits round by %s at a point inside; %s'
        lines.append(told % (found.precision, above(rounding, 2), asking.bits_advice(found.precision)))
    return lines


def _cost_lines(found: Bounds, session: Session) -> List[str]:
    region, upper = found.sup.critical
    by = ', whatever is chosen' if found.is_process else ''
    lines = [
        'at most %s is expected to be spent%s, anywhere in the region' % (above(upper.value, 9), by),
        '  %s%s' % (exact(upper.value), _file(upper, session)),
    ]
    point, there = found.sup.witness
    if there.value and point.told:
        lines.append('  at %s at most %s' % (point.told, above(there.value, 9)))
    return lines + ['plift shows no cost from below: how much is needed at least isn\'t told']


def _file(end: End, session: Session) -> str:
    return ' (%s)' % end.path if session.evidence.is_kept else ''


def _side_lines(side: Side, session: Session, is_listed: bool) -> List[str]:
    further, reached = ('at most', 'at least') if side.name == 'sup' else ('at least', 'at most')
    lines = ['%s between %s and %s' % (side.name, below(side.least, 9), above(side.most, 9))]
    rows = [(reached, *side.witness)]
    rows += [(further, region, end) for region, end in (side.cover if is_listed else [side.critical])]
    for what, region, end in rows:
        where = ' for %s' % region.told if region.told else ''
        lines.append('  %s %s%s%s' % (what, exact(end.value), where, _file(end, session)))
    others = len(side.cover) - 1
    if others and not is_listed:
        more = 'more' if side.name == 'sup' else 'less'
        lines.append('  and no %s in %d other rectangle%s' % (more, others, 's' * (others > 1)))
    return lines


def _short_lines(found: Bounds, width: Fraction) -> List[str]:
    """Why the width wasn't reached, and what to do."""
    told = []
    for side in (found.sup, found.inf):
        if side.short == ROUNDING:
            least = above(2 * side.rounding, 2)
            told.append(
                '%s: %d bits round by %s here, so no width below %s can be had, and no halving helps; %s'
                % (side.name, found.precision, above(side.rounding, 2), least, asking.bits_advice(found.precision))
            )
        elif side.short == CALLS:
            told.append('%s: stopped before the width was reached, after %d questions' % (side.name, found.calls))
        elif side.short == DEPTH:
            told.append('%s: stopped before the width was reached, where no halving was left' % side.name)
        elif side.short == FINE:
            told.append('%s: stopped before the width was reached: no bound lies so close that plift takes' % side.name)
    return told


def _data(found: Bounds, session: Session) -> Dict[str, Any]:
    def row(part: Any, end: Any) -> Dict[str, Any]:
        return {
            'region': part.told,
            'value': exact(end.value),
            'check': end.soundness,
            'report': end.path if session.evidence.is_kept else None,
        }

    def side(one: Side) -> Dict[str, Any]:
        return {
            'least': exact(one.least),
            'most': exact(one.most),
            'short': one.is_short,
            'why': one.short,
            'rounding': exact(one.rounding),
            'witness': row(*one.witness),
            'cover': [row(part, end) for part, end in one.cover],
        }

    return {
        'sup': side(found.sup),
        'inf': side(found.inf),
        'precision': found.precision,
        'questions': found.calls,
        'program': str(session.program.path),
        'judges': found.judges,
        'formula': found.form.measured(found.goal, found.is_process),
    }
