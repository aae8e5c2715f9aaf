"""The greatest (least) value of a parameter up to which the rest of the region is accepted.

Halves the parameter's interval until the place is known to --width, and tells the two reports on both sides of it: one
that accepts all up to there, and one over what lies just beyond.

    plift-lab threshold examples/retry.drn --goal lost --bound 3/100 --parameter p --region p=1/10..1/2,q=1/20..1/5
"""

from __future__ import annotations

import argparse
from fractions import Fraction
from typing import List

from .. import asking
from ..api import find_threshold
from ..edge import Edge
from ..faults import DONE, SHORT
from ..session import MOST_DEPTH, Question, Session
from ..values import above, below, exact, near, read_count


def add_words(words: argparse.ArgumentParser) -> None:
    """The words of the command."""
    asking.add_model(words)
    words.add_argument('--bound', metavar='B', help='the bound on the probability')
    words.add_argument('--parameter', required=True, metavar='P', help='the parameter')
    words.add_argument('--least', action='store_true', help='the least value from which on all is accepted')
    words.add_argument('--width', metavar='E', help='how close; if left out a thousandth of the interval')
    words.add_argument('--depth', default='8', metavar='H', help='how often a region may be halved; 8 if left out')
    words.add_argument('--relative', action='store_true', help='halves what is longest of the region\'s own sides')
    asking.add_session(words)


def run(given: argparse.Namespace) -> int:
    """Does it."""
    width = asking.width_of(given)
    asked = asking.asked_of(given, given.bound)
    asking.require_bound(asked)
    question = Question(
        asking.model_of(given),
        asked.goal,
        asked.bound or Fraction(0),
        asking.region_of(given),
        read_count(given.depth, '--depth', 0, MOST_DEPTH),
        asking.precision_of(given),
        given.relative,
        form=asked.form,
    )
    with asking.session(given) as session:
        edge = find_threshold(session, question, given.parameter, width, not given.least)
        session.progress.clear()
        if given.json:
            asking.put_json(
                {
                    'parameter': edge.parameter,
                    'accepted_to': exact(edge.good) if edge.inside else None,
                    'rejected_at': None if edge.limit is None else exact(edge.limit),
                    'reports': [asking.behind(report) for report in (edge.inside, edge.outside) if report],
                }
            )
        else:
            print('\n'.join(_lines(edge, session)))
    is_known = edge.good == edge.bad or edge.limit is not None
    return DONE if is_known else SHORT


def _lines(edge: Edge, session: Session) -> List[str]:
    name, sign, shown = edge.parameter, *(('<=', below) if edge.is_greatest else ('>=', above))
    if edge.inside and edge.good == edge.bad:
        lines = ['accepted over the whole interval of %s' % name]
    elif edge.inside:
        lines = ['accepted where %s %s %s (%s)' % (name, sign, shown(edge.good, 9), exact(edge.good))]
    else:
        lines = ['accepted nowhere, as far as is shown, from %s = %s on' % (name, exact(edge.good))]
    if edge.limit is not None:
        lines.append(
            'no further than %s: a part is rejected where %s = %s' % (near(edge.limit, 9), name, exact(edge.limit))
        )
    elif edge.outside:
        lines.append('nothing is rejected beyond, so more depth or more bits may show more')
    return lines + asking.behind_lines([report for report in (edge.inside, edge.outside) if report], session)
