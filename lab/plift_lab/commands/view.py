"""A page to explore a report with: one HTML file without anything from elsewhere.

The picture has zoom, a pointer that shows a leaf's rectangle, number and choices, a slider for each parameter that is
on no axis, a legend, dark and light, and the table of shares; all of it can be used by keyboard.

    plift-lab view examples/retry-tree.report > page.html
"""

from __future__ import annotations

import argparse
import html
import json
import os
import pkgutil
import re
import sys
from typing import Any, Dict, List, Optional, Tuple

from ..faults import DONE, Fault
from ..models import NamedState
from ..names import Names
from ..plain import plain
from ..report import KINDS, Report
from ..session import Session
from ..values import exact, percent
from ..words import add_drawn

SCRIPTS = ('tree.js', 'plot.js', 'controls.js')
MOST_SCHEDULERS = 2**22
"""Bytes of schedulers that a page takes."""


def add_words(words: argparse.ArgumentParser) -> None:
    """The words of the command."""
    add_drawn(words)
    words.add_argument(
        '--model',
        metavar='MODEL',
        help='the model\'s text, which names labels and actions; the report has numbers alone',
    )
    words.add_argument('--title', metavar='TEXT', help='the title; the question if left out')


def run(given: argparse.Namespace) -> int:
    """Does it."""
    with Session() as session:
        report = session.read(given.report)
    names = None if given.model is None else Names.read(given.model, report)
    text = page(report, (given.x, given.y), given.title, names)
    if hasattr(sys.stdout, 'reconfigure'):
        sys.stdout.reconfigure(encoding='utf-8')
    sys.stdout.write(text)
    return DONE


def page(
    report: Report,
    axes: Tuple[Optional[str], Optional[str]] = (None, None),
    title: Optional[str] = None,
    names: Optional[Names] = None,
) -> str:
    """The page, as one text."""
    if names:
        names.name_goal(report)
    parts = {
        'TITLE': html.escape(title or report.question),
        'SUMMARY': html.escape(_unbroken(report.verdict_line)),
        'STYLE': _file('page.css'),
        'SCRIPT': ''.join(map(_file, SCRIPTS)),
        'DATA': _json(_data(report, _axes(report, *axes), names)),
    }
    # One pass: what stands in a part is never taken for a place of another part.
    return re.sub(r'\{\{([A-Z]+)\}\}', lambda place: parts[place.group(1)], _file('page.html'))


def _file(name: str) -> str:
    data = pkgutil.get_data('plift_lab', 'page/' + name)
    if data is None:
        raise Fault('the file page/%s of plift-lab is missing' % name)
    return data.decode('utf-8')


def _unbroken(text: str) -> str:
    """With no end of a line before a sign of percent."""
    return text.replace(' %', '\u00a0%')


def _json(data: Any) -> str:
    """JSON that can stand inside a page: no `<` in it."""
    return json.dumps(data, separators=(',', ':')).replace('<', '\\u003c').replace('\u2028', '\\u2028')


def _axes(report: Report, x: Optional[str], y: Optional[str]) -> Tuple[int, int]:
    """The numbers of the parameters on both axes; -1 for none."""
    for name in (x, y):
        if name is not None and name not in report.parameters:
            raise Fault('the report has no parameter %s; it has %s' % (name, ', '.join(report.parameters) or 'none'))
    if x is not None and x == y:
        raise Fault('both axes are to be %s' % x)
    free = [name for name in report.live + report.parameters if name not in (x, y)]
    first = x or (free.pop(0) if free and (y is None or report.live) else None)
    free = [name for name in free if name in report.live and name != first]
    second = y or (free.pop(0) if free else None)
    places = {name: place for place, name in enumerate(report.parameters)}
    return places.get(first, -1) if first else -1, places.get(second, -1) if second else -1


def _data(report: Report, axes: Tuple[int, int], names: Optional[Names]) -> Dict[str, Any]:
    shares, counts = report.shares, report.counts
    live = sorted(set(report.parameters.index(name) for name in report.live) | {axis for axis in axes if axis >= 0})
    is_process, schedulers = report.kind == 'mdp', report.scheduler_texts
    are_told = is_process and sum(map(len, schedulers)) <= MOST_SCHEDULERS
    return {
        'parameters': [
            {'name': name, 'low': exact(low), 'high': exact(high)} for name, low, high in report.region.intervals
        ],
        'axes': axes,
        'live': live,
        'isProcess': is_process,
        'precision': report.precision,
        'unit': report.form.unit,
        'says': _sentences(report),
        'hasSteps': report.form.steps is not None,
        'tree': ''.join('%x' % node if isinstance(node, int) else node[0].upper() for node in report.nodes),
        'values': [value for value in report.values if value is not None],
        'picks': report.picks,
        'precisions': report.precisions if report.least_precision < report.precision else None,
        'schedulers': schedulers if are_told else None,
        'choosing': _choosing(report, names) if are_told else [],
        'counts': [sum(count for (one, _), count in counts.items() if one == kind) for kind in KINDS],
        'shares': [{'exact': exact(shares[kind]), 'percent': _unbroken(percent(shares[kind]))} for kind in KINDS],
        'facts': _facts(report, names),
    }


def _sentences(report: Report) -> List[str]:
    """What is said of an accepted leaf and of a rejected one, with @ in the place of the number."""
    form, is_process = report.form, report.kind == 'mdp'
    every, some = (', whatever is chosen', ' by the choices below') if is_process else ('', '')
    what = 'is expected to be spent' if form.reward else 'is reached'
    within = '' if form.steps is None else ' within %d step%s' % (form.steps, 's' * (form.steps > 1))
    sides = ('least', 'most') if form.is_of_least else ('most', 'least')
    return ['At %s @ %s%s%s.' % (side, what, within, by) for side, by in zip(sides, (every, some))]


def _choosing(report: Report, names: Optional[Names]) -> List[Tuple[int, str, List[str]]]:
    """The states that have a choice: their numbers, their labels, and what each choice is called."""
    found = []
    for state, count in enumerate(report.choices):
        if count > 1:
            named = names.states[state] if names else NamedState([], [])
            actions = [name or str(choice) for choice, name in enumerate(named.actions)]
            found.append((state, ' '.join(named.labels), actions or [str(choice) for choice in range(count)]))
    return found


def _facts(report: Report, names: Optional[Names]) -> List[Tuple[str, str]]:
    """Files are told by their names alone: a page goes to others, whom folders of this machine don't concern."""
    facts = [
        ('report', os.path.basename(report.path) or 'standard input'),
        ('judged', '%s, by %s' % (report.soundness, _without_folders(report.judge))),
        ('question', report.question),
        ('region', report.region.text.strip() or 'no parameters'),
    ]
    facts += [('%s' % name, 'fixed at %s' % exact(value)) for name, value in report.origin.fixed.items()]
    dead = [name for name in report.parameters if name not in report.live]
    if dead:
        facts.append(('no row depends on', ', '.join(dead)))
    kind = 'decision process' if report.kind == 'mdp' else 'Markov chain'
    least = '%d to ' % report.least_precision if report.least_precision < report.precision else ''
    facts += [
        ('model', '%s, %d states' % (kind, report.states)),
        ('precision', '%s%d bits' % (least, report.precision)),
        ('depth', 'at most %d halvings' % report.depth),
    ]
    if report.form.cap is not None:
        facts.append(('cap', '%d: costs are counted up to it' % report.form.cap))
    if names:
        told = 'labels and actions are called as in %s, which nobody compared with the report beyond their numbers'
        facts.append(('names', told % plain(os.path.basename(names.name) or 'the text')))
    if report.origin.scale:
        facts.append(('rescaled', 'the report\'s own parameters run from 0 to 1; this page tells yours'))
    return facts


def _without_folders(judge: str) -> str:
    """A judge by the name of its program."""
    program, comma, rest = judge.partition(',')
    return re.sub(r'^.*/', '', program) + comma + rest
