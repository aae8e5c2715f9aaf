"""The leaves of a report as data: rectangle, kind, number of the initial state, precision, depth, scheduler.

Rectangles are told in the user's own numbers, also those of a rescaled model. An accepted leaf's number is not exceeded
inside it by any scheduler; a rejected leaf's is reached by its scheduler. --unknown prints the unknown leaves as
regions that can be asked again, a line each.

    plift-lab leaves examples/retry-tree.report --csv
    plift-lab leaves examples/retry-tree.report --unknown
"""

from __future__ import annotations

import argparse
import csv
import json
import sys
from fractions import Fraction
from typing import Any, Callable, Dict, List, Tuple

from .. import asking
from ..faults import DONE
from ..report import PAST, UNKNOWN, Leaf, Report
from ..regions import shown
from ..session import Session
from ..values import exact


def add_words(words: argparse.ArgumentParser) -> None:
    """The words of the command."""
    words.add_argument('report', metavar='REPORT', help='a file with a report; - for standard input')
    form = words.add_mutually_exclusive_group(required=True)
    form.add_argument('--csv', action='store_true', help='a table, a line for each leaf')
    form.add_argument('--json', action='store_true', help='the question, the leaves and the schedulers')
    form.add_argument('--unknown', action='store_true', help='regions of unknown leaves, to be asked again')
    words.add_argument('--decimals', action='store_true', help='floating point numbers in place of exact fractions')


def run(given: argparse.Namespace) -> int:
    """Does it."""
    with Session() as session:
        report = session.read(given.report)
    numbers: Tuple[Callable[[Fraction], Any], Callable[[Fraction], Any]] = exact, float
    number = numbers[given.decimals]
    if given.unknown:
        for leaf in report.leaves():
            if leaf.kind == UNKNOWN:
                sys.stdout.write(shown(leaf.rectangle) + '\n')
    elif given.csv:
        _write_csv(Told(report, number))
    else:
        _write_json(Told(report, number), str(session.program.path))
    return DONE


class Told:
    """A report's leaves as they are written. Leaves share ends, so each of these is written once."""

    def __init__(self, report: Report, number: Callable[[Fraction], Any]) -> None:
        self.report, self.number = report, number
        self._ends: List[Dict[int, Any]] = [{} for _ in report.parameters]

    def ends(self, leaf: Leaf) -> List[Any]:
        """The ends of its rectangle."""
        told = []
        for place, end in enumerate(leaf.ends):
            known = self._ends[place // 2]
            if end not in known:
                known[end] = self.number(self.report.user_end(place, end))
            told.append(known[end])
        return told

    def rest(self, leaf: Leaf) -> List[Any]:
        """Kind, value, precision, depth, share and scheduler."""
        return [
            PAST[leaf.kind],
            None if leaf.value is None else self.number(leaf.value),
            leaf.precision,
            leaf.depth,
            self.number(leaf.share),
            leaf.scheduler,
        ]


REST = ('kind', 'value', 'precision', 'depth', 'share', 'scheduler')


def _write_csv(told: Told) -> None:
    table = csv.writer(sys.stdout, lineterminator='\n')
    table.writerow(['leaf'] + [name + end for name in told.report.parameters for end in ('_low', '_high')] + list(REST))
    for leaf in told.report.leaves():
        table.writerow([leaf.number] + told.ends(leaf) + told.rest(leaf))


def _write_json(told: Told, program: str) -> None:
    report = told.report
    head = dict(
        asking.behind(report),
        verdict=report.verdict,
        goal=report.origin.goal,
        program=program,
        bound=told.number(report.bound),
        parameters=report.parameters,
        fixed={name: told.number(value) for name, value in report.origin.fixed.items()},
        schedulers=report.schedulers if report.kind == 'mdp' else [],
    )
    sys.stdout.write(json.dumps(head)[:-1] + ',\n"leaves": [')
    for leaf in report.leaves():
        ends = told.ends(leaf)
        row = {'leaf': leaf.number, 'rectangle': dict(zip(report.parameters, zip(ends[::2], ends[1::2])))}
        sys.stdout.write((',\n ' if leaf.number else '\n ') + json.dumps(dict(row, **dict(zip(REST, told.rest(leaf))))))
    sys.stdout.write('\n]}\n')
