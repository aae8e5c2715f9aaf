"""The command line: reads the words, runs the command, and tells what went wrong in one line."""

from __future__ import annotations

import argparse
import os
import sys
from pathlib import Path
from typing import Iterable, List, Optional

from plift_lab.ends import Tool, say
from plift_lab.evidence import read_file
from plift_lab.faults import Fault
from plift_lab.plain import printable
from plift_lab.program import MOST_CHECKED_BYTES, find_program
from plift_lab.values import read_count
from plift_lab.words import Words

from . import __version__
from .faults import DONE, SIGNAL, status_of
from .join import join
from .job import MOST_DEPTH, Job
from .split import split
from .work import work

ABOUT = """plift-tiles takes a finished report of plift to a greater depth on many processors and machines.

    plift verify .. --depth 6 < model.drn > base.report
    plift-tiles split DIR --depth 14 < base.report
    plift-tiles left DIR | parallel --retries 3 plift-tiles work DIR
    plift-tiles join DIR > whole.report && plift check < whole.report

A tile is an unknown leaf of the report. The joined report has the bytes of a single `plift verify` at that depth.
Nothing in it is believed: a tile counts once `plift check` has judged it. docs/SCALE.md tells more by example."""
STATUSES = """statuses: 0 done; 1 to 8 as plift's own; 2 also folders at fault; 6 also no room; 9 a tile is missing, cut
off or of another job; 70 no plift to ask; 128 and a signal's number where one ended it."""
COMMANDS = {
    'split': 'makes the folder DIR from a report on standard input: the model, and a line for each tile',
    'left': 'tells the numbers of the tiles without a report',
    'work': 'decides tiles that are left: runs verify and check, and leaves DIR/done/N.report',
    'join': 'writes the report of the whole region',
    'status': 'tells how many tiles are done',
}


def parser() -> Words:
    """All commands and their words."""
    words = Words(
        'plift-tiles',
        description=ABOUT,
        epilog=STATUSES,
        allow_abbrev=False,
        formatter_class=argparse.RawDescriptionHelpFormatter,
    )
    words.add_argument('--version', action='version', version='plift-tiles ' + __version__)
    commands = words.add_subparsers(dest='command', metavar='COMMAND', parser_class=Words)
    for name, about in COMMANDS.items():
        command = commands.add_parser(name, help=about, description=about, epilog=STATUSES, allow_abbrev=False)
        command.add_argument('place', metavar='DIR', type=Path, help='the folder of the job')
        if name == 'split':
            command.add_argument('--depth', required=True, help='that of the whole report, at most 20')
        elif name == 'work':
            command.add_argument('numbers', metavar='N', nargs='*', help='numbers of tiles')
            command.add_argument('--part', metavar='K/M', help='each M-th tile, from the K-th on')
        elif name == 'join':
            command.add_argument('--partial', action='store_true', help='tiles that are left stay unknown')
    return words


def main(words: Optional[List[str]] = None) -> int:
    """Runs one command and returns its status."""
    return TOOL.run(lambda: _run(words))


def _run(words: Optional[List[str]]) -> int:
    given = parser().parse_args(words)
    if not given.command:
        raise Fault('name a command: %s' % ', '.join(COMMANDS))
    return RUN[given.command](given)


def _run_split(given: argparse.Namespace) -> int:
    depth = read_count(given.depth, '--depth', 1, MOST_DEPTH)
    if os.path.lexists(given.place):
        raise Fault('%s is there already; a job begins in a folder of its own' % given.place)
    if sys.stdin is not None and sys.stdin.isatty():
        _tell('reading the report from standard input; give a file by < report')
    count = split(find_program(), read_file('-', MOST_CHECKED_BYTES), given.place, depth)
    _tell('%d tiles' % count)
    return DONE


def _run_left(given: argparse.Namespace) -> int:
    sys.stdout.writelines('%d\n' % number for number in Job(given.place).left)
    return DONE


def _run_work(given: argparse.Namespace) -> int:
    job = Job(given.place)
    return work(find_program(), job, _chosen(job, given.numbers, given.part))


def _run_join(given: argparse.Namespace) -> int:
    for line in join(Job(given.place), given.partial, sys.stdout.buffer):
        _tell(line)
    return DONE


def _run_status(given: argparse.Namespace) -> int:
    job = Job(given.place)
    count, left = len(job.regions), len(job.left)
    share = 100 * (count - left) / count if count else 100
    sys.stdout.write('tiles %d done %d left %d share %.1f %%\n' % (count, count - left, left, share))
    return DONE


RUN = {'split': _run_split, 'left': _run_left, 'work': _run_work, 'join': _run_join, 'status': _run_status}


def _chosen(job: Job, numbers: List[str], part: Optional[str]) -> Iterable[int]:
    """The tiles that the words name."""
    if bool(numbers) == bool(part):
        raise Fault('name tiles by their numbers, or a part of them by --part K/M')
    if not part:
        return [read_count(number, 'a tile', 1, len(job.regions)) for number in numbers]
    first, _, step = part.partition('/')
    count = read_count(step, 'M in --part K/M', 1, 10**9 - 1)
    return job.numbers[read_count(first, 'K in --part K/M', 1, count) - 1 :: count]


def _tell(text: str) -> None:
    say('plift-tiles: %s' % printable(text))


TOOL = Tool(
    'plift-tiles',
    'ended by a signal; what is done stays, and the same words go on',
    status_of,
    lambda number: SIGNAL + number,
)
