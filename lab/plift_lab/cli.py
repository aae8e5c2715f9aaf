"""The command line: finds the command, runs it, and tells what went wrong in one line."""

from __future__ import annotations

import argparse
import sys
from importlib import import_module
from types import ModuleType
from typing import List, Optional, Sequence

from .version import VERSION as __version__
from .ends import Tool, say
from .faults import INTERRUPTED, Fault, Refused
from .plain import printable
from .words import Words

COMMANDS = ('verify', 'bounds', 'threshold', 'verdict', 'leaves', 'view', 'picture', 'fit', 'explain')
"""Each is a module of its own, which is read only where it is asked for."""
ABOUT = """plift-lab asks plift for numbers, thresholds, leaves as data and pages to explore.

Nothing in it is believed: each answer names the reports that stand behind it, and each of these was judged by
`plift check`. docs/LAB.md tells more by example."""
STATUSES = """statuses: 0 done; 1 stopped short of what was asked, and what is known was told; 2 words or files at
fault; 3 a text can't be fitted; 6 writing failed; 8 out of memory; 70 no plift to ask; 130 interrupted. verdict: 10
accepted, 20 rejected, 30 mixed, 40 unknown."""


def about(name: str) -> str:
    """What a command does."""
    return (_module(name).__doc__ or '').strip()


def _module(name: str) -> ModuleType:
    return import_module('.commands.' + name, __package__)


def parser(names: Sequence[str] = COMMANDS) -> Words:
    """These commands and their words."""
    words = Words(
        'plift-lab',
        description=ABOUT,
        epilog=STATUSES,
        formatter_class=argparse.RawDescriptionHelpFormatter,
        allow_abbrev=False,
    )
    words.add_argument('--version', action='version', version='plift-lab ' + __version__)
    commands = words.add_subparsers(dest='command', metavar='COMMAND', parser_class=Words)
    for name in names:
        module = _module(name)
        command = commands.add_parser(
            name,
            help=about(name).splitlines()[0],
            description=about(name),
            epilog=STATUSES,
            formatter_class=argparse.RawDescriptionHelpFormatter,
            allow_abbrev=False,
        )
        module.add_words(command)
        command.set_defaults(run=module.run)
    return words


def main(words: Optional[List[str]] = None) -> int:
    """Runs one command and returns its status."""
    return TOOL.run(lambda: _run(words))


def _run(words: Optional[List[str]]) -> int:
    words = sys.argv[1:] if words is None else words
    if len(words) == 2 and words[0] == '--help' and words[1] in COMMANDS:  # as `plift --help verify`
        words = words[::-1]
    is_named = bool(words) and words[0] in COMMANDS
    given = parser(words[:1] if is_named else COMMANDS).parse_args(words)
    if not given.command:
        raise Fault('name a command: %s' % ', '.join(COMMANDS))
    return int(given.run(given))


def _hint(fault: Fault) -> None:
    """What to do about a refusal."""
    if isinstance(fault, Refused):
        for line in fault.hints:
            say('hint: %s' % printable(line))


TOOL = Tool(
    'plift-lab',
    'interrupted; reports that were kept stay, and the same words go on from them',
    lambda fault: fault.status,
    lambda number: INTERRUPTED,
    _hint,
)
