"""What a note of plift means, and what to do.

    plift-lab explain 'usage: --region Missing'
    plift-lab explain NoChoice
"""

from __future__ import annotations

import argparse
import re
import sys
from typing import List

from ..faults import DONE, Fault
from ..hinting import hints
from ..plain import printable
from ..program import CHECKOUT

MESSAGES = CHECKOUT / 'docs/MESSAGES.md'
STATUSES = (
    ('usage: ', 2),
    ('model: ', 3),
    ('rows: ', 4),
    ('read fault', 5),
    ('write fault', 6),
    ('too long', 7),
    ('out of memory', 8),
    ('not sound: ', 1),
)


def add_words(words: argparse.ArgumentParser) -> None:
    """The words of the command."""
    words.add_argument(
        'note', nargs=argparse.REMAINDER, metavar='NOTE', help='the line that plift wrote on standard error'
    )


def run(given: argparse.Namespace) -> int:
    """Does it."""
    note = re.sub(r'^(plift(-lab)?: )?(plift refuses this: )?', '', ' '.join(given.note).strip())
    status = next((status for start, status in STATUSES if note.startswith(start)), None)
    if status is not None:
        lines = hints(status, note, []) or _messages(note)
    else:
        lines = _messages(note, is_cause=True) if note else []
    if status is None and not lines:
        known = ', '.join(start.strip() for start, _ in STATUSES)
        raise Fault('%r is no note of plift; notes begin with %s' % (note[:80], known))
    if not lines:
        raise Fault('nothing is known here of the note %r; docs/FORMATS.md of plift lists all' % note[:80])
    sys.stdout.write('\n'.join([printable(note)] + ['  ' + printable(line) for line in lines]) + '\n')
    return DONE


def _messages(note: str, is_cause: bool = False) -> List[str]:
    """What docs/MESSAGES.md says: the row that has the note, numbers and names apart; or the one of a cause by
    itself."""
    if not MESSAGES.is_file():
        return []
    for line in MESSAGES.read_text('utf-8').splitlines():
        cells = [cell.strip() for cell in line.strip('| ').split(' | ')]
        place = 1 if cells[0].isdigit() else 0
        forms = re.findall('`([^`]+)`', cells[place]) if line.startswith('| ') else []
        if any((' ' + form).endswith(' ' + note) if is_cause else _is_form(form, note) for form in forms):
            return [cell for cell in cells[place + 1 :] if cell]
    return []


def _is_form(form: str, note: str) -> bool:
    """Whether a note is of this form, or ends with it: a word in capitals stands for a number or a name."""
    parts = re.split(r'(\b[A-Z]+\b)', form)
    pattern = ''.join('[^ :]+' if place % 2 else re.escape(part) for place, part in enumerate(parts))
    return re.search(r'(^|: |\d: )%s$' % pattern, note) is not None or note.split(' ')[-1] == form
