"""What ends a command before its answer: one line for a person, and a status."""

from __future__ import annotations

from typing import List

DONE, SHORT, WRONG, WRITING, MEMORY, LOST, INTERRUPTED = 0, 1, 2, 6, 8, 70, 130
"""Statuses: done; stopped short of what was asked; wrong words or files; writing failed; out of memory; no program to
ask; interrupted."""


class Fault(Exception):
    """Why a command can't go on, told in one line."""

    def __init__(self, text: str, status: int = WRONG) -> None:
        super().__init__(text)
        self.status = status


class Refused(Fault):
    """What plift refused: its status and its note, its words, the text that it read, and hints what to do."""

    def __init__(self, status: int, note: str, words: List[str], text: bytes) -> None:
        self.plift_status, self.note, self.words, self.text = status, note, words, text
        if status in (1, 2, 3, 4, 7):
            super().__init__('plift refuses this: %s' % (note or 'without a note'))
        elif status < 0:
            super().__init__('plift was stopped by signal %d' % -status, LOST)
        else:
            known = status if status in (WRITING, MEMORY) else LOST
            super().__init__('plift ended with status %d: %s' % (status, note or 'without a note'), known)

    @property
    def hints(self) -> List[str]:
        """What to do about it, as far as is known here."""
        from .hinting import hints

        return hints(self.plift_status, self.note, self.words, self.text)

    def __str__(self) -> str:
        return '\n'.join([str(self.args[0]), *('hint: %s' % line for line in self.hints)])
