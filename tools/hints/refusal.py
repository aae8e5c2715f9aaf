"""A refusal of plift or plift-view, with all that a hint may be made from."""

from __future__ import annotations

from typing import NamedTuple, Optional, Sequence

from hints.options import options_of, view_options_of


class Refusal(NamedTuple):
    """How the program ended, what it said, and what it was given."""

    status: int
    note: str
    words: Sequence[str]
    text: Optional[bytes]
    program: str = "plift"

    def behind(self, front: str) -> Optional[str]:
        """What stands behind this front of the note."""
        return self.note[len(front) :] if self.note.startswith(front) else None

    def command(self) -> str:
        """The command of plift that the words ask for."""
        return self.words[0] if self.program == "plift" and self.words else ""

    def option(self, name: str) -> Optional[str]:
        """The value of an option where the words are in order."""
        if self.program != "plift":
            return dict(view_options_of(self.words)).get(name)
        return dict(options_of(self.words[1:])).get(name)
