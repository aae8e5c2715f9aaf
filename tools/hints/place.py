"""A line of a model text that a note names, with what was read before it."""

from __future__ import annotations

from typing import List, NamedTuple

from hints.drn import Model
from hints.refusal import Refusal
from hints.told import shown


class Place(NamedTuple):
    """The line's number, its bytes without blanks around them, and the text in front of it."""

    number: int
    content: bytes
    model: Model
    refusal: Refusal

    @property
    def text(self) -> bytes:
        """The whole text."""
        return self.refusal.text or b""

    def names(self) -> List[str]:
        """The parameters that are declared in front of the line."""
        return self.model.parameters

    def here(self, what: str) -> str:
        """The line, and what is wrong with it."""
        return f"line {self.number}: {shown(self.content)}: {what}"

    def state(self) -> int:
        """The number of the state that the line belongs to, or -1."""
        return len(self.model.states) - 1
