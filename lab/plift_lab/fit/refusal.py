"""Why a text can't be fitted: a line, a cause in the program's own words where it has one, and what to do."""

from __future__ import annotations

from typing import Union

from ..faults import LOST, Fault
from ..plain import plain

UNFIT = 3
"""The status."""


class Unfit(Fault):
    """What is wrong with a text, and where."""

    def __init__(self, line: int, cause: str, about: str = '') -> None:
        told = 'model: line %d: %s' % (line, cause)
        super().__init__(told + (': ' + about if about else ''), UNFIT)
        self.line, self.cause = line, cause


class Difference(Fault):
    """The fitted model isn't the same, whatever the cause: nothing is written then."""

    def __init__(self, about: str) -> None:
        text = 'a fault of plift-lab itself: the fitted model isn\'t the same: %s; nothing is written' % about
        super().__init__(text, LOST)


class ValueFault(Exception):
    """What is wrong with a value, wherever it stands."""

    def __init__(self, cause: str, about: str) -> None:
        super().__init__(cause, about)
        self.cause, self.about = cause, about


def shown(text: Union[bytes, str], most: int = 60) -> str:
    """What the text says, cut where it is long: a byte outside 32 to 126 is shown as `\\x1b`."""
    front = plain(text[: most + 1])
    return front if len(text) <= most else front[: most - 2] + '..'
