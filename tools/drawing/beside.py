"""The file that plift-lab writes beside a report: which label was asked for, and what its parameters stand for."""

from __future__ import annotations

import hashlib
import json
import os
import re
from fractions import Fraction
from pathlib import Path
from typing import Any, Dict, List, NamedTuple, Optional, Tuple

NUMBER = re.compile(r"-?[0-9]{1,400}(/0*[1-9][0-9]{0,400})?")
MOST_BYTES = 2**20
LONGEST = 60  # characters of a label that is shown whole

Interval = Tuple[Fraction, Fraction]
UNIT = Fraction(0), Fraction(1)


class Unfit(Exception):
    """What is at fault with the file."""


class Beside(NamedTuple):
    """What is told of a report that it doesn't hold itself."""

    goal: Optional[str] = None
    """The label of the states to be reached."""
    scale: Dict[str, Interval] = {}
    """For each parameter that runs from 0 to 1 in the report the ends that this stands for."""

    def user(self, name: str, value: Fraction) -> Fraction:
        """A parameter's value in the user's own numbers."""
        low, high = self.scale.get(name, UNIT)
        return low + (high - low) * value

    def own(self, name: str, value: Fraction) -> Fraction:
        """The same value in the report's numbers."""
        low, high = self.scale.get(name, UNIT)
        return (value - low) / (high - low)

    @property
    def label(self) -> Optional[str]:
        """The goal's label as it can be shown, in printable ASCII."""
        if self.goal is None:
            return None
        shown = "".join(one if " " <= one <= "~" and one != "\\" else f"\\u{{{ord(one):x}}}" for one in self.goal)
        return shown if len(shown) <= LONGEST else f"{shown[:LONGEST]}.."


NOTHING = Beside()


def file_beside(report: int) -> Optional[Path]:
    """The file beside an open report that has a name; none where it has none, or there is no such file."""
    try:
        path = Path(f"{os.readlink(f'/proc/self/fd/{report}')}.json")
        return path if path.is_file() else None
    except (OSError, ValueError):
        return None


def read_beside(path: Path, report: bytes) -> Optional[Beside]:
    """What a file tells of a report; none where it is of another one. Anybody may have written it."""
    try:
        with open(path, "rb") as source:
            text = source.read(MOST_BYTES + 1)
        told = json.loads(text) if len(text) <= MOST_BYTES else None
        if told["sha256"] != hashlib.sha256(report).hexdigest():
            return None
        scale = {str(name): (_number(low), _number(high)) for name, (low, high) in told["scale"].items()}
        if any(low >= high for low, high in scale.values()):
            raise ValueError("an interval is empty")
        return Beside(str(told["goal"]), scale)
    except (OSError, ValueError, KeyError, TypeError, AttributeError, RecursionError):
        raise Unfit("isn't in the form that plift-lab writes") from None


def unborne(beside: Beside, names: List[str], spans: Dict[str, Interval]) -> Optional[str]:
    """The first parameter of which something is told that a report's region doesn't bear out: one that was rescaled
    runs from 0 to 1 in it."""
    return next((name for name in beside.scale if name not in names or spans[name] != UNIT), None)


def _number(word: Any) -> Fraction:
    if not isinstance(word, str) or not NUMBER.fullmatch(word):
        raise ValueError("no number")
    return Fraction(word)
