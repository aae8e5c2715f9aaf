"""A mistake that a person makes, what the program says of it, and what the hints have to tell."""

from __future__ import annotations

import os
import shlex
import sys
from functools import lru_cache
from pathlib import Path
from typing import List, NamedTuple, Optional, Tuple

TOP = Path(__file__).resolve().parent.parent.parent
sys.path.insert(0, str(TOP / "tools"))

import hints  # noqa: E402
from hints.refusal import Refusal  # noqa: E402


def example(name: str) -> bytes:
    """A text of the folder `examples`."""
    return (TOP / "examples" / name).read_bytes()


RETRY = example("retry.drn")
COIN = example("coin.drn")
REPORT = example("retry.report")
REGION = "--region '1/10<=p<=3/10,1/20<=q<=1/5'"
ASKED = "verify --goal lost --bound 3/100 "
PLAIN = ASKED + REGION
COIN_ASKED = "verify --goal heads --bound 1/2 --region '1/10<=p<=9/10'"


def changed(text: bytes, old: str, new: str) -> bytes:
    """The text with its first such part replaced."""
    assert old.encode() in text, old
    return text.replace(old.encode(), new.encode(), 1)


class Mistake(NamedTuple):
    """A line of words as a shell reads it, the text on standard input, the status and the note that come, and parts
    that the hints have to hold."""

    words: str
    text: Optional[bytes]
    status: int
    note: str
    told: Tuple[str, ...]
    program: str = "plift"

    def split(self) -> List[str]:
        return shlex.split(self.words)


def words(line: str, *told: str) -> Mistake:
    """A line that isn't one of plift."""
    return Mistake(line, RETRY, 2, "usage: words", told)


@lru_cache(maxsize=None)
def told_of(mistake: Mistake) -> List[str]:
    """The hints for a mistake, as they are made."""
    return hints.explained(Refusal(mistake.status, mistake.note, mistake.split(), mistake.text, mistake.program))


def program(name: str = "plift") -> Optional[str]:
    """A built program, if there is one."""
    asked = os.environ.get("PLIFT_TEST_PROGRAM")
    if asked:
        path = Path(asked) if name == "plift" else Path(asked).with_name(name)
        folder = Path(asked).parent.parent.parent / "plift_view" / "out" / "plift_view"
        return next((str(p) for p in [path] + ([folder] if name != "plift" else []) if os.access(p, os.X_OK)), None)
    crate = name.replace("-", "_")
    places = [TOP / "build" / "quick" / name, TOP / "crates" / crate / "out" / crate]
    return next((str(place) for place in places if os.access(place, os.X_OK)), None)
