#!/usr/bin/env python3
"""Tells a person more about a refusal:  PLIFT_NOTE=NOTE python3 tools/hints.py STATUS -- WORDS.. < TEXT

STATUS is the one that plift ended with (or plift-view, by PLIFT_PROGRAM), NOTE what it wrote on standard error, WORDS
its words, and TEXT what it read, which is looked at where it is a file. Writes at most four lines that begin with
`hint: ` to standard error. Always ends with 0 and within two seconds of processor time, whatever it is given.
"""

from __future__ import annotations

import gc
import importlib
import os
import re
import signal
import stat
import sys
from pathlib import Path
from typing import Callable, List, Optional

sys.path.insert(0, str(Path(__file__).resolve().parent))

SECONDS = 1.5  # for looking into words and text
MOST_BYTES = 2**26  # of a text
PIECE = 2**20
STATUS = re.compile("[0-9]{1,3}")


class OutOfTime(Exception):
    """The time for looking into the text is up."""


def stop(_signal: int, _frame: object) -> None:
    """Ends what takes too long."""
    raise OutOfTime


def text_given() -> Optional[bytes]:
    """Standard input from its start, where it is a file; it is left where it stands."""
    try:
        if not stat.S_ISREG(os.fstat(0).st_mode):
            return None
        pieces: List[bytes] = []
        size = 0
        while size <= MOST_BYTES:
            piece = os.pread(0, PIECE, size)
            if not piece:
                return b"".join(pieces)
            pieces.append(piece)
            size += len(piece)
    except OSError:
        return None
    return None


def lines_for(status: int, words: List[str]) -> List[str]:
    """The hints; where looking into the text takes too long, those that need no text."""
    hints: Callable[..., List[str]] = importlib.import_module("hints").hints

    note, program = os.environ.get("PLIFT_NOTE", ""), os.environ.get("PLIFT_PROGRAM", "plift")
    signal.signal(signal.SIGALRM, stop)
    try:
        signal.setitimer(signal.ITIMER_REAL, SECONDS)
        lines = hints(status, note, words, text_given(), program)
        signal.setitimer(signal.ITIMER_REAL, 0)
        return lines
    except (OutOfTime, MemoryError):
        return hints(status, note, [], None, program)


def told(arguments: List[str]) -> bytes:
    """What is known of a refusal, as it is written; nothing for other arguments than STATUS -- WORDS."""
    if len(arguments) < 2 or not STATUS.fullmatch(arguments[0]) or arguments[1] != "--":
        return b""
    lines = lines_for(int(arguments[0]), arguments[2:])
    return "".join(f"hint: {line}\n" for line in lines).encode("utf-8", "backslashreplace")


def main() -> None:
    """Writes the hints. One that fails is none: the note has been told, and no trace is to hide it."""
    gc.disable()  # for so short a time
    try:
        os.write(2, told(sys.argv[1:]))
    finally:
        os._exit(0)


if __name__ == "__main__":
    main()
