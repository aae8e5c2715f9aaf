#!/usr/bin/env python3
"""Tells on standard error how far a report has come that grows on standard output, a file, until it is told to end:

    tools/watch.py > growing.report &

The script ./plift starts it at a terminal. It says nothing in the first seconds. By USR1 it says what stands, and ends;
by TERM it takes its line away, and ends. Nothing that it does changes the report.
"""

from __future__ import annotations

import fcntl
import os
import signal
import sys
import time
from pathlib import Path
from types import FrameType
from typing import NoReturn, Optional

EARLIEST, EACH = 4.0, 1.0
GROWING = Path("/proc/self/fd/1")
STARTED = time.monotonic()
TOP = Path(__file__).resolve().parents[1]


class Ended(Exception):
    """The program has ended, or was stopped."""


def end(number: int, _: Optional[FrameType]) -> NoReturn:
    """Ends what waits."""
    for each in (signal.SIGTERM, signal.SIGUSR1):
        signal.signal(each, signal.SIG_IGN)
    raise Ended(number)


def show(line: str) -> None:
    """Writes a line over the last one."""
    sys.stderr.write(f"\r{line}\x1b[K")
    sys.stderr.flush()


def watch() -> None:
    """Tells how far it is, each second."""
    told, follower = "", None
    try:
        time.sleep(EARLIEST)
        sys.path.insert(0, str(TOP / "lab"))
        from plift_lab.progress import Follower, Past, seconds_shown

        follower, past = Follower(), Past()
        # What was there before is none of this report.
        is_appended = fcntl.fcntl(1, fcntl.F_GETFL) & os.O_APPEND
        while True:
            spent = time.monotonic() - STARTED
            share = 0.0 if is_appended else follower.settled(GROWING)
            told = f"plift: {seconds_shown(spent)} so far"
            if follower.leaves:
                left = past.left(spent, share)
                told += f"; {100 * share:.1f} % of the region is settled, in {follower.leaves} rectangles"
                told += "" if left is None else f"; some {seconds_shown(left)} left"
            show(told)
            time.sleep(EACH)
    except Ended as why:
        if told:
            show("")
        if why.args[0] == signal.SIGUSR1 and follower is not None and follower.leaves:
            share = follower.settled(GROWING)
            print(f"plift: stopped; {100 * share:.1f} % of the region stands in the file, cut off", file=sys.stderr)


def main() -> None:
    """Watches until it is told to end."""
    for each in (signal.SIGTERM, signal.SIGUSR1):
        signal.signal(each, end)
    try:
        watch()
    except (OSError, ImportError, Ended):  # a help: what is wrong with it is no concern of the program
        pass


if __name__ == "__main__":
    main()
