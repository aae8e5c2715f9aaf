"""How far a job is, told while it runs: once for the whole of it, with a share that doesn't go back."""

from __future__ import annotations

import contextlib
import os
import sys
import time
from pathlib import Path
from typing import TYPE_CHECKING, Iterator, List, Optional, Sequence, Tuple

from .ends import say

if TYPE_CHECKING:
    from .program import Watch

EARLIEST = 5
"""Seconds before which no time is told that may be left."""
CHECKED, RECHECKED = 1.5e8, 2e6
"""Bytes that `plift check` and that recheck.py judge in a second of a processor, as they were measured."""
LEAST_SHARE = 0.05
"""Of the work that is done by then."""
SINCE, ALIKE = (0.0, 0.5, 0.75), 1.5
"""From which parts of the time on it is asked how fast a job goes, and by what factor the answers may differ."""


class Progress:
    """Tells on standard error how far a job is: on a terminal in one line that is written over, else in a line now and
    then. A share is told where it is known, as the part of the region that is settled; else what is known so far, and
    how long that took."""

    def __init__(self, is_on: bool) -> None:
        self.is_on = is_on
        self.is_terminal = sys.stderr.isatty()
        self.text = ''
        """What is known so far."""
        self._begin = self._told = time.monotonic()
        self._width, self._share = 0, 0.0
        self._span: Optional[Tuple[float, float]] = None
        self._past = Past()

    @contextlib.contextmanager
    def part(self, low: float, high: float) -> Iterator[None]:
        """Meanwhile the job goes from one share to another, by what a growing report has of the region."""
        self._span = low, high
        yield
        self._span = None

    def watcher(self, pace: float = CHECKED) -> 'Optional[Watch]':
        """What is called with the growing report while the program runs; so many bytes of it are judged in a second."""
        if not self.is_on:
            return None
        follower = Follower()

        def watch(path: Path, process: int) -> None:
            if self._is_due():
                settled = follower.settled(path) if self._span else None
                self._tell(settled, follower.size / pace * slowness(process))

        return watch

    def judging(self) -> None:
        """Tells that a report is whole and is judged now."""
        if self.is_on and self._share and self._is_due():
            self._put('%s, and is judged now' % self._settled)

    def _tell(self, inner: Optional[float], judging: float) -> None:
        """Tells what share of a report's region is settled, and how long all is likely to take, when judging what there
        is of it takes so long."""
        spent = time.monotonic() - self._begin
        if not inner and not self._share or inner is None or self._span is None:  # a short report comes at once
            self._put('%s%s so far' % (self.text + '; ' if self.text else '', seconds_shown(spent)))
            return
        low, high = self._span
        self._share = max(self._share, low + (high - low) * inner)
        left = self._past.left(spent, self._share)
        if left is not None:
            left += judging / inner * (1 - low) / (high - low)
        told = '' if left is None else ', some %s left' % seconds_shown(left)
        self._put('%s after %s%s' % (self._settled, seconds_shown(spent), told))

    @property
    def _settled(self) -> str:
        return '%.1f %% of the region is settled' % (100 * self._share)

    @property
    def known(self) -> str:
        """What is known so far, for who stops the job; nothing where nothing was told."""
        return self.text or (self._settled if self._share else '')

    def say(self, text: str) -> None:
        """Keeps what is known so far, and tells it, unless something was told just before."""
        self.text = text
        if self.is_on and self._is_due():
            self._put(text)

    def clear(self) -> None:
        """Takes the line on a terminal away."""
        if self._width:
            say('\r' + ' ' * self._width, '\r')
            self._width = 0

    def _is_due(self) -> bool:
        return time.monotonic() - self._told >= (0.2 if self.is_terminal else 10)

    def _put(self, text: str) -> None:
        self._told = time.monotonic()
        if self.is_terminal:
            self._width = max(self._width, len(text))
        say('\r' + text.ljust(self._width) if self.is_terminal else text, '' if self.is_terminal else '\n')


def slowness(process: int) -> float:
    """How many seconds pass for each that a process gets of a processor; 1 where that can't be told."""
    try:
        with open('/proc/%d/stat' % process, encoding='ascii', errors='replace') as source:
            words = source.read().rpartition(')')[2].split()
        with open('/proc/uptime', encoding='ascii') as source:
            passed = float(source.read().split()[0]) - int(words[19]) / os.sysconf('SC_CLK_TCK')
        used = (int(words[11]) + int(words[12])) / os.sysconf('SC_CLK_TCK')
    except (OSError, ValueError, IndexError):
        return 1.0
    return max(1.0, passed / used) if used else 1.0


class Past:
    """Times, and the shares that were done by then."""

    def __init__(self) -> None:
        self._noted: List[Tuple[float, float]] = []

    def left(self, spent: float, share: float) -> Optional[float]:
        """Notes what is done, and tells how many seconds are left, where that can be told."""
        self._noted.append((spent, share))
        return time_left(self._noted)


def time_left(past: Sequence[Tuple[float, float]]) -> Optional[float]:
    """Seconds that are left, from times and the shares that were done by then. None where it can't be told: parts of a
    region take very different times, so what came on the whole, of late and last of all have to tell about the same."""
    spent, share = past[-1]
    if spent < EARLIEST or share < LEAST_SHARE:
        return None
    told = []
    for since in SINCE:
        begin, done = next((one for one in reversed(past) if one[0] <= spent * since), past[0]) if since else (0.0, 0.0)
        if share <= done or spent <= begin:
            return None
        told.append((spent - begin) / (share - done) * (1 - share))
    return None if max(told) > ALIKE * min(told) else (max(told) * min(told)) ** 0.5


class Follower:
    """How much of the region's volume the leaves of a growing report have, and how many there are."""

    def __init__(self) -> None:
        self._place, self._rest, self._is_head, self._share = 0, b'', True, 0.0
        self.leaves = 0
        self._due = [1.0]

    @property
    def size(self) -> int:
        """Bytes that were read."""
        return self._place

    def settled(self, path: Path) -> float:
        """Reads what has come since it was called last."""
        try:
            with open(path, 'rb') as source:
                source.seek(self._place)
                new = source.read()
        except OSError:
            return self._share
        self._place += len(new)
        lines = (self._rest + new).split(b'\n')
        self._rest = lines.pop()
        for line in lines:
            key = line[:6]
            if self._is_head:
                self._is_head = line[:3] != b'box'
            elif key == b'split ':
                half = self._due.pop() / 2
                self._due += [half, half]
            elif key in (b'accept', b'reject', b'unknow', b'holds', b'fails') and self._due:
                self._share += self._due.pop()
                self.leaves += 1
        return self._share


def seconds_shown(seconds: float) -> str:
    """A time for people."""
    if seconds < 100:
        return '%d s' % round(seconds)
    return '%d min' % round(seconds / 60) if seconds < 6000 else '%.1f h' % (seconds / 3600)
