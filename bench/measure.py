"""Runs a program once or a few times, and tells its status, its seconds of the processor (user and system) and its peak
memory."""

from __future__ import annotations

import os
import resource
import shutil
import signal
import subprocess
import sys
import tempfile
from dataclasses import dataclass
from pathlib import Path
from typing import Optional

TOP = os.path.dirname(os.path.dirname(os.path.abspath(__file__)))
PROGRAM = os.path.join(TOP, "crates", "plift", "out", "plift")

# A child's peak is at least that of the process that starts it, so a small program stands between.
TIME = shutil.which("time")


# The status of a run that reached its limit.
STOPPED = -1

# How such a run ends, by itself or below `time`.
ENDINGS_AT_LIMIT = {end for number in (signal.SIGXCPU, signal.SIGKILL) for end in (-number, 128 + number)}


@dataclass
class Run:
    """How a run ended."""

    status: int
    seconds: float
    megabytes: float
    note: str

    @property
    def stopped(self) -> bool:
        """Whether it reached its limit."""
        return self.status == STOPPED


def scratch() -> tempfile.TemporaryDirectory[str]:
    """A folder for models and reports, in memory where that can be had."""
    shared = "/dev/shm"
    place = shared if os.access(shared, os.W_OK) else None
    return tempfile.TemporaryDirectory(prefix="plift-bench.", dir=place)


def once(words: list[str], source: str, target: str, limit: int) -> Run:
    """One run of the words, from one file to another, stopped after so many seconds of the processor."""
    figures = target + ".figures"
    notes = target + ".notes"
    around = [TIME, "-f", "%M", "-o", figures] if TIME else []

    def limited() -> None:
        """Sets the limit, in seconds of the processor, in the child before it becomes the program."""
        resource.setrlimit(resource.RLIMIT_CPU, (limit, limit + 1))

    with open(source, "rb") as stdin, open(target, "wb") as stdout, open(notes, "wb") as stderr:
        child = subprocess.Popen(around + words, stdin=stdin, stdout=stdout, stderr=stderr, preexec_fn=limited)
        _, status, usage = os.wait4(child.pid, 0)
        child.returncode = os.waitstatus_to_exitcode(status)
    seconds = usage.ru_utime + usage.ru_stime
    if child.returncode in ENDINGS_AT_LIMIT:
        return Run(STOPPED, limit, 0.0, "stopped")
    megabytes = 0.0
    if TIME:
        megabytes = int(Path(figures).read_text().split()[-1]) / 1024
    note = Path(notes).read_bytes().decode("ascii", "replace").strip()
    return Run(child.returncode, seconds, megabytes, note)


def least(words: list[str], source: str, target: str, limit: int, count: int = 3) -> Run:
    """The run that took the least time of so many; one alone where it took longer than 5 seconds."""
    best = once(words, source, target, limit)
    for _ in range(count - 1):
        if best.stopped or best.seconds > 5:
            break
        run = once(words, source, target, limit)
        if run.seconds < best.seconds:
            best = run
    return best


def program(given: Optional[str] = None) -> str:
    """The path of the program, or an end with a message where it isn't built."""
    path = given or PROGRAM
    if not os.access(path, os.X_OK):
        sys.exit(f"{path} isn't there: ./plift builds it")
    return path
