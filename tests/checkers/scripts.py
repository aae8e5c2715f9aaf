"""How the checkers of recheck/ are started by these tests, and how they end."""

from __future__ import annotations

import resource
import subprocess
import sys
from pathlib import Path
from typing import NamedTuple, Optional

sys.dont_write_bytecode = True
TOP = Path(__file__).resolve().parents[2]
RECHECK, LUMPED = (TOP / "recheck" / name for name in ("recheck.py", "lumped.py"))


class Ending(NamedTuple):
    """The status, and what was written to standard output and standard error."""

    status: int
    out: str
    note: str


def run(words: list[str], given: bytes = b"", seconds: Optional[int] = None, room: Optional[int] = None) -> Ending:
    """Runs Python on these words, with at most so many seconds of the processor and bytes of memory."""

    def limit() -> None:
        """Sets the limits in the child."""
        for what, most in ((resource.RLIMIT_CPU, seconds), (resource.RLIMIT_AS, room)):
            if most is not None:
                resource.setrlimit(what, (most, most))

    done = subprocess.run([sys.executable, *words], input=given, capture_output=True, preexec_fn=limit, check=False)
    return Ending(done.returncode, done.stdout.decode(), done.stderr.decode())


def shell(line: str, *words: str) -> Ending:
    """Runs a line of the shell, in which "$@" is Python and these words. Nothing is given to it."""
    command = ["sh", "-c", line, "sh", sys.executable, *words]
    done = subprocess.run(command, stdin=subprocess.DEVNULL, capture_output=True, check=False)
    return Ending(done.returncode, done.stdout.decode(), done.stderr.decode())
