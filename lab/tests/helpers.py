"""What the tests share."""

from __future__ import annotations

import contextlib
import io
import signal
import subprocess
import tempfile
import time
import unittest
from pathlib import Path
from typing import Any, Callable, Tuple

from plift_lab.cli import main

TOP = Path(__file__).resolve().parent.parent.parent
EXAMPLES = TOP / 'examples'
RETRY = str(EXAMPLES / 'retry.drn')
LINKS = str(EXAMPLES / 'links.drn')
TREE = str(EXAMPLES / 'retry-tree.report')
COIN = (EXAMPLES / 'coin.report').read_bytes()
# Of version 2: the coin over halves of a region, each decided leaf at its own precision.
RANGE = COIN[: COIN.index(b'precision')].replace(b'plift 1', b'plift 2') + (
    b'precision 4\nfrom 1\ndepth 2\ngrid 40\nbox 4 36\nsplit 0\nat 1\naccept 1 2 0\nsplit 0\nunknown\n'
    b'at 4\nreject e 1 k 1 m 1 b 11/16\ny 11 16 0\nchoice 0 - -\nrank 1 0 -\n'
)


PATIENCE = 600
"""Seconds: longer than anything here takes on a busy machine, and less than a stand-in sleeps."""


def as_from_a_shell() -> None:
    """For a process that is started: signals that the tests pass over, as in the background, are heard there."""
    for number in (signal.SIGTERM, signal.SIGINT, signal.SIGHUP, signal.SIGQUIT):
        signal.signal(number, signal.SIG_DFL)


def wait_for(is_there: Callable[[], Any], process: 'subprocess.Popen[bytes]') -> None:
    """Waits until a process has made something, however slow the machine is."""
    end = time.monotonic() + PATIENCE
    while not is_there():
        if process.poll() is not None:
            raise AssertionError('it ended with %s before' % process.returncode)
        if time.monotonic() > end:
            process.kill()
            raise AssertionError('nothing came')
        time.sleep(0.02)


def run(*words: str) -> Tuple[int, str, str]:
    """Status, output and errors of a command."""
    out, err = io.StringIO(), io.StringIO()
    with contextlib.redirect_stdout(out), contextlib.redirect_stderr(err):
        try:
            status = main(list(words))
        except SystemExit as end:  # --help and --version
            status = int(end.code or 0)
    return status, out.getvalue(), err.getvalue()


class InFolder(unittest.TestCase):
    """A test with a folder of its own."""

    def setUp(self) -> None:
        holder = tempfile.TemporaryDirectory(prefix='plift-lab-test.')
        self.addCleanup(holder.cleanup)
        self.folder = Path(holder.name)

    def file(self, name: str, data: bytes) -> str:
        """A file in the folder."""
        (self.folder / name).write_bytes(data)
        return str(self.folder / name)
