"""Who judges what the program wrote: `plift check` reports, `plift audit` the other texts where the program has it, and
where it hasn't the second checker, recheck.py, which shares nothing with it."""

from __future__ import annotations

import contextlib
import os
import select
import subprocess
import sys
import tempfile
from pathlib import Path
from typing import IO, Dict, NamedTuple, Optional, Tuple

from .evidence import digest
from .faults import LOST, Fault, Refused
from .outputs import unwritten
from .plain import plain
from .program import CHECKOUT, Program, end, signals_held

RECHECK = CHECKOUT / 'recheck/recheck.py'
BARE = '-I', '-S', str(Path(__file__).with_name('rechecking.py'))
"""Python without what is installed beside its standard library, which recheck.py does without: it starts at once."""
NO_SUCH_WORD = (2, 'usage: words')


class Verdict(NamedTuple):
    """That a text is sound, how many leaves of each kind it has, and who says so."""

    line: str
    judge: str


class Judge:
    """Judges the texts of one program, each once."""

    def __init__(self, program: Program) -> None:
        self.program = program
        self._second = Second()
        self._has_audit: Optional[bool] = None
        self._known: Dict[str, Verdict] = {}

    def judge(self, text: bytes) -> Verdict:
        """That it is sound; it is refused where it isn't."""
        name = digest(text)
        if name not in self._known:
            self._known[name] = self._judged(text)
        return self._known[name]

    def _judged(self, text: bytes) -> Verdict:
        if not text.startswith(b'plift-'):
            return Verdict(self.program.check(text), self.program.judge('check'))
        if self._has_audit is not False:
            try:
                line = self.program.check(text, 'audit')
                self._has_audit = True
                return Verdict(line, self.program.judge('audit'))
            except Refused as refusal:
                if self._has_audit or (refusal.plift_status, refusal.note) != NO_SUCH_WORD:
                    raise
                self._has_audit = False
        return Verdict(self._second.judge(text), str(RECHECK))

    def close(self) -> None:
        """Ends what judges."""
        self._second.close()


class Second:
    """recheck.py in a process of its own (rechecking.py), which is there from the first text on."""

    def __init__(self) -> None:
        self._process: Optional[subprocess.Popen[bytes]] = None
        self._shared: Optional[IO[bytes]] = None

    def judge(self, text: bytes) -> str:
        """What it says of a sound text."""
        process, shared = self._ready()
        _put(text, shared)
        assert process.stdin is not None
        with contextlib.suppress(BrokenPipeError):  # it died, and its status is told below
            os.write(process.stdin.fileno(), b'\n')
        told = _answer(process)
        note, _, status = told[:-1].rpartition(b'\n') if told.endswith(b'\0') else (told.strip(), b'', b'')
        line = plain(note.split(b'\n')[-1])
        if status != b'0':
            raise Refused(int(status) if status else process.wait(), line, ['recheck.py'], text)
        return line

    def _ready(self) -> Tuple[subprocess.Popen[bytes], IO[bytes]]:
        """The process, a new one where it died, and the file that it shares."""
        if self._process is None or self._shared is None or self._process.poll() is not None:
            self.close()
            if not RECHECK.is_file():
                raise Fault(
                    '%s isn\'t there, which judges a text of this kind: plift check doesn\'t read it' % RECHECK, LOST
                )
            try:
                self._shared = tempfile.TemporaryFile(buffering=0)
            except OSError as error:
                raise unwritten('a file in %s' % tempfile.gettempdir(), error) from None
            place = self._shared.fileno()
            words, pipe = [sys.executable, *BARE, str(RECHECK), str(place)], subprocess.PIPE
            with signals_held():
                self._process = subprocess.Popen(
                    words, stdin=pipe, stdout=pipe, stderr=subprocess.STDOUT, pass_fds=[place]
                )
        return self._process, self._shared

    def close(self) -> None:
        """Ends it, whatever it does."""
        if self._process is not None:
            end(self._process)
        if self._shared is not None:
            self._shared.close()
        self._process, self._shared = None, None


def _put(text: bytes, shared: IO[bytes]) -> None:
    """Puts a text into the shared file."""
    left = memoryview(text)
    try:
        shared.seek(0)
        shared.truncate()
        while left:
            left = left[shared.write(left) :]
    except OSError as error:
        raise unwritten('a file in %s' % tempfile.gettempdir(), error) from None


def _answer(process: subprocess.Popen[bytes]) -> bytes:
    """What it writes down to a zero byte, or until it ends. It is waited for by short times, as in program.ended."""
    assert process.stdout is not None
    told, place, waiting = b'', process.stdout.fileno(), select.poll()
    waiting.register(place, select.POLLIN)
    while not told.endswith(b'\0'):
        if waiting.poll(200):
            piece = os.read(place, 2**16)
            if not piece:
                break
            told += piece
    return told
