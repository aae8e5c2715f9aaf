"""The program that is asked: where it is, and how it is run. What it writes stands in files."""

from __future__ import annotations

import contextlib
import os
import resource
import shutil
import signal
import subprocess
import tempfile
import threading
from functools import partial
from pathlib import Path
from typing import IO, BinaryIO, Callable, Iterator, List, Optional, Tuple, Union

from .faults import LOST, WRITING, Fault, Refused
from .outputs import fresh, unwritten
from .plain import plain

Watch = Callable[[Path, int], None]
"""Is called with a growing report and the number of the process that writes it."""
CHECKOUT = Path(__file__).resolve().parent.parent.parent
"""The repository's folder, where this package lies in one."""
BUILT, QUICK = CHECKOUT / 'crates/plift/out/plift', CHECKOUT / 'build/quick/plift'
RELEASED = CHECKOUT / 'programs/plift'
"""Where it lies in an unpacked release, and where all of plift is installed."""
MOST_BYTES, MOST_CHECKED_BYTES = 2**26, 2**32
"""The longest text that it reads whole, and the longest report that it checks."""


def find_program() -> 'Program':
    """The one that PLIFT_PROGRAM names; else the one of this checkout or release, an installed one, a quick one."""
    named = os.environ.get('PLIFT_PROGRAM')
    for path in [Path(named)] if named else [BUILT, RELEASED, *_installed(), QUICK]:
        if path.is_file() and os.access(path, os.X_OK):
            return Program(path.resolve())
    if named:
        raise Fault('PLIFT_PROGRAM names %s, which is no program' % named, LOST)
    raise Fault('no plift is found: build it, put it on the PATH, or name it by PLIFT_PROGRAM=PATH', LOST)


def _installed() -> List[Path]:
    """The one on the PATH, if there is one. The script of a checkout isn't taken: it builds where need be."""
    found = shutil.which('plift')
    is_checkout = found and (Path(found).resolve().parent / 'tools/build.sh').exists()
    return [Path(found)] if found and not is_checkout else []


class Program:
    """A built plift."""

    def __init__(self, path: Path) -> None:
        self.path = path

    @property
    def is_unproved(self) -> bool:
        """Whether it was built without proofs: a quick build, or an installed or released one whose `made` says so."""
        places = self.path.parent, self.path.parent.parent / 'libexec/plift/programs'
        made = [place / 'made' for place in places if (place / 'made').is_file()]
        return self.path.parent.name == 'quick' or made[:1] != [] and made[0].read_bytes().startswith(b'quick')

    def judge(self, command: str = 'check') -> str:
        """Who judges: a command of this program, and whether it was built without proofs."""
        return '%s %s%s' % (self.path, command, ', built without proofs' if self.is_unproved else '')

    def verify(self, words: List[str], model: Path, report: Path, watch: Optional[Watch] = None) -> float:
        """Writes the report of a model to a file, and returns how many seconds of the processor that took. While it
        runs, `watch` is called with that file and the number of its process now and then."""
        before = _spent()
        with open(model, 'rb') as source, _new(report) as sink, self._running(words, source, sink) as process:
            note = ended(process, partial(watch, report, process.pid) if watch else None)[1]
        if process.returncode:
            raise Refused(process.returncode, _line(note) + _why_full(process, report), words, model.read_bytes())
        return _spent() - before

    def check(self, report: bytes, command: str = 'check') -> str:
        """The line that tells that a report is sound, and how many leaves of each kind it has."""
        with file_of(report) as source:  # a pipe is fed half a kilobyte at a time
            with self._running([command], source, subprocess.PIPE) as process:
                line, note = ended(process)
        if process.returncode:
            raise Refused(process.returncode, _line(note), [command], report)
        return _line(line)

    @contextlib.contextmanager
    def _running(
        self, words: List[str], source: IO[bytes], sink: Union[BinaryIO, int]
    ) -> Iterator[subprocess.Popen[bytes]]:
        """The program at work, which is ended behind it, whatever happened."""
        process = None
        try:
            with signals_held():
                process = self._start(words, source, sink)
            yield process
        finally:
            if process is not None:
                end(process)

    def _start(self, words: List[str], source: IO[bytes], sink: Union[BinaryIO, int]) -> subprocess.Popen[bytes]:
        try:
            return subprocess.Popen([str(self.path)] + words, stdin=source, stdout=sink, stderr=subprocess.PIPE)
        except (OSError, ValueError) as fault:
            raise Fault('%s can\'t be started: %s' % (self.path, fault), LOST) from None


@contextlib.contextmanager
def signals_held() -> Iterator[None]:
    """Holds back what would end this call, until a program that is started has a name by which it can be ended."""
    if threading.current_thread() is not threading.main_thread():
        yield  # only the main thread is told of signals
        return
    came: List[int] = []
    handlers = {each: signal.getsignal(each) for each in (signal.SIGHUP, signal.SIGINT, signal.SIGQUIT, signal.SIGTERM)}
    held = {each: handler for each, handler in handlers.items() if handler not in (None, signal.SIG_IGN)}
    for each in held:
        signal.signal(each, lambda number, _: came.append(number))
    try:
        yield
    finally:
        for each, handler in held.items():
            signal.signal(each, handler)
        for number in came:
            signal.raise_signal(number)


def ended(process: subprocess.Popen[bytes], watch: Optional[Callable[[], None]] = None) -> Tuple[bytes, bytes]:
    """What a process writes until it ends. It is waited for by short times, for a signal that comes just before a wait
    doesn't end that."""
    while True:
        try:
            return process.communicate(timeout=0.2)
        except subprocess.TimeoutExpired:
            if watch:
                watch()


def end(process: subprocess.Popen[bytes]) -> None:
    """Leaves no process behind, whatever happened."""
    if process.poll() is None:
        process.kill()
        process.wait()
    for stream in (process.stdin, process.stdout, process.stderr):
        if stream:
            stream.close()


def _spent() -> float:
    """Seconds of the processor that programs took which have ended."""
    used = resource.getrusage(resource.RUSAGE_CHILDREN)
    return used.ru_utime + used.ru_stime


def _line(text: bytes) -> str:
    return plain(text.strip().replace(b'\n', b'; '))


def _new(report: Path) -> BinaryIO:
    """The file that a report is written to."""
    try:
        return fresh(report)
    except OSError as error:
        raise unwritten(report, error) from None


def _why_full(process: subprocess.Popen[bytes], report: Path) -> str:
    """What the system says where the program could write no more."""
    if process.returncode == WRITING:
        try:
            with open(report, 'ab') as out:
                out.write(bytes(2**16))
        except OSError as error:
            return ': %s' % (error.strerror or error)
    return ''


@contextlib.contextmanager
def file_of(data: bytes) -> Iterator[IO[bytes]]:
    """A file without a name that has these bytes."""
    try:
        holder = tempfile.TemporaryFile()
        holder.write(data)
        holder.seek(0)
    except OSError as error:
        raise unwritten('a file in %s' % tempfile.gettempdir(), error) from None
    with holder:
        yield holder
