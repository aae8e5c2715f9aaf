"""How a command ends: what it had to tell was written, or one line says what is wrong, and the status says so, too."""

from __future__ import annotations

import contextlib
import os
import signal
import sys
import threading
from dataclasses import dataclass
from typing import Callable, Iterator, NoReturn

from .faults import LOST, MEMORY, WRITING, Fault
from .outputs import unwritten
from .plain import printable

SIGNALS = (signal.SIGHUP, signal.SIGINT, signal.SIGQUIT, signal.SIGTERM)
"""What ends a command, and with it the program that it asks."""


def say(text: str, end: str = '\n') -> None:
    """Writes on standard error. Where that is closed or full nobody can be told."""
    try:
        sys.stderr.write(text + end)
        sys.stderr.flush()
    except (OSError, ValueError):
        _forsake(sys.stderr)


@dataclass(frozen=True)
class Tool:
    """A tool whose commands end like this."""

    name: str
    stopped: str
    """What is told where a signal ends it."""
    status_of: Callable[[Fault], int]
    status_of_signal: Callable[[int], int]
    hint: Callable[[Fault], None] = lambda fault: None
    """Tells more of a fault."""

    def run(self, work: Callable[[], int]) -> int:
        """Does it and returns the status."""
        _open_streams()
        try:
            with _armed():
                if sys.stdout is None:
                    raise Fault('standard output is closed', WRITING)
                status = _worked(work)
                sys.stdout.flush()
                return status
        except Fault as fault:
            status = self._told(str(fault.args[0]), self.status_of(fault))
            self.hint(fault)
        except KeyboardInterrupt as end:
            number = int(end.args[0]) if end.args and isinstance(end.args[0], int) else int(signal.SIGINT)
            if sys.stderr.isatty():  # behind the sign that the terminal shows for Ctrl-C
                say('')
            known = [str(word) for word in end.args[1:]]
            status = self._told('; '.join([*known, self.stopped]), self.status_of_signal(number))
        except BrokenPipeError:  # who read it has seen enough
            status = WRITING
        except OSError as error:
            refused = unwritten('standard output', error) if error.filename is None else Fault(str(error))
            status = self._told(str(refused), self.status_of(refused))
        except MemoryError:
            status = self._told('out of memory', MEMORY)
        except Exception as wrong:  # a fault of this tool, told without a trace
            trace = self.name.upper().replace('-', '_') + '_TRACE'
            if os.environ.get(trace):
                raise
            about = type(wrong).__name__, wrong, trace
            status = self._told('a fault of %s itself (%s: %s); %s=1 shows where' % (self.name, *about), LOST)
        _forsake_if_stuck()
        return status

    def _told(self, text: str, status: int) -> int:
        say('%s: %s' % (self.name, printable(' '.join(text.split('\n')))))
        return status


def _worked(work: Callable[[], int]) -> int:
    try:
        return work()
    except SystemExit as end:  # of argparse, once it has written a page
        return int(end.code or 0)


def _open_streams() -> None:
    """Takes the places of standard streams that are closed, so that no file gets one of them."""
    while True:
        opened = os.open(os.devnull, os.O_RDWR)
        if opened > 2:
            os.close(opened)
            break
    if sys.stderr is None:
        sys.stderr = open(os.devnull, 'w', encoding='utf-8')
    if hasattr(sys.stdout, 'reconfigure'):
        sys.stdout.reconfigure(errors='backslashreplace')


@contextlib.contextmanager
def _armed() -> Iterator[None]:
    """Lets signals end the work as Ctrl-C does, but for those that are ignored here, as `nohup` asks."""
    if threading.current_thread() is not threading.main_thread():
        yield  # only the main thread is told of signals
        return
    before = {each: signal.getsignal(each) for each in SIGNALS}
    for each, handler in before.items():
        if handler not in (None, signal.SIG_IGN):
            signal.signal(each, _end)
    try:
        yield
    finally:
        for each, handler in before.items():
            if handler is not None:
                signal.signal(each, handler)


def _end(number: int, _: object) -> NoReturn:
    """Ends what runs, once: a second signal doesn't stop the tidying."""
    for each in SIGNALS:
        signal.signal(each, signal.SIG_IGN)
    raise KeyboardInterrupt(number)


def _forsake_if_stuck() -> None:
    """Keeps what couldn't be written from being tried once more when Python ends."""
    try:
        if sys.stdout is not None:
            sys.stdout.flush()
    except (OSError, ValueError):
        _forsake(sys.stdout)


def _forsake(stream: object) -> None:
    """Lets what is left in a stream go nowhere."""
    with contextlib.suppress(OSError, ValueError, AttributeError):
        os.dup2(os.open(os.devnull, os.O_WRONLY), stream.fileno())  # type: ignore[attr-defined]
