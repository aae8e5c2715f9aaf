"""The folder of the reports that stand behind an answer.

Each report `N.report` has a file `N.report.json` beside it that tells how it came to be: the words, the model's file,
what its own numbers mean in the user's, and the report's hash. A job whose report is there already isn't run again.
"""

from __future__ import annotations

import contextlib
import errno
import hashlib
import json
import os
import shutil
import stat
import sys
import tempfile
import weakref
from functools import lru_cache
from pathlib import Path
from typing import BinaryIO, Dict, Optional, TextIO

try:
    import fcntl
except ImportError:  # a system without file locks
    fcntl = None  # type: ignore[assignment]

from .faults import Fault
from .origin import Origin
from .outputs import is_regular, unwritten, write_file
from .program import MOST_BYTES

MARK = 'plift-lab.json'


def read_file(name: str, most: int = MOST_BYTES) -> bytes:
    """A file's bytes, or standard input's for `-`; one byte more than plift takes at most."""
    try:
        if name == '-':
            if sys.stdin is None:
                raise Fault('standard input can\'t be read: it is closed')
            return _read(sys.stdin.buffer, most + 1)
        with open(name, 'rb') as source:
            return _read(source, most + 1)
    except (OSError, ValueError) as fault:
        cause = getattr(fault, 'strerror', None) or fault
        raise Fault('%s can\'t be read: %s' % (name or 'a file without a name', cause)) from None


@lru_cache(maxsize=4)
def _model_name(text: bytes) -> str:
    """The name of the file of a model, which is asked of again and again."""
    return 'model-%s.drn' % digest(text)[:10]


def digest(data: bytes) -> str:
    """A hash that names these bytes."""
    return hashlib.sha256(data).hexdigest()


def read_origin(path: Path, report: bytes) -> Optional[Origin]:
    """What the file beside a report tells of it: nothing where there is none, or it is of another report."""
    beside = _told_beside(path)
    if beside is None:
        return None
    try:
        told = json.loads(beside.read_text('utf-8'))
        return Origin.read(told) if told.get('sha256') == digest(report) else None
    except (Fault, OSError, ValueError, KeyError, TypeError, AttributeError, RecursionError) as fault:
        raise Fault(
            '%s isn\'t in the form that plift-lab writes (%s); move it away to read the report by itself'
            % (beside, fault)
        ) from None


def _told_beside(path: Path) -> Optional[Path]:
    """The file that tells of a report: beside its name, or beside what the name is a link to."""
    places = (path.with_name(path.name + '.json'), Path(os.path.realpath(path) + '.json'))
    return next((place for place in places if place.is_file()), None)


def _read(source: BinaryIO, most: int) -> bytes:
    """At most so many bytes, for which no room is taken before they come."""
    pieces = []
    while most > 0:
        piece = source.read(min(most, 2**20))
        if not piece:
            break
        pieces.append(piece)
        most -= len(piece)
    return b''.join(pieces)


class Evidence:
    """A folder that the user named, or one that is gone at the end."""

    def __init__(self, named: Optional[str] = None) -> None:
        if named == '':
            raise Fault('--keep takes a folder, and this one has no name')
        self.is_kept = named is not None
        self.holder = None if named is not None else Holder()
        """What removes a folder that nobody named, once nothing holds it any more."""
        self.folder = Path(named if named is not None else self.holder.name if self.holder else '')
        self._jobs: Dict[str, str] = {}
        self._count = 0
        self._mark: Optional[TextIO] = None
        if self.is_kept:
            self._open()

    def _open(self) -> None:
        try:
            self.folder.mkdir(parents=True, exist_ok=True)
            names = sorted(entry.name for entry in self.folder.iterdir())
            if names and MARK not in names:
                raise Fault('the folder %s holds other files: name one that is empty or new' % self.folder)
            self._lock()
        except OSError as fault:
            cause = 'its %s is a link' % MARK if fault.errno == errno.ELOOP else fault.strerror or fault
            status = unwritten(self.folder, fault).status
            raise Fault('the folder %s can\'t be used: %s' % (self.folder, cause), status) from None
        for name in names:
            number = name[: -len('.report')]
            if name.endswith('.report') and number.isdigit():
                self._count = max(self._count, int(number))
                try:
                    self._jobs[json.loads((self.folder / (name + '.json')).read_text('utf-8'))['job']] = name
                except (OSError, ValueError, KeyError, TypeError):
                    continue

    def _lock(self) -> None:
        """Marks the folder as one of plift-lab, and keeps others out as long as this process lives."""
        flags = os.O_RDWR | os.O_CREAT | os.O_NOFOLLOW | os.O_NONBLOCK | os.O_CLOEXEC
        self._mark = os.fdopen(os.open(self.folder / MARK, flags, 0o666), 'w', encoding='utf-8')
        found = os.fstat(self._mark.fileno())
        if not stat.S_ISREG(found.st_mode):
            raise OSError(errno.EINVAL, 'its %s is no file' % MARK)
        if not found.st_size:
            self._mark.write('{"what": "reports behind answers of plift-lab"}\n')
            self._mark.flush()
        if fcntl:
            try:
                fcntl.flock(self._mark, fcntl.LOCK_EX | fcntl.LOCK_NB)
            except BlockingIOError:
                self._mark.close()
                raise Fault('the folder %s is in use by another plift-lab' % self.folder) from None

    def model_file(self, text: bytes) -> Path:
        """A file with a model's text."""
        path = self.folder / _model_name(text)
        if not is_regular(path) or path.read_bytes() != text:
            write_file(path, text)
        return path

    def find(self, job: str) -> Optional[Path]:
        """The report of a job that was done before."""
        name = self._jobs.get(job)
        return self.folder / name if name and is_regular(self.folder / name) else None

    def next_report(self) -> Path:
        """Where the next report belongs."""
        self._count += 1
        return self.folder / ('%d.report' % self._count)

    def note(self, path: Path, job: str, report: bytes, origin: Origin) -> None:
        """Tells of a report how it came to be."""
        told = dict(origin.told, job=job, sha256=digest(report))
        lines = ',\n'.join('%s: %s' % (json.dumps(name), json.dumps(value)) for name, value in told.items())
        write_file(path.with_name(path.name + '.json'), ('{\n%s\n}\n' % lines).encode())
        self._jobs[job] = path.name

    def forget(self, path: str) -> None:
        """Removes a report that is needed no longer, unless the folder is kept."""
        if not self.is_kept:
            for name in (path, path + '.json'):
                if os.path.exists(name):
                    os.unlink(name)
            self._jobs = {job: name for job, name in self._jobs.items() if name != Path(path).name}

    def holds(self, path: str) -> bool:
        """Whether a report is gone with this folder at the end."""
        return not self.is_kept and Path(path).parent == self.folder

    def close(self, is_lasting: bool = False) -> None:
        """Removes a folder that nobody asked to keep, but where it is to last as long as its holder, and lets go of one
        that is kept."""
        if self._mark:
            with contextlib.suppress(OSError):
                self._mark.close()
        if self.holder is not None and not is_lasting:
            self.holder.cleanup()


class Holder:
    """A folder of our own among the system's temporary files, which is there as long as this is held."""

    def __init__(self) -> None:
        try:
            self.name = tempfile.mkdtemp(prefix='plift-lab.')
        except OSError as error:
            raise unwritten(error.filename or tempfile.gettempdir(), error) from None
        self.cleanup = weakref.finalize(self, shutil.rmtree, self.name, ignore_errors=True)
