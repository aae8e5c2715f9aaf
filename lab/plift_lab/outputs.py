"""Files that are written: whole or not at all, and nothing in the place of what the user has."""

from __future__ import annotations

import contextlib
import errno
import itertools
import json
import os
import re
import stat
import sys
from pathlib import Path
from typing import BinaryIO, Iterator, List, Optional, Sequence, Union

from .faults import WRITING, WRONG, Fault

FULL = (errno.ENOSPC, errno.EDQUOT, errno.EFBIG, errno.EIO, errno.EPIPE)
"""What the system says where it takes no more bytes."""
DESCRIPTOR = re.compile('(?:/dev|/proc/self)/fd/([0-9]{1,6})')


def unwritten(name: Union[str, Path], error: OSError) -> Fault:
    """Why a file isn't written."""
    status = WRITING if error.errno in FULL else WRONG
    return Fault('%s can\'t be written: %s' % (name, error.strerror or error), status)


@contextlib.contextmanager
def writing(name: Union[str, Path]) -> Iterator[None]:
    """What goes wrong meanwhile is told of this file."""
    try:
        yield
    except OSError as error:
        raise unwritten(name, error) from None


def fresh(path: Path) -> BinaryIO:
    """A new file in a folder that plift-lab keeps, in the place of what a call before has left there. It is never one
    that something else leads to."""
    with contextlib.suppress(FileNotFoundError):
        os.unlink(path)
    return _created(path)


def _created(path: Path) -> BinaryIO:
    """A file that wasn't there."""
    flags = os.O_WRONLY | os.O_CREAT | os.O_EXCL | os.O_NOFOLLOW | os.O_CLOEXEC
    return os.fdopen(os.open(path, flags, 0o666), 'wb')


def is_regular(path: Path) -> bool:
    """Whether a file stands there itself, and no link to one."""
    try:
        return stat.S_ISREG(os.lstat(path).st_mode)
    except OSError:
        return False


def write_file(path: Path, data: bytes) -> None:
    """Writes a file of a folder that plift-lab keeps: what stands there before is replaced at once, or stays."""
    part = path.with_name(path.name + '.part')
    try:
        with writing(path), fresh(part) as out:
            out.write(data)
        with writing(path):
            os.replace(part, path)
    finally:  # what was interrupted isn't left
        with contextlib.suppress(OSError):
            part.unlink()


class Output:
    """A place that the user named. It is tested before any work is done for it.

    A regular file is replaced as a whole, and where the name is a link it is the link's target; it may be no input.
    What isn't a regular file is opened as it is, and `-` is standard output.
    """

    def __init__(self, name: str, inputs: Sequence[str] = (), word: str = '--report') -> None:
        if name == '':
            raise Fault('%s takes a file, and this one has no name' % word)
        self.name = name
        self.path: Optional[Path] = None
        """The file that is made or replaced; none where bytes are written through."""
        self._mode: Optional[int] = None
        self._descriptor: Optional[int] = None
        if '\0' in name:
            raise Fault('%r is no name of a file' % name)
        if name != '-':
            with writing(name):
                self._find(inputs)

    def _find(self, inputs: Sequence[str]) -> None:
        """Tests what is there."""
        try:
            found = os.stat(self.name)
        except FileNotFoundError:
            self.path = Path(os.path.realpath(self.name))
            os.stat(self.path.parent)
            return
        if stat.S_ISDIR(found.st_mode):
            raise IsADirectoryError(errno.EISDIR, os.strerror(errno.EISDIR))
        if not stat.S_ISREG(found.st_mode):
            return
        for one in inputs:
            if _is_same(one, found):
                raise Fault('%s is read by this command (%s), and isn\'t written over' % (self.name, one))
        self._descriptor = next((each for each in _open_descriptors(self.name) if _is_open_as(each, found)), None)
        if self._descriptor is None:
            self.path, self._mode = Path(os.path.realpath(self.name)), stat.S_IMODE(found.st_mode)
            if not os.access(self.path, os.W_OK):
                raise PermissionError(errno.EACCES, 'the file is protected')

    def write(self, data: bytes) -> None:
        """Writes it all."""
        with writing('standard output' if self.name == '-' else self.name):
            if self.path is not None:
                self._replace(self.path, data)
                return
            sys.stdout.flush()
            with self._through() as out:
                out.write(data)
                out.flush()

    @contextlib.contextmanager
    def _through(self) -> Iterator[BinaryIO]:
        """What isn't a regular file, opened as it is."""
        if self.name == '-':
            yield sys.stdout.buffer
            return
        with open(self.name, 'wb') if self._descriptor is None else os.fdopen(os.dup(self._descriptor), 'wb') as out:
            yield out

    def _replace(self, path: Path, data: bytes) -> None:
        """Writes beside the file, and then in its place."""
        names = ('%s.%d.%d.part' % (path.name[:200], os.getpid(), number) for number in itertools.count())
        part = next(path.with_name(name) for name in names if not os.path.lexists(path.with_name(name)))
        try:
            with _created(part) as out:
                out.write(data)
                if self._mode is not None:
                    os.fchmod(out.fileno(), self._mode)
            os.replace(part, path)
        finally:
            with contextlib.suppress(OSError):
                part.unlink()


def beside(report: Output, inputs: Sequence[str]) -> Optional[Output]:
    """Where the file belongs that tells how a report came to be; none beside what isn't a regular file."""
    if report.path is None:
        return None
    path = Path('%s.json' % report.path)
    if os.path.lexists(path) and not (is_regular(path) and _is_ours(path)):
        raise Fault(
            '%s is no file of plift-lab, and one that tells of the report belongs there: name another report' % path
        )
    return Output(str(path), inputs)


def _is_ours(path: Path) -> bool:
    """Whether a file is one that tells of a report."""
    try:
        with open(path, 'rb') as source:
            told = json.loads(source.read(2**20))
        return isinstance(told, dict) and {'goal', 'words', 'sha256'} <= set(told)
    except (OSError, ValueError, RecursionError):
        return False


def _is_same(name: str, found: os.stat_result) -> bool:
    """Whether an input is this file."""
    try:
        return os.path.samestat(os.fstat(0) if name == '-' else os.stat(name), found)
    except (OSError, ValueError):
        return False


def _open_descriptors(name: str) -> List[int]:
    """Those through which a file may be open already: then it is written through them, behind what they have
    written."""
    named = DESCRIPTOR.fullmatch(name)
    return [1, 2] + ([int(named.group(1))] if named else [])


def _is_open_as(descriptor: int, found: os.stat_result) -> bool:
    """Whether this descriptor is of this file."""
    try:
        return os.path.samestat(os.fstat(descriptor), found)
    except OSError:
        return False
