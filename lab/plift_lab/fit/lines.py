"""The lines of a text, however it came."""

from __future__ import annotations

import io
import zlib
from typing import Iterator, Optional, Tuple

from ..program import MOST_BYTES
from .refusal import Unfit
from .told import Told

Line = Tuple[int, bytes]
MOST_LINE = 2**20


def unpacked(data: bytes, told: Told) -> bytes:
    """The text itself, where it is compressed or has a mark in front."""
    if data.startswith(b'\x1f\x8b'):
        told.change('the file is unpacked', 'packing changes no byte of a text')
        unpacking = zlib.decompressobj(31)
        try:
            data = unpacking.decompress(data, MOST_BYTES + 1)
        except zlib.error:
            raise Unfit(0, 'NotText', 'the file is compressed by gzip, and damaged') from None
        if len(data) <= MOST_BYTES and (not unpacking.eof or unpacking.unused_data):
            raise Unfit(0, 'NotText', 'the file is compressed by gzip, and cut off or continued by something else')
    if len(data) > MOST_BYTES:
        raise Unfit(0, 'Long', 'the text has more than %d bytes' % MOST_BYTES)
    if data.startswith(b'\xef\xbb\xbf'):
        told.change('the mark of UTF-8 in front is left out', 'it is no part of the text')
        data = data[3:]
    return data


class Lines:
    """Lines with their numbers, without blanks at both ends; comments are left out."""

    def __init__(self, data: bytes) -> None:
        self.last = 0
        """The number of the last line that was read."""
        self._rest = self._all(data)
        self._ahead: Optional[Line] = None

    def _all(self, data: bytes) -> Iterator[Line]:
        for number, line in enumerate(io.BytesIO(data), 1):
            self.last = number
            line = line.strip()
            if line[:2] == b'//':
                continue
            if len(line) > MOST_LINE:
                raise Unfit(number, 'LongLine', 'a line has more than %d bytes' % MOST_LINE)
            yield number, line

    def __iter__(self) -> Iterator[Line]:
        """The lines that weren't taken yet, also by who takes some of them meanwhile."""
        while True:
            if self._ahead is not None:
                line, self._ahead = self._ahead, None
                yield line
            for line in self._rest:
                yield line
                if self._ahead is not None:
                    break
            if self._ahead is None:
                return

    def _next(self) -> Optional[Line]:
        if self._ahead is None:
            return next(self._rest, None)
        line, self._ahead = self._ahead, None
        return line

    def take(self) -> Optional[Line]:
        """The next line, unless it begins a section."""
        line = self._next()
        if line is not None and line[1].startswith(b'@'):
            self._ahead, line = line, None
        return line
