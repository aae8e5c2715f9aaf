"""Puts the trees of the tiles in the places of the unknown leaves."""

from __future__ import annotations

from typing import BinaryIO, Iterable, Iterator, List, Tuple

from plift_lab.faults import Fault
from plift_lab.head import Head
from plift_lab.parts import Unfit, joined, tree_lines, unknown_parts
from plift_lab.program import MOST_CHECKED_BYTES
from plift_lab.report import Report

from .faults import UNFIT
from .job import Job

UNKNOWN_LINE = b'unknown\n'


class Joining:
    """A job whose tiles are joined: all of them, or in part, where a tile that is left stays unknown."""

    def __init__(self, job: Job, partial: bool) -> None:
        self.job = job
        self.left = set(job.left)
        if self.left and not partial:
            raise Fault(
                '%d of %d tiles have no report, the first is tile %d; --partial leaves them unknown'
                % (len(self.left), len(job.regions), min(self.left)),
                UNFIT,
            )
        self.base = Report(job.base.read_bytes(), '')
        self.parts = unknown_parts(self.base)
        if len(self.parts) != len(job.regions):
            raise Fault(
                '%s has %d unknown leaves, and there are %d tiles' % (job.base, len(self.parts), len(job.regions)),
                UNFIT,
            )
        head = Head.of(self.base)
        if head.depth + job.levels != job.depth:
            raise Fault('%s has depth %d, which job.txt doesn\'t tell' % (job.base, head.depth), UNFIT)
        self.heads = dict(zip(job.numbers, (head.of_part(part.ends, job.levels) for part in self.parts)))
        self.open_tree = _open_tree(self.base, self.parts[0].ends, job.levels) if self.left else []

    def require_whole(self) -> int:
        """Refuses a tile of another job or one that is cut off, and returns how long the joined report is."""
        return sum(map(len, self._lines()))

    def write(self, out: BinaryIO) -> None:
        """Writes the joined report."""
        out.writelines(self._lines())

    def _lines(self) -> Iterator[bytes]:
        """The text of the joined report."""
        return joined(self.base, self.job.depth, self.parts, map(self._tile, self.job.numbers))

    def _tile(self, number: int) -> Iterable[bytes]:
        """The lines of a tile's tree."""
        if number in self.left:
            return self.open_tree
        return self._read_tile(number)

    def _read_tile(self, number: int) -> Iterator[bytes]:
        """The lines of a tree in a file, behind the head that is due."""
        path = self.job.report(number)
        with open(path, 'rb') as file:
            try:
                yield from tree_lines(file, self.heads[number].text, self.base)
            except Unfit as fault:
                raise Fault(
                    'tile %d %s: remove %s, and `plift-tiles work` makes it again' % (number, fault, path), UNFIT
                ) from None


def join(job: Job, partial: bool, out: BinaryIO) -> List[str]:
    """Writes the report of the whole region, once each tile was found to be one of this job, and whole. Returns what is
    to be told of it."""
    joining = Joining(job, partial)
    length = joining.require_whole()
    joining.write(out)
    out.flush()
    told = []
    if joining.left:
        told.append('%d of %d tiles are left, and stay unknown' % (len(joining.left), len(job.regions)))
    if length > MOST_CHECKED_BYTES:
        told.append(
            'the report has %d bytes, more than the %d that `plift check` reads; it has judged each tile: keep %s'
            % (length, MOST_CHECKED_BYTES, job.place)
        )
    return told


def _open_tree(report: Report, ends: Tuple[int, ...], levels: int) -> List[bytes]:
    """The lines of the tree of a rectangle of which nothing is known, halved as often as is left. Each rectangle at one
    depth is as long as each other one on each axis, so it is the same for all tiles."""
    lines = [UNKNOWN_LINE]
    for axis in reversed(list(_axes(report, ends, levels))):
        lines = [b'split %d\n' % axis, *lines, *lines]
    return lines


def _axes(report: Report, ends: Iterable[int], levels: int) -> Iterator[int]:
    """The axes on which a rectangle and its halves are halved: the longest one that a row depends on, the first of
    equally long ones."""
    low, high = list(ends)[::2], list(ends)[1::2]
    lengths = [(end - begin) << levels for begin, end in zip(low, high)]
    live = [report.parameters.index(name) for name in report.live]
    for _ in range(levels):
        axis = max(live, key=lambda each: lengths[each])
        lengths[axis] //= 2
        yield axis
