"""Heads of reports: those of the same job at another depth, and on a part of its region."""

from __future__ import annotations

from dataclasses import dataclass, replace
from functools import reduce
from math import gcd
from typing import Tuple

from .report import Report


@dataclass(frozen=True)
class Head:
    """The lines of a report above its tree."""

    model: bytes
    asked: bytes
    """What is asked of it, down to the precision."""
    depth: int
    grid: int
    box: Tuple[int, ...]

    @classmethod
    def of(cls, report: Report) -> 'Head':
        """That of a report."""
        return cls(report.model_lines, report.asked_lines, report.depth, report.grid, report.box)

    def at(self, depth: int) -> 'Head':
        """That of the same job at another depth: the grid is the finer the deeper it is."""
        grid, *box = (end * 2**depth // 2**self.depth for end in (self.grid, *self.box))
        return replace(self, depth=depth, grid=grid, box=tuple(box))

    def of_part(self, ends: Tuple[int, ...], depth: int) -> 'Head':
        """That of a job on a part of the region, whose ends are over this grid. Its own grid is made from them
        alone."""
        common = reduce(gcd, ends, self.grid)
        part = replace(self, depth=0, grid=self.grid // common, box=tuple(end // common for end in ends))
        return part.at(depth)

    @property
    def text(self) -> bytes:
        """As it is written."""
        lines = 'depth %d' % self.depth, 'grid %d' % self.grid, ' '.join(['box', *map(str, self.box)])
        return self.model + self.asked + ''.join('%s\n' % line for line in lines).encode()
