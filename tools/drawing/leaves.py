"""The leaves of a text, once recheck.py has found it sound."""

from __future__ import annotations

from dataclasses import dataclass
from fractions import Fraction
from typing import List, Optional, Sequence, Tuple

import recheck

from .beside import NOTHING, Beside

ACCEPT, REJECT, HOLDS, FAILS, UNKNOWN = "accept", "reject", "holds", "fails", "unknown"

Span = Tuple[int, int]


@dataclass(frozen=True)
class Leaf:
    """A rectangle over the grid that wasn't halved further, how many splits lie above it, and what is said of it."""

    kind: str
    spans: Sequence[Span]
    depth: int

    @property
    def share(self) -> Fraction:
        """Of the whole region's volume."""
        return Fraction(1, 2**self.depth)


@dataclass(frozen=True)
class Map:
    """What a text asked, and the leaves of its tree in their order."""

    is_chain: bool
    states: int
    names: List[str]
    live: List[int]
    grid: int
    root: Sequence[Span]
    op: str
    bound: Tuple[int, int]
    cap: Optional[int]
    """The cost that stands for 1, where the bound is a budget for costs."""
    steps: Optional[int]
    least: int
    precision: int
    depth: int
    kinds: Sequence[str]
    """Those of leaves that say yes, of those that say no, if there may be any, and of those that tell nothing."""
    leaves: List[Leaf]
    beside: Beside = NOTHING
    """What is known of it besides."""

    def user(self, parameter: int, value: Fraction) -> Fraction:
        """A parameter's value in the user's own numbers."""
        return self.beside.user(self.names[parameter], value)

    def interval(self, parameter: int, span: Span) -> Tuple[Fraction, Fraction]:
        """The same of a span over the grid."""
        return self.user(parameter, Fraction(span[0], self.grid)), self.user(parameter, Fraction(span[1], self.grid))

    def of_kind(self, kind: str) -> List[Leaf]:
        """The leaves of a kind."""
        return [leaf for leaf in self.leaves if leaf.kind == kind]

    def share(self, kind: str) -> Fraction:
        """Of the region's volume, of a kind."""
        return sum((leaf.share for leaf in self.of_kind(kind)), Fraction(0))


def read_map(text: recheck.Text, beside: Beside = NOTHING) -> Map:
    """Reads a text to its end. Raises `recheck.Fault` where it isn't sound; the text then tells the place."""
    report = recheck.Report(text)
    report.test_rows()
    leaves = [Leaf(kind.decode(), spans, depth) for kind, spans, depth in recheck.leaves(report)]
    return Map(
        is_chain=report.kind == [b"dtmc"],
        states=report.size,
        names=[name.decode() for name in report.names],
        live=report.live,
        grid=report.grid,
        root=report.box,
        op=report.op.decode(),
        bound=report.bound,
        cap=report.cap if report.form == recheck.COST else None,
        steps=len(report.steps) if report.steps else None,
        least=report.least or report.most,
        precision=report.most,
        depth=report.depth,
        kinds=[*(kind.decode() for kind in report.tests()), UNKNOWN],
        leaves=leaves,
        beside=beside,
    )
