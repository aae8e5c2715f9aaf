"""Parts of a report that are asked again at a greater depth, and the report that their answers are joined to.

Below a rectangle the tree of a report is the one that the rectangle has when it is asked by itself, to the depth that
is left: what is asked of a certificate knows neither the root nor the grid. So the joined report has the bytes of a
single answer at that depth, whichever parts were asked. It is judged as any other.
"""

from __future__ import annotations

from dataclasses import dataclass
from typing import BinaryIO, Iterable, Iterator, List, Tuple

from .faults import Fault
from .head import Head
from .report import UNKNOWN, Report


class Unfit(Fault):
    """What is wrong with the answer of a part, said of it."""


@dataclass(frozen=True)
class Part:
    """A rectangle of a report with all of its tree: where the tree begins in the report's text and where it ends, below
    how many splits it stands, and the rectangle's ends over the report's grid."""

    start: int
    stop: int
    depth: int
    ends: Tuple[int, ...]


def unknown_parts(report: Report) -> List[Part]:
    """The unknown leaves, none where no row depends on a parameter."""
    return _chosen(report, [node == UNKNOWN for node in report.nodes]) if report.live else []


def cheapest_parts(report: Report, start: float, rectangle: float) -> List[Part]:
    """The parts that hold all unknown leaves and take the least time, when a question takes so long to start and so
    long for each rectangle. Where starting is dear, neighbours are asked together, and what is decided between them is
    asked with them."""
    chosen = [False] * len(report.nodes)
    below: List[Tuple[int, float]] = []  # of trees behind the node: how many nodes they have, and what they cost
    for place in reversed(range(len(report.nodes))):
        node = report.nodes[place]
        halves = [below.pop(), below.pop()] if isinstance(node, int) else []
        size, apart = 1 + sum(one for one, _ in halves), sum(cost for _, cost in halves)
        whole = start + rectangle * size
        chosen[place] = node == UNKNOWN or 0 < whole < apart
        below.append((size, whole if chosen[place] else apart))
    return _chosen(report, chosen) if report.live else []


def _chosen(report: Report, is_chosen: List[bool]) -> List[Part]:
    """The nodes that are chosen, but none below another one."""
    found: List[Part] = []
    starts = [*report.starts, len(report.data)]
    nodes = list(report.walk())
    place = 0
    while place < len(nodes):
        past = place + 1
        if is_chosen[place]:
            depth, ends = nodes[place]
            while past < len(nodes) and nodes[past][0] > depth:
                past += 1
            found.append(Part(starts[place], starts[past], depth, ends))
        place = past
    return found


def joined(base: Report, depth: int, parts: Iterable[Part], trees: Iterable[Iterable[bytes]]) -> Iterator[bytes]:
    """The report of the whole region at a greater depth: the base's with other trees in the places of its parts."""
    yield Head.of(base).at(depth).text
    place = base.tree_begin
    for part, tree in zip(parts, trees):
        yield base.data[place : part.start]
        yield from tree
        place = part.stop
    yield base.data[place:]


def cut(report: Report, depth: int) -> Iterator[bytes]:
    """The same question's report at a smaller depth: what is halved below so many splits is unknown there."""
    yield Head.of(report).at(depth).text
    ends = [*report.starts[1:], len(report.data)]
    for start, end, node, (below, _) in zip(report.starts, ends, report.nodes, report.walk()):
        if below <= depth:
            is_open = below == depth and isinstance(node, int)
            yield b'unknown\n' if is_open else report.data[start:end]


def tree_lines(report: BinaryIO, head: bytes, base: Report) -> Iterator[bytes]:
    """The lines of the tree of a report, of the form of another one, that has the head that is due, and is whole."""
    begin = report.read(len(head))
    if not head.startswith(begin):
        raise Unfit('isn\'t of this job')
    due = 1
    for line in report:
        if due == 0:
            raise Unfit('has something behind its last node')
        rest = [report.readline() for _ in range(base.lines_below(line))]
        if not line.startswith(b'at '):
            due += 1 if line.startswith(b'split ') else -1
        if not all(each.endswith(b'\n') for each in [line, *rest]):
            break
        yield line
        yield from rest
    else:
        if due == 0:
            return
    raise Unfit('is cut off')
