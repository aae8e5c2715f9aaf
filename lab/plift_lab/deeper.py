"""Goes on from a report: the same question at a greater depth, of which only what is unknown so far is asked again."""

from __future__ import annotations

from pathlib import Path
from typing import Iterable, Iterator, List, Optional, Protocol

from .faults import LOST, Fault
from .head import Head
from .outputs import fresh, writing
from .pace import Pace
from .parts import Part, Unfit, cheapest_parts, joined, tree_lines
from .regions import Region
from .report import Report


COLD = 8
"""How many rectangles' time a part loses in which the program begins without what was found next to it; measured on
models whose rectangles are dear, where it was two to five."""


class Asker(Protocol):
    """Writes the program's report of a region and a depth to a file, maybe with a bound that everything keeps to, and
    returns how many seconds that took."""

    def __call__(self, region: Region, depth: int, report: Path, is_open: bool = False) -> float:
        ...


class Deepening:
    """One report that is taken to a greater depth."""

    def __init__(self, base: Report, depth: int, pace: Pace, ask: Asker) -> None:
        self.base, self.depth, self.pace, self._ask = base, depth, pace, ask
        self._region = self._region_of(base.box)
        self._is_admitted = False

    def write(self, report: Path) -> Optional[float]:
        """Writes the report. Where all was asked at once it returns how many seconds that took."""
        parts = self._parts(report)
        if [part.depth for part in parts] == [0]:
            return self._ask(self._region, self.depth, report)
        self._require_room(report)
        try:
            with writing(report), fresh(report) as out:
                out.writelines(joined(self.base, self.depth, parts, self._trees(parts, report)))
        except Unfit as fault:
            raise Fault('what plift wrote of a part of the region %s' % fault, LOST) from None
        return None

    def _parts(self, report: Path) -> List[Part]:
        """What is asked again."""
        if len(self.base.nodes) > 1 and self.pace.costs is None:
            self._require_room(report)
        start, rectangle = self.pace.costs or (1.0, 1.0)
        return cheapest_parts(self.base, start + COLD * rectangle, rectangle)

    def _require_room(self, report: Path) -> None:
        """Asks for the whole with a bound that the first rectangle keeps to: where the rows have no room at this depth
        that is refused before any part is asked. Costs may be above each cap, which no rectangle would keep to."""
        if not self._is_admitted and self.base.form.reward is None:
            self.pace.note(1, 1, self._ask(self._region, self.depth, report, is_open=True))
            self._is_admitted = True

    def _trees(self, parts: List[Part], report: Path) -> Iterator[Iterator[bytes]]:
        """The trees of the parts, each asked when it is its turn."""
        head, answer = Head.of(self.base), report.with_name('part-of-' + report.name)
        try:
            for part in parts:
                levels = self.depth - part.depth
                self._ask(self._region_of(part.ends), levels, answer)
                with open(answer, 'rb') as lines:
                    yield tree_lines(lines, head.of_part(part.ends, levels).text, self.base)
        finally:
            if answer.exists():
                answer.unlink()

    def _region_of(self, ends: Iterable[int]) -> Region:
        """A rectangle of the report as a region of the report's own model."""
        rectangle = self.base.own_rectangle(tuple(ends))
        return Region(tuple((name, low, high) for name, (low, high) in rectangle.items()))
