"""Values at single points of a region: a point's parameters are written into the model, so its number is known but for
rounding. Where the greatest and the least lie is guessed from few of them; a guess is believed by nobody."""

from __future__ import annotations

from fractions import Fraction
from typing import Callable, Dict, List, Tuple

from .brackets import End
from .regions import Region

Point = Tuple[Fraction, ...]


class Points:
    """Points of a region, by their values on the axes that count."""

    def __init__(self, region: Region, axes: List[str], ask: Callable[[Region], End]) -> None:
        self.region, self.axes, self._ask = region, axes, ask
        self.known: Dict[Point, End] = {}
        """Of each point that was asked of, a number that isn't exceeded there, and is as good as reached."""

    def at(self, point: Point) -> Region:
        """The region that is this point; axes that don't count are as they were."""
        fixed = tuple(zip(self.axes, point))
        intervals = tuple(one for one in self.region.intervals if one[0] not in self.axes)
        return Region(intervals, tuple(sorted(self.region.fixed + fixed)))

    def value(self, point: Point) -> Fraction:
        """About what is reached there."""
        if point not in self.known:
            self.known[point] = self._ask(self.at(point))
        return self.known[point].value

    def middle_of(self, region: Region) -> Point:
        """The point in the middle."""
        return tuple(sum(region[name], Fraction(0)) / 2 for name in self.axes)

    def best(self, is_most: bool, start: Point) -> Point:
        """A point with much (or little): from a start the better end of each axis, and then the better ends
        together."""
        sign, chosen = 1 if is_most else -1, list(start)
        for place, name in enumerate(self.axes):
            ends = [start[:place] + (end,) + start[place + 1 :] for end in (start[place], *self.region[name])]
            chosen[place] = max(ends, key=lambda one: sign * self.value(one))[place]
        self.value(tuple(chosen))
        return max(self.known, key=lambda one: sign * self.known[one].value)
