"""The supremum and the infimum of a number over a region, as closely as asked.

What is reached at a point shows that the supremum is no less. Whether it is hardly more is one question of the whole
region, with that number and the width as its bound, which is taken deeper until all of the region keeps to it: so a
single report stands behind it. Where a part of the region goes beyond, there is a better point.
"""

from __future__ import annotations

from dataclasses import dataclass, replace
from fractions import Fraction
from typing import Callable, Dict, List, Optional, Tuple

from .brackets import End, high, low
from .faults import Refused
from .points import Points
from .regions import Interval, Region
from .report import ACCEPT, REJECT, UNKNOWN, Report
from .session import MOST_DEPTH, Question, Session, Spent

MOST_NODES, MOST_BOUND, MOST_ASKED_AGAIN = 50_000, 2**32, 64
LEVELS = 2
ROUNDING, CALLS, DEPTH, FINE = 'rounding', 'calls', 'depth', 'fine'
"""Why a search stops short: what rounding leaves is more than the width; the questions are used up; the region can't be
halved further; no bound lies between."""
Halves = List[Tuple[Region, End]]


@dataclass(frozen=True)
class Side:
    """Where the supremum (or the infimum) lies: not below `least`, not above `most`."""

    name: str
    witness: Tuple[Region, End]
    """The point or the region that shows that it gets as far: `least` of a supremum, `most` of an infimum."""
    cover: Halves
    """Rectangles that tile the region and show that it gets no further."""
    is_shown: bool = True
    """Whether what the witness tells is shown to be reached; of costs it is a guess, since none is shown from below."""
    short: Optional[str] = None
    """Why it was stopped before it was as close as asked."""
    rounding: Fraction = Fraction(0)
    """What rounding leaves at the witness: nothing that is asked of it comes closer."""

    @property
    def critical(self) -> Tuple[Region, End]:
        """The rectangle of the cover that gets furthest."""
        return (max if self.name == 'sup' else min)(self.cover, key=lambda one: one[1].value)

    @property
    def _ends(self) -> Tuple[Fraction, Fraction]:
        return self.witness[1].value if self.is_shown else Fraction(0), self.critical[1].value

    @property
    def least(self) -> Fraction:
        """It is no less."""
        return min(self._ends)

    @property
    def most(self) -> Fraction:
        """It is no more."""
        return max(self._ends)

    @property
    def is_short(self) -> bool:
        """Whether it was stopped before it was as close as asked."""
        return self.short is not None


class Desk:
    """Asks numbers of one question, whose own bound says nothing."""

    def __init__(self, session: Session, question: Question, tell: Callable[[str, Side], None]) -> None:
        self.session, self.question, self.tell = session, replace(question, depth=0), tell

    def high(self, region: Region) -> End:
        """What isn't exceeded anywhere in a region."""
        return high(self._ask, region)

    def low(self, region: Region) -> End:
        """What is reached everywhere in a region. Nothing is shown of costs: what isn't exceeded is the guess."""
        return (low if self.question.form.reward is None else high)(self._ask, region)

    def _ask(self, region: Region, bound: Fraction) -> Report:
        return self.session.ask(replace(self.question, region=region, bound=bound * self.question.form.unit))

    def rounding(self, point: Region) -> Fraction:
        """What rounding leaves at a point; both reports are let go of."""
        ends = self.high(point), self.low(point)
        for end in ends:
            self.forget(end)
        return ends[0].value - ends[1].value

    def forget(self, end: End) -> None:
        """Lets go of a report that is needed no longer."""
        self.session.evidence.forget(end.path)


class Search:
    """One search for one side over one region."""

    def __init__(self, desk: Desk, points: Points, root: Side) -> None:
        self._desk, self._points, self._side = desk, points, root
        self._is_sup = root.name == 'sup'
        self._sign = 1 if self._is_sup else -1

    def run(self, width: Fraction) -> Side:
        """Goes on until the side is known to the width, or nothing more can be had."""
        try:
            if self._gap > width:
                self._try_points(self._points.middle_of(self._points.region))
            while self._gap > width:
                self._desk.tell(self._side.name, self._side)
                reason = self._narrow(width)
                if reason:
                    return replace(self._side, short=reason)
        except Spent:
            return replace(self._side, short=CALLS)
        return self._side

    def _try_points(self, start: Tuple[Fraction, ...]) -> None:
        """Takes a better witness, if points near that one have it."""
        best = self._points.best(self._is_sup, start)
        region, upper = self._points.at(best), self._points.known[best]
        lower = self._desk.low(region) if self._is_sup or upper.value else upper
        end = lower if self._is_sup else upper
        is_better = self._sign * end.value > self._sign * self._side.witness[1].value
        witness = (region, end) if is_better else self._side.witness
        self._side = replace(self._side, witness=witness, rounding=upper.value - lower.value)

    def _narrow(self, width: Fraction) -> Optional[str]:
        """Asks whether the region keeps to a bound beyond the witness; tells why that can't be had."""
        is_rounded = self._side.rounding * 2 > width
        away = max(width, 2 * self._side.rounding)
        reason = ROUNDING if is_rounded else None
        bound = self._bound(self._side.witness[1].value, away)
        if bound is None or self._gap <= away:
            return reason or FINE
        report = self._deepen(bound)
        kinds = report.shares
        if kinds[self._kinds[0]] == 1:
            self._take(report)
            return reason
        beyond = [leaf for leaf in report.leaves() if leaf.kind == self._kinds[1]]
        if beyond:
            before = self._side.witness
            leaf = max(beyond, key=lambda one: (self._sign * (one.value or 0), one.share))
            region = _region_of(leaf.rectangle, self._points.region)
            self._try_points(self._points.middle_of(region))
            if self._side.witness is before:
                self._side = replace(
                    self._side, witness=(region, End(leaf.value or Fraction(0), report.path, report.soundness))
                )
            return None
        if report.nodes.count(UNKNOWN) <= MOST_ASKED_AGAIN:
            self._take(report)
        return reason or DEPTH

    @property
    def _gap(self) -> Fraction:
        """What is open between the witness and what isn't exceeded."""
        return abs(self._side.critical[1].value - self._side.witness[1].value)

    @property
    def _kinds(self) -> Tuple[str, str]:
        """What a rectangle is that keeps to the bound, and one that is beyond it."""
        return (ACCEPT, REJECT) if self._is_sup != self._desk.question.form.is_of_least else (REJECT, ACCEPT)

    def _bound(self, value: Fraction, away: Fraction) -> Optional[Fraction]:
        """A bound beyond a value, by at most so much, whose denominator the program takes."""
        unit, far = self._desk.question.form.unit, value + self._sign * away
        if not 0 <= far <= unit:
            return min(max(far, Fraction(0)), Fraction(unit))
        near = far.limit_denominator(MOST_BOUND - 1)
        if abs(near - value) <= away and self._sign * near > self._sign * value:
            return near
        middle = (value + self._sign * away / 2).limit_denominator(MOST_BOUND - 1)
        return middle if 0 < self._sign * (middle - value) <= away else None

    def _deepen(self, bound: Fraction) -> Report:
        """The report for a bound, as deep as it takes until all keeps to it or something is beyond it."""
        desk = self._desk
        question = replace(desk.question, bound=bound, is_relative=self._points.region.is_uneven(self._points.axes))
        report = desk.session.ask(question)
        while report.shares[UNKNOWN] and not report.shares[self._kinds[1]] and report.live:
            if report.depth >= MOST_DEPTH or len(report.nodes) > MOST_NODES:
                break
            try:
                deeper = desk.session.deepen(replace(question, depth=min(report.depth + LEVELS, MOST_DEPTH)), report)
            except Refused as refusal:  # a report that is too long, or a grid that is too fine
                if refusal.plift_status not in (2, 4, 7):
                    raise
                break
            desk.session.evidence.forget(report.path)
            report = deeper
        return report

    def _take(self, report: Report) -> None:
        """Takes a report's rectangles for the cover, if that is better. Unknown ones are asked by themselves."""
        outer = self._desk.high if self._is_sup else self._desk.low
        cover = []
        for leaf in report.leaves():
            region = _region_of(leaf.rectangle, self._points.region)
            shown = End(leaf.value, report.path, report.soundness) if leaf.value is not None else outer(region)
            cover.append((region, shown))
        side = replace(self._side, cover=cover)
        if self._sign * side.critical[1].value <= self._sign * self._side.critical[1].value:
            self._side = side


def _region_of(rectangle: Dict[str, Interval], whole: Region) -> Region:
    """A leaf's rectangle as a region of the user's model."""
    return Region(tuple((name, rectangle[name][0], rectangle[name][1]) for name in whole.names), whole.fixed)
