"""Up to which value of one parameter a region is accepted."""

from __future__ import annotations

from dataclasses import dataclass, field, replace
from fractions import Fraction
from typing import Any, Callable, Optional, Tuple

from .faults import SHORT, Fault
from .points import Points
from .regions import Region
from .report import REJECT, Report
from .search import Desk
from .session import MOST_DEPTH, Question, Session

LEVELS, MOST_NODES = 4, 10000
"""By how much the look beyond the edge goes deeper while nothing is rejected there, and up to what size of tree."""


@dataclass(frozen=True)
class Edge:
    """Where acceptance ends, as seen from one end of a parameter's interval, which may be the lower or the upper one.

    `good` is the value up to which all is accepted, shown by the report `inside` (none where nothing is), and `limit`
    the nearest value at which a part is rejected, shown by `outside` (none where nothing is). In a notebook it shows a
    table.
    """

    parameter: str
    is_greatest: bool
    good: Fraction
    """From the near end to here all is accepted; the near end itself where nothing is."""
    bad: Fraction
    """From the near end to here not all was accepted; the far end where all is."""
    inside: Optional[Report]
    """Accepts all from the near end to `good`."""
    outside: Optional[Report]
    """Over what lies beyond `bad`, or up to it where it is the far end."""

    holder: Any = field(default=None, repr=False, compare=False)
    """Keeps a folder that nobody named, as long as this is there."""

    def _repr_html_(self) -> str:
        from .shown import edge_html

        return edge_html(self)

    @property
    def limit(self) -> Optional[Fraction]:
        """The nearest value at which `outside` shows that a part is rejected: acceptance goes no further than that."""
        if self.outside is None:
            return None
        at = self.outside.origin.fixed.get(self.parameter)
        if at is not None:
            return at if self.outside.verdict == 'rejected' else None
        place = 0 if self.is_greatest else 1
        ends = [leaf.rectangle[self.parameter][place] for leaf in self.outside.leaves() if leaf.kind == REJECT]
        return (min if self.is_greatest else max)(ends) if ends else None


class EdgeSearch:
    """Looks for the edge: where a point breaks the bound is soon found; so much of the region that isn't beyond that is
    then asked whether all of it is accepted."""

    def __init__(self, session: Session, question: Question, parameter: str, is_greatest: bool) -> None:
        self.session, self.question = session, question
        self.parameter, self.is_greatest = parameter, is_greatest
        low, high = question.region[parameter]
        self.near, self.far = (low, high) if is_greatest else (high, low)
        self._sign = 1 if is_greatest else -1
        self._desk = Desk(session, question, lambda name, side: None)
        self._is_cost = question.form.reward is not None
        """No cost is shown from below: nothing is rejected, at no point and at no depth."""

    def run(self, width: Fraction, tell: Callable[[Fraction, Fraction], None]) -> Edge:
        """The edge to a width."""
        tell(self.near, self.far)
        kept, broken, point = self._guess(width, tell)
        if kept == self.far:
            whole = self.session.ask(self.question)
            if whole.verdict == 'accepted':
                return Edge(self.parameter, self.is_greatest, self.far, self.far, whole, None)
            broken = self.far
        good, bad, inside = self._accepted(kept, broken, width, tell)
        outside = None if point is None or self._is_cost else self._rejected(point, broken, width)
        edge = Edge(self.parameter, self.is_greatest, good, bad, inside, outside)
        return edge if edge.limit is not None else self._look_beyond(edge, tell)

    def _guess(
        self, width: Fraction, tell: Callable[[Fraction, Fraction], None]
    ) -> Tuple[Fraction, Fraction, Optional[Region]]:
        """Up to which value, to the width, the other parameters' worst point seems to keep to the bound, from which on
        it seems to break it, and that point without the parameter; none where it seems to keep to it up to the far
        end."""
        first = self.session.ask(replace(self._desk.question, bound=Fraction(self.question.form.unit)))
        others = [name for name in self.question.region.names if name in first.live and name != self.parameter]
        points = Points(self._at(self.question.region, self.far), others, self._desk.high)
        worst = points.best(not self.question.form.is_of_least, points.middle_of(self.question.region))
        fixed = dict(zip(others, worst))
        intervals = tuple(one for one in self.question.region.intervals if one[0] not in fixed)
        point = Region(intervals, tuple(sorted([*self.question.region.fixed, *fixed.items()])))
        if self._keeps(point, self.far):
            return self.far, self.far, None
        kept, broken = self.near, self.far
        if not self._keeps(point, self.near):
            return self.near, self.near, point
        while abs(broken - kept) > width:
            tell(kept, broken)
            middle = (kept + broken) / 2
            if self._keeps(point, middle):
                kept = middle
            else:
                broken = middle
        return kept, broken, point

    def _at(self, region: Region, value: Fraction) -> Region:
        """A region in which the parameter has one value."""
        intervals = tuple(one for one in region.intervals if one[0] != self.parameter)
        return Region(intervals, tuple(sorted([*region.fixed, (self.parameter, value)])))

    def _keeps(self, point: Region, value: Fraction) -> bool:
        """Whether a point seems to keep to the bound."""
        try:
            number, bound = self._desk.high(self._at(point, value)).value, self.question.bound
        except Fault as fault:  # a cost above the cap
            if fault.status != SHORT:
                raise
            return False
        op = self.question.form.op
        return {'<=': number <= bound, '<': number < bound, '>=': number >= bound, '>': number > bound}[op]

    def _between(self, one: Fraction, other: Fraction, depth: Optional[int] = None) -> Question:
        part = self.question.region.replaced(self.parameter, min(one, other), max(one, other))
        return replace(self.question, region=part, depth=self.question.depth if depth is None else depth)

    def _accepted(
        self, kept: Fraction, broken: Fraction, width: Fraction, tell: Callable[[Fraction, Fraction], None]
    ) -> Tuple[Fraction, Fraction, Optional[Report]]:
        """Up to which value all is accepted, and from which on not all is known to be. What seems to keep to the bound
        is tried first; then less and less of it, and then the place between."""
        good, bad, inside = self.near, broken, None
        trial, back = kept, width
        while abs(bad - good) > width or trial == kept != good:
            tell(good, bad)
            if trial == self.near:
                break
            report = self.session.ask(self._between(self.near, trial))
            if report.verdict == 'accepted':
                good, inside, back = trial, report, Fraction(0)
            else:
                bad = trial
                self.session.evidence.forget(report.path)
            if back:
                trial = bad - self._sign * back
                back *= 2
            if not back or self._sign * (trial - good) <= 0:
                trial, back = (good + bad) / 2, Fraction(0)
        return good, bad, inside

    def _rejected(self, point: Region, value: Fraction, width: Fraction) -> Optional[Report]:
        """A report of a point that breaks the bound, at that value or soon beyond it."""
        away = width
        while True:
            report = self.session.ask(replace(self.question, region=self._at(point, value), depth=0))
            if report.verdict == 'rejected':
                return report
            self.session.evidence.forget(report.path)
            if value == self.far:
                return None
            value = (min if self.is_greatest else max)(value + self._sign * away, self.far)
            away *= 4

    def _look_beyond(self, edge: Edge, tell: Callable[[Fraction, Fraction], None]) -> Edge:
        """Asks of what lies just beyond, deeper and deeper, until a part of it is rejected."""
        good, bad, far = edge.good, edge.bad, self.far
        if good == bad:
            return edge
        begin = good if bad == far else bad
        beyond = far if bad == far else (min if self.is_greatest else max)(bad + (bad - good), far)
        edge = replace(edge, outside=self.session.ask(self._between(begin, beyond)))
        for depth in range(self.question.depth + LEVELS, MOST_DEPTH + 1, LEVELS):
            if edge.limit is not None or edge.outside is None or len(edge.outside.nodes) > MOST_NODES or self._is_cost:
                break
            tell(good, bad)
            edge = replace(edge, outside=self.session.deepen(self._between(begin, beyond, depth), edge.outside))
        if edge.limit is None and beyond != far:
            return replace(edge, outside=self.session.ask(self._between(bad, far)))
        return edge


def find_edge(
    session: Session,
    question: Question,
    parameter: str,
    width: Fraction,
    is_greatest: bool,
    tell: Callable[[Fraction, Fraction], None],
) -> Edge:
    """Where acceptance ends, to a width."""
    return EdgeSearch(session, question, parameter, is_greatest).run(width, tell)
