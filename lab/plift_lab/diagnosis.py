"""Why leaves stay unknown: between which numbers they lie, and whether more bits or more depth would decide them."""

from __future__ import annotations

from dataclasses import dataclass
from fractions import Fraction
from typing import List, NamedTuple, Optional, Tuple

from .brackets import high, low
from .faults import SHORT, Fault, Refused
from .regions import Region
from .report import UNKNOWN, Leaf, Report
from .session import MOST_BITS, Session
from .values import near

BITS, DEPTH, CLOSER, ROUNDING, NEITHER = 'bits', 'depth', 'closer', 'rounding', 'neither'


class Bracket(NamedTuple):
    """At each valuation inside, the choices that the question is of reach from `least` to `most`."""

    least: Fraction
    most: Fraction

    @property
    def gap(self) -> Fraction:
        """What is open between the two."""
        return self.most - self.least

    def decides(self, report: Report) -> bool:
        """Whether a certificate for the report's bound is among those that showed the two numbers."""
        if report.form.op in ('<=', '>'):
            return not self.least <= report.bound < self.most
        return not self.least < report.bound <= self.most


@dataclass(frozen=True)
class Finding:
    """What was found of one unknown leaf."""

    leaf: Leaf
    coarse: Bracket
    """As the leaf's own precision tells."""
    sharp: Bracket
    """The same at the most bits."""
    help: str
    axis: Optional[str] = None
    """The parameter on which a halving helps most."""
    before: Optional[str] = None
    """A parameter whose side is more than twice as long, so that it is halved again and again before that one."""
    rounding: Fraction = Fraction(0)
    """What is left at a single point inside, which nothing but rounding leaves."""

    @property
    def advice(self) -> str:
        """What to do."""
        if self.help == BITS:
            return 'more precision decides it'
        if self.help == ROUNDING:
            return 'rounding is what is left: at a single point %s; neither more precision nor more depth helps' % (
                'the two numbers are %s apart' % near(self.rounding, 2)
            )
        if self.help == NEITHER:
            return 'neither more precision nor more depth is seen to help: ask for a bound outside the two numbers'
        does = 'decides a part of it' if self.help == DEPTH else 'brings the two numbers closer together'
        if self.before is None:
            return 'halving %s %s; more depth does that' % (self.axis, does)
        return 'halving %s %s, but the longest side is that of %s: --relative, and then more depth' % (
            self.axis,
            does,
            self.before,
        )


def examine(session: Session, report: Report, most: int) -> List[Finding]:
    """Looks at some unknown leaves, the greatest first."""
    unknown = sorted((leaf for leaf in report.leaves() if leaf.kind == UNKNOWN), key=lambda leaf: leaf.depth)
    found = [_examine(session, report, leaf) for leaf in unknown[:most]]
    return [one for one in found if one is not None]


def _examine(session: Session, report: Report, leaf: Leaf) -> Optional[Finding]:
    region = Region(tuple((name, a, b) for name, (a, b) in leaf.own_rectangle.items()))
    try:
        coarse = _bracket(session, report, region, report.precision)
    except Refused:  # its ends have no room as a region of their own
        return None
    try:
        sharp = _bracket(session, report, region, MOST_BITS)
    except Refused:  # so many bits have no room
        sharp = coarse
    if sharp.decides(report):
        return Finding(leaf, coarse, sharp, BITS)
    # Of axes that help alike the one that is halved next comes first.
    sides = {name: region[name][1] - region[name][0] for name in report.live}
    names = sorted(report.live, key=lambda name: -sides[name])
    helped = [(_helped_by(session, report, region.halves(name), sharp), name) for name in names]
    (help, _), axis = min(helped, key=lambda one: one[0], default=((2, sharp.gap), ''))
    if help < 2:
        before = names[0] if sides[names[0]] > 2 * sides[axis] else None
        return Finding(leaf, coarse, sharp, (DEPTH, CLOSER)[help], axis, before)
    rounding = _rounding(session, report, region)
    return Finding(leaf, coarse, sharp, ROUNDING if 2 * rounding > sharp.gap else NEITHER, rounding=rounding)


def _helped_by(session: Session, report: Report, halves: Tuple[Region, Region], whole: Bracket) -> Tuple[int, Fraction]:
    """0 where a half is decided, 1 where its two numbers are closer together, 2 where neither is so, at the most bits
    that have room; and the least gap of a half."""
    answer, least = 2, whole.gap
    for half in halves:
        try:
            found = _bracket(session, report, half, None)
        except Refused:
            continue
        least = min(least, found.gap)
        if found.decides(report):
            return 0, least
        if found.gap < whole.gap * Fraction(9, 10):
            answer = 1
    return answer, least


def _rounding(session: Session, report: Report, region: Region) -> Fraction:
    """What is left at the point in the middle."""
    fixed = tuple((name, sum(region[name], Fraction(0)) / 2) for name in report.live)
    middle = Region(tuple(one for one in region.intervals if one[0] not in report.live), fixed)
    try:
        return _bracket(session, report, middle, None).gap
    except Refused:
        return Fraction(0)


def _bracket(session: Session, report: Report, region: Region, bits: Optional[int]) -> Bracket:
    """Of costs nothing is shown from below, and too high a cost has no number."""

    def ask(part: Region, bound: Fraction) -> Report:
        return session.ask_again(report, part, bound * report.form.unit, precision=bits)

    if report.form.reward is None:
        return Bracket(low(ask, region).value, high(ask, region).value)
    try:
        return Bracket(Fraction(0), high(ask, region).value)
    except Fault as fault:
        if fault.status != SHORT:
            raise
        return Bracket(Fraction(0), Fraction(report.form.unit + 1))
