"""Regions: an interval for each parameter, or a value for those that are fixed."""

from __future__ import annotations

import re
from dataclasses import dataclass
from fractions import Fraction
from typing import Dict, Iterable, List, Tuple

from .faults import Fault
from .plain import listed
from .values import exact, read_part

Interval = Tuple[Fraction, Fraction]
NAME = re.compile('[A-Za-z_][A-Za-z0-9_]*')
MOST_PARAMETERS = 16
FORMS = 'write 1/10<=p<=3/10, or p=1/10..3/10, or p=1/10 for a fixed value, with commas between'


@dataclass(frozen=True)
class Region:
    """Intervals by name, in the order in which they were written, and fixed values."""

    intervals: Tuple[Tuple[str, Fraction, Fraction], ...] = ()
    fixed: Tuple[Tuple[str, Fraction], ...] = ()

    @classmethod
    def read(cls, text: str) -> 'Region':
        """Reads plift's own form, and two that need no quotes in a shell."""
        intervals: List[Tuple[str, Fraction, Fraction]] = []
        fixed: List[Tuple[str, Fraction]] = []
        clauses = text.split(',') if text.strip() else []
        if len(clauses) > MOST_PARAMETERS:
            raise Fault(
                'the region has %d clauses; a model has at most %d parameters' % (len(clauses), MOST_PARAMETERS)
            )
        for clause in clauses:
            name, low, high = _clause(clause.strip())
            if name in [one[0] for one in intervals] + [one[0] for one in fixed]:
                raise Fault('the region names %s twice' % name)
            if low > high:
                raise Fault('the interval of %s ends before it begins: %s' % (name, clause.strip()))
            if low == high:
                fixed.append((name, low))
            else:
                intervals.append((name, low, high))
        return cls(tuple(intervals), tuple(fixed))

    @property
    def names(self) -> List[str]:
        """The parameters that have an interval."""
        return [name for name, _, _ in self.intervals]

    def __getitem__(self, name: str) -> Interval:
        for known, low, high in self.intervals:
            if known == name:
                return low, high
        raise Fault('the region has no interval for %s' % name)

    @property
    def text(self) -> str:
        """As plift reads it. What is fixed isn't told. A blank keeps a first `-` from being taken for an option."""
        clauses = ','.join('%s<=%s<=%s' % (exact(low), name, exact(high)) for name, low, high in self.intervals)
        return ' ' + clauses if clauses.startswith('-') else clauses

    @property
    def told(self) -> str:
        """All of it for people, in a form that is read again."""
        fixed = ['%s=%s' % (name, exact(value)) for name, value in self.fixed]
        return ','.join([self.text.strip()] * bool(self.intervals) + fixed)

    def is_uneven(self, names: Iterable[str]) -> bool:
        """Whether some side is so much longer than another one that the program would halve it alone."""
        sides = [high - low for name, low, high in self.intervals if name in names]
        return bool(sides) and max(sides) > 10 * min(sides)

    def replaced(self, name: str, low: Fraction, high: Fraction) -> 'Region':
        """The same with another interval for one parameter."""
        self[name]
        return Region(
            tuple((known, low, high) if known == name else (known, a, b) for known, a, b in self.intervals), self.fixed
        )

    def halves(self, name: str) -> Tuple['Region', 'Region']:
        """Both halves on one parameter; they share the midpoint."""
        low, high = self[name]
        middle = (low + high) / 2
        return self.replaced(name, low, middle), self.replaced(name, middle, high)

    def fit(self, names: Iterable[str]) -> None:
        """Refuses a region that doesn't speak of exactly these parameters."""
        names, known = list(names), self.names + [name for name, _ in self.fixed]
        for name in known:
            if name not in names:
                raise Fault('the model has no parameter %s; it has %s' % (name, listed(names)))
        missing = [name for name in names if name not in known]
        if missing:
            raise Fault('the region has no interval for %s' % listed(missing))


def _clause(clause: str) -> Tuple[str, Fraction, Fraction]:
    """The name and the ends of a clause."""
    ends = clause.split('<=')
    if len(ends) == 3:
        name, low, high = ends[1].strip(), ends[0], ends[2]
    elif len(ends) == 1 and clause.count('=') == 1:
        name, value = (part.strip() for part in clause.split('='))
        low, dots, high = value.partition('..')
        high = high if dots else low
    else:
        raise Fault('%r is no part of a region: %s' % (clause, FORMS))
    if not NAME.fullmatch(name):
        raise Fault('%r is no name of a parameter: %s' % (name, FORMS))
    return name, read_part(low), read_part(high)


def shown(rectangle: Dict[str, Interval]) -> str:
    """A rectangle as a region's text."""
    return Region(tuple((name, low, high) for name, (low, high) in rectangle.items())).text
