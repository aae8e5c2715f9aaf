"""A choice whose probabilities aren't affine in each parameter, as steps in which parameters are tossed.

What a choice does is a row: for each target its probability, a polynomial. In Bernstein's form the row becomes one row
for each count of heads, none of which has the parameter; where these are distributions, tossing the parameter so often
and then going on by the row of the count reaches each target with the very probability that stood there. Steps that
would do the same are one step, and a toss whose two sides lead to the same place isn't made.
"""

from __future__ import annotations

from fractions import Fraction
from itertools import permutations
from typing import Dict, Iterator, List, NamedTuple, Optional, Sequence, Tuple

from .bernstein import Toss, coefficients
from .polynomials import ONE, UNIT, Box, Polynomial, total

MOST_DEGREE, MOST_IN_ROW = 32, 4
"""How often a parameter is tossed at most, and how many parameters the program takes in one row."""
MOST_STEPS, MOST_SEARCHED = 65_536, 2**12
"""Steps of one choice, and counts of heads that are tried where a row doesn't do at once."""
Row = Dict[int, Polynomial]
"""The probability of each target: of the choice's own ones, numbered from 0, or of the step ~n for n from 0 on."""


class Steps(NamedTuple):
    """What a choice becomes: its own row, the rows of the steps in between, and how often what is tossed."""

    first: Row
    between: List[Row]
    tosses: List[Toss]


class Negative(Exception):
    """A probability that is below 0 somewhere."""

    def __init__(self, target: int, heads: Sequence[int], tosses: Sequence[Toss], worth: Fraction) -> None:
        super().__init__(target)
        self.target, self.heads, self.tosses, self.worth = (target, tuple(heads), list(tosses), worth)


class TooMany(Exception):
    """Why a row can't be tossed at all: a parameter too often, or on no scale, or in too many steps."""


def degrees_of(row: Row) -> Dict[int, int]:
    """The greatest power of each parameter in a row."""
    found: Dict[int, int] = {}
    for value in row.values():
        for index, power in () if value.is_constant else value.degrees.items():
            found[index] = max(found.get(index, 0), power)
    return found


def is_affine(row: Row) -> bool:
    """Whether the program takes a row as it is: no power, and not too many parameters."""
    found = degrees_of(row)
    return len(found) <= MOST_IN_ROW and all(power == 1 for power in found.values())


def to_toss(row: Row) -> List[int]:
    """The parameters that have to be tossed: those with powers, and of the others those that are too many."""
    degrees = degrees_of(row)
    powers = {index for index, power in degrees.items() if power > 1}
    return sorted(powers.union(sorted(set(degrees) - powers)[MOST_IN_ROW:]))


def tossed(row: Row, box: Box, scales: Sequence[Box]) -> Steps:
    """The steps of a row over a box. Each of the scales says for some parameters on which interval they are tossed; the
    first one that does is taken."""
    degrees, chosen = degrees_of(row), to_toss(row)
    if any(degrees[index] > MOST_DEGREE for index in chosen):
        raise TooMany('a parameter has the power %d; at most %d can be tossed' % (max(degrees.values()), MOST_DEGREE))
    fault: Optional[Negative] = None
    for scale in scales:
        tosses = [Toss(index, degrees[index], *scale.get(index, UNIT)) for index in chosen]
        try:
            return _least(row, box, tosses)
        except Negative as found:
            fault = fault or found
    raise fault or TooMany('no scale is there to toss on')


def _least(row: Row, box: Box, tosses: List[Toss]) -> Steps:
    """With as few tosses as do."""
    if not _does(row, box, tosses):
        tosses = _raised(row, box, tosses)
    found = [_Build(box).steps(row, order) for order in _orders(tosses)]
    return min(found, key=lambda steps: len(steps.between))


def _does(row: Row, box: Box, tosses: List[Toss]) -> bool:
    """Whether all rows are distributions over the box."""
    try:
        _Build(box).steps(row, tosses)
    except Negative:
        return False
    return True


def _raised(row: Row, box: Box, tosses: List[Toss]) -> List[Toss]:
    """Tosses that are made more often, so that what is due for each count of heads is a distribution. What is due for
    more tosses is a mean of what is due for fewer, so more of them do where fewer did."""
    most = MOST_DEGREE - min(toss.times for toss in tosses)
    low, high = 0, 1
    while not are_shares(row, box, [_more(toss, high) for toss in tosses]):
        if high == most or _size([_more(toss, high + 1) for toss in tosses]) > MOST_SEARCHED:
            raise worst(row, box, tosses)
        low, high = high, min(2 * high, most)
        while _size([_more(toss, high) for toss in tosses]) > MOST_SEARCHED:
            high -= 1
    while low + 1 < high:
        middle = (low + high) // 2
        is_enough = are_shares(row, box, [_more(toss, middle) for toss in tosses])
        low, high = (low, middle) if is_enough else (middle, high)
    found = [_more(toss, high) for toss in tosses]
    for place, toss in enumerate(tosses):  # not each of them has to be tossed more often
        for times in range(toss.times, found[place].times):
            fewer = found[:place] + [toss._replace(times=times)] + found[place + 1 :]
            if are_shares(row, box, fewer):
                found = fewer
                break
    return found


def _more(toss: Toss, more: int) -> Toss:
    return toss._replace(times=min(toss.times + more, max(toss.times, MOST_DEGREE)))


def _size(tosses: Sequence[Toss]) -> int:
    """How many counts of heads there are."""
    size = 1
    for toss in tosses:
        size *= toss.times + 1
    return size


def _orders(tosses: List[Toss]) -> Iterator[List[Toss]]:
    """The orders that are tried: which parameter is tossed first doesn't matter to what is reached."""
    return (list(order) for order in (permutations(tosses) if len(tosses) <= 2 else [tosses]))


def by_heads(row: Row, tosses: Sequence[Toss]) -> Iterator[Tuple[Tuple[int, ...], Row]]:
    """The row of each count of heads of each parameter."""
    if not tosses:
        yield (), row
        return
    parts = {target: coefficients(value, tosses[0]) for target, value in row.items()}
    for heads in range(tosses[0].times + 1):
        for others, one in by_heads({target: part[heads] for target, part in parts.items()}, tosses[1:]):
            yield (heads, *others), one


def worst(row: Row, box: Box, tosses: Sequence[Toss]) -> Negative:
    """The coefficient that is the most below 0."""
    found = [(value.least(box), target, heads) for heads, one in by_heads(row, tosses) for target, value in one.items()]
    worth, target, heads = min(found)
    return Negative(target, heads, tosses, worth)


def are_shares(row: Row, box: Box, tosses: Sequence[Toss]) -> bool:
    """Whether what is due for each count of heads is a distribution over the box."""
    return all(value.least(box) >= 0 for _, one in by_heads(row, tosses) for value in one.values())


def widest(row: Row, box: Box, tosses: Sequence[Toss], place: int) -> Optional[Tuple[Fraction, Fraction]]:
    """An interval of a parameter on whose scale a row can be tossed, about as wide as there is one within 0 to 1: what
    does on an interval does on each part of it."""
    often = [_more(toss, MOST_DEGREE) if _size(tosses) * MOST_DEGREE <= MOST_SEARCHED else toss for toss in tosses]

    def does(low: Fraction, high: Fraction) -> bool:
        scaled = [toss._replace(low=low, high=high) if toss is often[place] else toss for toss in often]
        return low < high and are_shares(row, {**box, tosses[place].parameter: (low, high)}, scaled)

    grid, best = 64, (Fraction(0), Fraction(0))
    for start in (Fraction(0), Fraction(1), Fraction(1, 2), Fraction(1, 4), Fraction(3, 4)):
        least, most = 0, grid
        while least < most:
            reach = Fraction((least + most + 1) // 2, grid)
            low, high = max(start - reach, Fraction(0)), min(start + reach, Fraction(1))
            if does(low, high):
                least = (least + most + 1) // 2
            else:
                most = (least + most + 1) // 2 - 1
        low, high = max(start - Fraction(least, grid), Fraction(0)), min(start + Fraction(least, grid), Fraction(1))
        if least and high - low > best[1] - best[0]:
            best = low, high
    return best if best[0] < best[1] else None


class _Build:
    """Steps in the making."""

    def __init__(self, box: Box) -> None:
        self.box = box
        self.between: List[Row] = []
        self._known: Dict[Tuple[Tuple[int, Polynomial], ...], int] = {}
        self._least: Dict[Polynomial, Fraction] = {}

    def steps(self, row: Row, tosses: List[Toss]) -> Steps:
        first = self._checked(self._spread(row, tosses))
        return Steps(first, self.between, tosses)

    def _spread(self, row: Row, tosses: List[Toss]) -> Row:
        """The first of the steps that toss these and go on by what is due."""
        if not tosses:
            return {target: value for target, value in row.items() if value.terms}
        toss, heads = tosses[0], tosses[0].heads
        tails = ONE - heads
        parts = {target: coefficients(value, toss) for target, value in row.items()}
        level = [
            self._spread({target: part[count] for target, part in parts.items()}, tosses[1:])
            for count in range(toss.times + 1)
        ]
        names = {index for one in level for value in one.values() for index in value.parameters}
        if len(names | {toss.parameter}) <= MOST_IN_ROW:  # the last toss and what it leads to are one step
            level = [_mixed(heads, more, tails, less) for less, more in zip(level, level[1:])]
        while len(level) > 1:
            places = [self._place(one) for one in level]
            level = [
                {less: ONE} if less == more else {more: heads, less: tails} for less, more in zip(places, places[1:])
            ]
        return level[0]

    def _place(self, row: Row) -> int:
        """Where a row is gone on by: its one target, or a step that has it."""
        row = self._checked(row)
        if len(row) == 1:
            return next(iter(row))
        key = tuple(sorted(row.items(), key=lambda entry: entry[0]))
        if key not in self._known:
            if len(self.between) >= MOST_STEPS:
                raise TooMany('a choice takes more than %d steps' % MOST_STEPS)
            self._known[key] = ~len(self.between)
            self.between.append(row)
        return self._known[key]

    def _checked(self, row: Row) -> Row:
        """The row, where none of its values is below 0."""
        for target, value in row.items():
            if value not in self._least:
                self._least[value] = value.least(self.box)
            if self._least[value] < 0:
                raise Negative(target, (), (), self._least[value])
        return row


def _mixed(heads: Polynomial, more: Row, tails: Polynomial, less: Row) -> Row:
    """A toss and what both sides lead to, as one row."""
    if more == less:
        return less
    parts: Dict[int, List[Polynomial]] = {}
    for factor, row in ((heads, more), (tails, less)):
        for target, value in row.items():
            parts.setdefault(target, []).append(factor * value)
    found = {target: total(values) for target, values in parts.items()}
    return {target: value for target, value in found.items() if value.terms}


def composed(steps: Steps) -> Row:
    """The row that the steps come to: what is reached behind all of them, multiplied out."""
    behind: List[Row] = []
    for row in [*steps.between, steps.first]:
        parts: Dict[int, List[Polynomial]] = {}
        for target, value in row.items():
            reached = {target: ONE} if target >= 0 else behind[~target]
            for end, share in reached.items():
                parts.setdefault(end, []).append(share * value)
        behind.append({target: total(values) for target, values in parts.items()})
    return {target: value for target, value in behind[-1].items() if value.terms}


def lengths(steps: Steps) -> Tuple[int, int]:
    """The least and the greatest number of steps that the choice takes."""
    behind: List[Tuple[int, int]] = []
    for row in [*steps.between, steps.first]:
        ends = [(0, 0) if target >= 0 else behind[~target] for target in row]
        behind.append((1 + min(low for low, _ in ends), 1 + max(high for _, high in ends)))
    return behind[-1]
