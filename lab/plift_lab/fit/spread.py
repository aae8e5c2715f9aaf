"""A model's choices, those that the program doesn't take as they are spread over steps in between."""

from __future__ import annotations

from fractions import Fraction
from typing import Dict, List, NamedTuple, Optional, Sequence, Tuple

from .bernstein import Toss
from .polynomials import UNIT, Box
from .refusal import Difference, Unfit, shown
from .source import Choice, Pool, Source
from .told import Told, counted
from .tosses import Negative, Row, Steps, TooMany, composed, is_affine, lengths, to_toss, tossed, widest

Entries = List[Tuple[int, int]]
"""Targets, and the pool's number of the value of each."""
MOST_STATES = 65_536


class Spread(NamedTuple):
    """What a choice becomes, whatever its targets are called."""

    first: Entries
    between: List[Entries]
    tosses: List[Toss]
    least: int
    most: int


class Between:
    """The steps in between, which are numbered behind the states."""

    def __init__(self, first: int) -> None:
        self.first = first
        self.rows: List[Entries] = []
        self._known: Dict[Tuple[Tuple[int, int], ...], int] = {}

    def place(self, row: Entries) -> int:
        """The number of the step that has this row."""
        key = tuple(sorted(row))
        if key not in self._known:
            self._known[key] = self.first + len(self.rows)
            self.rows.append(row)
        return self._known[key]


class Spreader:
    """Spreads the choices of a model."""

    def __init__(self, source: Source, box: Optional[Box], is_relative: bool, names: Sequence[str]) -> None:
        self.source, self.names = source, names
        self.box, self.has_region = box or {}, box is not None
        self.is_relative = is_relative
        self.between = Between(len(source.states))
        self.lengths: Dict[int, Tuple[int, int]] = {}
        """For each state with such choices the least and the greatest number of steps of its choices."""
        self._known: Dict[Tuple[int, ...], Optional[Spread]] = {}

    def run(self, told: Told) -> None:
        """Spreads all of them."""
        for place, state in enumerate(self.source.states):
            spreads = [self._spread(choice) for choice in state.choices]
            if any(spreads):
                self._put(place, spreads, told)
            if len(self.source.states) + len(self.between.rows) > MOST_STATES:
                about = 'with the steps in between there are more than %d states' % MOST_STATES
                raise Unfit(state.line, 'LimitStates', about)

    def _put(self, place: int, spreads: Sequence[Optional[Spread]], told: Told) -> None:
        """Lets the choices of a state be what they become."""
        self.lengths[place] = (
            min(1 if spread is None else spread.least for spread in spreads),
            max(1 if spread is None else spread.most for spread in spreads),
        )
        for choice, spread in zip(self.source.states[place].choices, spreads):
            if spread is not None:
                self._apply(choice, spread)
                self._tell(choice, spread, told)

    def _spread(self, choice: Choice) -> Optional[Spread]:
        if self.source.pool.constants.issuperset(choice.values):
            return None
        key = tuple(choice.values)
        if key not in self._known:
            row = {place: self.source.pool[value] for place, value in enumerate(key)}
            self._known[key] = None if is_affine(row) else self._steps(row, choice)
        return self._known[key]

    def _steps(self, row: Row, choice: Choice) -> Spread:
        """The steps of a row, multiplied out for a test."""
        try:
            steps = tossed(row, self.box, self._scales(row))
        except TooMany as fault:
            raise Unfit(choice.line, 'Power', '%s: %s' % (choice.where, fault)) from None
        except Negative as fault:
            raise Unfit(choice.line, 'Power', '%s: %s' % (choice.where, self._refusal(row, choice, fault))) from None
        if composed(steps) != row:
            raise Difference('what %s became' % choice.where)
        return _numbered(steps, self.source.pool)

    def _scales(self, row: Row) -> List[Box]:
        """On which intervals parameters may be tossed, in the order in which they are tried."""
        outside = [index for index in to_toss(row) if not _is_within(self.box.get(index, UNIT))]
        if outside and not self.is_relative:
            about = 'the interval of %s isn\'t within 0 to 1: --relative tosses it on the interval\'s own scale'
            raise TooMany(about % self.names[outside[0]])
        scales: List[Box] = [] if outside else [{}]
        return scales + [self.box] * self.is_relative

    def _refusal(self, row: Row, choice: Choice, fault: Negative) -> str:
        """Why a row can't be tossed, and what would do."""
        target = self.source.states[choice.targets[fault.target]].number
        heads = ' and '.join(
            '%d of %d heads of %s' % (count, toss.times, self.names[toss.parameter])
            for count, toss in zip(fault.heads, fault.tosses)
        )
        about = 'to state %d the coefficient for %s is %s, and tossing up to 32 times doesn\'t mend it' % (
            target,
            heads,
            shown(str(fault.worth)),
        )
        if self.has_region and not self.is_relative and self._does_relative(row):
            return about + '; --relative does'
        for place, toss in enumerate(fault.tosses):
            found = widest(row, self.box, fault.tosses, place)
            if found:
                name = self.names[toss.parameter]
                return about + '; it would do for %s from %s to %s, by --region and --relative' % (name, *found)
        return about + '; no narrower interval of one parameter was found for which it would do'

    def _does_relative(self, row: Row) -> bool:
        try:
            tossed(row, self.box, [self.box])
        except (Negative, TooMany):
            return False
        return True

    def _apply(self, choice: Choice, spread: Spread) -> None:
        """Lets a choice lead to steps of its own."""
        places: List[int] = []

        def named(entries: Entries) -> Entries:
            return [(choice.targets[ref] if ref >= 0 else places[~ref], value) for ref, value in entries]

        for entries in spread.between:
            places.append(self.between.place(named(entries)))
        choice.lead(named(spread.first))

    def _tell(self, choice: Choice, spread: Spread, told: Told) -> None:
        tosses = ', '.join(
            '%s %s%s' % (self.names[toss.parameter], _times(toss.times), _scale(toss)) for toss in spread.tosses
        )
        told.change(
            'choices whose values aren\'t affine become steps that toss a parameter',
            'each count of heads leads on with numbers of its own (Bernstein\'s form), which multiply out to the very '
            'values of the choice; parameters are the same in each step',
            'line %d, %s: tosses %s' % (choice.line, choice.where, tosses),
        )


def _is_within(interval: Tuple[Fraction, Fraction]) -> bool:
    return 0 <= interval[0] and interval[1] <= 1


def _times(times: int) -> str:
    return 'once' if times == 1 else '%d times' % times


def _scale(toss: Toss) -> str:
    return '' if (toss.low, toss.high) == UNIT else ' on the scale from %s to %s' % (toss.low, toss.high)


def _numbered(steps: Steps, pool: Pool) -> Spread:
    """The same, with numbers of the pool for values."""

    def entries(row: Row) -> Entries:
        return [(target, pool.add(value)) for target, value in row.items()]

    least, most = lengths(steps)
    return Spread(entries(steps.first), [entries(row) for row in steps.between], steps.tosses, least, most)


def steps_of_each(spreader: Spreader, goals: Sequence[bool]) -> Optional[int]:
    """How many steps each step has become; none where that differs."""
    moving = {
        spreader.lengths.get(place, (1, 1))
        for place, state in enumerate(spreader.source.states)
        if not goals[place] and any(set(choice.targets) != {place} for choice in state.choices)
    }
    found = {number for ends in moving for number in ends}
    return found.pop() if len(found) == 1 else None


def tell_steps(spreader: Spreader, each: Optional[int], told: Told) -> None:
    """What became of steps, and which questions speak of them."""
    count = len(spreader.between.rows)
    if not count:
        return
    first = spreader.between.first
    told.notes.append(
        '%s in between, from state %d on: no label and no cost stands there, so what is reached and spent stays'
        % (counted(count, 'step'), first)
    )
    if each is not None:
        told.notes.append(
            'each step is now %s: `bounded --steps S` is asked as --steps %d*S' % (counted(each, 'step'), each)
        )
    else:
        told.notes.append('steps are counted anew, and not all alike: `bounded` isn\'t the same question of this text')
