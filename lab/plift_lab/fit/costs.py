"""Rewards: of states as the program reads them, and of actions moved to states where they cost all the same."""

from __future__ import annotations

from fractions import Fraction
from typing import Dict, Iterator, List, Optional, Tuple

from .refusal import ValueFault, shown
from .source import Costs, Source, State
from .told import Told

MOST_SIZE = 2**62


class _Odd(Exception):
    """Why a group of rewards can't be kept, and of which reward model; none where it is all of them."""

    def __init__(self, about: str, place: Optional[int] = None) -> None:
        super().__init__(about)
        self.about, self.place = about, place


def settle(source: Source, told: Told) -> None:
    """Reads all rewards, and writes them behind states where that costs the same."""
    if all(text.isspace() or not text for text in {text for _, text in _groups(source)}):
        _clear(source)
        return
    groups = list(_groups(source))
    _name(source, groups, told)
    costs = _read(source, groups, told)
    if not source.rewards:
        _clear(source)
        return
    moved: List[str] = []
    left: List[str] = []
    for state in source.states:
        of_choices = [costs.get(choice.group.strip(), ()) for choice in state.choices]
        if any(map(any, of_choices)):
            same = all(_padded(one, source) == _padded(of_choices[0], source) for one in of_choices)
            (moved if same else left).append('state %d' % state.number)
            if same:
                _move(state, of_choices[0], costs, source)
    _write(source, costs)
    for place in moved:
        told.change(
            'rewards of actions are moved to their state',
            'each choice of the state costs as much, and a visit makes one choice',
            place,
        )
    if left:
        told.notes.append(
            'choices of %s cost differently (%s ..): `cost` refuses this text (ActionReward), the other commands pass '
            'rewards over' % ('%d states' % len(left) if len(left) > 1 else 'a state', left[0])
        )


def _groups(source: Source) -> Iterator[Tuple[int, bytes]]:
    """All groups, with their lines."""
    for state in source.states:
        yield state.line, state.group
        for choice in state.choices:
            yield choice.line, choice.group


def _clear(source: Source) -> None:
    """Without any rewards."""
    for state in source.states:
        state.group = b''
        for choice in state.choices:
            choice.group = b''


def _name(source: Source, groups: List[Tuple[int, bytes]], told: Told) -> None:
    """Names for rewards that have none, as of tools that write an empty list."""
    if source.rewards:
        return
    count = max(text.count(b',') + 1 for _, text in groups if text.strip())
    source.rewards = [b'reward%d' % number for number in range(1, count + 1)] if count > 1 else [b'reward']
    told.change(
        'rewards without a name are called %s' % ', '.join(map(shown, source.rewards)),
        'their values stay, and --reward has to name one of them',
    )


def _read(source: Source, groups: List[Tuple[int, bytes]], told: Told) -> Dict[bytes, Costs]:
    """The values of all groups that aren't empty. Rewards that the program can't read are left out."""
    names = list(source.rewards)
    texts: Dict[bytes, int] = {}
    for line, text in groups:
        if text.strip():
            texts.setdefault(text.strip(), line)
    costs: Dict[bytes, Costs] = {}
    lost: Dict[int, str] = {}
    for text, line in texts.items():
        try:
            costs[text] = _values(source, text, len(names), lost, line)
        except _Odd as odd:
            lost = {place: 'line %d: %s' % (line, odd.about) for place in range(len(names))}
            break
    for place, about in lost.items():
        told.change(
            'rewards that the program can\'t read are left out',
            'only `cost` reads rewards, and it can\'t be asked for these',
            '%s: %s' % (shown(names[place]), about),
        )
    kept = [place for place in range(len(names)) if place not in lost]
    source.rewards = [names[place] for place in kept]
    return {text: tuple(values[place] for place in kept) for text, values in costs.items()}


def _values(source: Source, text: bytes, count: int, lost: Dict[int, str], line: int) -> Costs:
    """The values of a group; what is wrong with one of them is noted."""
    parts = text.split(b',')
    if len(parts) != count:
        raise _Odd('`[%s]` has %d values, and there are %d reward models' % (shown(text), len(parts), count))
    values = []
    for place, part in enumerate(parts):
        value = Fraction(0)
        try:
            found = source.names.polynomial(part.strip())
            value = found.constant
            if not found.is_constant:
                raise ValueFault('RewardSyntax', 'a parameter stands in it')
            if value < 0:
                raise ValueFault('RewardSyntax', 'it is below 0')
            if max(value.numerator, value.denominator) >= MOST_SIZE:
                raise ValueFault('RewardWide', 'it has too many digits')
        except ValueFault as fault:
            lost.setdefault(place, 'line %d: `%s`: %s' % (line, shown(part.strip()), fault.about))
        values.append(value)
    return tuple(values)


def _padded(costs: Costs, source: Source) -> Costs:
    """A group, where an empty one costs nothing."""
    return costs or (Fraction(0),) * len(source.rewards)


def _move(state: State, costs: Costs, known: Dict[bytes, Costs], source: Source) -> None:
    """Adds what each choice costs to what the state does."""
    own = _padded(known.get(state.group.strip(), ()), source)
    both = tuple(one + other for one, other in zip(own, costs))
    state.group = _text(both)
    known[state.group] = both
    for choice in state.choices:
        choice.group = b''


def _write(source: Source, costs: Dict[bytes, Costs]) -> None:
    """All groups as the program reads them; those that cost nothing are left out."""
    texts = {text: _text(values) if any(values) else b'' for text, values in costs.items()}
    for state in source.states:
        state.group = texts.get(state.group.strip(), b'')
        for choice in state.choices:
            choice.group = texts.get(choice.group.strip(), b'')


def _text(costs: Costs) -> bytes:
    return b','.join(str(value).encode() for value in costs)
