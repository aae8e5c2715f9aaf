"""Writes a model as the program reads it."""

from __future__ import annotations

import re
from typing import Dict, Iterable, List, Optional, Sequence, Set, Tuple

from ..models import between_line
from ..plain import plain
from .decimals import is_wide
from .polynomials import common_multiple
from .refusal import Unfit, shown
from .source import Source
from .spread import Entries
from .told import Told

PLAIN = re.compile(rb'[A-Za-z0-9_][A-Za-z0-9_.+-]*')
NAME = re.compile(rb'[A-Za-z_][A-Za-z0-9_]*')
MOST_PARAMETERS, MOST_NAME, MOST_CHOICES, MOST_TRANSITIONS, MOST_LINE = (16, 64, 131_072, 262_144, 2**20)
MOST_NUMBER, MOST_SCALED = 2**62, 2**100


def written_names(source: Source, told: Told) -> List[str]:
    """The parameters' names as they are written: letters, digits and `_`."""
    taken = {name.decode() for name in source.names.parameters if NAME.fullmatch(name)}
    written = []
    for name in source.names.parameters:
        new = re.sub(r'[^A-Za-z0-9_]', '_', name.decode('latin-1'))
        while not NAME.fullmatch(name) and new in taken:
            new += '_'
        taken.add(new)
        written.append(new)
        if new != name.decode('latin-1'):
            told.change(
                'parameters are renamed',
                'a name is a name; --region takes the new one',
                '%s is %s' % (shown(name), new),
            )
    return written


def kept_parameters(source: Source, names: Sequence[str], told: Told) -> List[int]:
    """The parameters that are declared: all without a value, or where these are too many those that stand anywhere."""
    kept = [place for place, name in enumerate(source.names.parameters) if name not in source.names.defined]
    if len(kept) > MOST_PARAMETERS:
        used = {index for value in source.pool.polynomials for index in value.parameters}
        lost = [names[place] for place in kept if place not in used]
        kept = [place for place in kept if place in used]
        if lost:
            told.change(
                'parameters that stand nowhere are left out',
                'no value depends on them; leave them out of --region, too',
                ', '.join(lost),
            )
    if len(kept) > MOST_PARAMETERS:
        about = '%d parameters stand in values, and plift takes %d: --define gives some of them their values'
        raise Unfit(source.last_line, 'LimitParameters', about % (len(kept), MOST_PARAMETERS))
    for place in kept:
        if len(names[place]) > MOST_NAME:
            raise Unfit(source.last_line, 'LimitName', '`%s` has more than %d bytes' % (shown(names[place]), MOST_NAME))
    return kept


def check_numbers(source: Source, rows: Sequence[Tuple[int, Sequence[int]]]) -> None:
    """Refuses numbers with too many digits; of each row the line is told."""
    polynomials = source.pool.polynomials
    used = set().union(*(values for _, values in rows))
    belows = {polynomials[value].below for value in used}
    widest = max((polynomials[value].size for value in used), default=0)
    below = common_multiple(belows)
    if below < MOST_NUMBER and widest < MOST_NUMBER and widest * below < MOST_SCALED:
        return
    _find_wide(source, rows)


def _find_wide(source: Source, rows: Sequence[Tuple[int, Sequence[int]]]) -> None:
    """Refuses the first number with too many digits, if there is one."""
    lines: Dict[int, int] = {}
    for line, values in rows:
        for value in values:
            lines.setdefault(value, line)
    below = 1
    for value, line in lines.items():
        polynomial = source.pool[value]
        if is_wide(polynomial):
            about = 'a value has numbers of 2^62 or more above or below the line; --round finds short ones near by'
            raise Unfit(line, 'Wide', about)
        if below % polynomial.below:
            below = common_multiple((below, polynomial.below))
        if below >= MOST_NUMBER:
            about = 'the least common denominator of all values is 2^62 or more; --round finds short fractions near by'
            raise Unfit(line, 'CommonDenominator', about)
    for value, line in lines.items():
        polynomial = source.pool[value]
        factor = below // polynomial.below
        if polynomial.size * factor >= MOST_SCALED:
            raise Unfit(line, 'CommonDenominator', 'a coefficient over the least common denominator is 2^100 or more')


class _Tails(Dict[int, str]):
    """What stands behind the target of a transition, by the pool's number of its value."""

    def __init__(self, source: Source, names: Sequence[str]) -> None:
        super().__init__()
        self.polynomials, self.names = source.pool.polynomials, names

    def __missing__(self, value: int) -> str:
        self[value] = tail = ' : ' + self.polynomials[value].text(self.names)
        return tail


class Writer:
    """A text in the making."""

    def __init__(self, source: Source, names: Sequence[str], kept: Sequence[int]) -> None:
        self.source, self.names, self.kept = source, names, kept
        self.renamed: Set[bytes] = set()
        """Labels and names with bytes that the program doesn't take."""
        self._targets: List[str] = []
        """The numbers of all states, as texts."""
        self._tails = _Tails(source, names)
        self._words: Dict[Tuple[bytes, ...], str] = {}
        """What stands behind a state's number, by its rewards and its labels."""
        self._actions: Dict[Tuple[bytes, bytes], str] = {}
        """Lines of actions, by names and rewards."""

    def text(self, between: Sequence[Entries], marked: Sequence[bytes], each: Optional[int]) -> bytes:
        """The whole text; steps in between carry some labels. Each step is so many; none where that differs."""
        states = self.source.states
        choices = list(self.source.choices)
        if len(choices) + len(between) > MOST_CHOICES:
            raise Unfit(self.source.last_line, 'LimitChoices', 'there are more than %d choices' % MOST_CHOICES)
        entries = sum(len(choice.targets) for choice in choices) + sum(map(len, between))
        if entries > MOST_TRANSITIONS:
            about = 'there are %d transitions, more than %d' % (entries, MOST_TRANSITIONS)
            raise Unfit(self.source.last_line, 'LimitTransitions', about)
        lines = ['// Fitted by plift-lab fit'] + [between_line(each)] * (each != 1)
        lines += self._head(len(states) + len(between), len(choices) + len(between))
        self._targets = list(map(str, range(len(states) + len(between))))
        for place, state in enumerate(states):
            lines.append(self._state(place, state.group, state.labels, state.line))
            has_many = len(state.choices) > 1
            for choice in state.choices:
                if has_many or choice.name or choice.group:
                    lines.append(self._action(choice.name, choice.group))
                self._entries(zip(choice.targets, choice.values), lines)
        for number, row in enumerate(between, len(states)):
            lines.append(self._state(number, b'', marked, 0))
            self._entries(row, lines)
        return '\n'.join(lines).encode('ascii') + b'\n'

    def _head(self, states: int, choices: int) -> List[str]:
        lines = ['@type: %s' % self.source.kind]
        if self.kept:
            lines += ['@parameters', ' '.join(self.names[place] for place in self.kept)]
        if self.source.rewards:
            lines += ['@reward_models', ' '.join(map(self.word, self.source.rewards))]
        return lines + ['@nr_states', str(states), '@nr_choices', str(choices), '@model']

    def word(self, name: bytes) -> str:
        """A label or a name, in quotes unless it is plain."""
        if PLAIN.fullmatch(name):
            return name.decode()
        safe = plain(name)
        if safe.encode() != name:
            self.renamed.add(name)
        return safe if '"' in safe and ' ' not in safe else '"%s"' % safe

    def _state(self, place: int, group: bytes, labels: Sequence[bytes], line: int) -> str:
        key = (group, *labels)
        if key not in self._words:
            words = [''] + ['[%s]' % group.decode()] * bool(group)
            self._words[key] = ' '.join(words + [self.word(label) for label in labels])
        told = 'state %d%s' % (place, self._words[key])
        if len(told) > MOST_LINE:
            raise Unfit(line, 'LongLine', 'the labels of a state have more than %d bytes' % MOST_LINE)
        return told

    def _action(self, name: bytes, group: bytes) -> str:
        key = name, group
        if key not in self._actions:
            words = ['action'] + [self.word(name)] * bool(name) + ['[%s]' % group.decode()] * bool(group)
            self._actions[key] = ' '.join(words)
        return self._actions[key]

    def _entries(self, row: Iterable[Tuple[int, int]], lines: List[str]) -> None:
        targets, tails = self._targets, self._tails
        lines += [targets[target] + tails[value] for target, value in row]
