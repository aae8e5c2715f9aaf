"""Reads texts in the explicit DRN format as tools write them, with more patience than the program has.

What is passed over or written otherwise is told; what may change the question is refused.
"""

from __future__ import annotations

import re
from typing import Dict, List, Optional, Tuple

from .lines import Lines, unpacked
from .refusal import Unfit, ValueFault, shown
from .sections import Sections
from .source import Choice, Names, Source, State
from .told import Told
from .wants import Wants
from .wording import GROUP, MOST_DIGITS, PLAIN, Words, words_of

STATE = re.compile(rb'state\s+([0-9]{1,20})(?![^\s"\[])(.*)', re.S)
MOST_STATES, MOST_CHOICES, MOST_ENTRIES = 2**18, 2**19, 2**20
"""How much is read: more than the program takes, since some of it may be left out."""


def read(data: bytes, wants: Wants, told: Told) -> Source:
    """Reads a text; the first fault ends the reading."""
    lines, source = Lines(unpacked(data, told)), Source(Names(wants.defined))
    sections = Sections(lines, source, wants, told)
    sections.read()
    source.names.ready()
    _Body(lines, source, sections).read()
    source.last_line = lines.last
    return source


class _Body:
    """The lines of the model itself."""

    def __init__(self, lines: Lines, source: Source, sections: Sections) -> None:
        self.lines, self.source, self.sections = lines, source, sections
        self._choices = self._entries = 0
        self._values: Dict[bytes, int] = {}
        """The pool's number of each text of a value."""
        self._rests: Dict[bytes, Tuple[bytes, List[bytes]]] = {}
        """Rewards and labels of each text behind a state's number."""
        self._actions: Dict[bytes, Tuple[bytes, bytes]] = {}
        """Name and rewards of each line of an action."""

    def read(self) -> None:
        """Reads up to the end of the text."""
        state: Optional[State] = None
        choice: Optional[Choice] = None
        for number, line in self.lines:
            if line[:1].isdigit():
                if choice is None:
                    choice = self._new(state, Choice(number))
                self._entry(number, line, choice)
            elif line.startswith(b'state'):
                state, choice = self._state(number, line), None
            elif line.startswith(b'action'):
                choice = self._new(state, self._action(number, line))
            elif line.startswith(b'@'):
                self.sections.behind(number, line)
            elif line:
                raise Unfit(number, 'Syntax', '`%s` is no state, action or transition' % shown(line))

    def _new(self, state: Optional[State], choice: Choice) -> Choice:
        """A choice of a state."""
        if state is None:
            raise Unfit(choice.line, 'Syntax', 'an action or a transition stands before the first state')
        self._choices += 1
        if self._choices > MOST_CHOICES:
            raise Unfit(choice.line, 'LimitChoices', 'there are far more choices than plift takes')
        state.add(choice)
        return choice

    def _entry(self, number: int, line: bytes, choice: Choice) -> None:
        """A transition."""
        target, colon, value = line.partition(b':')
        target, value = target.rstrip(), value.lstrip()
        if not (colon and target.isdigit() and len(target) <= MOST_DIGITS):
            raise Unfit(number, 'Syntax', '`%s` is no transition: write TARGET : VALUE' % shown(line))
        known = self._values.get(value)
        if known is None:
            known = self._values[value] = self._value(number, value)
        choice.targets.append(int(target))
        choice.values.append(known)
        choice.texts.append(value)
        self._entries += 1
        if self._entries > MOST_ENTRIES:
            raise Unfit(number, 'LimitTransitions', 'there are far more transitions than plift takes')

    def _value(self, number: int, text: bytes) -> int:
        try:
            return self.source.pool.add(self.source.names.polynomial(text))
        except ValueFault as fault:
            raise Unfit(number, fault.cause, fault.about) from None

    def _state(self, number: int, line: bytes) -> State:
        found = STATE.match(line)
        if not found:
            raise Unfit(number, 'Syntax', '`%s` is no state: write state 0' % shown(line))
        identity, rest = found.groups()
        if rest not in self._rests:
            words = words_of(number, rest)
            if self.source.is_timed and words and words[0][0] == PLAIN and words[0][1].startswith(b'!'):
                words = words[1:]  # the exit rate, which is the sum of the rates
            has_group = bool(words) and words[0][0] == GROUP
            group = words[0][1] if has_group else b''
            self._rests[rest] = group, _labels(number, words[1:] if has_group else words)
        if len(self.source.states) == MOST_STATES:
            raise Unfit(number, 'LimitStates', 'there are far more states than plift takes')
        state = State(number, int(identity), *self._rests[rest])
        self.source.states.append(state)
        return state

    def _action(self, number: int, line: bytes) -> Choice:
        if line not in self._actions:
            self._actions[line] = _action(number, line)
        return Choice(number, *self._actions[line])


def _action(number: int, line: bytes) -> Tuple[bytes, bytes]:
    """An action's name and rewards."""
    words = words_of(number, line)
    if words[0][1] != b'action':
        raise Unfit(number, 'Syntax', '`%s` is no action: write action NAME' % shown(line))
    is_named = len(words) > 1 and words[1][0] != GROUP
    behind = words[2:] if is_named else words[1:]
    if len(behind) > 1 or any(kind != GROUP for kind, _ in behind):
        raise Unfit(number, 'Syntax', '`%s` has more words than a name and rewards' % shown(line))
    return words[1][1] if is_named else b'', behind[0][1] if behind else b''


def _labels(number: int, words: Words) -> List[bytes]:
    """The labels behind a state's number and rewards."""
    for kind, word in words:
        if kind == PLAIN and word.startswith(b'!'):
            raise Unfit(number, 'ExitRate', 'a rate stands behind the state, and the type isn\'t CTMC')
        if kind == PLAIN and word.startswith(b'{'):
            raise Unfit(number, 'Observation', 'models with partial observation aren\'t taken')
        if kind == GROUP:
            raise Unfit(number, 'Syntax', 'a group of rewards stands directly behind the number of a state')
    return [word for _, word in words]
