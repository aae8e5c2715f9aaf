"""Reads the sections in front of a model, with more patience than the program has."""

from __future__ import annotations

import re
from typing import Callable, Dict

from .lines import Line, Lines
from .refusal import Unfit, ValueFault, shown
from .source import Source
from .told import Told
from .wants import Wants
from .wording import GROUP, MOST_DIGITS, words_of

NEEDLESS = {
    'choice_labelling': 'it names choices, and names of choices play no part',
    'choice_labels': 'it names choices, and names of choices play no part',
    'choice_origins': 'it tells from which commands choices come, and that plays no part',
    'state_valuations': 'it tells what states stand for, and only their labels are asked for',
    'state_origins': 'it tells from what states come, and only their labels are asked for',
    'nr_transitions': 'it is a count, and what is there is counted',
    'nr_parameters': 'it is a count, and what is there is counted',
    'properties': 'it tells questions, and the question is told on the command line',
    'comment': 'it is a comment',
    'comments': 'it is a comment',
    'version': 'it tells of the file and not of the model',
    'format': 'it tells of the file and not of the model',
    'name': 'it tells of the file and not of the model',
    'author': 'it tells of the file and not of the model',
    'date': 'it tells of the file and not of the model',
    'generator': 'it tells of the file and not of the model',
    'exported_by': 'it tells of the file and not of the model',
}
"""Sections that say nothing of the question, and why."""
SECTION = re.compile(rb'@([A-Za-z_][A-Za-z0-9_]*)[ \t]*(:?)(.*)', re.S)
ODD_NAME = re.compile(rb'[A-Za-z_][A-Za-z0-9_.\'#@~:!?\[\]]*')
PLACE = re.compile(rb'(\$[A-Za-z0-9_]+)\s*:(.*)', re.S)
UNTEXT = re.compile(rb'[^\t -~]')
OUTSIDE = '`%s` stands in no section: a DRN text begins with sections such as `@type: DTMC`'
MOST_PARAMETERS, MOST_PLACES = 256, 65_536
"""How much is read: more than the program takes, since some of it may be left out."""


class Sections:
    """Reads sections; the first fault ends the reading."""

    def __init__(self, lines: Lines, source: Source, wants: Wants, told: Told) -> None:
        self.lines, self.source, self.wants, self.told = lines, source, wants, told
        self.names = source.names

    def read(self) -> None:
        """Reads up to the line that begins the model."""
        seen: Dict[str, int] = {}
        for number, line in self.lines:
            if not line:
                continue
            found = SECTION.match(line)
            if not found:
                raise Unfit(number, 'NotText' if UNTEXT.search(line) else 'Syntax', OUTSIDE % shown(line))
            name = found.group(1).decode().lower()
            if name in seen and name not in NEEDLESS:
                raise Unfit(number, 'RepeatedSection', '@%s stands in line %d already' % (shown(name), seen[name]))
            seen[name] = number
            if name == 'model':
                if 'type' not in seen:
                    raise Unfit(number, 'MissingSection', 'no @type stands before @model')
                return
            self._section(number, name, found.group(3).strip())
        raise Unfit(self.lines.last, 'MissingSection', 'the text has no @model')

    def behind(self, number: int, line: bytes) -> None:
        """Leaves out a section behind the model."""
        found = SECTION.match(line)
        name = found.group(1).decode().lower() if found else shown(line)
        if not found or (name not in NEEDLESS and name not in self.wants.dropped):
            raise Unfit(number, 'UnknownSection', '@%s stands behind @model' % shown(name))
        self.drop(number, name)

    def _section(self, number: int, name: str, rest: bytes) -> None:
        known: Dict[str, Callable[[int, bytes], None]] = {
            'type': self._type,
            'value_type': self._value_type,
            'parameters': self._parameters,
            'reward_models': self._reward_models,
            'placeholders': self._placeholders,
        }
        if name in known:
            known[name](number, rest)
        elif name in ('nr_states', 'nr_choices'):
            self._count(name, rest)
        else:
            self.drop(number, name)

    def drop(self, number: int, name: str) -> None:
        """Leaves a section out, up to the next one."""
        if name not in NEEDLESS and name not in self.wants.dropped:
            about = '@%s isn\'t known, and may say what the model is: --drop %s leaves it out, if it doesn\'t'
            raise Unfit(number, 'UnknownSection', about % (shown(name), shown(name)))
        past = number
        for past, _ in iter(self.lines.take, None):
            pass
        why = NEEDLESS.get(name, 'you said by --drop that it says nothing of the question')
        where = 'line %d' % number if past == number else 'lines %d to %d' % (number, past)
        self.told.change('the section @%s is dropped' % name, why, where)

    def _type(self, number: int, rest: bytes) -> None:
        word = rest.strip(b'" \t').upper()
        if word not in (b'DTMC', b'MDP', b'CTMC'):
            about = '%s: plift reads models of the types DTMC and MDP' % shown(rest)
            raise Unfit(number, 'UnsupportedType', about)
        self.source.is_timed = word == b'CTMC'
        self.source.kind = 'DTMC' if self.source.is_timed else word.decode()
        where = 'line %d' % number
        if self.source.is_timed:
            self.told.change(
                'the type CTMC is written DTMC, and rates are divided by the sum of their state\'s',
                'whether a state is ever reached doesn\'t depend on time; a question of time can\'t be asked',
                where,
            )
        elif rest != word:
            self.told.change('the type is written %s' % word.decode(), 'it is the same type', where)

    def _value_type(self, number: int, rest: bytes) -> None:
        self.told.change(
            '@value_type is left out', 'values say themselves what they are, and are read exactly', 'line %d' % number
        )

    def _list(self, rest: bytes) -> Line:
        """What stands behind a section's name, or else in the next line that is no section."""
        return (self.lines.last, rest) if rest else self.lines.take() or (self.lines.last, b'')

    def _parameters(self, number: int, rest: bytes) -> None:
        at, text = self._list(rest)
        for name in text.replace(b',', b' ').split():
            if not ODD_NAME.fullmatch(name):
                raise Unfit(at, 'Syntax', '`%s` is no name of a parameter' % shown(name))
            if name in self.names.parameters:
                raise Unfit(at, 'RepeatedName', 'the parameter `%s` stands twice' % shown(name))
            if len(self.names.parameters) == MOST_PARAMETERS:
                raise Unfit(at, 'LimitParameters', 'more than %d parameters' % MOST_PARAMETERS)
            self.names.parameters.append(name)

    def _reward_models(self, number: int, rest: bytes) -> None:
        self.source.reward_line, text = self._list(rest)
        for kind, word in words_of(self.source.reward_line, text):
            self.source.rewards.append(b'[%s]' % word if kind == GROUP else word)

    def _count(self, name: str, rest: bytes) -> None:
        at, text = self.lines.last, rest
        while not text:
            taken = self.lines.take()
            if taken is None:
                raise Unfit(at, 'Syntax', 'no number stands behind @%s' % name)
            at, text = taken
        if not (text.isdigit() and len(text) <= MOST_DIGITS):
            raise Unfit(at, 'Syntax', '`%s` is no count' % shown(text))
        self.source.counts[name] = int(text), at

    def _placeholders(self, number: int, rest: bytes) -> None:
        self.names.ready()
        for at, line in iter(self.lines.take, None):
            found = PLACE.fullmatch(line)
            if not line:
                continue
            if not found:
                raise Unfit(at, 'Syntax', '`%s` defines no place: write $name : value' % shown(line))
            if found.group(1) in self.names.places:
                raise Unfit(at, 'RepeatedName', '`%s` is defined twice' % shown(found.group(1)))
            if len(self.names.places) == MOST_PLACES:
                raise Unfit(at, 'LimitPlaces', 'more than %d places' % MOST_PLACES)
            try:
                self.names.place(found.group(1), found.group(2).strip())
            except ValueFault as fault:
                raise Unfit(at, fault.cause, fault.about) from None
