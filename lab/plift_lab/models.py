"""Model texts: which parameters they declare, and the same model in other parameters.

A text is changed only inside values, so lines, states and choices keep their numbers. Whether it stands for a model
at all is for plift to say.
"""

from __future__ import annotations

import re
from dataclasses import dataclass
from fractions import Fraction
from typing import Callable, Dict, Iterator, List, NamedTuple, Optional, Tuple

from .plain import plain
from .regions import Region
from .values import exact

SYMBOL = re.compile(rb'[0-9]+(?:\.[0-9]+)?(?:[eE][+-]?[0-9]+)?|[A-Za-z_][A-Za-z0-9_]*')
GROUP = re.compile(rb'\[[^\]]*\]')
WORD = re.compile(rb'"([^"]*)"|([^ \t"]+)')
VALUED = re.compile(rb'([ \t]*(?:[0-9]+|\$[A-Za-z0-9_]+)[ \t]*:)(.*)', re.S)
BETWEEN = '// Steps in between: %s'
ALIKE, UNLIKE = 'each step is %d steps', 'a step is one step or more'
"""What `plift-lab fit` writes into the second line of a text with such steps."""
COUNTED = re.compile(rb'// [^\n]*\n' + BETWEEN.encode() % rb'(?:each step is ([0-9]{1,9}) |a step is one )')
Scale = Dict[str, Tuple[Fraction, Fraction]]
"""For each parameter p of a rescaled model the ends between which low + (high - low) p runs."""


def between_line(each: Optional[int]) -> str:
    """The line of a text with steps in between, of which each step of the text before has so many, or not as many."""
    return BETWEEN % (UNLIKE if each is None else ALIKE % each)


def _lines(text: bytes) -> Iterator[Tuple[str, bytes]]:
    """Each line, with what it is: of the parameters' names, with a value behind a colon, or anything else."""
    section, is_list = b'', False
    for line in text.split(b'\n'):
        bare = line.strip(b' \t\r')
        if bare.startswith(b'//'):
            yield 'other', line
        elif bare.startswith(b'@'):
            section, is_list = bare, bare == b'@parameters'
            yield 'other', line
        elif is_list:
            is_list = False
            yield 'names', line
        elif section in (b'@model', b'@placeholders') and VALUED.match(line):
            yield 'value', line
        else:
            yield 'other', line


@dataclass(frozen=True)
class Model:
    """A model text."""

    text: bytes

    @property
    def parameters(self) -> List[str]:
        """The names that it declares."""
        for what, line in _lines(self.text):
            if what == 'names':
                return [plain(name) for name in line.split()]
        return []

    @property
    def steps_of_each(self) -> Optional[int]:
        """How many steps a step of the text is that `plift-lab fit` made this of; none where they aren't alike."""
        found = COUNTED.match(self.text)
        return 1 if found is None else None if found.group(1) is None else int(found.group(1))

    def _changed(self, terms: Dict[bytes, bytes], is_kept: Callable[[bytes], bool]) -> 'Model':
        def value(line: bytes) -> bytes:
            parts = VALUED.match(line)
            if not parts or parts.group(2).lstrip(b' \t').startswith(b'$'):
                return line
            return parts.group(1) + SYMBOL.sub(lambda found: terms.get(found.group(), found.group()), parts.group(2))

        changed = []
        for what, line in _lines(self.text):
            if what == 'names':
                line = b' '.join(name for name in line.split() if is_kept(name))
            changed.append(value(line) if what == 'value' else line)
        return Model(b'\n'.join(changed))

    def fixed(self, region: Region) -> 'Model':
        """With the values of the region's fixed parameters written in."""
        if not region.fixed:
            return self
        terms = {name.encode(): b'(%s)' % exact(value).encode() for name, value in region.fixed}
        return self._changed(terms, lambda name: name not in terms)

    def rescaled(self, region: Region) -> Tuple['Model', Region, Scale]:
        """Each parameter p of the region written as low + (high - low) p, with p from 0 to 1, exactly."""
        terms, scale = {}, {}
        for name, low, high in region.intervals:
            term = '%s*%s' % (exact(high - low), name)
            terms[name.encode()] = b'(%s)' % (term if low == 0 else '%s+%s' % (exact(low), term)).encode()
            scale[name] = low, high
        units = tuple((name, Fraction(0), Fraction(1)) for name in region.names)
        return (self._changed(terms, lambda name: True), Region(units, region.fixed), scale)

    def states(self) -> List['NamedState']:
        """The states with their labels and the names of their actions, as far as the text has them."""
        found: List[NamedState] = []
        section = b''
        for line in self.text.split(b'\n'):
            bare = line.strip(b' \t\r')
            if bare.startswith(b'@'):
                section = bare
            elif section != b'@model' or bare.startswith(b'//'):
                continue
            elif bare.startswith(b'state'):
                words = [plain(quoted or word) for quoted, word in WORD.findall(GROUP.sub(b' ', bare))]
                found.append(NamedState([word for word in words[2:] if word != 'init'], []))
            elif bare.startswith(b'action') and found:
                words = [plain(quoted or word) for quoted, word in WORD.findall(GROUP.sub(b' ', bare))]
                found[-1].actions.append(words[1] if len(words) > 1 else '')
        return found


class NamedState(NamedTuple):
    """A state's labels, and the names of its actions."""

    labels: List[str]
    actions: List[str]
