"""Formulas of labels, and the labels that stand for them."""

from __future__ import annotations

import re
from typing import Callable, Collection, List, Set, Tuple

from ..faults import Fault
from .refusal import Unfit, shown
from .source import Source
from .told import Told

SYMBOL = re.compile(r'\s*(?:"([^"]*)"|(&&?|\|\|?|[!()])|([^\s"&|!()]+)|(\S))')
MOST_NESTED = 100
Holds = Callable[[Collection[bytes]], bool]
"""Whether a formula holds where these labels are."""


class Formula:
    """A formula of labels: `&`, `|`, `!` and parentheses, of which `!` binds most and `|` least."""

    def __init__(self, text: str, word: str) -> None:
        self.text, self.word = text, word
        self._symbols: List[Tuple[int, str]] = []
        for found in SYMBOL.finditer(text):
            kind = found.lastindex or 0
            if kind == 4:
                raise self._fault('a quote has no end')
            self._symbols.append((kind, found.group(kind)))
        self._place = self._nested = 0
        self.labels: List[bytes] = []
        """The labels that stand in it."""
        self.holds = self._either()
        if self._place < len(self._symbols):
            raise self._fault('`%s` doesn\'t fit where it stands' % shown(self._symbols[self._place][1]))

    @property
    def is_label(self) -> bool:
        """Whether it is a label by itself."""
        return len(self._symbols) == 1

    def _fault(self, about: str) -> Fault:
        return Fault('%s is no formula of labels: %s; write \'a & !("b c" | d)\'' % (self.word, about))

    def _sign(self) -> str:
        """The sign that stands here, if one does; doubled ones mean the same."""
        kind, text = self._symbols[self._place] if self._place < len(self._symbols) else (0, '')
        return text[:1] if kind == 2 else ''

    def _either(self) -> Holds:
        parts = [self._both()]
        while self._sign() == '|':
            self._place += 1
            parts.append(self._both())
        return parts[0] if len(parts) == 1 else lambda labels: any(part(labels) for part in parts)

    def _both(self) -> Holds:
        parts = [self._one()]
        while self._sign() == '&':
            self._place += 1
            parts.append(self._one())
        return parts[0] if len(parts) == 1 else lambda labels: all(part(labels) for part in parts)

    def _one(self) -> Holds:
        sign = self._sign()
        if not sign:
            return self._label()
        self._nested += 1
        if self._nested > MOST_NESTED:
            raise self._fault('more than %d brackets and signs stand around one place' % MOST_NESTED)
        if sign not in ('!', '('):
            raise self._fault('`%s` doesn\'t fit where it stands' % sign)
        self._place += 1
        part = self._one() if sign == '!' else self._either()
        if sign == '(':
            if self._sign() != ')':
                raise self._fault('a bracket has no end')
            self._place += 1
        self._nested -= 1
        return part if sign == '(' else lambda labels: not part(labels)

    def _label(self) -> Holds:
        if self._place == len(self._symbols):
            raise self._fault('it ends where a label should stand')
        name = self._symbols[self._place][1].encode('utf-8', 'surrogateescape')
        self._place += 1
        self.labels.append(name)
        return lambda labels: name in labels


def known_labels(source: Source) -> Set[bytes]:
    """All labels of a text."""
    return {label for state in source.states for label in state.labels}


def read_formula(source: Source, text: str, word: str) -> Formula:
    """A formula whose labels the text has."""
    formula = Formula(text, word)
    known = known_labels(source)
    for label in formula.labels:
        if label not in known:
            told = ', '.join(shown(each, 40) for each in sorted(known)[:8]) or 'none'
            about = '%s asks for the label `%s`, and no state has it; there are: %s'
            raise Unfit(source.last_line, 'UnknownLabel', about % (word, shown(label), told))
    return formula


def new_label(source: Source, name: str) -> bytes:
    """A label that no state has."""
    known, number = known_labels(source), 1
    while (name + '_%d' % number * (number > 1)).encode() in known:
        number += 1
    return (name + '_%d' % number * (number > 1)).encode()


def mark(source: Source, formula: Formula, name: str, told: Told) -> bytes:
    """Gives each state where a formula holds a new label, and returns it."""
    label = new_label(source, name)
    marked = 0
    for state in source.states:
        if formula.holds(state.labels):
            state.labels = [*state.labels, label]
            marked += 1
    told.change(
        'the label `%s` stands where %s holds' % (shown(label), formula.text.strip()),
        'it marks the very states where the formula holds; ask for it by name',
        'on %d of %d states' % (marked, len(source.states)),
    )
    return label
