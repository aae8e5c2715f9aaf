"""What the tests of `plift-lab fit` share: a reader and a solver that share nothing with the tool."""

from __future__ import annotations

import re
from fractions import Fraction
from functools import lru_cache
from types import CodeType
from typing import Dict, List, Mapping, NamedTuple, Sequence, Set, Tuple

NUMBER = re.compile(r'(?<![\w.^])[0-9]+(?:\.[0-9]+)?(?:[eE][+-]?[0-9]+)?')


@lru_cache(maxsize=None)
def _compiled(value: str) -> CodeType:
    """A value as Python's code, in which numbers are fractions, but for powers."""
    code: CodeType = compile(NUMBER.sub(r'F("\g<0>")', value.strip()).replace('^', '**'), 'a value', 'eval')
    return code


def worth(value: str, valuation: Mapping[str, Fraction]) -> Fraction:
    """A value at a valuation."""
    return Fraction(eval(_compiled(value), {'F': Fraction}, dict(valuation)))


class Read(NamedTuple):
    """A model: for each state its labels and its choices, each a list of targets and values."""

    labels: List[Set[str]]
    choices: List[List[List[Tuple[int, str]]]]

    @property
    def start(self) -> int:
        """The initial state."""
        return next(state for state, names in enumerate(self.labels) if 'init' in names)


def read(text: str) -> Read:
    """Reads a text whose labels have no blanks, and without placeholders."""
    labels: List[Set[str]] = []
    choices: List[List[List[Tuple[int, str]]]] = []
    for line in text.split('@model\n')[1].splitlines():
        words = line.split()
        if not words or line.strip().startswith('//'):
            continue
        if words[0] == 'state':
            labels.append({word.strip('"') for word in words[2:] if not re.fullmatch(r'\[.*\]', word)})
            choices.append([])
            is_new = True
        elif words[0] == 'action':
            choices[-1].append([])
            is_new = False
        else:
            if is_new:
                choices[-1].append([])
                is_new = False
            target, value = line.split(':')
            choices[-1][-1].append((int(target), value))
    return Read(labels, choices)


def reached(
    model: Read, valuation: Mapping[str, Fraction], goal: str, picks: Sequence[int] = (), safe: str = ''
) -> Fraction:
    """How likely the goal is reached from the initial state, exactly, for some choices; with a safe label by way of
    states that have it alone. States are eliminated, the last one first."""
    known: Dict[str, Fraction] = {}
    rows: List[Dict[int, Fraction]] = []
    for state, (names, choices) in enumerate(zip(model.labels, model.choices)):
        row: Dict[int, Fraction] = {}
        if goal in names:
            row[-1] = Fraction(1)
        elif not safe or safe in names:
            for target, value in choices[picks[state] if state < len(picks) else 0]:
                if value not in known:
                    known[value] = worth(value, valuation)
                if known[value]:
                    row[target] = row.get(target, Fraction(0)) + known[value]
        rows.append(row)
    order = [state for state in reversed(range(len(rows))) if state != model.start] + [model.start]
    for state in order:
        row = rows[state]
        loop = row.pop(state, Fraction(0))
        if loop == 1:
            row.clear()
        elif loop:
            for target in row:
                row[target] /= 1 - loop
        for other in rows:
            share = other.pop(state, None) if other is not row else None
            if share:
                for target, part in row.items():
                    other[target] = other.get(target, Fraction(0)) + share * part
    return rows[model.start].get(-1, Fraction(0))


def reached_within(model: Read, valuation: Mapping[str, Fraction], goal: str, steps: int) -> Fraction:
    """How likely the goal of a chain is reached from the initial state in so many steps."""
    known = [Fraction(goal in names) for names in model.labels]
    for _ in range(steps):
        known = [
            one
            if goal in names
            else sum((worth(value, valuation) * known[target] for target, value in row), Fraction(0))
            for one, names, (row, *_) in zip(known, model.labels, model.choices)
        ]
    return known[model.start]
