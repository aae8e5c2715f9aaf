"""Checks what a report of `plift lumped` doesn't carry:  python3 lumped.py MODEL [LABEL] < report

The chain in the report's head has to be the quotient of the chain in MODEL by its coarsest right partition. That is
computed anew, by plain rounds: two states stay in a block while both are goal states or both not, and their transitions
into each block sum to the same polynomial. Goal states are those with the LABEL; without one each label of the model is
tried, as a report doesn't tell it. Whether the report is sound, recheck.py tells. A chain of n states may take n
rounds.

Statuses: 0 it is the quotient, 1 it isn't, 2 the words, 3 the model is no chain that plift reads, 5 read fault, 6 write
fault, 8 out of memory, 130 ctrl-C.
"""
from __future__ import annotations
import os
import re
import sys
from fractions import Fraction
from math import lcm
from typing import Callable, Dict, Hashable, Iterable, Iterator, TypeVar
from recheck import tell

WORD = re.compile(rb'"[^"]*"|\[[^]]*]|[^ \t]+')
SYMBOL = re.compile(rb'[A-Za-z_]\w*|(?:\d+\.?\d*|\.\d+)(?:[eE][+-]?\d+)?|[-+*/()]')
Number = TypeVar('Number', int, Fraction)
Poly = Dict[int, Number]  # the coefficient at each set of parameters
MOST_POWER = 2**21  # a literal's power of ten is smaller in size: it has to be made up for by zeros in a line


class NoChain(Exception):
    """The model is no chain, or its text isn't one that plift reads."""


class NoQuotient(Exception):
    """What isn't that of the quotient."""


def kept(poly: Poly[Number]) -> Poly[Number]:
    """The same polynomial, without coefficients that are 0."""
    return {m: c for m, c in poly.items() if c}


def plus(a: Poly[Number], b: Poly[Number]) -> Poly[Number]:
    total = dict(a)
    for m, c in b.items():
        total[m] = total[m] + c if m in total else c
    return kept(total)


def times(a: Poly[Fraction], b: Poly[Fraction]) -> Poly[Fraction]:  # no parameter is in both
    return {m | n: c * d for m, c in a.items() for n, d in b.items()}


OPERATIONS: dict[bytes, Callable[[Poly[Fraction], Poly[Fraction]], Poly[Fraction]]] = {
    b'+': plus,
    b'*': times,
    b'-': lambda a, b: plus(a, times(b, {0: Fraction(-1)})),
    b'/': lambda a, b: times(a, {0: 1 / b[0]}),
}


def literal(text: bytes) -> Fraction:
    """A number. Zeros alone are 0, whatever the power of ten behind them."""
    digits, _, power = text.lower().partition(b'e')
    if not digits.strip(b'0.'):
        return Fraction(0)
    if len(power) > 20 or abs(int(power or b'0')) > MOST_POWER:
        raise NoChain
    return Fraction(text.decode())


def value(text: bytes, names: list[bytes]) -> Poly[Fraction]:
    """A value as a polynomial: its coefficient at each set of parameters, bit i of a set being the i-th name."""
    left = SYMBOL.findall(text)[::-1]

    def row(part: Callable[[], Poly[Fraction]], operators: bytes) -> Poly[Fraction]:
        """Parts with these between them, grouped from the left."""
        result = part()
        while left and left[-1] in operators:
            operator = left.pop()
            result = OPERATIONS[operator](result, part())
        return result

    def factor() -> Poly[Fraction]:
        symbol = left.pop()
        if symbol == b'-':
            return times(factor(), {0: Fraction(-1)})
        if symbol == b'(':
            inner = whole()
            left.pop()
            return inner
        return {1 << names.index(symbol): Fraction(1)} if symbol in names else kept({0: literal(symbol)})

    def whole() -> Poly[Fraction]:
        return row(lambda: row(factor, b'*/'), b'+-')

    return whole()


class Chain:
    """A chain as its text tells it: its parameters, the labels of each state, and its transitions over C."""

    def __init__(self, text: bytes) -> None:
        lines = list(lines_of(text))
        head, body = lines[: lines.index(b'@model')], lines[lines.index(b'@model') + 1 :]
        if not any(re.fullmatch(rb'@type:[ \t]*DTMC', line) for line in head):
            raise NoChain
        self.names: list[bytes] = []
        self.labels: list[set[bytes]] = []
        self.rows: list[dict[int, Poly[Fraction]]] = []
        self.read_model(body, self.read_head(head))
        polys = [poly for row in self.rows for poly in row.values()]
        self.common = lcm(*(c.denominator for poly in polys for c in poly.values()))
        self.arrows = [{target: self.over_common(poly) for target, poly in row.items()} for row in self.rows]
        self.init = next(s for s, labels in enumerate(self.labels) if b'init' in labels)

    def read_head(self, head: list[bytes]) -> dict[bytes, Poly[Fraction]]:
        """Reads the parameters, and gives the placeholders. Other sections are passed over."""
        places: dict[bytes, Poly[Fraction]] = {}
        section, is_next = b'', False
        for line in head:
            if line.startswith(b'@'):
                section, is_next = line, True
            elif section == b'@parameters' and is_next:
                self.names, is_next = line.split(), False
            elif section == b'@placeholders' and line:
                name, text = line[1:].split(b':', 1)
                places[name.strip(b' \t')] = value(text, self.names)
        return places

    def read_model(self, body: list[bytes], places: dict[bytes, Poly[Fraction]]) -> None:
        """Reads the states, each with its labels and its transitions."""
        for line in filter(None, body):
            words = WORD.findall(line)
            if words[0] == b'state':
                labels = words[3:] if words[2:] and words[2].startswith(b'[') else words[2:]
                self.labels.append({word[1:-1] if word.startswith(b'"') else word for word in labels})
                self.rows.append({})
            elif words[0] != b'action':
                target, text = (part.strip(b' \t') for part in line.split(b':', 1))
                self.rows[-1][int(target)] = places[text[1:]] if text.startswith(b'$') else value(text, self.names)

    def over_common(self, poly: Poly[Fraction]) -> Poly[int]:
        return {m: int(c * self.common) for m, c in poly.items()}

    def into(self, s: int, block: list[int]) -> dict[int, Poly[int]]:
        """What the transitions of a state sum to, block by block; sums that are 0 are left out."""
        sums: dict[int, Poly[int]] = {}
        for target, poly in self.arrows[s].items():
            sums[block[target]] = plus(sums.get(block[target], {}), poly)
        return {b: poly for b, poly in sums.items() if poly}

    def blocks(self, goals: list[bool]) -> list[int]:
        """The block of each state in the coarsest right partition, numbered by the blocks' least states."""
        block, count = numbered(goals), 0
        while count < max(block) + 1:
            count = max(block) + 1
            behaviours: list[Hashable] = [
                None if goals[s] else frozenset((b, frozenset(poly.items())) for b, poly in self.into(s, block).items())
                for s in range(len(block))
            ]
            block = numbered(zip(block, behaviours))
        return block

    def quotient(self, label: bytes) -> list[bytes]:
        """The lines of the quotient's chain, for the states with this label."""
        goals = [label in labels for labels in self.labels]
        block = self.blocks(goals)
        firsts = sorted({b: s for s, b in reversed(list(enumerate(block)))}.values())
        reached = [b for b, s in enumerate(firsts) if goals[s]]
        lines = [
            b'kind dtmc',
            joined(b'parameters', len(self.names), *self.names),
            joined(b'common', self.common),
            joined(b'states', len(firsts)),
            joined(b'init', block[self.init]),
            joined(b'goal', len(reached), *reached),
        ]
        for b, s in enumerate(firsts):
            row = {b: {0: self.common}} if goals[s] else self.into(s, block)
            lines.append(joined(b'row', b, 0, len(row)))
            lines += [
                joined(b'to', target, *(b'%d:%d' % term for term in sorted(poly.items())))
                for target, poly in sorted(row.items())
            ]
        return lines


def lines_of(text: bytes) -> Iterator[bytes]:
    """The lines of a model's text, without blanks at their ends and without comments, which may hold any bytes."""
    for line in text.split(b'\n'):
        line = (line[:-1] if line.endswith(b'\r') else line).strip(b' \t')
        if not line.startswith(b'//'):
            yield line


def numbered(keys: Iterable[Hashable]) -> list[int]:
    """Numbers for keys, the same for the same key, in the order in which they come first."""
    names: dict[Hashable, int] = {}
    return [names.setdefault(key, len(names)) for key in keys]


def joined(*words: bytes | int) -> bytes:
    return b' '.join(word if isinstance(word, bytes) else b'%d' % word for word in words)


def chain_lines(report: Iterable[bytes]) -> list[bytes]:
    """The lines of a report's chain."""
    lines: list[bytes] = []
    for line in report:
        if line.startswith(b'bound '):
            break
        lines.append(line[:-1])
    else:
        lines = []
    if lines[:1] != [b'plift 1']:
        raise NoQuotient('not a report of version 1')
    return lines[1:]


def difference(lines: list[bytes], wanted: list[bytes]) -> str:
    """The first line that differs, and what it should be."""
    at = next((at for at, pair in enumerate(zip(lines, wanted)) if pair[0] != pair[1]), min(len(lines), len(wanted)))
    found, want = (shown((text[at : at + 1] or [b'nothing'])[0]) for text in (lines, wanted))
    return f'line {at + 2}: {found}, not {want}'


def shown(line: bytes) -> str:
    """A line of a stranger's text, with no byte that a terminal would obey."""
    text = line if len(line) <= 200 else line[:200] + b'..'
    return re.sub(rb'[^ -~]', lambda byte: b'\\x%02x' % byte[0][0], text).decode()


def read_chain(path: str) -> Chain:
    """The chain of a model's file."""
    with open(path, 'rb') as file:
        text = file.read()
    try:
        return Chain(text)
    except (ArithmeticError, LookupError, RecursionError, StopIteration, ValueError) as fault:
        raise NoChain from fault


def compare(chain: Chain, lines: list[bytes], labels: list[bytes]) -> str:
    """Which quotient of the chain these lines are, by one of the labels."""
    used = [label for label in labels if any(label in has for has in chain.labels)]
    quotients = {label: chain.quotient(label) for label in used}
    found = [shown(label) for label, wanted in quotients.items() if wanted == lines]
    if not found:
        told = [f'{shown(label)}: {difference(lines, wanted)}' for label, wanted in quotients.items()]
        raise NoQuotient('\n'.join(['not the quotient', *(told or ['no state has the label'])]))
    states = next(line for line in lines if line.startswith(b'states ')).split()[1].decode()
    return f'the quotient of {len(chain.rows)} states has {states}, for the goal {" or ".join(found)}'


def main(words: list[str]) -> int:
    if words in (['--help'], ['-h']):
        return tell(__doc__, 0, 1)
    if len(words) not in (1, 2):
        return tell('usage: lumped.py MODEL [LABEL] < report', 2)
    try:
        chain = read_chain(words[0])
        with open(0, 'rb') as report:
            lines = chain_lines(report)
        return tell(
            compare(chain, lines, [os.fsencode(words[1])] if words[1:] else sorted(set().union(*chain.labels))), 0, 1
        )
    except NoQuotient as fault:
        return tell(fault, 1)
    except NoChain:
        return tell('the model is no chain that plift reads', 3)
    except OSError as fault:
        return tell(f'read fault: {fault}', 5)
    except MemoryError:
        return tell('out of memory', 8)
    except KeyboardInterrupt:
        return 130


if __name__ == '__main__':
    sys.exit(main(sys.argv[1:]))
