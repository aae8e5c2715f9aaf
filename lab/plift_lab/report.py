"""Reports as data: the question in the head, and the leaves of the tree.

This reads reports of `verify` and the texts of `bounded`, `property` and `cost`, which are reports here, too. It
doesn't judge: a report is given to it once it was called sound.
"""

from __future__ import annotations

import re
from collections import Counter
from dataclasses import dataclass, field
from fractions import Fraction
from functools import cached_property, lru_cache
from typing import Any, Dict, FrozenSet, Iterator, List, Optional, Tuple

from .faults import Fault
from .forms import Form
from .origin import Origin
from .plain import listed, plain
from .regions import Interval, Region
from .values import percent

HEADS = {
    'plift 1': 'verify',
    'plift 2': 'verify',
    'plift-bounded 1': 'bounded',
    'plift-property 1': 'property',
    'plift-property 2': 'property',
    'plift-cost 1': 'cost',
}
"""The first line of a text, and the command that writes it."""
ASKED = re.compile(r'\n(?=bound |property |cost )')
ACCEPT, REJECT, UNKNOWN = 'accept', 'reject', 'unknown'
KINDS = (ACCEPT, REJECT, UNKNOWN)
CERTIFIED = {b'accept': ACCEPT, b'holds': ACCEPT, b'reject': REJECT, b'fails': REJECT}
"""The first words of certificates."""
PAST = {ACCEPT: 'accepted', REJECT: 'rejected', UNKNOWN: 'unknown'}


@dataclass(frozen=True)
class Leaf:
    """A rectangle that wasn't halved further, and what is said of it."""

    report: 'Report' = field(repr=False)
    number: int
    kind: str
    depth: int
    ends: Tuple[int, ...]
    value: Optional[Fraction]
    """Of the initial state: where it is accepted no more is reached or spent than this (no less, where the question is
    of what is reached at least), where it is rejected no less (no more)."""
    scheduler: Optional[int]
    """Its place in the report's list of schedulers; only of a leaf of a decision process that prints one."""
    precision: int
    """Its certificate's numbers are over 2 to this power; of an unknown leaf the report's, at which there is none."""

    @property
    def rectangle(self) -> Dict[str, Interval]:
        """An interval for each parameter, in the user's own numbers."""
        ends = [self.report.user_end(place, end) for place, end in enumerate(self.ends)]
        return dict(zip(self.report.parameters, zip(ends[::2], ends[1::2])))

    @property
    def own_rectangle(self) -> Dict[str, Interval]:
        """An interval for each parameter of the report's model, which may be a rescaled one."""
        return self.report.own_rectangle(self.ends)

    @property
    def share(self) -> Fraction:
        """Of the whole region's volume."""
        return Fraction(1, 2**self.depth)


class Report:
    """A sound report, with what its judge says of it and what is known of how it came to be.

    `verdict` is `accepted`, `rejected`, `mixed` or `unknown`, `shares` the part of the region's volume of each kind of
    leaf (`accept`, `reject`, `unknown`), and `leaves()` goes through the leaves: each has a `kind`, a `rectangle` (from
    names to pairs of fractions, in your own numbers), a `value` and a `share`. `soundness` is the judge's line, `judge`
    who that is, `data` the report itself and `path` where it lies. In a notebook it shows a table and a picture.
    """

    holder: Any = None
    """Keeps a folder that nobody named, as long as this is there."""

    def __init__(self, data: bytes, soundness: str, origin: Origin = Origin(), path: str = '', judge: str = '') -> None:
        self.data, self.soundness, self.origin, self.path, self.judge = data, soundness, origin, path, judge
        self._ends: Dict[Tuple[int, int], Fraction] = {}
        self.live: List[str] = []
        """The parameters that a row depends on."""
        try:
            self._read_head()
            self._read_tree()
        except (ValueError, IndexError, KeyError, AttributeError):
            raise Fault(
                '%s was called sound, but it isn\'t in a form that is known here' % (path or 'the report')
            ) from None

    def __repr__(self) -> str:
        return 'Report(%s)' % self.verdict_line

    def _repr_html_(self) -> str:
        from .shown import report_html

        return report_html(self)

    def _repr_svg_(self) -> Optional[str]:
        """The picture; none of a report of very many leaves, which a notebook had to carry."""
        from .picture import svg
        from .shown import MOST_DRAWN

        return svg(self) if self.live and len(self.nodes) <= 2 * MOST_DRAWN else None

    def require_borne_out(self) -> None:
        """Refuses what is told of a report's parameters that the report itself doesn't bear out: one that was rescaled
        runs from 0 to 1 in it, and one that was fixed isn't there."""
        ends = dict(zip(self.parameters, zip(self.box[::2], self.box[1::2])))
        wrong = [name for name in self.origin.scale if ends.get(name) != (0, self.grid)]
        wrong += [name for name in self.origin.fixed if name in ends]
        if wrong:
            raise Fault(
                '%s.json tells of %s what the report\'s region doesn\'t bear out; move it away to read the report by '
                'itself' % (self.path, listed(wrong))
            )

    def _read_head(self) -> None:
        box = self.data.index(b'\nbox') + 1
        head = self.data[:box].decode('ascii')
        first = head.partition('\n')[0]
        if first not in HEADS:
            raise Fault('a report of version %s isn\'t read here; this reads %s' % (first[6:46], ', '.join(HEADS)))
        self.command, self.version = HEADS[first], int(first[-1])
        self._model_begin = head.index('\nrow ') + 1
        asked = ASKED.search(head)
        if asked is None:
            raise ValueError('nothing is asked')
        self._model_end = asked.end()
        self._asked_end = head.index('\ndepth ', self._model_end) + 1
        around = head[: self._model_begin] + head[self._model_end :]
        lines = dict(line.partition(' ')[::2] for line in around.splitlines())
        self.kind, self.parameters = lines['kind'], lines['parameters'].split()[1:]
        self.common, self.states, self.init = int(lines['common']), int(lines['states']), int(lines['init'])
        self.goals = [int(word) for word in lines['goal'].split()[1:]]
        self._read_asked(lines)
        self.precision = int(lines['precision'])
        self.least_precision = int(lines['from']) if self.version == 2 else self.precision
        self.depth, self.grid = int(lines['depth']), int(lines['grid'])
        self.tree_begin = self.data.index(b'\n', box) + 1
        self.box = tuple(int(word) for word in self.data[box : self.tree_begin].split()[1:])
        sets = _sets(self.data[self._model_begin : self._model_end])
        self.live = [name for i, name in enumerate(self.parameters) if any(one >> i & 1 for one in sets)]

    def _read_asked(self, lines: Dict[str, str]) -> None:
        """What is asked: the text tells it, but for labels, which the origin tells."""
        safe, op, bound = self.origin.safe, '<=', lines.get('bound', '')
        steps = int(lines['steps']) if self.command == 'bounded' else None
        reward, cap = None, None
        self.costs: List[Fraction] = []
        if self.command == 'property':
            op, bound = lines['property'].split()
        if self.command == 'cost':
            bound, cap, reward = lines['budget'], int(lines['cap']), self.origin.reward or 'cost'
            self.costs = [Fraction(word) for word in lines['cost'].split()]
        self.bound, self.form = Fraction(bound), Form(op, safe, steps, reward, cap)

    def _read_tree(self) -> None:
        """Notes the nodes in their order: a split's axis; a leaf's kind, number, scheduler and precision."""
        self.nodes: List[Any] = []
        self.starts: List[int] = []
        """Where each node begins in the text."""
        self.values: List[Optional[int]] = []
        """Of each leaf the initial state's number, over 2 to the report's precision."""
        self._picks: List[Optional[int]] = []
        self._precisions: List[int] = []
        self._schedulers: Dict[bytes, int] = {}
        start, end, line, bits, is_begun = (self.tree_begin, len(self.data), b'', self.precision, False)
        while start < end:
            if not is_begun:
                self.starts.append(start)
            stop = self.data.index(b'\n', start)
            line = self.data[start:stop]
            key = line[:6]
            is_begun = key[:3] == b'at '
            if key == b'split ':
                self.nodes.append(int(line[6:]))
            elif key == b'unknow':
                self._add(UNKNOWN, None, None, self.precision)
            elif is_begun:
                bits = int(line[3:])
            else:
                stop = self._read_certificate(CERTIFIED[line.partition(b' ')[0]], line, stop, bits)
            start = stop + 1

    def _read_certificate(self, kind: str, line: bytes, stop: int, bits: int) -> int:
        """Notes a decided leaf whose first line ends at `stop`, and tells where its last line ends."""
        lines = [line]
        for _ in range(self._lines_below(kind)):
            start, stop = stop + 1, self.data.index(b'\n', stop + 1)
            lines.append(self.data[start:stop])
        told = lines[-1] if self.command == 'bounded' and kind == ACCEPT else lines[self.command == 'property']
        is_told_apart = told.startswith((b'reject ', b'lower '))
        place = self.init + 1 + (self.command == 'bounded')
        word = told.rpartition(b' ')[2].partition(b'/')[0] if is_told_apart else told.split(b' ', place + 1)[place]
        choices = b'; '.join(each[7:] for each in lines if each[:7] == b'choice ')
        self._add(
            kind, int(word), self._schedulers.setdefault(choices, len(self._schedulers)) if choices else None, bits
        )
        return stop

    def lines_below(self, line: bytes) -> int:
        """How many lines belong to a node's first line."""
        kind = CERTIFIED.get(line.partition(b' ')[0].rstrip())
        return 0 if kind is None else self._lines_below(kind)

    def _lines_below(self, kind: str) -> int:
        """How many lines a certificate has below its first one."""
        if self.command == 'bounded':
            return (self.form.steps or 0) * (1 if kind == ACCEPT else 2)
        if self.command == 'property':
            lines = (3, 2) if self.form.is_of_least else (1, 4)
            return lines[kind == REJECT]
        return 0 if kind == ACCEPT else 3

    def _add(self, kind: str, value: Optional[int], pick: Optional[int], bits: int) -> None:
        self.nodes.append(kind)
        self.values.append(None if value is None else value << self.precision - bits)
        self._picks.append(pick)
        self._precisions.append(bits)

    @property
    def model_lines(self) -> bytes:
        """The lines of the head down to the last row."""
        return self.data[: self._model_end]

    @property
    def asked_lines(self) -> bytes:
        """The lines of the head behind the last row down to the precision."""
        return self.data[self._model_end : self._asked_end]

    @cached_property
    def choices(self) -> List[int]:
        """How many choices each state has."""
        counts = [0] * self.states
        for state in re.findall(rb'^row ([0-9]+) ', self.model_lines, re.M):
            counts[int(state)] += 1
        return counts

    @property
    def question(self) -> str:
        """What was asked, as a line."""
        return plain(self.form.question(self.origin.goal, self.bound))

    def user(self, name: str, value: Fraction) -> Fraction:
        """A parameter's value in the user's own numbers."""
        low, high = self.origin.scale.get(name, (Fraction(0), Fraction(1)))
        return low + (high - low) * value

    def user_end(self, place: int, end: int) -> Fraction:
        """The same of an end over the grid, by its place in a rectangle; neighbours share their ends."""
        key = place // 2, end
        if key not in self._ends:
            self._ends[key] = self.user(self.parameters[place // 2], Fraction(end, self.grid))
        return self._ends[key]

    def user_value(self, place: int, end: Fraction) -> Fraction:
        """The same of a value that need not be an end, over the grid, by its parameter's place."""
        return self.user(self.parameters[place], end / self.grid)

    @property
    def region(self) -> Region:
        """The whole region, in the user's own numbers."""
        ends = [Fraction(end, self.grid) for end in self.box]
        return Region(
            tuple(
                (name, self.user(name, low), self.user(name, high))
                for name, low, high in zip(self.parameters, ends[::2], ends[1::2])
            ),
            tuple(sorted(self.origin.fixed.items())),
        )

    def own_rectangle(self, ends: Tuple[int, ...]) -> Dict[str, Interval]:
        """An interval for each parameter of the report's model, from ends over its grid."""
        values = [Fraction(end, self.grid) for end in ends]
        return dict(zip(self.parameters, zip(values[::2], values[1::2])))

    def walk(self) -> Iterator[Tuple[int, Tuple[int, ...]]]:
        """Of each node, in the order of the report, below how many splits it stands, and the ends of its rectangle."""
        due = [(0, self.box)]
        for node in self.nodes:
            depth, ends = due.pop()
            yield depth, ends
            if isinstance(node, int):
                low, high = ends[2 * node], ends[2 * node + 1]
                middle = (low + high) // 2
                due.append((depth + 1, ends[: 2 * node] + (middle,) + ends[2 * node + 1 :]))
                due.append((depth + 1, ends[: 2 * node + 1] + (middle,) + ends[2 * node + 2 :]))

    def leaves(self) -> Iterator[Leaf]:
        """The leaves, in the order of the report."""
        one, number, unit = 2**self.precision, 0, self.form.unit
        for node, (depth, ends) in zip(self.nodes, self.walk()):
            if isinstance(node, int):
                continue
            value = self.values[number]
            yield Leaf(
                self,
                number,
                node,
                depth,
                ends,
                None if value is None else Fraction(value * unit, one),
                self._picks[number] if self.kind == 'mdp' else None,
                self._precisions[number],
            )
            number += 1

    @property
    def counts(self) -> Dict[Tuple[str, int], int]:
        """How many leaves there are of a kind, below so many splits."""
        counts: Counter[Tuple[str, int]] = Counter()
        due = [0]
        for node in self.nodes:
            depth = due.pop()
            if isinstance(node, int):
                due += [depth + 1, depth + 1]
            else:
                counts[node, depth] += 1
        return dict(counts)

    @property
    def shares(self) -> Dict[str, Fraction]:
        """Of the region's volume, by kind."""
        shares = dict.fromkeys(KINDS, Fraction(0))
        for (kind, depth), count in self.counts.items():
            shares[kind] += Fraction(count, 2**depth)
        return shares

    @property
    def verdict(self) -> str:
        """`accepted` everywhere; `rejected` everywhere; `mixed`: rejected in a part alone; else `unknown`."""
        shares = self.shares
        if shares[ACCEPT] == 1:
            return 'accepted'
        if shares[REJECT]:
            return 'rejected' if shares[REJECT] == 1 else 'mixed'
        return 'unknown'

    @property
    def verdict_line(self) -> str:
        """The verdict with the shares of what there is."""
        shares = '' if 1 in self.shares.values() else ' (%s)' % shares_text(self)
        return '%s: %s%s' % (self.verdict, self.question, shares)

    @property
    def precisions(self) -> List[int]:
        """Of each decided leaf, in their order, its own precision."""
        return [bits for bits, value in zip(self._precisions, self.values) if value is not None]

    @property
    def picks(self) -> List[int]:
        """Of each leaf that prints a scheduler, in their order, the place of it."""
        return [pick for pick in self._picks if pick is not None]

    @property
    def scheduler_texts(self) -> List[str]:
        """The different schedulers of leaves as the report writes them."""
        return [line.decode('ascii') for line in self._schedulers]

    @property
    def schedulers(self) -> List[Any]:
        """The different schedulers of leaves that print one: for each state its choice, none where none is made. Where
        the number of steps counts it is a list of these, by the steps that are left."""
        told = [[_choices(part) for part in text.split('; ')] for text in self.scheduler_texts]
        return [[choices[1:] for choices in one] if self.command == 'bounded' else one[0] for one in told]

    @cached_property
    def model_text(self) -> bytes:
        """The report's model as a text, whose goal states carry the label `goal`."""
        lines = ['@type: ' + self.kind.upper()]
        if self.parameters:
            lines += ['@parameters', ' '.join(self.parameters)]
        lines += ['@reward_models', 'cost', '@model'] if self.costs else ['@model']
        before, goals = -1, set(self.goals)
        for line in self.data[self._model_begin : self._model_end].decode('ascii').splitlines():
            words = line.split(' ')
            if words[0] == 'row':
                state = int(words[1])
                if state != before:
                    labels = ' init' * (state == self.init) + ' goal' * (state in goals)
                    costs = ' [%s]' % self.costs[state] if self.costs else ''
                    lines.append('state %d%s%s' % (state, costs, labels))
                    before = state
                if self.kind == 'mdp':
                    lines.append('action %s' % words[2])
            else:
                lines.append('%s : %s' % (words[1], '+'.join(map(self._term, words[2:])) or '0'))
        return ('\n'.join(lines) + '\n').encode()

    def _term(self, word: str) -> str:
        members, _, coefficient = word.partition(':')
        names = [name for i, name in enumerate(self.parameters) if int(members) >> i & 1]
        return '*'.join([str(Fraction(int(coefficient), self.common))] + names)


@lru_cache(maxsize=4)
def _sets(model_lines: bytes) -> FrozenSet[int]:
    """The sets of parameters that occur in a model's rows. Reports of one session mostly have the same model."""
    return frozenset(map(int, set(re.findall(rb' ([0-9]+):', model_lines))))


def _choices(text: str) -> List[Optional[int]]:
    """Choices as numbers; of a number of steps that number stands before them."""
    return [None if word == '-' else int(word) for word in text.split()]


def shares_text(report: Report) -> str:
    """The kinds that there are, each with its share."""
    return ', '.join('%s %s' % (PAST[kind], percent(share)) for kind, share in report.shares.items() if share)
