"""Checks a report of plift by itself, of `verify`, `bounded`, `property` or `cost`:  python3 recheck.py [FILE]

Writes `sound accept A reject B unknown C`, of `property` `sound holds A fails B unknown C`, of `cost` `sound accept A
unknown B`, or tells the first fault on standard error and ends with 1. Without FILE it reads standard input. Other
statuses: 2 the words, 5 read fault, 6 write fault, 7 too long, 8 out of memory, 130 ctrl-C. Written from FORMATS.md in
docs/, it shares nothing with plift's code; CHECKING.md there tells why its tests show what they show.
"""
from __future__ import annotations
import os
import re
import sys
from collections import Counter
from itertools import groupby, product
from math import gcd, prod
from operator import mul, sub
from typing import BinaryIO, Callable, Dict, Iterator, List, Optional, Tuple

NONE = 2**32  # for a choice or a rank that is `-`
MOST_BYTES, MOST_LINE = 2**32, 2**20  # of a report, and of one of its lines
PART, COST_PART = 2**32 - 1, 2**62 - 1  # the greatest denominator of a bound, and the greatest part of a cost
REPORT, BOUNDED, PROPERTY, COST = FORMS = b'plift', b'plift-bounded', b'plift-property', b'plift-cost'  # the first word
NUMBER, NAME = re.compile(rb'0|-?[1-9][0-9]*'), re.compile(rb'[A-Za-z_][A-Za-z0-9_]*')
Box = List[Tuple[int, int]]  # a rectangle: for each parameter its two ends
Poly = Tuple[Tuple[int, int], ...]  # terms (set of parameters, coefficient); bit i of a set is the i-th parameter
Row = Tuple[int, List[int], 'Shape']  # its choice, the targets of its transitions, and their polynomials
Marks = Optional[List[int]]  # for each state a choice or a rank; None: each choice counts
getattr(sys, 'set_int_max_str_digits', int)(0)  # a line may hold a number of any length


class Fault(Exception):
    """What is wrong. Where it is wrong, the text tells: its place."""


def need(holds: object, cause: str = 'Syntax') -> None:
    if not holds:
        raise Fault(cause)


def within(n: int, low: int, high: int) -> int:
    need(low <= n <= high, 'Limit')
    return n


def number(word: bytes) -> int:
    """What int(word) is; a long word is read by halves, as int takes time by the square of its length."""
    half = len(word) // 2
    if half < 1000:
        return int(word)
    high, low = number(word[:half]), number(word[half:])
    return high * int(10 ** (len(word) - half)) + (-low if high < 0 else low)


def numbers(words: list[bytes], count: int | None = None) -> list[int]:
    need(count in (None, len(words)) and all(map(NUMBER.fullmatch, words)))
    return list(map(number, words)) if max(map(len, words), default=0) > 1000 else list(map(int, words))


def pair(word: bytes, mark: bytes) -> tuple[int, int]:
    left, right = numbers(word.split(mark, 1), 2)
    return left, right


def lowest(n: int, d: int, above: int, below: int) -> tuple[int, int]:
    """A fraction in lowest terms of at least 0, neither part of which is above its limit."""
    need(0 <= n <= above and d > 0, 'Limit')
    need(gcd(n, d) == 1)
    need(d <= below, 'Limit')
    return n, d


class Text:
    """A report, and how far it was read: which line is due, and how many bytes came before it."""

    def __init__(self, source: BinaryIO) -> None:
        self.source, self.line, self.taken, self.held, self.place = source, 1, 0, b'', ''

    def ahead(self) -> bytes:
        """The line that is due, as far as a line may go; nothing where nothing is left."""
        self.held = self.held or self.source.readline(MOST_LINE + 1)
        if self.taken + len(self.held) > MOST_BYTES:
            raise OverflowError('more bytes than a report may have')
        return self.held

    def due(self) -> list[bytes]:
        """Its words."""
        self.place, line = f'line {self.line}: ', self.ahead()
        need(line.endswith(b'\n'), 'Limit' if len(line) > MOST_LINE else 'Truncated')
        return line[:-1].split(b' ')

    def take(self, key: bytes) -> list[bytes]:
        """Those behind its first ones, which have to be the key's. Then the next line is due."""
        words, keys = self.due(), key.split(b' ')
        self.line, self.taken, self.held = self.line + 1, self.taken + len(self.held), b''
        need(words[: len(keys)] == keys)
        return words[len(keys) :]

    def single(self, key: bytes, low: int, high: int) -> int:
        return within(numbers(self.take(key), 1)[0], low, high)

    def counted(self, key: bytes) -> list[bytes]:
        """The words behind their number, which follows the key."""
        words = self.take(key)
        need(numbers(words[:1], 1)[0] == len(words) - 1)
        return words[1:]


class Shape:
    """A row's polynomials, each of terms (set of parameters, coefficient). Rows with the same ones share a shape."""

    def __init__(self, polys: tuple[Poly, ...], first: tuple[int, int, list[int]]) -> None:
        self.polys, self.first, self.sets = polys, first, tuple({m for poly in polys for m, _ in poly})
        self.parameters = [i for i in range(16) if any(m >> i & 1 for m in self.sets)]
        self.box, self.weights = [], []  # type: Box, List[List[int]]
        used = self.sets if len(self.parameters) <= 4 else ()  # else the row is refused, and no corner is asked for
        self.factors = [[dict(poly).get(m, 0) for m in used] for poly in polys]

    def corners(self, box: Box, grid: int, known: dict[tuple[int, ...], list[list[int]]]) -> list[list[int]]:
        """For each corner in a rectangle, the weight of each transition. Products at known sets aren't made again."""
        if self.box is not box:
            if self.sets not in known:
                sides = [[(1 << i, end) for end in box[i]] for i in reversed(self.parameters)]
                ends = product(*sides)  # bit 0 of a corner's number: of the first parameter
                known[self.sets] = [[prod([n if m & i else grid for i, n in at]) for m in self.sets] for at in ends]
            self.box, self.weights = box, [[sum(map(mul, it, at)) for it in self.factors] for at in known[self.sets]]
        return self.weights


class Choices:
    """Rows of a state over the same parameters, tested at once: long integers have a field of 128 bits for each, so all
    are added, or multiplied by a number, in one step. By the rule of width (test_rows) what is tested lies between
    -2^126 and 2^126: with 2^127 in each field besides, its top bit tells whether a number is at least 0, and none runs
    over. Greater ones on the way do no harm: sums of multiples of 2^128 are exact, and fields are read at the end."""

    def __init__(self, rows: list[Row], report: Report) -> None:
        self.rows, self.parameters, g = rows, rows[0][2].parameters, len(rows[0][2].parameters)
        self.ones, self.whole = sum([1 << 128 * i for i in range(len(rows))]), report.common * report.grid**g
        polys = [(i, s, poly) for i, row in enumerate(rows) for s, poly in zip(row[1], row[2].polys)]
        self.terms = {(m, s): 0 for _, s, poly in polys for m, _ in poly}  # for each set and target the coefficients
        self.pays = 16 * sum([len(poly) for _, _, poly in polys]) >= len(rows) * len(self.terms)  # few fields are 0
        for i, s, m, c in [(i, s, m, c) for i, s, poly in polys for m, c in poly if self.pays]:
            self.terms[m, s] += c * report.grid ** (g - bin(m).count('1')) << 128 * i

    def hold(self, sign: int, times: int, e: int, value: Callable[[int], int], box: Box) -> bool:
        """Whether in each row, at each corner, the mean of the targets' values is at least times / 2^e, or at most."""
        signs, least = self.ones << 127, -(-times * self.whole >> e)
        corners = [{0: signs - sign * least * self.ones}]  # at each choice of ends a polynomial in the others
        for (m, s), fields in self.terms.items():
            corners[0][m] = corners[0].get(m, 0) + fields * (sign * value(s))
        for i in self.parameters:
            sets = {m & ~(1 << i) for m in corners[0]}
            corners = [{m: at.get(m, 0) + at.get(m | 1 << i, 0) * n for m in sets} for at in corners for n in box[i]]
        return all([at[0] & signs == signs for at in corners])


class Report:
    """What the head of a report says; and the tests of its leaves, each of which reads its leaf."""

    def __init__(self, text: Text) -> None:
        self.text, form = text, text.due()[0]
        self.form, version = form, numbers(text.take(form if form in FORMS else REPORT), 1)
        need(version == [1] or version == [2] and form in (REPORT, PROPERTY), 'Version')
        kind = self.kind = text.take(b'kind')
        need(kind in ([b'dtmc'], [b'mdp']))
        names = text.counted(b'parameters')
        need(all(map(NAME.fullmatch, names)))
        need(len(names) <= 16, 'Limit')
        for i, name in enumerate(names):
            need(name not in names[:i])
            need(len(name) <= 64, 'Limit')
        self.names, self.parameters, self.common = names, len(names), text.single(b'common', 1, 2**62 - 1)
        self.size = text.single(b'states', 1, 2**16)
        self.init = text.single(b'init', 0, self.size - 1)
        goals = numbers(text.counted(b'goal'))
        need(goals)
        for i, s in enumerate(goals):
            need(i == 0 or goals[i - 1] < s)
            within(s, 0, self.size - 1)
        self.goals = set(goals)
        self.shapes, self.states = {}, []  # type: Dict[Tuple[Poly, ...], Shape], List[List[Row]]
        self.read_states(kind == [b'mdp'])
        costs = [pair(word, b'/') for word in text.take(b'cost')] if form == COST else [(0, 1)] * self.size
        need(len(costs) == self.size)
        costs = [lowest(*cost, COST_PART, COST_PART) for cost in costs]  # of a visit of each state
        self.cap = text.single(b'cap', 1, PART) if form == COST else 1  # what 2^W stands for
        words = text.take({PROPERTY: b'property', COST: b'budget'}.get(form, b'bound'))
        self.op = words.pop(0) if form == PROPERTY and words else b'<='  # how probabilities have to compare with it
        need(self.op in (b'<=', b'<', b'>=', b'>'))
        n, d = self.bound = lowest(*pair(b' '.join(words), b'/'), self.cap * PART, PART)
        need(n <= self.cap * d, 'Limit')
        self.steps = range(1, text.single(b'steps', 1, 64) + 1 if form == BOUNDED else 1)  # of `bounded`
        self.most = text.single(b'precision', 1, 40)
        self.least = text.single(b'from', 1, self.most) if version == [2] else None  # of the leaves' precisions
        self.one, self.depth = 2**self.most, text.single(b'depth', 0, 20)  # one: probability 1, or the cap
        self.ranks, self.ends = [int(s not in self.goals) for s in range(self.size)], list(map(len, self.states))
        self.prices = [-(-n * self.one // (d * self.cap)) * rank for rank, (n, d) in zip(self.ranks, costs)]
        self.grid, ends = text.single(b'grid', 1, 2**62 - 1), numbers(text.take(b'box'), 2 * self.parameters)
        for i, end in enumerate(ends):
            need(end % 2**self.depth == 0 and (i % 2 == 1 or end < ends[i + 1]))
            need(abs(end) < 2**62, 'Limit')
        self.box = list(zip(ends[::2], ends[1::2]))
        self.live = [i for i in range(16) if any(i in shape.parameters for shape in self.shapes.values())]
        self.wholes = [self.common * self.grid**g for g in range(5)]  # what stands for 1 in rows of g parameters
        self.many = {s: self.at_once(rows) for s, rows in enumerate(self.states) if len(rows) > 7}
        self.leaf, self.known = self.box, {}  # type: Box, Dict[Tuple[int, ...], List[List[int]]]

    def read_states(self, is_mdp: bool, choices: int = 2**17, transitions: int = 2**18) -> None:
        """For each state its choices, each with its targets and its shape. Of each at most so many are left."""
        for s in range(self.size):
            rows: List[Row] = []
            while not rows or is_mdp and self.text.due()[:2] == [b'row', b'%d' % s]:
                state, choice, count = numbers(self.text.take(b'row'), 3)
                need(state == s and choice == len(rows) and count >= 0)
                need(choices > 0 and count <= transitions, 'Limit')
                choices, transitions = choices - 1, transitions - count
                row: Dict[int, Poly] = {}
                for _ in range(count):
                    self.read_transition(row)
                polys, targets = tuple(row.values()), list(row)
                if polys not in self.shapes:
                    self.shapes[polys] = Shape(polys, (s, choice, targets))
                rows.append((choice, targets, self.shapes[polys]))
            self.states.append(rows)

    def read_transition(self, row: dict[int, Poly]) -> None:
        words = self.text.take(b'to')
        target, poly = numbers(words[:1], 1)[0], tuple([pair(word, b':') for word in words[1:]])
        need(len(poly) <= 16)
        need(within(target, 0, self.size - 1) not in row)
        row[target], before, seen = poly, None, 0
        for m, c in poly:
            need(before is None or before < m)
            before, seen = within(m, 0, 2**self.parameters - 1), seen | m
            need(bin(seen).count('1') <= 4, 'Limit')
            need(c != 0)
            need(abs(c) < 2**100, 'Limit')

    def at_once(self, rows: list[Row]) -> list[Choices]:
        """A state's rows, up to 256 together; or 16, where less than a sixteenth of the fields would be taken."""
        found = sorted(rows, key=lambda row: (row[2].parameters, row[1]))
        parts = groupby(enumerate(found), lambda it: (it[0] // 256, it[1][2].parameters))
        many = [Choices([row for _, row in part], self) for _, part in parts]
        few = [Choices(it.rows[i : i + 16], self) for it in many if not it.pays for i in range(0, len(it.rows), 16)]
        return [them for them in many if them.pays] + few

    def test_rows(self) -> None:
        """Over the whole region each row's probabilities sum to 1 and none of them is below 0."""
        greatest = max([self.grid] + [abs(end) for ends in self.box for end in ends])
        for shape in self.shapes.values():  # by the first row that has it
            s, a, targets = shape.first
            self.text.place = f'state {s} choice {a}: '
            sums, size, g = {0: 0}, 0, len(shape.parameters)
            for m, c in [term for poly in shape.polys for term in poly]:
                sums[m], size = sums.get(m, 0) + c, size + abs(c)
            for m in sorted(sums):
                need(sums[m] == (0 if m else self.common), f'set {m} sums to {sums[m]}')
            need(g <= 4, f'{g} parameters')
            need(size * greatest**g * self.one < 2**126, 'too wide')
            for target, weights in zip(targets, zip(*shape.corners(self.leaf, self.grid, self.known))):
                for corner, weight in enumerate(weights):
                    need(weight >= 0, f'target {target} at corner {corner} has weight {weight}')

    def tests(self) -> dict[bytes, Callable[[bytes, str], None]]:
        """The test of each kind of decided leaf."""
        if self.form == PROPERTY:
            return {b'holds': self.test_formula, b'fails': self.test_formula}
        if self.form == BOUNDED:
            return {b'accept': self.test_within, b'reject': self.test_within}
        return {b'accept': self.test_above, **({} if self.form == COST else {b'reject': self.test_below})}

    def test_above(self, key: bytes, place: str, has_picks: bool = False) -> None:
        """No number is below its price and the mean for a choice that counts, and the initial state's is low enough."""
        x, picks = self.read_values(key), self.read_marks(b'choice', self.ends) if has_picks else None
        need(all((pick == NONE) == (s in self.goals) for s, pick in enumerate(picks or [])))
        self.text.place = place
        self.test_means(x, list(map(sub, x, self.prices)), picks, -1)
        self.test_bound(x, True)

    def test_means(self, x: list[int], z: list[int], picks: Marks, sign: int, ranks: Marks = None, e: int = 0) -> None:
        """Each number in z is at most the mean of the targets' in x, for each choice that counts; or at least, if the
        sign is -1. With ranks at least 2^-e of the weight leads to lower ones."""
        levels, goal = ranks or self.ranks, 0 if self.form == COST else self.one  # without ranks: 0 for goal states
        for s, (rows, own, rank) in enumerate(zip(self.states, z, levels)):
            if rank in (0, NONE):
                need(own == (0 if rank else goal), f'{"unranked" if rank else "goal"} state {s} value {own}')
                continue
            if picks is None and s in self.many and own >= 0:
                tests: List[Tuple[int, int, int, Callable[[int], int]]] = [(sign, own, 0, x.__getitem__)]
                tests += [(1, 1, e, lambda target: levels[target] < rank)] if ranks else []
                if all(them.hold(*test, self.leaf) for test in tests for them in self.many[s]):
                    continue
            for a, targets, shape in rows if picks is None else [rows[picks[s]]]:
                whole, values = self.wholes[len(shape.parameters)], [x[target] for target in targets]
                right, lower = own * whole, [levels[target] < rank for target in targets] if ranks else []
                for corner, weights in enumerate(shape.corners(self.leaf, self.grid, self.known)):
                    mean, down = sum(map(mul, weights, values)), sum(map(mul, weights, lower)) if ranks else whole
                    if mean > right if sign < 0 else right > mean:
                        raise Fault(f'state {s} choice {a} corner {corner}: {max(mean, right)} > {min(mean, right)}')
                    if down << e < whole:
                        raise Fault(f'state {s} choice {a} corner {corner}: weight {down} times 2^{e} < {whole}')

    def test_bound(self, x: list[int], is_low: bool) -> None:
        """The initial state's number lies on its side of the bound, which itself is low for `<=` and `>`, else high."""
        left, right = x[self.init] * self.cap * self.bound[1], self.bound[0] * self.one
        low, high, found = ('<=', '>', left <= right) if self.op in (b'<=', b'>') else ('<', '>=', left < right)
        need(found == is_low, f'{"budget" if self.form == COST else "bound"}: {left} {high if is_low else low} {right}')

    def test_below(self, key: bytes, place: str, has_picks: bool = True) -> None:
        """No number is above the mean for a choice that counts, and enough weight of each leads to lower ranks."""
        line, words = self.text.line, self.text.take(key)
        need(len(words) == 8 and words[::2] == [b'e', b'k', b'm', b'b'])
        (e, k, m), (b, one) = numbers(words[1:6:2], 3), pair(words[7], b'/')
        within(e, 0, 126), within(k, 1, 65536)
        y, picks = self.read_values(b'y'), self.read_marks(b'choice', self.ends) if has_picks else None
        ranks, self.text.place = self.read_marks(b'rank', [k + 1] * self.size), f'line {line}: '
        need(m == e * k and b == y[self.init] and one == self.one)
        for s, rank in enumerate(ranks):
            need((rank == 0) == (s in self.goals) and (picks is None or (picks[s] == NONE) == (rank in (0, NONE))))
        self.text.place = place
        self.test_means(y, y, picks, 1, ranks, e)
        self.test_bound(y, False)

    def test_formula(self, kind: bytes, place: str) -> None:
        """Of `property`: `<=` and `<` ask of the scheduler that reaches the most, the others of that of the least."""
        need(self.text.take(kind) == [])
        is_above = (kind == b'holds') == (self.op in (b'<=', b'<'))
        (self.test_above if is_above else self.test_below)(b'x' if is_above else b'lower', place, kind == b'fails')

    def test_within(self, kind: bytes, place: str) -> None:
        """Of `bounded`: a vector for each number of steps, from that of no step: 1 on goal states and 0 elsewhere."""
        line, words, is_low = self.text.line, self.text.take(kind), kind == b'accept'
        need(words[:1] == ([] if is_low else [b'b']))
        b, z = (0, 0) if is_low else pair(b' '.join(words[1:]), b'/')
        vectors, picks = [[self.one * (1 - rank) for rank in self.ranks]], []  # type: List[List[int]], List[Marks]
        for n in self.steps:
            vectors.append(self.read_values(b'%s %d' % (b'x' if is_low else b'y', n)))
            picks.append(None if is_low else self.read_marks(b'choice %d' % n, self.ends))
        self.text.place = f'line {line}: '
        need(is_low or b == vectors[-1][self.init] and z == self.one)
        need(all((mark == NONE) == (s in self.goals) for marks in picks for s, mark in enumerate(marks or [])))
        for n, marks in zip(self.steps, picks):
            self.text.place = f'{place}step {n} '
            self.test_means(vectors[n - 1], vectors[n], marks, -1 if is_low else 1)
        self.text.place = place
        self.test_bound(vectors[-1], is_low)

    def read_values(self, key: bytes) -> list[int]:
        values = numbers(self.text.take(key), self.size)
        need(min(values) >= 0 and max(values) <= self.one, 'Limit')
        return values

    def read_marks(self, key: bytes, ends: list[int]) -> list[int]:
        """For each state a number below its end, or NONE."""
        words = self.text.take(key)
        marks = numbers([word if word != b'-' else b'%d' % NONE for word in words], self.size)
        need(all(0 <= mark < end or word == b'-' for mark, end, word in zip(marks, ends, words)), 'Limit')
        return marks


def leaves(report: Report) -> Iterator[tuple[bytes, Box, int]]:
    """Tests the nodes, and gives of each leaf its kind, its rectangle and how many splits lie above it."""
    text, node, most, tests = report.text, 0, report.depth if report.live else 0, report.tests()
    due = [(report.box, most)]  # rectangles whose nodes follow, the next one last, and how often they may be halved
    while due:
        (box, levels), word, place = due.pop(), text.due()[0], f'node {node} '
        if report.least and (word == b'at' or word in tests):
            report.one, word = 2 ** text.single(b'at', report.least, report.most), text.due()[0]
            need(word in tests)
        node += 1
        if word in tests:
            report.leaf, report.known = box, {}
            tests[word](word, place)
        elif word == b'split':
            axis, text.place = text.single(word, 0, report.parameters - 1), place
            need(levels > 0, 'depth')
            need(axis == max(report.live, key=lambda i: box[i][1] - box[i][0]), 'axis')
            (low, high), lower, upper = box[axis], box[:], box[:]
            lower[axis], upper[axis] = (low, (low + high) // 2), ((low + high) // 2, high)
            due += [(upper, levels - 1), (lower, levels - 1)]
            continue
        else:
            need(text.take(b'unknown') == [])
            text.place = place
            need(levels == 0, 'depth')
        yield word, box, most - levels
    text.place = ''
    need(not text.ahead(), 'rest')


def check(text: Text) -> str:
    """What is said of a sound report: how many leaves of each kind it has."""
    report = Report(text)
    report.test_rows()
    kinds = Counter(kind for kind, _, _ in leaves(report))
    return 'sound ' + ' '.join(f'{kind.decode()} {kinds[kind]}' for kind in (*report.tests(), b'unknown'))


def tell(text: object, status: int, place: int = 2) -> int:
    """Writes a line to standard error, or to another place; the status is another one where that is told in vain."""
    try:
        os.write(place, f'{text}\n'.encode())
    except OSError as fault:
        return tell(f'write fault: {fault}', 6) if place == 1 else status
    return status


def main(words: list[str]) -> int:
    """Judges the file that is named, or standard input, and gives the status."""
    if words in (['--help'], ['-h']):
        return tell(__doc__, 0, 1)
    if len(words) > 1 or words and words[0].startswith('-'):
        return tell('usage: recheck.py [FILE]', 2)
    try:
        with open(words[0] if words else 0, 'rb') as source:
            text = Text(source)
            return tell(check(text), 0, 1)
    except Fault as fault:
        return tell(f'not sound: {text.place}{fault}', 1)
    except OverflowError:
        return tell('too long', 7)
    except OSError as fault:
        return tell(f'read fault: {fault}', 5)
    except MemoryError:
        return tell('out of memory', 8)
    except KeyboardInterrupt:
        return 130


if __name__ == '__main__':
    sys.exit(main(sys.argv[1:]))
