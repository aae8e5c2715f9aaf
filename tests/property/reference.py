"""The text of `property` by sweeps: the least and the greatest numbers of each rectangle, rounded, without any of
plift's code. It is slow, and made to be read: what docs/FORMATS.md says of a leaf's numbers, in its own words."""

from __future__ import annotations

from fractions import Fraction
from itertools import product
from math import lcm
from typing import Any, Callable, Dict, Iterable, List, NamedTuple, Optional, Sequence, Tuple, Union

from processes import NAMES, Box, Process, Question, Row, value

Corner = Tuple[List[Tuple[int, int]], int]  # at a corner each target's weight, and the whole that they sum to
Ranks = List[Optional[int]]


class Upper(NamedTuple):
    """Numbers that bound what is reached from above; where there are picks, what they reach."""

    numbers: List[int]
    picks: Optional[List[Optional[int]]]


class Lower(NamedTuple):
    """Numbers that bound it from below, with ranks."""

    numbers: List[int]
    picks: Optional[List[Optional[int]]]
    ranks: Ranks
    e: int
    k: int


class Leaf(NamedTuple):
    """A rectangle that isn't halved: `holds`, `fails` or `unknown`, and its certificate."""

    kind: str
    box: Box
    certificate: Any  # none, or what the command has: here an Upper or a Lower


class Split(NamedTuple):
    """A rectangle that is halved along a parameter."""

    axis: int
    halves: List[Union["Split", Leaf]]


def corners_of(row: Row, box: Box) -> List[Corner]:
    """The corners of a row over the parameters that occur in it."""
    used = [i for i in range(len(box)) if any(mask >> i & 1 for _, poly in row for mask in poly)]
    found = []
    for ends in product((0, 1), repeat=len(used)):
        at = [low for low, _ in box]
        for i, end in zip(used, ends):
            at[i] = box[i][end]
        weights = [(target, Fraction(value(poly, at))) for target, poly in row]
        whole = lcm(*(weight.denominator for _, weight in weights))
        found.append(([(target, int(weight * whole)) for target, weight in weights], whole))
    return found


class Rectangle:
    """A process over a rectangle: for each state and choice the corners."""

    def __init__(self, process: Process, box: Box, precision: int) -> None:
        self.goals, self.top, self.count = process.goals, 2**precision, len(process.states)
        self.rows = [[corners_of(row, box) for row in rows] for rows in process.states]
        self.others = [s for s in range(self.count) if s not in self.goals]

    def means(self, corners: List[Corner], numbers: List[int]) -> List[Fraction]:
        """The mean at each corner."""
        return [
            Fraction(sum(weight * numbers[target] for target, weight in weights), whole) for weights, whole in corners
        ]

    def from_goals(self) -> List[int]:
        """The whole on goal states, 0 elsewhere."""
        return [self.top if s in self.goals else 0 for s in range(self.count)]

    def least(self, best: Callable[[Iterable[int]], int]) -> List[int]:
        """The least numbers that are at least each choice's means (best = max), or those of some choice (min)."""
        numbers, changed = self.from_goals(), True
        while changed:
            changed = False
            for s in self.others:
                number = best(max(-(-mean // 1) for mean in self.means(corners, numbers)) for corners in self.rows[s])
                changed, numbers[s] = changed or number != numbers[s], number
        return numbers

    def least_upper(self) -> Upper:
        """For every scheduler."""
        return Upper(self.least(max), None)

    def least_upper_one(self) -> Upper:
        """For one scheduler, with the lowest choices that meet the numbers."""
        numbers = self.least(min)
        picks: List[Optional[int]] = [None] * self.count
        for s in self.others:
            picks[s] = next(
                a for a, corners in enumerate(self.rows[s]) if max(self.means(corners, numbers)) <= numbers[s]
            )
        return Upper(numbers, picks)

    def below(self, corners: List[Corner], ranks: Ranks, stage: int) -> List[Fraction]:
        """At each corner the probability of the targets whose rank is below a stage."""
        sums = []
        for weights, whole in corners:
            ranked = (
                weight for target, weight in weights if (ranks[target] or 0) < stage and ranks[target] is not None
            )
            sums.append(Fraction(sum(ranked), whole))
        return sums

    def rate(self, chosen: List[Tuple[int, List[Corner]]], ranks: Ranks) -> int:
        """The least e so that in each row the probability of lower ranks is at least 1/2^e."""
        least = min([Fraction(1), *(min(self.below(corners, ranks, ranks[s] or 0)) for s, corners in chosen)])
        return next(e for e in range(1000) if least * 2**e >= 1)

    def greatest_lower_all(self) -> Lower:
        """For every scheduler: in each stage are the states all of whose choices lead into those before, at each
        corner."""
        ranks: Ranks = [0 if s in self.goals else None for s in range(self.count)]
        for stage in range(1, self.count):
            new = [
                s
                for s in self.others
                if ranks[s] is None and all(min(self.below(c, ranks, stage)) > 0 for c in self.rows[s])
            ]
            for s in new:
                ranks[s] = stage
        numbers, changed = [self.top if rank is not None else 0 for rank in ranks], True
        ranked = [s for s in self.others if ranks[s] is not None]
        while changed:
            changed = False
            for s in ranked:
                number = min(min(mean // 1 for mean in self.means(corners, numbers)) for corners in self.rows[s])
                changed, numbers[s] = changed or number != numbers[s], number
        e = self.rate([(s, corners) for s in ranked for corners in self.rows[s]], ranks)
        return Lower(numbers, None, ranks, e, max([1, *(ranks[s] or 0 for s in ranked)]))

    def stages(self, numbers: List[int]) -> Tuple[Ranks, List[Optional[int]]]:
        """The stages of states that have a choice whose means aren't below their number, and that leads into those
        before."""
        ranks: Ranks = [0 if s in self.goals else None for s in range(self.count)]
        picks: List[Optional[int]] = [None] * self.count
        allowed = {
            s: [a for a, c in enumerate(self.rows[s]) if min(self.means(c, numbers)) >= numbers[s]] for s in self.others
        }
        for stage in range(1, self.count):
            new: Dict[int, int] = {}
            for s in (s for s in self.others if ranks[s] is None):
                leading = [a for a in allowed[s] if min(self.below(self.rows[s][a], ranks, stage)) > 0]
                new.update({s: leading[0]} if leading else {})
            for s, a in new.items():
                ranks[s], picks[s] = stage, a
        return ranks, picks

    def greatest_lower(self) -> Lower:
        """For one scheduler. Of the states without rank the highest ones have to be lowered: no lower vector below
        these numbers keeps them, since its first of them to be ranked would lead into ranked states here, too."""
        numbers = [self.top] * self.count
        while True:
            changed = True
            while changed:
                changed = False
                for s in self.others:
                    number = min(
                        numbers[s], max(min(mean // 1 for mean in self.means(c, numbers)) for c in self.rows[s])
                    )
                    changed, numbers[s] = changed or number != numbers[s], number
            ranks, picks = self.stages(numbers)
            highest = max([numbers[s] for s in self.others if ranks[s] is None], default=0)
            if highest == 0:
                break
            for s in self.others:
                numbers[s] -= ranks[s] is None and numbers[s] == highest
        chosen = [(s, self.rows[s][pick]) for s, pick in enumerate(picks) if pick is not None]
        return Lower(numbers, picks, ranks, self.rate(chosen, ranks), max([1, *(ranks[s] or 0 for s, _ in chosen)]))


class At(NamedTuple):
    """A certificate, and the precision at which it is one."""

    found: Union[Upper, Lower]
    precision: int


def verdict(process: Process, question: Question, box: Box) -> Leaf:
    """What holds of a rectangle."""
    rectangle, op = Rectangle(process, box, question.precision), question.op
    is_most = op in ("<=", "<")
    upper = rectangle.least_upper() if is_most else rectangle.least_upper_one()
    lower = rectangle.greatest_lower() if is_most else rectangle.greatest_lower_all()
    high, low = (Fraction(numbers[process.init], rectangle.top) for numbers in (upper.numbers, lower.numbers))
    is_low = high <= question.bound if op in ("<=", ">") else high < question.bound
    is_high = low > question.bound if op in ("<=", ">") else low >= question.bound
    assert not (is_low and is_high)
    if is_low:
        return Leaf("holds" if is_most else "fails", box, upper)
    if is_high:
        return Leaf("fails" if is_most else "holds", box, lower)
    return Leaf("unknown", box, None)


def verdict_from(process: Process, question: Question, box: Box, least: int) -> Leaf:
    """What holds of a rectangle by the least precision of a range that shows it, with that precision."""
    for precision in range(least, question.precision + 1):
        leaf = verdict(process, question._replace(precision=precision), box)
        if leaf.certificate is not None:
            return leaf._replace(certificate=At(leaf.certificate, precision))
    return Leaf("unknown", box, None)


def live_parameters(process: Process) -> List[int]:
    """Those that a row depends on."""
    return [
        i
        for i in range(process.parameters)
        if any(mask >> i & 1 for rows in process.states for row in rows for _, poly in row for mask in poly)
    ]


def tree_of(decide: Callable[[Box], Leaf], box: Box, depth: int, live: List[int]) -> Union[Split, Leaf]:
    """The tree over a rectangle, in which so many halvings are left, by who decides a rectangle."""
    leaf = decide(box)
    if leaf.kind != "unknown" or depth == 0 or not live:
        return leaf
    axis = max(live, key=lambda i: box[i][1] - box[i][0])
    low, high = box[axis]
    halves = []
    for half in ((low, (low + high) / 2), ((low + high) / 2, high)):
        halves.append(tree_of(decide, [*box[:axis], half, *box[axis + 1 :]], depth - 1, live))
    return Split(axis, halves)


def leaves_of(tree: Union[Split, Leaf]) -> List[Leaf]:
    """The leaves from the first to the last."""
    return [tree] if isinstance(tree, Leaf) else [leaf for half in tree.halves for leaf in leaves_of(half)]


def words(key: str, marks: Sequence[Optional[int]]) -> str:
    """A line with a word for each state."""
    return " ".join([key, *("-" if mark is None else str(mark) for mark in marks)])


def leaf_lines(process: Process, leaf: Leaf, precision: int) -> List[str]:
    """A leaf's lines, where its numbers are over 2^precision."""
    found = leaf.certificate
    if found is None:
        return [leaf.kind]
    if isinstance(found, At):
        return [f"at {found.precision}", *leaf_lines(process, leaf._replace(certificate=found.found), found.precision)]
    choices = [] if found.picks is None else [words("choice", found.picks)]
    if isinstance(found, Upper):
        return [leaf.kind, words("x", found.numbers), *choices]
    first = f"lower e {found.e} k {found.k} m {found.e * found.k} b {found.numbers[process.init]}/{2**precision}"
    return [leaf.kind, first, words("y", found.numbers), *choices, words("rank", found.ranks)]


def node_lines(tree: Union[Split, Leaf], lines_of: Callable[[Leaf], List[str]]) -> List[str]:
    """The lines of a tree's nodes, by those of a leaf."""
    if isinstance(tree, Leaf):
        return lines_of(tree)
    return [f"split {tree.axis}", *(line for half in tree.halves for line in node_lines(half, lines_of))]


def model_lines(process: Process, common: int) -> List[str]:
    """The lines of a process over a denominator."""
    names, goals = NAMES[: process.parameters], sorted(process.goals)
    lines = [
        f"kind {'dtmc' if process.is_chain else 'mdp'}",
        " ".join(["parameters", str(len(names)), *names]),
        f"common {common}",
    ]
    lines += [f"states {len(process.states)}", f"init {process.init}", " ".join(map(str, ["goal", len(goals), *goals]))]
    for s, rows in enumerate(process.states):
        for a, row in enumerate(rows):
            lines.append(f"row {s} {a} {len(row)}")
            for target, poly in row:
                terms = [f"{mask}:{int(c * common)}" for mask, c in sorted(poly.items()) if c]
                lines.append(" ".join([f"to {target}", *terms]))
    return lines


def box_lines(box: Box, depth: int, precision: int, least: Optional[int] = None) -> List[str]:
    """The lines from the precision to the region, with the least one of a range, where there is one."""
    grid = lcm(*(Fraction(end).denominator for span in box for end in span)) * 2**depth
    ends = " ".join(map(str, ["box", *(int(end * grid) for span in box for end in span)]))
    precisions = [f"precision {precision}", *([] if least is None else [f"from {least}"])]
    return [*precisions, f"depth {depth}", f"grid {grid}", ends]


def root_of(box: Box) -> Box:
    """The region in fractions."""
    return [(Fraction(low), Fraction(high)) for low, high in box]


def text_of(lines: Iterable[str]) -> bytes:
    """The text of these lines."""
    return "".join(f"{line}\n" for line in lines).encode()


def answer(process: Process, question: Question, least: Optional[int] = None) -> Tuple[bytes, Union[Split, Leaf]]:
    """The text, with a range of precisions from `least` where that is given, and its tree."""
    common, cut = process.common(), process.cut() if question.is_until else process

    def decide(box: Box) -> Leaf:
        """The rectangle's leaf."""
        return verdict(cut, question, box) if least is None else verdict_from(cut, question, box, least)

    tree = tree_of(decide, root_of(question.box), question.depth, live_parameters(cut))
    bound = question.bound
    lines = [
        f"plift-property {1 if least is None else 2}",
        *model_lines(cut, common),
        f"property {question.op} {bound.numerator}/{bound.denominator}",
    ]
    lines += box_lines(question.box, question.depth, question.precision, least)
    lines += node_lines(tree, lambda leaf: leaf_lines(cut, leaf, question.precision))
    return text_of(lines), tree
