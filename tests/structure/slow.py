"""What each command writes, by definitions that are slow and made to be read, without any of plift's code. The numbers
of a rectangle are those of tests/property/reference.py."""

from __future__ import annotations

from fractions import Fraction
from typing import Callable, Dict, Hashable, Iterable, List, NamedTuple, Optional, Tuple, Union

from structures import Asked, Box, Process

from processes import Question
from reference import Leaf, Rectangle, Split, Upper
from reference import box_lines, leaves_of, live_parameters, model_lines, node_lines, root_of, text_of, tree_of
from reference import verdict_from, words

Tree = Union[Split, Leaf]


class Vectors(NamedTuple):
    """The numbers for each number of steps, from one step, and the choices, where there are any."""

    numbers: List[List[int]]
    picks: Optional[List[List[Optional[int]]]]


def ranged(process: Process, question: Asked, least: int) -> Callable[[Box], Leaf]:
    """Who decides a rectangle at the least precision of a range that does."""
    formula = Question("<=", question.bound, False, [""] * 7, question.box, 0, question.precision)
    kinds = {"holds": "accept", "fails": "reject", "unknown": "unknown"}

    def decide(box: Box) -> Leaf:
        """The rectangle's leaf."""
        leaf = verdict_from(process, formula, box, least)
        return leaf._replace(kind=kinds[leaf.kind])

    return decide


def report_leaf(process: Process, leaf: Leaf, is_second: bool) -> List[str]:
    """The lines of a report's leaf."""
    if leaf.certificate is None:
        return [leaf.kind]
    found, precision = leaf.certificate
    at = [f"at {precision}"] if is_second else []
    if isinstance(found, Upper):
        return [*at, words("accept", found.numbers)]
    first = f"reject e {found.e} k {found.k} m {found.e * found.k} b {found.numbers[process.init]}/{2**precision}"
    return [*at, first, words("y", found.numbers), words("choice", found.picks), words("rank", found.ranks)]


def head_lines(process: Process, common: int, bound: Fraction) -> List[str]:
    """The lines of a model and its bound."""
    return [*model_lines(process, common), f"bound {bound.numerator}/{bound.denominator}"]


def report(process: Process, question: Asked, least: Optional[int] = None, common: int = 0) -> Tuple[bytes, Tree]:
    """The report of `verify`, with a range from `least` where it is given, and its tree."""
    decide = ranged(process, question, question.precision if least is None else least)
    tree = tree_of(decide, root_of(question.box), question.depth, live_parameters(process))
    lines = [f"plift {1 if least is None else 2}", *head_lines(process, common or process.common(), question.bound)]
    lines += box_lines(question.box, question.depth, question.precision, least)
    return text_of([*lines, *node_lines(tree, lambda leaf: report_leaf(process, leaf, least is not None))]), tree


def sound(tree: Tree, kinds: Iterable[str] = ("accept", "reject", "unknown")) -> str:
    """What a checker says of it."""
    found = [leaf.kind for leaf in leaves_of(tree)]
    return "sound " + " ".join(f"{kind} {found.count(kind)}" for kind in kinds)


# ---- a number of steps


def steps_from_above(rectangle: Rectangle, steps: int) -> Vectors:
    """The least numbers that are at least the means of each choice, step by step."""
    vectors = [rectangle.from_goals()]
    for _ in range(steps):
        numbers = list(vectors[0])
        for s in rectangle.others:
            numbers[s] = max(
                -(-mean // 1) for corners in rectangle.rows[s] for mean in rectangle.means(corners, vectors[-1])
            )
        vectors.append(numbers)
    return Vectors(vectors[1:], None)


def steps_from_below(rectangle: Rectangle, steps: int) -> Vectors:
    """The greatest numbers that are at most the means of some choice, and the first such choice."""
    vectors = [rectangle.from_goals()]
    picks: List[List[Optional[int]]] = []
    for _ in range(steps):
        numbers = list(vectors[0])
        marks: List[Optional[int]] = [None] * rectangle.count
        for s in rectangle.others:
            least = [min(mean // 1 for mean in rectangle.means(corners, vectors[-1])) for corners in rectangle.rows[s]]
            numbers[s], marks[s] = max(least), least.index(max(least))
        vectors.append(numbers)
        picks.append(marks)
    return Vectors(vectors[1:], picks)


def within(process: Process, question: Asked, steps: int) -> Tuple[bytes, Tree]:
    """The text of `bounded`, and its tree."""

    def decide(box: Box) -> Leaf:
        """The rectangle's leaf."""
        rectangle = Rectangle(process, box, question.precision)
        above, below = steps_from_above(rectangle, steps), steps_from_below(rectangle, steps)
        if Fraction(above.numbers[-1][process.init], rectangle.top) <= question.bound:
            return Leaf("accept", box, above)
        is_above = Fraction(below.numbers[-1][process.init], rectangle.top) > question.bound
        return Leaf("reject", box, below) if is_above else Leaf("unknown", box, None)

    def lines_of(leaf: Leaf) -> List[str]:
        """The leaf's lines."""
        if leaf.certificate is None:
            return [leaf.kind]
        numbers, picks = leaf.certificate
        if picks is None:
            return ["accept", *(words(f"x {n}", row) for n, row in enumerate(numbers, 1))]
        each = enumerate(zip(numbers, picks), 1)
        lines = [line for n, (row, marks) in each for line in (words(f"y {n}", row), words(f"choice {n}", marks))]
        return [f"reject b {numbers[-1][process.init]}/{2**question.precision}", *lines]

    tree = tree_of(decide, root_of(question.box), question.depth, live_parameters(process))
    lines = ["plift-bounded 1", *head_lines(process, process.common(), question.bound), f"steps {steps}"]
    lines += box_lines(question.box, question.depth, question.precision)
    return text_of([*lines, *node_lines(tree, lines_of)]), tree


# ---- the quotient


def into(row: Iterable[Tuple[int, Dict[int, Fraction]]], block: List[int]) -> Dict[int, Dict[int, Fraction]]:
    """What a row's polynomials sum to, block by block; without what sums to 0."""
    sums: Dict[int, Dict[int, Fraction]] = {}
    for target, poly in row:
        for mask, c in poly.items():
            terms = sums.setdefault(block[target], {})
            terms[mask] = terms.get(mask, Fraction(0)) + c
    kept = {b: {mask: c for mask, c in terms.items() if c} for b, terms in sums.items()}
    return {b: terms for b, terms in kept.items() if terms}


def numbered(keys: Iterable[Hashable]) -> List[int]:
    """Numbers for keys, in the order in which they come first."""
    names: Dict[Hashable, int] = {}
    return [names.setdefault(key, len(names)) for key in keys]


def blocks(process: Process) -> List[int]:
    """The coarsest right partition: states stay together as long as nothing tells them apart."""
    block = numbered(s in process.goals for s in range(len(process.states)))
    while True:
        seen = [
            (
                block[s],
                None
                if s in process.goals
                else frozenset((b, frozenset(p.items())) for b, p in into(row, block).items()),
            )
            for s, (row, *_) in enumerate(process.states)
        ]
        finer = numbered(seen)
        if max(finer) == max(block):
            return finer
        block = finer


def quotient(process: Process) -> Process:
    """The quotient of a chain, with a state for each block in the order of their least states."""
    block = blocks(process)
    firsts = [block.index(b) for b in range(max(block) + 1)]
    goals = {b for b, s in enumerate(firsts) if s in process.goals}
    states = []
    for b, s in enumerate(firsts):
        row = {b: {0: Fraction(1)}} if b in goals else into(process.states[s][0], block)
        states.append([sorted(row.items())])
    return process._replace(goals=goals, init=block[process.init], states=states)


# ---- the ladder


def ladder(count: int) -> bytes:
    """The ladder of so many blocks, by the table of docs/FORMATS.md."""
    lines = ["@type: DTMC", "@parameters", "p q", "@model"]
    for s in range(2 * count + 2):
        lines.append(f"state {s}" + " init" * (s == 0) + " done" * (s == 2 * count))
        if s >= 2 * count:
            lines.append(f"{s} : 1")
        elif s % 2 == 0:
            lines += [f"{s + 2} : p", f"{s + 1} : 1-p"]
        else:
            lines += [f"{s - 1} : q", f"{2 * count + 1} : 1-q"]
    return text_of(lines)
