"""Small decision processes with parameters, made at random, and what is asked of them. Numbers are fractions."""

from __future__ import annotations

import random
from fractions import Fraction
from itertools import product
from math import lcm
from typing import Any, Dict, Iterator, List, NamedTuple, Sequence, Set, Tuple

Poly = Dict[int, Fraction]  # coefficients by the set of parameters, bit i for parameter i; each parameter at most once
Row = List[Tuple[int, Poly]]  # targets with their probabilities
Valuation = Sequence[Fraction]
Box = List[Tuple[Fraction, Fraction]]

NAMES = ("p", "q")
P, Q, PQ = 1, 2, 3
ZERO, ONE = Fraction(0), Fraction(1)
# What a row's probabilities may be.
ROWS: List[List[Poly]] = [
    [{0: ONE}],
    [{P: ONE}, {0: ONE, P: -ONE}],
    [{Q: ONE}, {0: ONE, Q: -ONE}],
    [{0: Fraction(1, 3)}, {0: Fraction(2, 3)}],
    [{0: Fraction(1, 2)}, {P: Fraction(1, 2)}, {0: Fraction(1, 2), P: Fraction(-1, 2)}],
    [{P: Fraction(1, 2)}, {Q: Fraction(1, 2)}, {0: ONE, P: Fraction(-1, 2), Q: Fraction(-1, 2)}],
    [{PQ: ONE}, {P: ONE, PQ: -ONE}, {0: ONE, P: -ONE}],
    [{0: ONE}, {}],
    [{0: Fraction(1, 8), Q: Fraction(1, 4)}, {0: Fraction(7, 8), Q: Fraction(-1, 4)}],
]
SPANS = [
    (ZERO, ONE),
    (ZERO, Fraction(1, 2)),
    (Fraction(1, 10), Fraction(2, 5)),
    (Fraction(49, 100), Fraction(51, 100)),
    (Fraction(2, 3), ONE),
    (Fraction(1, 100), Fraction(9, 10)),
    (Fraction(3, 5), Fraction(3, 4)),
]
BOUNDS = [Fraction(0), Fraction(1), Fraction(1, 2), Fraction(1, 3), Fraction(3, 4), Fraction(1, 16)]


class Process(NamedTuple):
    """A chain or a decision process, whose parameters are the first of NAMES."""

    is_chain: bool
    parameters: int
    goals: Set[int]
    safe: Set[int]
    init: int
    states: List[List[Row]]

    def common(self) -> int:
        """The least common denominator of all coefficients."""
        return lcm(
            *(Fraction(c).denominator for rows in self.states for row in rows for _, poly in row for c in poly.values())
        )

    def cut(self) -> "Process":
        """The process in which a run that leaves the safe states without having reached the goal stays where it is."""
        states = [
            [[(s, {0: Fraction(1)})] if row and s not in self.safe | self.goals else row for row in rows]
            for s, rows in enumerate(self.states)
        ]
        return self._replace(states=states)


class Question(NamedTuple):
    """What is asked of a process: a formula, a region, a depth and a precision."""

    op: str
    bound: Fraction
    is_until: bool
    blanks: Sequence[str]
    """Those between the formula's parts."""
    box: Box
    depth: int
    precision: int

    def bounded_by(self, bound: Fraction) -> "Question":
        """The same with another bound."""
        return self._replace(bound=bound)

    def formula(self) -> str:
        """The formula's text."""
        path = ['"all well"', "U", '"done"'] if self.is_until else ["F", '"done"']
        parts = ["P", self.op, str(self.bound), "[", *path]
        return "".join(part + blank for part, blank in zip(parts, self.blanks)) + "]"

    def words(self) -> List[str]:
        """The program's words."""
        words = [
            "property",
            "--formula",
            self.formula(),
            "--depth",
            str(self.depth),
            "--precision",
            str(self.precision),
        ]
        return words + region_words(self.box)


def region_words(box: Box) -> List[str]:
    """The words that ask about a region."""
    region = ",".join(f"{low}<={name}<={high}" for name, (low, high) in zip(NAMES, box))
    return ["--region", region] if box else []


def samples(chance: random.Random, box: Box) -> Iterator[List[Fraction]]:
    """A rectangle's corners, its middle and a valuation inside."""
    yield from (list(ends) for ends in product(*box))
    yield [Fraction(low + high) / 2 for low, high in box]
    yield [low + (high - low) * Fraction(chance.randrange(101), 100) for low, high in box]


def value(poly: Poly, at: Valuation) -> Fraction:
    """A polynomial's value."""
    total = Fraction(0)
    for mask, term in poly.items():
        for i, end in enumerate(at):
            term = term * end if mask >> i & 1 else term
        total += term
    return total


def poly_text(poly: Poly) -> str:
    """A polynomial as a model has it."""
    terms = [
        "*".join([str(Fraction(c)), *(name for i, name in enumerate(NAMES) if mask >> i & 1)])
        for mask, c in poly.items()
    ]
    return "+".join(terms) or "0"


def model_text(process: Process) -> bytes:
    """The text that plift reads."""
    lines = [
        f"@type: {'DTMC' if process.is_chain else 'MDP'}",
        "@parameters",
        " ".join(NAMES[: process.parameters]),
        "@model",
    ]
    for s, rows in enumerate(process.states):
        labels = {"init": s == process.init, "done": s in process.goals, '"all well"': s in process.safe}
        lines.append(" ".join([f"state {s}", *(label for label, has in labels.items() if has)]))
        for row in rows:
            lines += ["action"] * (not process.is_chain) + [f"{target} : {poly_text(poly)}" for target, poly in row]
    return "".join(f"{line}\n" for line in lines).encode()


def random_row(chance: random.Random, parameters: int, count: int) -> Row:
    """A row to some of so many states."""
    fit = [
        polys
        for polys in ROWS
        if len(polys) <= count and all(mask < 2**parameters for poly in polys for mask in poly)
    ]
    polys = chance.choice(fit)
    return list(zip(chance.sample(range(count), len(polys)), polys))


def random_process(chance: random.Random) -> Process:
    """A process of a few states."""
    count, parameters, is_chain = chance.randrange(2, 7), chance.randrange(3), chance.random() < 0.15
    sizes = [1] * count
    for s in [] if is_chain else chance.sample(range(count), chance.randrange(1, min(count, 4) + 1)):
        sizes[s] = chance.choice([2, 2, 3])
    states = [[random_row(chance, parameters, count) for _ in range(size)] for size in sizes]
    goals = set(chance.sample(range(count), chance.choice([1, 1, 1, min(2, count)])))
    safe = {s for s in range(count) if chance.random() < 0.7} or {0}
    return Process(is_chain, parameters, goals, safe, chance.randrange(count), states)


def some_of(chance: random.Random, all_of: List[Any], most: int) -> List[Any]:
    """At most so many of these, each once."""
    return chance.sample(all_of, min(len(all_of), most)) if all_of else []


def random_question(chance: random.Random, process: Process) -> Question:
    """A question of a process."""
    pieces = tuple(chance.choice(["", "", " ", "  ", "\t"]) for _ in range(7))
    return Question(
        op=chance.choice(["<=", "<", ">=", ">"]),
        bound=chance.choice(BOUNDS),
        is_until=chance.random() < 0.5,
        blanks=pieces,
        box=[chance.choice(SPANS) for _ in range(process.parameters)],
        depth=chance.choice([0, 1, 2, 4]),
        precision=chance.choice([1, 2, 4, 6, 8]),
    )
