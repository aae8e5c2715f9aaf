"""Random chains with copied states, sinks, dead ends and cycles, and their quotients, worked out by plain rounds.

A transition's probability is a polynomial in one parameter, a + b p over the chain's denominator, as a pair (a, b).
"""

from __future__ import annotations

import random
from typing import Dict, Hashable, Iterable, List, NamedTuple, Tuple

Weight = Tuple[int, int]
Row = Dict[int, Weight]


class Chain(NamedTuple):
    """The denominator; of each state its row; the goal states; and the initial state."""

    common: int
    rows: List[Row]
    goals: List[bool]
    init: int

    def text(self) -> str:
        """The chain as a DRN text."""
        lines = ["@type: DTMC", "@parameters", "p", "@model"]
        for s, row in enumerate(self.rows):
            labels = " init" * (s == self.init) + " goal" * self.goals[s]
            lines.append(f"state {s}{labels}")
            lines += [f"{target} : {self.value(weight)}" for target, weight in row.items()]
        return "\n".join(lines) + "\n"

    def value(self, weight: Weight) -> str:
        """A probability as a DRN value."""
        constant, slope = weight
        if slope == 0:
            return f"{constant}/{self.common}"
        return f"{constant}/{self.common}{slope:+d}/{self.common}*p"

    def quotient(self) -> List[str]:
        """The lines of the quotient's model, as a report has them, by the rows' own denominator."""
        block = self.blocks()
        firsts = [block.index(b) for b in range(max(block) + 1)]
        goals = [b for b, s in enumerate(firsts) if self.goals[s]]
        lines = [f"states {len(firsts)}", f"init {block[self.init]}", " ".join(map(str, ["goal", len(goals), *goals]))]
        for b, s in enumerate(firsts):
            row = {b: (self.common, 0)} if self.goals[s] else into(self.rows[s], block)
            lines.append(f"row {b} 0 {len(row)}")
            for target, weight in sorted(row.items()):
                terms = [f"{at}:{number}" for at, number in enumerate(weight) if number]
                lines.append(" ".join(map(str, ["to", target, *terms])))
        return lines

    def blocks(self) -> List[int]:
        """The block of each state in the coarsest right partition, numbered by least states."""
        block, count = numbered(self.goals), 0
        while count < max(block) + 1:
            count = max(block) + 1
            block = numbered(
                (block[s], None if self.goals[s] else frozenset(into(row, block).items()))
                for s, row in enumerate(self.rows)
            )
        return block


def into(row: Row, block: List[int]) -> Row:
    """What a row sums to, block by block, without sums that are 0."""
    sums: Row = {}
    for target, weight in row.items():
        before = sums.get(block[target], (0, 0))
        sums[block[target]] = (before[0] + weight[0], before[1] + weight[1])
    return {b: weight for b, weight in sums.items() if weight != (0, 0)}


def numbered(keys: Iterable[Hashable]) -> List[int]:
    """Numbers for keys, the same for the same key, in the order in which they come first."""
    names: Dict[Hashable, int] = {}
    return [names.setdefault(key, len(names)) for key in keys]


def random_chain(rng: random.Random, most: int) -> Chain:
    """A chain of at most so many states: each row's parts are cut from a few; then states are copied and shuffled."""
    kinds = rng.randint(2, max(2, most // 2))
    rows = [random_row(rng, s, kinds) for s in range(kinds)]
    goals = [s == 0 or rng.random() < 0.1 for s in range(kinds)]
    while len(rows) < most and rng.random() < 0.9:
        copied = rng.randrange(len(rows))
        rows.append(led_astray(rng, rows[copied], goals))
        goals.append(goals[copied])
    order = list(range(len(rows)))
    rng.shuffle(order)
    moved: List[Row] = [{} for _ in rows]
    for s, row in enumerate(rows):
        moved[order[s]] = {order[target]: weight for target, weight in row.items()}
    where = [goals[order.index(s)] for s in range(len(rows))]
    return Chain(8, moved, where, rng.randrange(len(rows)))


def random_row(rng: random.Random, s: int, states: int) -> Row:
    """A row over 8: a sink, a step to one state, or parts to some, of which two may share a parameter."""
    kind = rng.random()
    if kind < 0.15:
        return {s: (8, 0)}
    if kind < 0.3:
        return {rng.randrange(states): (8, 0)}
    targets = rng.sample(range(states), rng.randint(2, min(4, states)))
    parts = {4: [2, 2, 2, 2], 3: [4, 2, 2], 2: [4, 4]}[len(targets)]
    row = {target: (part, 0) for target, part in zip(targets, parts)}
    if rng.random() < 0.4:
        row[targets[0]] = (parts[0], -1)
        row[targets[1]] = (parts[1], 1)
    return row


def led_astray(rng: random.Random, row: Row, goals: List[bool]) -> Row:
    """A copy of a row, of which now and then a target is another state, or is cut in two."""
    copy = dict(row)
    target = rng.choice(list(copy))
    other = rng.randrange(len(goals))
    if other in copy or rng.random() < 0.5:
        return copy
    constant, slope = copy[target]
    if rng.random() < 0.5:
        del copy[target]
        copy[other] = (constant, slope)
    elif constant % 2 == 0 and slope == 0:
        copy[target] = copy[other] = (constant // 2, 0)
    return copy
