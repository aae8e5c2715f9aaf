"""What is spent before the goal at a valuation, exactly: by plans that choose as they like, anew at each step."""

from __future__ import annotations

import random
from fractions import Fraction
from typing import List, Sequence, Tuple

from priced import Process
from processes import Valuation, value

Rows = List[List[List[Tuple[int, Fraction]]]]  # of each state and choice, targets and probabilities


def rows_at(process: Process, at: Valuation) -> Rows:
    """The rows at a valuation."""
    return [[[(target, value(poly, at)) for target, poly in row] for row in rows] for rows in process.states]


def most_spent(process: Process, costs: Sequence[Fraction], at: Valuation, steps: int) -> List[Fraction]:
    """The most that any plan is expected to spend in so many steps, from each state."""
    rows, spent = rows_at(process, at), [Fraction(0)] * len(process.states)
    for _ in range(steps):
        means = [
            max(sum((weight * spent[target] for target, weight in row), Fraction(0)) for row in choices)
            for choices in rows
        ]
        spent = [Fraction(0) if s in process.goals else costs[s] + mean for s, mean in enumerate(means)]
    return spent


def tossed(chance: random.Random, count: int) -> List[Fraction]:
    """Weights of so many choices, which sum to 1."""
    weights = [chance.randrange(4) for _ in range(count)]
    weights[chance.randrange(count)] += 1
    return [Fraction(weight, sum(weights)) for weight in weights]


def spent_by_some(
    chance: random.Random, process: Process, costs: Sequence[Fraction], rows: Rows, s: int, steps: int
) -> Fraction:
    """What a plan spends from a state in so many steps, which is made up on the way: it tosses anew after each
    history."""
    if steps == 0 or s in process.goals:
        return Fraction(0)
    total = costs[s]
    for toss, row in zip(tossed(chance, len(rows[s])), rows[s]):
        for target, weight in row if toss else []:
            total += toss * weight * spent_by_some(chance, process, costs, rows, target, steps - 1) if weight else 0
    return total
