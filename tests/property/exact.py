"""What is reached at a valuation, exactly: by each memoryless scheduler, whose equations are solved in fractions."""

from __future__ import annotations

from fractions import Fraction
from itertools import product
from typing import Dict, Iterator, List, Optional, Sequence, Set, Tuple

from processes import Process, Valuation, value

Picks = Sequence[Optional[int]]
Weights = List[Tuple[int, Fraction]]


def can_reach(goals: Set[int], rows: Dict[int, Weights]) -> Set[int]:
    """The states from which a goal state is reached at all."""
    found, grows = set(goals), True
    while grows:
        more = {
            s for s, row in rows.items() if s not in found and any(weight and target in found for target, weight in row)
        }
        found, grows = found | more, bool(more)
    return found


def solved(matrix: List[List[Fraction]]) -> List[Fraction]:
    """The solution of equations that have one: each row holds coefficients and then the right side."""
    size = len(matrix)
    for i in range(size):
        pivot = next(j for j in range(i, size) if matrix[j][i])
        matrix[i], matrix[pivot] = matrix[pivot], matrix[i]
        matrix[i] = [entry / matrix[i][i] for entry in matrix[i]]
        for j in range(size):
            if j != i and matrix[j][i]:
                factor = matrix[j][i]
                matrix[j] = [a - factor * b for a, b in zip(matrix[j], matrix[i])]
    return [row[-1] for row in matrix]


def reached(process: Process, picks: Picks, at: Valuation, is_until: bool) -> List[Fraction]:
    """With which probability the goal is reached from each state, where these choices are made; of an until by way of
    safe states alone."""
    count = len(process.states)
    left = {s for s in range(count) if s not in process.goals and not (is_until and s not in process.safe)}
    rows = {
        s: [(target, value(poly, at)) for target, poly in process.states[s][pick]]
        for s, pick in enumerate(picks)
        if s in left and pick is not None
    }
    sure = can_reach(process.goals, rows)
    open_states = sorted(s for s in left if s in sure)
    matrix = []
    for s in open_states:
        weights = dict(rows[s])
        right = sum((weight for target, weight in rows[s] if target in process.goals), Fraction(0))
        matrix.append([Fraction(int(s == t)) - weights.get(t, 0) for t in open_states] + [right])
    numbers = dict(zip(open_states, solved(matrix)))
    return [Fraction(1) if s in process.goals else numbers.get(s, Fraction(0)) for s in range(count)]


def schedulers(process: Process) -> Iterator[Picks]:
    """Each memoryless one, which makes one choice in each state."""
    return product(*(range(len(rows)) for rows in process.states))


def extremes(process: Process, at: Valuation, is_until: bool) -> Tuple[List[Fraction], List[Fraction]]:
    """The least and the greatest probability with which the goal is reached from each state. One memoryless scheduler
    has the least one at all states, and one the greatest, so others reach no less and no more."""
    found = [reached(process, picks, at, is_until) for picks in schedulers(process)]
    return [min(numbers) for numbers in zip(*found)], [max(numbers) for numbers in zip(*found)]
