"""How likely a goal is reached in a chain of plain numbers, exactly, modulo a prime.

A probability is a fraction, and two different fractions are the same modulo a prime of 61 bits about once in 10^18
cases; so their remainders are compared, which stay short however long the fractions are.
"""

from __future__ import annotations

import heapq
from typing import Dict, Iterator, List, Sequence, Set, Tuple

PRIME = 2**61 - 1
Chain = Sequence[Sequence[Tuple[int, int]]]
"""For each state its targets with their probabilities modulo the prime, none of which is 0."""


class TooDense(Exception):
    """An elimination would take too long."""


class Work:
    """How many products may still be computed."""

    def __init__(self, left: int) -> None:
        self.left = left

    def spend(self, products: int) -> None:
        """Takes some of them."""
        self.left -= products
        if self.left < 0:
            raise TooDense


def reach(chain: Chain, goal: Set[int], work: Work) -> List[int]:
    """For each state how likely the goal is reached from it, modulo the prime."""
    worth = [0] * len(chain)
    for state in goal:
        worth[state] = 1
    hopeful = _hopeful(chain, goal)
    for component in _components(chain, hopeful):
        _solve(chain, component, worth, work)
    return worth


def _hopeful(chain: Chain, goal: Set[int]) -> Set[int]:
    """The other states from which the goal can be reached at all."""
    before: List[List[int]] = [[] for _ in chain]
    for state, row in enumerate(chain):
        for target, _ in row:
            before[target].append(state)
    found, open_states = set(goal), list(goal)
    while open_states:
        for state in before[open_states.pop()]:
            if state not in found:
                found.add(state)
                open_states.append(state)
    return found - goal


def _components(chain: Chain, inside: Set[int]) -> Iterator[List[int]]:
    """The strongly connected components of these states; each comes behind those that it leads to."""
    order: Dict[int, int] = {}
    low: Dict[int, int] = {}
    stack: List[int] = []
    is_open: Set[int] = set()
    for root in sorted(inside):
        if root in order:
            continue
        path: List[Tuple[int, Iterator[Tuple[int, int]]]] = [(root, iter(chain[root]))]
        order[root] = low[root] = len(order)
        stack.append(root)
        is_open.add(root)
        while path:
            state, targets = path[-1]
            for target, _ in targets:
                if target not in inside:
                    continue
                if target not in order:
                    order[target] = low[target] = len(order)
                    stack.append(target)
                    is_open.add(target)
                    path.append((target, iter(chain[target])))
                    break
                if target in is_open:
                    low[state] = min(low[state], order[target])
            else:
                path.pop()
                if path:
                    low[path[-1][0]] = min(low[path[-1][0]], low[state])
                if low[state] == order[state]:
                    place = len(stack) - 1
                    while stack[place] != state:
                        place -= 1
                    component, stack[place:] = stack[place:], []
                    is_open.difference_update(component)
                    yield component


def _solve(chain: Chain, component: List[int], worth: List[int], work: Work) -> None:
    """Finds the worth of the states of a component, when that of all that it leads to is known. States are eliminated,
    the one with the fewest neighbours first."""
    members = set(component)
    rows: Dict[int, Dict[int, int]] = {}
    known: Dict[int, int] = {}
    before: Dict[int, Set[int]] = {state: set() for state in component}
    for state in component:
        row: Dict[int, int] = {}
        constant = 0
        for target, share in chain[state]:
            if target in members:
                row[target] = (row.get(target, 0) + share) % PRIME
                before[target].add(state)
            else:
                constant += share * worth[target]
        rows[state], known[state] = row, constant % PRIME
    heap = [(len(before[state]) * len(rows[state]), state) for state in component]
    heapq.heapify(heap)
    done: List[int] = []
    left = set(component)
    while heap:
        size, state = heapq.heappop(heap)
        if state not in left:
            continue
        now = len(before[state] & left) * len(rows[state])
        if now > size:
            heapq.heappush(heap, (now, state))
            continue
        left.discard(state)
        done.append(state)
        row = rows[state]
        loop = row.pop(state, 0)
        if loop:
            scale = pow(1 - loop, PRIME - 2, PRIME)
            for target in row:
                row[target] = row[target] * scale % PRIME
            known[state] = known[state] * scale % PRIME
        for source in before[state]:
            if source not in left:
                continue
            other = rows[source]
            share = other.pop(state)
            for target, part in row.items():
                other[target] = (other.get(target, 0) + share * part) % PRIME
                before[target].add(source)
            known[source] = (known[source] + share * known[state]) % PRIME
            work.spend(len(row) + 1)
    for state in reversed(done):
        worth[state] = (known[state] + sum(share * worth[target] for target, share in rows[state].items())) % PRIME
