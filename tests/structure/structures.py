"""Small models with structure, made at random: states that are copies of others, sinks, rings, dead ends, states that
nothing leads to, choices that differ in nothing."""

from __future__ import annotations

import random
import sys
from fractions import Fraction
from pathlib import Path
from typing import List, NamedTuple

sys.dont_write_bytecode = True
sys.path[:0] = [str(Path(__file__).resolve().parents[1] / folder) for folder in ("property", "cost")]

from processes import ROWS, SPANS, Box, Process, Row, region_words  # noqa: E402

__all__ = ["Box", "Process"]


class Asked(NamedTuple):
    """What is asked of a process: a bound, a region, a depth, a precision, and the least one of a range."""

    bound: Fraction
    box: Box
    depth: int
    precision: int
    least: int

    def words(self, command: str) -> List[str]:
        """The words of a command with a goal and a bound."""
        words = [command, "--goal", "done", "--bound", str(self.bound)]
        words += ["--depth", str(self.depth), "--precision", str(self.precision)]
        return words + region_words(self.box)


def kinds_row(chance: random.Random, kind: int, kinds: int, parameters: int) -> Row:
    """A row between kinds of states: mostly on in a ring, else anywhere, or to itself for ever."""
    fit = [polys for polys in ROWS if len(polys) <= kinds and all(m < 2**parameters for poly in polys for m in poly)]
    polys = chance.choice(fit if chance.random() < 0.85 else ROWS[:1])
    if len(polys) == 1 and chance.random() < 0.3:
        return [(kind, polys[0])]
    on = (kind + 1) % kinds
    targets = chance.sample(range(kinds), len(polys))
    if on not in targets and chance.random() < 0.6:
        targets[chance.randrange(len(targets))] = on
    return list(zip(targets, polys))


def copied_row(chance: random.Random, row: Row, copies: List[List[int]]) -> Row:
    """The row of a copy: each target is some copy of its kind, which no other target of the row is."""
    return [(chance.choice(copies[kind]), poly) for kind, poly in row]


def structured(chance: random.Random, is_chain: bool) -> Process:
    """A process of a few kinds of states, each with copies, and of sinks."""
    kinds, parameters = chance.randrange(2, 5), chance.randrange(3)
    sizes = [1 if is_chain else chance.choice([1, 1, 2, 3]) for _ in range(kinds)]
    rows = [[kinds_row(chance, kind, kinds, parameters) for _ in range(size)] for kind, size in enumerate(sizes)]
    order = [kind for kind in range(kinds) for _ in range(chance.choice([1, 1, 2, 3]))]
    chance.shuffle(order)
    copies = [[s for s, of in enumerate(order) if of == kind] for kind in range(kinds)]
    states = [[copied_row(chance, row, copies) for row in rows[kind]] for kind in order]
    if not is_chain and chance.random() < 0.3:
        again = chance.choice(states)
        again.append(list(again[0]))
    sinks = chance.choice([0, 0, 1, 2, 2])
    for _ in range(sinks):
        sink = len(states)
        states.append([[(sink, {0: Fraction(1)})]])
        rows_before = [rows for rows in states[:sink]]
        row = chance.choice(chance.choice(rows_before))
        at = chance.randrange(len(row))
        row[at] = (sink, row[at][1])
    goal = chance.randrange(kinds)
    goals = set(copies[goal]) if chance.random() < 0.7 else {chance.choice(copies[goal])}
    safe = {s for s in range(len(states)) if chance.random() < 0.8}
    return Process(is_chain, parameters, goals, safe or {0}, chance.randrange(len(states)), states)


def asked(chance: random.Random, process: Process) -> Asked:
    """A question of a process."""
    precision = chance.choice([1, 2, 4, 6, 7])
    bounds = [Fraction(0), Fraction(1), Fraction(1, 2), Fraction(1, 3), Fraction(1, 16), Fraction(5, 7)]
    box: Box = [chance.choice(SPANS) for _ in range(process.parameters)]
    return Asked(chance.choice(bounds), box, chance.choice([0, 1, 2]), precision, chance.randrange(1, precision + 1))
