"""Small decision processes whose states cost something, made at random, and what is asked of them."""

from __future__ import annotations

import random
import sys
from fractions import Fraction
from pathlib import Path
from typing import List, NamedTuple, Sequence

sys.dont_write_bytecode = True
sys.path.append(str(Path(__file__).resolve().parents[1] / "property"))

from processes import Box, Process, SPANS, model_text, random_process, region_words  # noqa: E402

__all__ = ["Box", "Process"]
WHOLE, BROKEN = (0, 0, 0, 1, 1, 2, 5), ("1/2", "1/3", "5/3", "7/4", "1/1000")
COSTS = [*map(Fraction, WHOLE), *map(Fraction, BROKEN)]
CAPS = [1, 2, 3, 4, 7, 10, 10, 20, 100, 2**32 - 1]
REWARDS = ["steps", "x-1", '"my.cost"', "2"]


class Asked(NamedTuple):
    """What is asked of a process: the costs of its states, the budget, the cap, a region, a depth and a precision."""

    costs: Sequence[Fraction]
    budget: Fraction
    cap: int
    box: Box
    depth: int
    precision: int
    reward: str

    def words(self) -> List[str]:
        """The program's words."""
        words = ["cost", "--goal", "done", "--reward", self.reward.strip('"'), "--budget", str(self.budget)]
        words += ["--cap", str(self.cap), "--depth", str(self.depth), "--precision", str(self.precision)]
        return words + region_words(self.box)


def spelled(chance: random.Random, value: Fraction) -> str:
    """A number as a group of rewards may have it."""
    ways = [str(value), f"{3 * value.numerator}/{3 * value.denominator}", f"{value.numerator}e1/{value.denominator}0"]
    if 1000 % value.denominator == 0:
        ways.append(f"{value.numerator * 1000 // value.denominator}e-3")
    return chance.choice(ways)


def group(chance: random.Random, values: Sequence[Fraction]) -> str:
    """A group of rewards, with blanks."""
    gap = chance.choice(["", " ", "\t"])
    return "[" + f"{gap},{gap}".join(spelled(chance, value) for value in values) + gap + "]"


def priced_text(chance: random.Random, process: Process, asked: Asked) -> bytes:
    """The text of the process with rewards: those that are asked for, and others."""
    names = chance.sample([name for name in REWARDS if name != asked.reward], chance.randrange(3))
    names.insert(chance.randrange(len(names) + 1), asked.reward)
    lines, costs = [], iter(asked.costs)
    for line in model_text(process).decode().splitlines():
        if line == "@model":
            lines += ["@reward_models", " ".join(names)]
        elif line.startswith("state "):
            cost = next(costs)
            values = [cost if name == asked.reward else chance.choice(COSTS) for name in names]
            first, number, *labels = line.split(" ", 2)
            rewards = [] if cost == 0 and chance.random() < 0.5 else [group(chance, values)]
            line = " ".join([first, number, *rewards, *labels])
        elif line == "action" and chance.random() < 0.3:
            line += chance.choice([" go ", " ", ' "go on" ']) + group(chance, [Fraction(0)] * len(names))
        lines.append(line)
    return "".join(f"{line}\n" for line in lines).encode()


def random_asked(chance: random.Random, process: Process) -> Asked:
    """A question of a process. The budget is the cap."""
    cap = chance.choice(CAPS)
    costs = [chance.choice(COSTS) for _ in process.states]
    if chance.random() < 0.1:
        costs = [cost * cap for cost in costs]
    return Asked(
        costs=costs,
        budget=Fraction(cap),
        cap=cap,
        box=[chance.choice(SPANS) for _ in range(process.parameters)],
        depth=chance.choice([0, 1, 2, 4]),
        precision=chance.choice([2, 4, 6, 8, 9]),
        reward=chance.choice(REWARDS),
    )


def random_pair(chance: random.Random) -> tuple[Process, Asked]:
    """A process with a question."""
    process = random_process(chance)
    return process, random_asked(chance, process)
