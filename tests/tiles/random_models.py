#!/usr/bin/env python3
"""Small models made at random, taken to a depth in tiles and at once:

    tests/tiles/random_models.py [--count N] [--seed S]

Chains and decision processes, of 0 to 3 parameters, with dead ones whose ends are negative, at precisions from 1 to 40,
half of them with a range of precisions. The bound of each lies between what is reached everywhere and what is reached
somewhere, so that most have unknown leaves. The joined report has to be that of a single `verify`, byte for byte, after
one or two rounds, and what is joined in part has to be sound. Ends with 1 where one isn't, and tells its number and the
seed.
"""

import argparse
import random
import subprocess
import sys
import tempfile
from fractions import Fraction
from pathlib import Path
from typing import Iterator, List, NamedTuple, Optional

from common import Job, Program, joined, split, the_program, work, written
from plift_lab.report import Report

NAMES = ("p", "q", "r")


class Question(NamedTuple):
    """A model's text, and what is asked of it."""

    model: bytes
    region: str
    precision: int
    least: Optional[int]
    """The least precision of a range; none where one precision is asked for."""

    def words(self, bound: Fraction, depth: int) -> List[str]:
        """The program's words."""
        words = [
            "verify",
            "--goal",
            "goal",
            "--bound",
            str(bound),
            "--depth",
            str(depth),
            "--precision",
            str(self.precision),
        ]
        words += [] if self.least is None else ["--from", str(self.least)]
        return [*words, "--region", self.region] if self.region else words


class Came(NamedTuple):
    """What a model came to: how many tiles it had, and what was wrong, nothing where nothing was."""

    tiles: int
    fault: str


def value(chance: random.Random, names: List[str]) -> str:
    """A probability over these parameters, whose intervals lie within 0 and 1."""
    some = chance.sample(names, min(chance.choice([0, 1, 1, 1, 2]), len(names)))
    scale = Fraction(chance.randint(2, 5), 5)
    return "*".join([str(scale), *some])


def question(chance: random.Random) -> Question:
    """A model, its region and a precision."""
    kind, names = chance.choice(["DTMC", "MDP"]), list(NAMES[: chance.choice([0, 1, 1, 2, 2, 2, 2, 3, 3])])
    dead = [name for name in names if chance.random() < 0.1]
    live = [name for name in names if name not in dead]
    states = chance.randint(4, 8)
    lines = [f"@type: {kind}", "@parameters", " ".join(names), "@model"]
    for state in range(states - 2):
        lines.append(f"state {state}" + (" init" if state == 0 else ""))
        for choice in range(chance.randint(1, 3) if kind == "MDP" else 1):
            one = chance.randrange(state + 1, states)
            other = chance.choice([target for target in range(states) if target != one])
            part = value(chance, live)
            lines += [f"action {choice}"] * (kind == "MDP") + [f"{one} : {part}", f"{other} : 1-{part}"]
    goal, sink = states - 2, states - 1
    lines += [f"state {goal} goal", f"{goal} : 1", f"state {sink}", f"{sink} : 1"]
    region = ",".join(interval(chance, name, name in dead) for name in names)
    region = " " + region if region.startswith("-") else region
    precision = chance.choice([1, 4, 10, 16, 24, 40])
    least = chance.choice([None, chance.randint(1, precision)])
    return Question(("\n".join(lines) + "\n").encode(), region, precision, least)


def interval(chance: random.Random, name: str, is_dead: bool) -> str:
    """A clause of a region."""
    over = chance.choice([10, 16, 21])
    low, high = sorted(chance.sample(range(over + 1), 2))
    return f"{low - over}/{over}<={name}<={high}/{over}" if is_dead else f"{low}/{over}<={name}<={high}/{over}"


def number_at(program: Program, asked: Question, bound: int) -> Optional[Fraction]:
    """The initial state's number in the report of the whole region, where there is one."""
    data = written(program, asked.words(Fraction(bound), 0), asked.model)
    return next(Report(data, "").leaves()).value


def bound_between(chance: random.Random, program: Program, asked: Question) -> Fraction:
    """A bound between the number that holds everywhere and the one that isn't exceeded anywhere."""
    low, high = number_at(program, asked, 0) or Fraction(0), number_at(program, asked, 1)
    assert high is not None
    return (low + (high - low) * Fraction(chance.randint(1, 15), 16)).limit_denominator(10**6)


def tried(chance: random.Random, program: Program, place: Path) -> Came:
    """What one model comes to."""
    asked = question(chance)
    try:
        bound = bound_between(chance, program, asked)
    except subprocess.CalledProcessError:  # a row that isn't a distribution: a single verify refuses it as well
        return Came(0, "")
    first = chance.randint(0, 4)
    depths = [first + step for step in sorted(chance.sample(range(1, 7), chance.randint(1, 2)))]
    report, tiles = written(program, asked.words(bound, first), asked.model), 0
    for depth in depths:
        split(program, report, place / str(depth), depth)
        job = Job(place / str(depth))
        tiles += len(job.regions)
        some = [number for number in job.numbers if chance.random() < 0.5]
        if work(program, job, some):
            return Came(tiles, f"a tile to depth {depth} failed")
        program.check(joined(job, partial=True))
        if work(program, job, job.numbers):
            return Came(tiles, f"a tile to depth {depth} failed")
        report = joined(job)
        if report != written(program, asked.words(bound, depth), asked.model):
            return Came(
                tiles, f"depth {first} to {depth}: other bytes\n{asked.model.decode()}\n{asked.words(bound, depth)}"
            )
        program.check(report)
    return Came(tiles, "")


def compare(count: int, seed: int) -> Iterator[Came]:
    """What so many models come to."""
    chance, program = random.Random(seed), the_program()
    for _ in range(count):
        with tempfile.TemporaryDirectory(prefix="plift-tiles-random.") as place:
            yield tried(chance, program, Path(place))


def told(came: List[Came]) -> str:
    """A line on what was tried."""
    tiles, wrong = [one.tiles for one in came], sum(bool(one.fault) for one in came)
    return f"{len(came)} models, {sum(count > 0 for count in tiles)} with tiles, {sum(tiles)} tiles, {wrong} wrong"


def main() -> int:
    """Tries the models that the words ask for."""
    words = argparse.ArgumentParser(description="Compares joined reports of models made at random with single ones.")
    words.add_argument("--count", type=int, default=500)
    words.add_argument("--seed", type=int, default=1)
    given = words.parse_args()
    came: List[Came] = []
    for one in compare(given.count, given.seed):
        came.append(one)
        if one.fault:
            print(f"model {len(came)} of seed {given.seed}: {one.fault}")
        if len(came) % 50 == 0:
            print(told(came), flush=True)
    print(told(came))
    return int(any(one.fault for one in came))


if __name__ == "__main__":
    sys.exit(main())
