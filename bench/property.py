#!/usr/bin/env python3
"""Measures `property` beside `verify` on decision processes, with the same label, bound, region, depth and precision,
and prints a table.

    property.py [--bin PATH] [--limit SECONDS] [--only WORD]

`P<=` asks about the scheduler that reaches the most, as `verify` does, and has to have its leaves; `P>=` about the one
that reaches the least. Seconds of the processor, the least of three runs.
"""

import argparse
import os
import sys
from typing import Callable, Dict, List, Union

import atva
import measure
import models

FAMILIES: Dict[str, Callable[..., Union[str, bytes]]] = {**models.FAMILIES, "consensus": atva.consensus}


class Job(models.Job):
    """A model, and what is asked of it, also by a formula."""

    def property(self, op: str) -> List[str]:
        """The words that ask for it by a formula with <= or >=, without the program."""
        return ["property", "--formula", f'P{op}{self.bound} [F "{self.goal}"]', *self.options()]

    def text(self) -> bytes:
        """The model, as the program reads it."""
        text = FAMILIES[self.family](*self.sizes)
        return text if isinstance(text, bytes) else text.encode()


LINKS = "1/10<=p<=3/10,1/20<=q<=1/4"
COINS = "1/5<=p1<=4/5,1/5<=p2<=4/5"
JOBS = [
    Job("relay", (250, 4), "delivered", "7/10", LINKS, 6),
    Job("relay", (2667, 6), "delivered", "9/10", LINKS, 4),
    Job("relay", (9362, 7), "delivered", "9/10", LINKS, 2),
    Job("relay", (9362, 7), "lost", "1/10", LINKS, 2),
    Job("robot", (31,), "home", "1/2", "1/10<=p<=2/5", 2),
    Job("robot", (63,), "home", "1/2", "1/10<=p<=2/5", 0),
    Job("robot", (181,), "home", "1/2", "1/10<=p<=2/5", 0),
    Job("consensus", (2, 2), "agree", "1/3", COINS, 6),
    Job("consensus", (2, 8), "agree", "1/3", COINS, 4),
    Job("consensus", (2, 16), "agree", "1/3", COINS, 2),
]
HEADER = """| Model | States | Asked | Depth | `verify`, leaves | s | `P<=`, leaves | s | `P>=`, leaves | s |
|---|---|---|---|---|---|---|---|---|---|"""


def leaves(path: str, *words: bytes) -> List[int]:
    """How many leaves there are of each kind."""
    with open(path, "rb") as file:
        lines = [line.split(b" ", 1)[0].rstrip() for line in file]
    return [lines.count(word) for word in words]


def cells(words: List[str], kinds: List[bytes], folder: str, limit: int) -> List[str]:
    """The leaves and the seconds of a line of words."""
    target = os.path.join(folder, "written")
    run = measure.least(words, os.path.join(folder, "model"), target, limit)
    if run.stopped:
        return ["", f"> {limit}"]
    if run.status:
        sys.exit(f"{words}: status {run.status}, {run.note}")
    return [" ".join(map(str, leaves(target, *kinds, b"unknown"))), f"{run.seconds:.3f}"]


def row(job: Job, folder: str, program: str, limit: int) -> str:
    """One line of the table."""
    text = job.text()
    with open(os.path.join(folder, "model"), "wb") as file:
        file.write(text)
    found = cells([program, *job.verify()], [b"accept", b"reject"], folder, limit)
    for op in ("<=", ">="):
        found += cells([program, *job.property(op)], [b"holds", b"fails"], folder, limit)
    wrong = "" if found[0] == found[2] or not (found[0] and found[2]) else " not the leaves of verify"
    front = [job.name(), str(text.count(b"\nstate ")), f"{job.goal} {job.bound}", str(job.depth)]
    return "| " + " | ".join(front + found) + " |" + wrong


def main() -> None:
    """Prints the table, or the rows of one family."""
    parser = argparse.ArgumentParser(description=__doc__, formatter_class=argparse.RawDescriptionHelpFormatter)
    parser.add_argument("--bin", help="a built plift")
    parser.add_argument("--limit", type=int, default=60, help="seconds of a run; 60 if left out")
    parser.add_argument("--only", choices=sorted({job.family for job in JOBS}), help="one family")
    asked = parser.parse_args()
    program = measure.program(asked.bin)
    print(HEADER, flush=True)
    with measure.scratch() as folder:
        for job in JOBS:
            if asked.only in (None, job.family):
                print(row(job, folder, program, asked.limit), flush=True)


if __name__ == "__main__":
    main()
