#!/usr/bin/env python3
"""Measures verify on models of few states and very many steps, beside other programs with the same command line:

    slow.py [--limit SECONDS] [--only WORD] PROGRAM ..

It writes a table to standard output: a line for each job, with the rectangles of its tree, the seconds of the processor
for each program, least of three runs (one alone where it took more than a second), and whether the reports of all that
ended have the same bytes. A dash stands for a run that was stopped or refused.
"""

from __future__ import annotations

import argparse
import hashlib
from fractions import Fraction
from pathlib import Path
from typing import Iterator, Optional

import measure
import models
from models import Job

FAULTS = "1/1000000<=p<=1/100000"
REPAIRS = "1/1000<=q<=1/10"

# The families, their sizes and regions.
FAMILIES = [
    ("memory", (3, 6), "1/100000<=p<=1/10000," + REPAIRS),
    ("disks", (8, 2, 9), FAULTS + ",1/10000<=q<=1/1000"),
    ("disks", (24, 5, 8), FAULTS + ",1/1000<=q<=1/100"),
    ("watchdog", (8, 9), "1/10000000<=p<=1/100000,1/10<=q<=1/2"),
    ("watchdog", (40, 8), "1/10000000<=p<=1/100000,1/10<=q<=1/2"),
    ("ring", (5, 8), "1/10000000<=p<=1/100000," + REPAIRS),
    ("ring", (50, 7), "1/10000000<=p<=1/100000," + REPAIRS),
    ("bus", (32, 8), "1/100000<=p<=1/10000,1/20<=q<=1/10"),
    ("bus", (96, 8), "1/100000<=p<=1/10000,1/20<=q<=1/10"),
    ("spares", (3, 8), FAULTS + "," + REPAIRS),
    ("spares", (12, 8), FAULTS + "," + REPAIRS),
    ("queue", (10, 6), "1/20<=p<=1/10,3/20<=q<=1/5"),
    ("queue", (40, 9), "1/20<=p<=1/10,3/20<=q<=1/5"),
    ("nested", (4, 7), "1/100<=p<=1/10,1/10<=q<=1/2"),
    ("nested", (6, 9), "1/100<=p<=1/10,1/10<=q<=1/2"),
]

# A bound that lies between has no longer a denominator.
LONGEST = 10**6

LEAVES = (b"split ", b"accept ", b"reject ", b"unknown")


class Beside:
    """Programs that are run on the same jobs, and where their reports go."""

    def __init__(self, programs: list[str], folder: str, limit: int) -> None:
        self.programs = programs
        self.model = folder + "/model"
        self.report = folder + "/report"
        self.limit = limit

    def run(self, program: str, job: Job) -> tuple[measure.Run, bytes]:
        """The run of a program that took the least time, and the report of the first one."""
        words = [program, *job.verify()]
        best = measure.once(words, self.model, self.report, self.limit)
        report = Path(self.report).read_bytes()
        for _ in range(2):
            if best.status or best.seconds > 1:
                break
            run = measure.once(words, self.model, self.report, self.limit)
            if not run.status and run.seconds < best.seconds:
                best = run
        return best, report

    def between(self, job: Job) -> Optional[str]:
        """A bound that is half of the least that is accepted on the whole region."""
        _, report = self.run(self.programs[-1], job)
        for line in report.splitlines():
            if line.startswith(b"accept "):
                half = Fraction(int(line.split()[1]), 2 ** (job.precision + 1))
                return str(half.limit_denominator(LONGEST)) if half else None
        return None

    def row(self, job: Job) -> str:
        """A line of the table."""
        cells, sums, rectangles = [], set(), 0
        for program in self.programs:
            run, report = self.run(program, job)
            cells.append("-" if run.status else "%.4f" % run.seconds)
            if not run.status:
                sums.add(hashlib.sha256(report).digest())
                rectangles = sum(line.startswith(LEAVES) for line in report.splitlines())
        words = [job.name(), str(job.precision), job.bound, str(job.depth), str(rectangles)]
        return "\t".join([*words, *cells, "same" if len(sums) < 2 else "other"])


def jobs(beside: Beside, word: str) -> Iterator[Job]:
    """Each family at two precisions, with the bounds 0 and 1 and one between, that one at three depths."""
    for family, sizes, region in FAMILIES:
        if word not in family:
            continue
        Path(beside.model).write_text(models.FAMILIES[family](*sizes))
        for precision in (24, 40):
            for bound in ("0", "1"):
                yield Job(family, sizes, "lost", bound, region, 0, precision)
            between = beside.between(Job(family, sizes, "lost", "1", region, 0, precision))
            for depth in (0, 3, 6) if between else ():
                yield Job(family, sizes, "lost", between or "", region, depth, precision)


def main() -> None:
    """Prints the table."""
    parser = argparse.ArgumentParser(description=__doc__, formatter_class=argparse.RawDescriptionHelpFormatter)
    parser.add_argument("--limit", type=int, default=5, help="seconds of the processor after which a run is stopped")
    parser.add_argument("--only", default="", help="only families whose name has this")
    parser.add_argument("programs", nargs="+", metavar="PROGRAM")
    asked = parser.parse_args()
    print("\t".join(["model", "precision", "bound", "depth", "rectangles", *asked.programs, "bytes"]))
    with measure.scratch() as folder:
        beside = Beside(asked.programs, folder, asked.limit)
        for job in jobs(beside, asked.only):
            print(beside.row(job), flush=True)


if __name__ == "__main__":
    main()
