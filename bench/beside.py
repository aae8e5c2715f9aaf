#!/usr/bin/env python3
"""Measures commands beside `verify` on the same models, and prints rows of beside.tsv:

    bench/beside.py [--bin PATH] [--only FAMILY] [--write]

For each model: `verify --from 1` and the bytes of its report, `refine` from the report of one level above, `property`
with `<=` and `>=`, and of chains `lumped`. Seconds of the processor, the least of three runs; on a machine that has
other work to do they tell little, since two runs may differ by half. With --write the rows of these commands are
replaced in beside.tsv, and docs/PERFORMANCE.md gets what is made of it (figures.py).
"""

from __future__ import annotations

import argparse
import datetime
import os
import sys
from typing import Iterator, NamedTuple

import atva
import figures
import measure
import property

property.FAMILIES.update({"brp": atva.brp, "crowds": atva.crowds, "nand": atva.nand})
Job = property.Job
DATA = figures.HERE / "beside.tsv"
LINKS = "7/10<=pL<=99/100,7/10<=pK<=99/100"
JOBS = [
    Job("brp", (128, 3), "error", "1/20", LINKS, 8),
    Job("brp", (512, 5), "error", "1/10", LINKS, 6),
    Job("crowds", (6, 5), "observed", "1/10", "1/10<=PF<=4/5,1/20<=badC<=2/5", 8),
    Job("nand", (12, 2), "reliable", "1/2", "1/1000<=perr<=1/25,4/5<=prob1<=99/100", 8),
    Job("consensus", (2, 8), "agree", "3/5", "2/5<=p1<=3/5,2/5<=p2<=3/5", 4),
    Job("relay", (2667, 6), "lost", "1/10", "1/10<=p<=3/10,1/20<=q<=1/4", 6),
    Job("robot", (63,), "home", "9/10", "1/10<=p<=2/5", 4),
    Job("walk", (200,), "won", "1/2", "49/100<=p<=51/100", 6),
    Job("mixed", (1000,), "done", "1/2", ",".join(f"3/10<={name}<=7/10" for name in "pqrs"), 2),
]


class Place(NamedTuple):
    """A folder with the model, the program, and what is asked."""

    folder: str
    program: str
    job: property.Job

    def path(self, name: str) -> str:
        """A file in it."""
        return os.path.join(self.folder, name)

    def seconds(self, words: list[str], source: str, target: str) -> float:
        """What a command takes, with these files for its two streams."""
        run = measure.least([self.program, *words], self.path(source), self.path(target), 60)
        if run.status:
            sys.exit(f"{words}: status {run.status}, {run.note}")
        return run.seconds

    def size(self, name: str) -> float:
        """The bytes of a file."""
        return float(os.path.getsize(self.path(name)))

    def row(self, what: str, by: str, took: float, beside: float) -> list[str]:
        """A row of the table."""
        places = 3 if by == "seconds" else 0
        numbers = [f"{number:.{places}f}" for number in (took, beside)]
        names = [what, "`verify`", by, self.job.name(), str(self.job.depth)]
        return [*names, *numbers, "", "", datetime.date.today().isoformat()]


def rows(place: Place) -> Iterator[list[str]]:
    """All that is measured of a model."""
    job, text = place.job, place.job.text()
    with open(place.path("model"), "wb") as file:
        file.write(text)
    verify = place.seconds(job.verify(), "model", "report")
    bytes_of = place.size("report")
    ranged = place.seconds([*job.verify(), "--from", "1"], "model", "written")
    yield place.row("`verify --from 1`", "seconds", ranged, verify)
    yield place.row("`verify --from 1`", "bytes of the report", place.size("written"), bytes_of)
    above = property.Job(job.family, job.sizes, job.goal, job.bound, job.region, job.depth - 1)
    place.seconds(above.verify(), "model", "above")
    refined = place.seconds(["refine", "--depth", str(job.depth)], "above", "written")
    yield place.row("`refine` from one level above", "seconds", refined, verify)
    for op in ("<=", ">="):
        yield place.row(f"`property`, `{op}`", "seconds", place.seconds(job.property(op), "model", "written"), verify)
    if b"@type: DTMC" in text:
        yield place.row("`lumped`", "seconds", place.seconds(["lumped", *job.verify()[1:]], "model", "written"), verify)
        yield place.row("`lumped`", "bytes of the report", place.size("written"), bytes_of)


def replaced(text: str, lines: list[str]) -> str:
    """A table with these lines in the place of those of the same commands."""
    commands = {line.split("\t")[0] for line in lines}
    kept = [line for line in text.splitlines() if line.split("\t")[0] not in commands]
    head = next(place for place, line in enumerate(kept) if line.startswith("what\t")) + 1
    return "\n".join([*kept[:head], *sorted(lines, key=lambda line: line.split("\t")[:1]), *kept[head:]]) + "\n"


def main() -> None:
    """Prints the rows, and writes them with --write."""
    parser = argparse.ArgumentParser(description=__doc__, formatter_class=argparse.RawDescriptionHelpFormatter)
    parser.add_argument("--bin", help="a built plift")
    parser.add_argument("--only", choices=sorted({job.family for job in JOBS}), help="one family")
    parser.add_argument("--write", action="store_true")
    asked = parser.parse_args()
    if asked.write and asked.only:
        sys.exit("--write needs all of it")
    lines = []
    with measure.scratch() as folder:
        for job in JOBS:
            for cells in (
                rows(Place(folder, measure.program(asked.bin), job)) if asked.only in (None, job.family) else ()
            ):
                lines.append("\t".join(cells))
                print(lines[-1], flush=True)
    if asked.write:
        DATA.write_text(replaced(DATA.read_text(encoding="utf-8"), lines), encoding="utf-8")
        figures.main([])


if __name__ == "__main__":
    main()
