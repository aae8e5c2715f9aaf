#!/usr/bin/env python3
"""Measures verify and check on models of growing size, depth and precision, and prints a table with tabs.

    run.py [--bin PATH] [--limit SECONDS] [--only WORD] [--write]

With --write the table also replaces figures.tsv, and docs/PERFORMANCE.md gets what is made of it (figures.py).
"""

from __future__ import annotations

import argparse
import datetime
import os
import platform
import subprocess
import sys
from typing import Optional

import figures
import measure
import models
from models import Job

DATA = figures.HERE / "figures.tsv"
COLUMNS = (
    "series,model,states,depth,precision,rectangles,verify seconds,verify MB,report bytes,check seconds,check MB,note"
)


def decimals(number: float) -> str:
    """A probability in thousandths, as the command line takes it."""
    return "%d/1000" % min(999, max(1, round(number * 1000)))


def relay(hops: int, tries: int, **more: int) -> Job:
    """The bound is what is lost where each try is lost with 1/5."""
    lost = 1 - (1 - 0.2**tries) ** hops
    return Job("relay", (hops, tries), "lost", decimals(lost), "1/10<=p<=3/10,1/20<=q<=1/4", **more)


def ladder(blocks: int, **more: int) -> Job:
    """Up to two of all blocks are expected to fail, so that the bound lies inside the region."""
    region = "%d/%d<=p<=1,9/10<=q<=1" % (blocks - 20, blocks) if blocks > 20 else "1/10<=p<=1,9/10<=q<=1"
    return Job("ladder", (blocks,), "done", "1/2", region, **more)


def robot(side: int, **more: int) -> Job:
    """The bound is a chance of 9/10 to come home, where a step slips with 1/10 to 2/5."""
    return Job("robot", (side,), "home", "9/10", "1/10<=p<=2/5", **more)


def walk(length: int, **more: int) -> Job:
    """From the middle, with steps forth that are about as likely as those back."""
    return Job("walk", (length,), "won", "1/2", "49/100<=p<=51/100", **more)


def dice(count: int, **more: int) -> Job:
    """The bound is the chance of one fair die to show one."""
    return Job("dice", (count,), "won", "1/6", "1/10<=p<=9/10", **more)


def mixed(states: int, **more: int) -> Job:
    """All four parameters have the same interval around 1/2."""
    names = ("p", "q", "r", "s")
    return Job("mixed", (states,), "done", "1/2", ",".join("3/10<=%s<=7/10" % name for name in names), **more)


SERIES = {
    "states": [
        *(relay(hops, tries) for hops, tries in ((250, 4), (800, 5), (2667, 6), (9362, 7))),
        *(ladder(blocks) for blocks in (499, 1999, 7999, 32767)),
        *(robot(side, depth=0) for side in (31, 63, 127, 181)),
        *(walk(length, depth=2) for length in (50, 100, 200, 400)),
        *(mixed(states, depth=0) for states in (500, 1000, 2000, 4000)),
    ],
    "depth": [
        *(dice(1, depth=depth) for depth in (0, 2, 4, 6, 8, 10, 12)),
        *(relay(250, 4, depth=depth) for depth in (0, 2, 4, 6, 8, 10, 12)),
    ],
    "precision": [
        *(relay(250, 4, precision=precision) for precision in (8, 16, 24, 32, 40)),
        *(robot(31, depth=0, precision=precision) for precision in (8, 16, 24, 32, 40)),
        *(walk(100, depth=2, precision=precision) for precision in (8, 16, 24, 32, 40)),
    ],
}


def write_model(job: Job, path: str, program: str) -> None:
    """Writes the text of a job's model to a file; a ladder is written by the program itself."""
    if job.family == "ladder":
        with open(path, "wb") as file:
            subprocess.run([program, "generate", str(job.sizes[0])], stdout=file, check=True)
        return
    with open(path, "w") as file:
        file.write(models.FAMILIES[job.family](*job.sizes))


def count_lines(path: str, *fronts: bytes) -> int:
    """How many lines of a file begin with one of these."""
    with open(path, "rb") as file:
        return sum(line.startswith(fronts) for line in file)


def shown(run: measure.Run) -> list[str]:
    """Two cells: seconds of the processor, and MB at the peak; that of a run that was stopped is empty."""
    return ["> %d" % run.seconds, ""] if run.stopped else ["%.3f" % run.seconds, "%.0f" % run.megabytes]


def row(job: Job, folder: str, program: str, limit: int) -> list[str]:
    """The cells of a line, from the model on."""
    source, report, told = (os.path.join(folder, name) for name in ("model", "report", "told"))
    write_model(job, source, program)
    front = [job.name(), str(count_lines(source, b"state ")), str(job.depth), str(job.precision)]
    verify = measure.least([program] + job.verify(), source, report, limit)
    if verify.status != 0:
        return [*front, "", *shown(verify), "", "", "", "" if verify.stopped else verify.note]
    leaves = [count_lines(report, word) for word in (b"accept", b"reject", b"unknown")]
    size, nodes = os.path.getsize(report), sum(leaves) + count_lines(report, b"split")
    check = measure.least([program, "check"], report, told, limit)
    with open(told) as file:
        answer = file.read().strip()
    is_so = check.stopped or answer == "sound accept %d reject %d unknown %d" % tuple(leaves)
    note = "" if is_so else "check says: " + (answer or check.note)
    return [*front, str(nodes), *shown(verify), str(size), *shown(check), note]


def processor() -> str:
    """What the machine calls its processor."""
    with open("/proc/cpuinfo") as file:
        for line in file:
            if line.startswith("model name"):
                return line.split(":", 1)[1].strip()
    return platform.machine()


def table(program: str, limit: int, only: Optional[str]) -> str:
    """The lines of the table, printed as they come, and a last one of the machine."""
    loads = [os.getloadavg()[0]]
    lines = []

    def say(*cells: str) -> None:
        """Prints a line, and keeps it."""
        print(*cells, sep="\t", flush=True)
        lines.append("\t".join(cells) + "\n")

    say(*COLUMNS.split(","))
    with measure.scratch() as folder:
        for name, jobs in SERIES.items():
            for job in jobs if only in (None, name) else []:
                say(name, *row(job, folder, program, limit))
    loads.append(os.getloadavg()[0])
    say(
        "# Measured on %s, %s, %d processors. Processes at work besides: about %.1f at the beginning and %.1f at the end."
        % (datetime.date.today().isoformat(), processor(), os.cpu_count() or 1, loads[0], max(loads[1] - 1, 0))
    )
    return "".join(lines)


def main() -> None:
    """Prints the table that is asked for, and writes it with --write."""
    parser = argparse.ArgumentParser(description=__doc__, formatter_class=argparse.RawDescriptionHelpFormatter)
    parser.add_argument("--bin")
    parser.add_argument("--limit", type=int, default=60)
    parser.add_argument("--only", choices=list(SERIES))
    parser.add_argument("--write", action="store_true")
    asked = parser.parse_args()
    if asked.write and asked.only:
        sys.exit("--write needs all of it")
    text = table(measure.program(asked.bin), asked.limit, asked.only)
    if asked.write:
        DATA.write_text(text, encoding="utf-8")
        figures.main([])


if __name__ == "__main__":
    main()
