#!/usr/bin/env python3
"""Measures one job, whole and in tiles (docs/SCALE.md):

    bench/tiles.py NAME GOAL BOUND REGION PRECISION DEPTHS < MODEL.drn

DEPTHS are that of the first report and those of each round, as 6,11 or 2,4,6,8,11. It prints a row of the table:
seconds of the processor of the whole, of the first report, of the tiles and of all around them (checks, `split` and
`join`), and how many times faster K processors would have the joined report, if each takes the next tile as soon as it
is free. PLIFT_PROGRAM names the program, as for plift-tiles.
"""

import heapq
import os
import subprocess
import sys
import tempfile
from pathlib import Path
from typing import List, NamedTuple

TOP = Path(__file__).resolve().parent.parent
sys.path[:0] = [str(TOP / "tiles"), str(TOP / "lab")]
from plift_lab.program import find_program  # noqa: E402
from plift_tiles.job import Job  # noqa: E402

PROCESSORS = (4, 16, 64)


class Round(NamedTuple):
    """Seconds of the processor: of each tile, of its check, and of `split` and `join`."""

    tiles: List[float]
    checks: List[float]
    around: float


def seconds(words: List[str], given: Path, out: Path) -> float:
    """What a command takes of the processor."""
    with open(given, "rb") as source, open(out, "wb") as sink:
        process = subprocess.Popen(words, stdin=source, stdout=sink)
        _, status, used = os.wait4(process.pid, 0)
    if status:
        sys.exit(f"tiles.py: {' '.join(words)}: status {status}")
    return float(used.ru_utime + used.ru_stime)


def spread(times: List[float], count: int) -> float:
    """When the last of these is done by so many processors."""
    free = [0.0] * count
    for time in times:
        heapq.heapreplace(free, free[0] + time)
    return max(free)


def go_deeper(program: str, place: Path, report: Path, depth: int, joined: Path) -> Round:
    """Takes a report to a depth in tiles."""
    command, folder = str(TOP / "plift-tiles"), place / str(depth)
    around = seconds([command, "split", str(folder), "--depth", str(depth)], report, place / "said")
    job, tiles, checks = Job(folder), [], []
    for number in job.numbers:
        tiles.append(seconds([program, *job.words(number)], job.model, job.report(number)))
        checks.append(seconds([program, "check"], job.report(number), place / "said"))
    return Round(tiles, checks, around + seconds([command, "join", str(folder)], job.base, joined))


def measure(program: str, words: List[str], depths: List[int], place: Path) -> str:
    """The row of a job, without its name."""
    model, whole, report = place / "model.drn", place / "whole.report", place / "first.report"
    at_once = seconds([program, *words, "--depth", str(depths[-1])], model, whole)
    first = seconds([program, *words, "--depth", str(depths[0])], model, report)
    rounds = []
    for depth in depths[1:]:
        joined = place / f"{depth}.report"
        rounds.append(go_deeper(program, place, report, depth, joined))
        report = joined
    if report.read_bytes() != whole.read_bytes():
        sys.exit("tiles.py: the joined report has other bytes")
    tiles = [time for one in rounds for time in one.tiles]
    around = sum(one.around + sum(one.checks) for one in rounds)
    faster = []
    for count in PROCESSORS:
        spans = [
            spread([tile + check for tile, check in zip(one.tiles, one.checks)], count) + one.around for one in rounds
        ]
        faster.append(f"{at_once / (first + sum(spans)):.1f}")
    return (
        f"{at_once:.2f} | {first:.2f} | {len(tiles)}, {sum(tiles):.2f}, {max(tiles, default=0):.2f} | {around:.2f} | "
        f"{(first + sum(tiles)) / at_once:.2f} | {', '.join(faster)} |"
    )


def main() -> None:
    """Measures the job that the words name."""
    if len(sys.argv) != 7:
        sys.exit(__doc__)
    name, goal, bound, region, precision, depths = sys.argv[1:]
    words = ["verify", "--goal", goal, "--bound", bound, "--region", region, "--precision", precision]
    with tempfile.TemporaryDirectory(prefix="plift-tiles-bench.") as folder:
        (Path(folder) / "model.drn").write_bytes(sys.stdin.buffer.read())
        row = measure(str(find_program().path), words, list(map(int, depths.split(","))), Path(folder))
    print(f"| {name}, {' to '.join(depths.split(','))} | {row}")


if __name__ == "__main__":
    main()
