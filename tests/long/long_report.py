#!/usr/bin/env python3
"""Reports as long as `check` reads, made as they are read: nothing of them is stored.

    tests/long/long_report.py write [--bytes N] [--states S] > report
    tests/long/long_report.py check [--bytes N] [--states S] [--bin PATH]

Each has at most N bytes (2^32 if left out, the most that `check` takes), and as many accepting leaves as that leaves
room for, each a line of S numbers of up to thirteen digits. At most 2^20 leaves stand below 20 halvings: with the
316 states that it has if S is left out their lines, of 4 KB each, come to 2^32 bytes; with 65,536 states a line has
851 KB. `check` pipes one into the program (that of tools/quick.py if left out), and tells what it answers, its seconds
of the processor, megabytes a second, and its peak memory (Linux).
"""

from __future__ import annotations

import argparse
import os
import random
import re
import signal
import subprocess
import sys
from dataclasses import dataclass
from functools import lru_cache
from pathlib import Path
from typing import Iterator

TOP = Path(__file__).resolve().parents[2]
QUICK = TOP / "build" / "quick" / "plift"
MOST_BYTES, MOST_DEPTH, STATES = 2**32, 20, 316
PRECISION = 40
PIECE = 2**20  # bytes, about, that are written at once
SPLIT = b"split 0\n"


class Long:
    """A report over one parameter p: state 0 leads to the goal, state 1, with p, else to state 2. No other state is
    ever left, and each of those from state 3 on has some number."""

    def __init__(self, most: int, states: int = STATES) -> None:
        one, chance = 2**PRECISION, random.Random(1)
        values = [one // 2, one, 0, *(chance.randrange(one) for _ in range(states - 3))]
        self.leaf = " ".join(["accept", *map(str, values)]).encode() + b"\n"
        self.states, self.depth = states, MOST_DEPTH
        room = most - len(self.head) + len(SPLIT)
        self.leaves = min(room // (len(self.leaf) + len(SPLIT)), 2**MOST_DEPTH)
        if self.leaves < 1:
            raise ValueError(f"{most} bytes are too few for a report of {states} states")

    @property
    def head(self) -> bytes:
        """The lines above the tree: p goes from 0 to 1/2, which is the bound."""
        lines = ["plift 1", "kind dtmc", "parameters 1 p", "common 1", f"states {self.states}", "init 0", "goal 1 1"]
        lines += ["row 0 0 2", "to 1 1:1", "to 2 0:1 1:-1"]
        for state in range(1, self.states):
            lines += [f"row {state} 0 1", f"to {state} 0:1"]
        grid = 2 ** (self.depth + 1)
        lines += ["bound 1/2", f"precision {PRECISION}", f"depth {self.depth}", f"grid {grid}", f"box 0 {grid // 2}"]
        return "\n".join(lines).encode() + b"\n"

    def __len__(self) -> int:
        """How many bytes it has."""
        nodes = self.leaves * len(self.leaf) + (self.leaves - 1) * len(SPLIT)
        return len(self.head) + int(nodes)

    def pieces(self) -> Iterator[bytes]:
        """Its bytes, in order."""
        yield self.head
        yield from self._tree(self.leaves)

    def _tree(self, leaves: int) -> Iterator[bytes]:
        """The lines of a tree of so many leaves, whose halves have as many each, but for one."""
        if leaves == 1 or leaves * len(self.leaf) <= PIECE:
            yield self._text(leaves)
            return
        yield SPLIT
        yield from self._tree(leaves - leaves // 2)
        yield from self._tree(leaves // 2)

    @lru_cache(maxsize=None)
    def _text(self, leaves: int) -> bytes:
        """The same at once. Few numbers come: two for each depth."""
        return self.leaf if leaves == 1 else SPLIT + self._text(leaves - leaves // 2) + self._text(leaves // 2)


@dataclass(frozen=True)
class Checked:
    """How a check ended: its status and what it wrote, seconds of the processor, and its peak memory in bytes."""

    status: int
    told: str
    seconds: float
    peak: int


def peak_of(process: int) -> int:
    """The peak memory so far of a process that runs, in bytes."""
    found = re.search(r"^VmHWM:\s*(\d+) kB", Path(f"/proc/{process}/status").read_text("ascii"), re.M)
    return int(found[1]) * 1024 if found else 0


def check(program: Path, report: Long) -> Checked:
    """Pipes a report into `check`."""
    pipe = subprocess.PIPE
    process = subprocess.Popen([str(program), "check"], stdin=pipe, stdout=pipe, stderr=pipe)
    assert process.stdin and process.stdout and process.stderr
    peak = 0
    try:
        for piece in report.pieces():
            process.stdin.write(piece)
        process.stdin.flush()
        peak = peak_of(process.pid)
        process.stdin.close()
    except BrokenPipeError:  # it was refused before its end
        pass
    told = process.stdout.read() + process.stderr.read()
    _, status, used = os.wait4(process.pid, 0)
    process.returncode = os.waitstatus_to_exitcode(status)
    for stream in (process.stdout, process.stderr):
        stream.close()
    return Checked(process.returncode, told.decode("ascii").rstrip("\n"), used.ru_utime + used.ru_stime, peak)


def words() -> argparse.Namespace:
    """What the words ask for."""
    parser = argparse.ArgumentParser(description=__doc__, formatter_class=argparse.RawDescriptionHelpFormatter)
    parser.add_argument("command", choices=["write", "check"])
    parser.add_argument("--bytes", type=int, default=MOST_BYTES, help="the most bytes that the report may have")
    parser.add_argument("--states", type=int, default=STATES, help="from 3 to 65536")
    parser.add_argument("--bin", type=Path, default=QUICK, help="the program that checks")
    return parser.parse_args()


def main() -> int:
    """Writes a report, or has one checked."""
    given = words()
    report = Long(given.bytes, given.states)
    if given.command == "write":
        signal.signal(signal.SIGPIPE, signal.SIG_DFL)  # who reads may stop before the end
        sys.stdout.buffer.writelines(report.pieces())
        return 0
    came = check(given.bin, report)
    rate = len(report) / came.seconds / 10**6
    print(
        f"{came.told}\n{len(report):,} bytes, {report.leaves:,} leaves, lines of {len(report.leaf):,} bytes: "
        f"{came.seconds:.2f} seconds of the processor, {rate:.0f} MB/s, at most {came.peak / 2**20:.1f} MiB"
    )
    return came.status


if __name__ == "__main__":
    sys.exit(main())
