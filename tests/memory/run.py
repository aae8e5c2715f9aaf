#!/usr/bin/env python3
"""Refuses each request for memory of some runs in turn: status 8, and nothing is written.

    tests/memory/run.py [--bin PATH]

Each request is refused twice: with all behind it, and alone. Refused alone it may be made again at once, as where a
list asks for more than it needs and then for what it needs; the answer is then the whole one, as it is where a request
only gives memory back. What verify, lumped, bounded, property and cost ask for last is their room, so none comes while
rectangles are decided and the report is written.

Needs the built program (./plift builds it) and a C compiler, for a small library that is loaded before the C library
and stands between the two. Prints how many requests each run makes. The last line is 'N passed, M failed'.
"""

from __future__ import annotations

import argparse
import os
import shutil
import subprocess
import sys
import tempfile
from dataclasses import dataclass
from typing import Optional, Union

HERE = os.path.dirname(os.path.abspath(__file__))
TOP = os.path.dirname(os.path.dirname(HERE))
PROGRAM = os.path.join(TOP, "crates", "plift", "out", "plift")

COIN = "examples/coin.drn"
COIN_JOB = "--goal heads --bound 1/2 --region 1/10<=p<=2/5 --precision 4"
LADDER = "examples/ladder1.drn"
LADDER_JOB = "--goal done --bound 1/2 --region 1/2<=p<=3/5,1/2<=q<=3/5 --depth 2"

OUT_OF_MEMORY = 8
# The first request is for the list of words: without it there is no note.
NOTES = ("out of memory\n", "")


@dataclass
class Case:
    """A run: its words, and what it reads: a file, or the report of another run."""

    words: str
    reads: str = os.devnull
    report_of: Optional[Case] = None
    # What is asked for last, in bytes: the room of verify, lumped, bounded, property or cost.
    last: tuple[int, ...] = ()
    # How many requests at most only give memory back: where such a one is refused, the run goes on without.
    given_back: int = 0


def room(depth: int, parameters: int, states: int, rows: int, weights: int) -> tuple[int, ...]:
    """What a room asks for: nine pools, for each its words, and its list of lanes, a lane being a word; and what it
    takes to see whether states can be taken together, which here they can't."""
    pools = [(depth + 1, 2 * parameters * 8), (1, weights * 16), (1, states * 8), (1, rows * 4)]
    pools += [(1, states * 4), (1, states * 4), (1, 2 * states * 4)]
    pools += [(32, 2 * parameters * 8)] * 2
    return tuple(size for lanes, lane in pools for size in (lanes * lane, lanes * 8)) + taken(states)


def taken(states: int) -> tuple[int, ...]:
    """What it takes to see whether so many states can be taken together."""
    return tuple(size * states for size in (1, 4, 1, 4, 4, 1, 4))


def property_room(depth: int, parameters: int, states: int, rows: int, weights: int) -> tuple[int, ...]:
    """The same for a property, where states are looked at before the table."""
    sides, rest = 2, room(depth, parameters, states, rows, weights)
    return rest[:sides] + taken(states) + rest[sides : -len(taken(states))]


def bounded_room(steps: int, depth: int, parameters: int, states: int, weights: int) -> tuple[int, ...]:
    """The same for a number of steps: the sides, the table, the vectors and the picks of each number of steps, and
    those that are made."""
    sides = ((depth + 1) * 2 * parameters * 8, (depth + 1) * 8)
    numbers, picks = ((lanes * states * size, lanes * 8) for lanes, size in ((steps + 1, 8), (steps, 4)))
    return (*sides, weights * 16, *numbers, *picks, states * 8, states * 4)


def cost_room(depth: int, parameters: int, states: int, weights: int) -> tuple[int, ...]:
    """The same for a budget: the sides, the table, the numbers, and what they are found in."""
    return ((depth + 1) * 2 * parameters * 8, (depth + 1) * 8, weights * 16, states * 8, 2 * states * 4)


# Different rows have weights of their own, one for each entry at each corner: five for the coin, nine for the ladder.
COIN_ROOM = {"parameters": 1, "states": 3, "rows": 3, "weights": 5}
COIN_STEPS = {"parameters": 1, "states": 3, "weights": 5}
LADDER_ROOM = {"parameters": 2, "states": 4, "rows": 4, "weights": 9}

ACCEPT = Case("verify " + COIN_JOB, COIN, last=room(0, **COIN_ROOM))
DEEP_JOB = "--goal heads --bound 1/2 --region 1/10<=p<=9/10 --precision 24 --depth 12"
DEEP = Case("verify " + DEEP_JOB, COIN, last=room(12, **COIN_ROOM))
RANGED = Case("verify --from 1 " + DEEP_JOB, COIN, last=room(12, **COIN_ROOM))
BOUNDED = Case("bounded --steps 1 " + COIN_JOB, COIN, last=bounded_room(1, 0, **COIN_STEPS))
FAR = Case("bounded --steps 64 " + DEEP_JOB, COIN, last=bounded_room(64, 12, **COIN_STEPS))
PROPERTY_JOB = "--region 1/10<=p<=9/10 --precision 24 --depth 12"
PROPERTY = Case("property --formula P>=1/2[F\"heads\"] " + PROPERTY_JOB, COIN, last=property_room(12, **COIN_ROOM))
# The text is read twice, and the model is cut: state 2 leads to itself before and after.
UNTIL = Case("property --formula P<1/2[\"init\"U\"heads\"] " + PROPERTY_JOB, COIN, last=property_room(12, **COIN_ROOM))
SENDS_JOB = "--goal done --reward seconds --budget 2 --cap 4 --region 1/10<=p<=1/2,1/10<=q<=1/2 --depth 12"
COST = Case("cost " + SENDS_JOB, "examples/sends.drn", last=cost_room(12, parameters=2, states=5, weights=9))
# No two states of the coin behave alike.
LUMPED = Case("lumped " + COIN_JOB, COIN, last=room(0, **COIN_ROOM))
GENERATE = Case("generate 1")
CHECK = Case("check", report_of=ACCEPT)
MIGRATE = Case("migrate", report_of=ACCEPT)
REFINE = Case("refine --depth 12", report_of=Case("verify " + DEEP_JOB[:-2] + "2", COIN), last=room(12, **COIN_ROOM))
WIDE_REGION = ",".join("0<=%s<=1" % name for name in "abcdefgh")
WIDE_JOB = "--goal goal --bound 1/2 --precision 4 --region " + WIDE_REGION
WIDE = Case("verify " + WIDE_JOB, "tests/memory/wide.drn", given_back=1)
LADDER_VERIFY = Case("verify " + LADDER_JOB, LADDER, last=room(2, **LADDER_ROOM))
LADDER_CHECK = Case("check", report_of=LADDER_VERIFY)

SELFTEST = Case("selftest 1")

# Each of these runs is tried with each of its requests refused in turn.
CASES = [
    ACCEPT,
    DEEP,
    RANGED,
    LUMPED,
    BOUNDED,
    FAR,
    PROPERTY,
    UNTIL,
    COST,
    CHECK,
    MIGRATE,
    REFINE,
    GENERATE,
    WIDE,
    LADDER_VERIFY,
    LADDER_CHECK,
    SELFTEST,
]

# What selftest does in one run: it asks for memory at least as often as these do behind their words.
SELFTEST_PARTS = [LADDER_VERIFY, LADDER_CHECK]


@dataclass
class Ending:
    """How a run ended, what it wrote, and how many bytes each of its requests was for."""

    status: int
    written: bytes
    note: str
    requests: list[int]
    # How many requests were made before the first write to standard output; None where nothing was written.
    before_writing: Optional[int]


class Bench:
    """Runs the program below the library that refuses, and counts what is as it should be and what isn't."""

    def __init__(self, program: str, folder: str) -> None:
        """Builds the library in the folder."""
        self.program = program
        self.folder = folder
        self.library = os.path.join(folder, "refuse.so")
        self.passed = 0
        self.failed = 0
        compiler = shutil.which("cc") or shutil.which("gcc") or sys.exit("no C compiler is on the PATH")
        source = os.path.join(HERE, "refuse.c")
        subprocess.run([compiler, "-O1", "-shared", "-fPIC", "-o", self.library, source, "-ldl"], check=True)

    def run(self, words: str, stdin: bytes, refused: int = 0, and_all_behind: bool = False) -> Ending:
        """One run, with the request of that number refused, counted from 1; none where it is 0."""
        log = os.path.join(self.folder, "log")
        around = {"LD_PRELOAD": self.library, "PLIFT_REFUSE": str(refused), "PLIFT_LOG": log}
        if and_all_behind:
            around["PLIFT_ALL"] = "1"
        done = subprocess.run(
            [self.program] + words.split(" "),
            input=stdin,
            stdout=subprocess.PIPE,
            stderr=subprocess.PIPE,
            env=around,
            timeout=60,
        )
        requests: list[int] = []
        before = None
        with open(log) as file:
            for line in file:
                size, what = line.split()
                if what == "write":
                    before = len(requests)
                else:
                    requests.append(int(size))
        return Ending(done.returncode, done.stdout, done.stderr.decode("ascii", "replace"), requests, before)

    def input_of(self, case: Case) -> bytes:
        """What a run reads: the bytes of its file, or of the report that another run writes."""
        if case.report_of:
            return self.run(case.report_of.words, self.input_of(case.report_of)).written
        with open(os.path.join(TOP, case.reads) if case.reads != os.devnull else os.devnull, "rb") as file:
            return file.read()

    def expect(self, holds: Union[bool, bytes], what: str) -> None:
        """Counts what holds; prints what doesn't."""
        if holds:
            self.passed += 1
        else:
            self.failed += 1
            print("FAILED: " + what)

    def try_case(self, case: Case) -> None:
        """The run with enough memory, and then with each request refused."""
        stdin = self.input_of(case)
        whole = self.run(case.words, stdin)
        count = len(whole.requests)
        self.expect(whole.status == 0 and whole.written and count > 0, case.words + ": with enough memory")
        self.expect(whole.before_writing == count, case.words + ": a request after the first byte was written")
        if case.last:
            last = tuple(whole.requests[-len(case.last) :])
            self.expect(last == case.last, "%s: the last requests are %s, not %s" % (case.words, last, case.last))
        made_again = passed_over = 0
        for number in range(1, count + 1):
            got = self.run(case.words, stdin, number, and_all_behind=True)
            self.expect(is_out_of_memory(got), told(case, number, count, got))
            got = self.run(case.words, stdin, number)
            is_whole = got.status == 0 and got.written == whole.written
            again = is_whole and len(got.requests) == count + 1
            over = is_whole and len(got.requests) == count and passed_over < case.given_back
            made_again, passed_over = made_again + again, passed_over + over
            self.expect(again or over or is_out_of_memory(got), told(case, number, count, got))
        print("%5d requests, of which %d are made again: %s" % (count, made_again, case.words), flush=True)
        if case is SELFTEST:
            least = sum(self.work_of(part) for part in SELFTEST_PARTS)
            self.expect(count >= least, "%s: %d requests, and its parts make %d" % (case.words, count, least))

    def work_of(self, case: Case) -> int:
        """How many requests a run makes more than one whose text is refused at its first byte."""
        stdin = self.input_of(case)
        whole, refused = self.run(case.words, stdin), self.run(case.words, b"x" * len(stdin))
        return len(whole.requests) - len(refused.requests)


def is_out_of_memory(got: Ending) -> bool:
    """Whether a run ended with status 8, wrote nothing, and said why or nothing."""
    return got.status == OUT_OF_MEMORY and not got.written and got.note in NOTES


def told(case: Case, number: int, count: int, got: Ending) -> str:
    """The line for a run with one request refused."""
    return "%s: request %d of %d: status %d, %d bytes, %r" % (
        case.words,
        number,
        count,
        got.status,
        len(got.written),
        got.note,
    )


def main() -> None:
    """Tries each case; ends with status 1 where something isn't as it should be."""
    parser = argparse.ArgumentParser(description=__doc__, formatter_class=argparse.RawDescriptionHelpFormatter)
    parser.add_argument("--bin", default=PROGRAM)
    asked = parser.parse_args()
    if not os.access(asked.bin, os.X_OK):
        sys.exit(asked.bin + " isn't there: ./plift builds it")
    with tempfile.TemporaryDirectory(prefix="plift-memory.") as folder:
        bench = Bench(os.path.abspath(asked.bin), folder)
        for case in CASES:
            bench.try_case(case)
    print("%d passed, %d failed" % (bench.passed, bench.failed))
    sys.exit(1 if bench.failed else 0)


if __name__ == "__main__":
    main()
