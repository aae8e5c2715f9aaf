#!/usr/bin/env python3
"""What `refine` writes is what `verify` writes at the deeper depth, byte for byte, where the report is one that
`verify` wrote; from any other sound report it goes on to a sound one that keeps its decided leaves.

    tests/refine/test_refine.py [MODELS [SEED]]

Compares on so many small models made at random, 60 if left out: chains and decision processes of 0 to 3 parameters, at
precisions from 1 to 40, half of them with a range of precisions (tests/tiles/random_models.py makes them).
"""

from __future__ import annotations

import random
import subprocess
import sys
import unittest
from fractions import Fraction
from pathlib import Path
from typing import List, NamedTuple

sys.dont_write_bytecode = True
TOP = Path(__file__).resolve().parents[2]
sys.path[:0] = [str(TOP / "tests" / "tiles"), str(TOP / "lab")]
from plift_lab.program import Program  # noqa: E402
from random_models import Question, bound_between, question  # noqa: E402
from common import the_program  # noqa: E402

MODELS, SEED = 60, 1

# Each row: an example, its goal, a bound, a region, a precision, the least of a range or nothing, and depths.
TABLE = """
coin.drn  | heads     | 1/2   | 1/10<=p<=9/10                          | 24 |    | 0 1 2 12
coin.drn  | heads     | 1/3   | 1/10<=p<=9/10                          | 9  | 4  | 0 3 7 14
loop.drn  | heads     | 1/2   | 1/10<=p<=9/10                          | 40 | 1  | 2 5 12
retry.drn | lost      | 1/40  | 1/10<=p<=1/2,1/10<=q<=1/2              | 24 |    | 0 1 6 11
retry.drn | lost      | 1/40  | 1/10<=p<=1/2,1/10<=q<=1/2              | 12 | 8  | 1 4 8
links.drn | lost      | 1/10  | 1/20<=p<=2/5,1/20<=q<=2/5              | 16 | 1  | 3 9
relay.drn | delivered | 19/20 | 1/10<=p<=3/10,1/10<=q<=3/10            | 24 |    | 2 9
chain.drn | lost      | 1/2   | 3/5<=p<=9/10,3/5<=q<=9/10,3/5<=r<=9/10 | 30 | 1  | 0 4 8
plain.drn | heads     | 1/3   |                                        | 40 |    | 0 1 20
die.drn   | one       | 1/6   | 2/5<=p<=3/5                            | 24 | 1  | 1 2 9
"""


class Answer(NamedTuple):
    """What a call came to."""

    status: int
    out: bytes
    note: bytes


def ask(program: Program, words: List[str], given: bytes) -> Answer:
    """What the program answers."""
    done = subprocess.run([str(program.path), *words], input=given, capture_output=True, check=False)
    return Answer(done.returncode, done.stdout, done.stderr)


def refine(program: Program, report: bytes, depth: int) -> Answer:
    """What `refine` answers to a report."""
    return ask(program, ["refine", "--depth", str(depth)], report)


def row_words(row: str) -> List[List[str]]:
    """A row's example, and for each of its depths the words of `verify`."""
    name, goal, bound, region, precision, least, depths = (part.strip() for part in row.split("|"))
    words = ["verify", "--goal", goal, "--bound", bound, "--precision", precision]
    words += ["--region", region] if region else []
    words += ["--from", least] if least else []
    return [[name], *([*words, "--depth", depth] for depth in depths.split())]


def fault_of(program: Program, reports: List[bytes], depths: List[int]) -> str:
    """What is wrong where each report but the last is gone on from to each later depth, nothing where nothing is."""
    for i, report in enumerate(reports):
        for later, depth in zip(reports[i + 1 :], depths[i + 1 :]):
            answer = refine(program, report, depth)
            if answer != Answer(0, later, b""):
                return f"from depth {depths[i]} to {depth}: status {answer.status}, {answer.note!r}"
    return ""


def tried(chance: random.Random, program: Program) -> str:
    """What is wrong with one model made at random, nothing where nothing is."""
    asked: Question = question(chance)
    try:
        bound: Fraction = bound_between(chance, program, asked)
    except subprocess.CalledProcessError:  # a row that isn't a distribution: `verify` refuses it as well
        return ""
    depths = sorted(chance.sample(range(9), 3))
    reports = [ask(program, asked.words(bound, depth), asked.model).out for depth in depths]
    fault = fault_of(program, reports, depths)
    return f"{fault}\n{asked.model.decode()}\n{asked.words(bound, depths[0])}" if fault else ""


class Refines(unittest.TestCase):
    """Reports that are gone on from."""

    def setUp(self) -> None:
        self.program = the_program()

    def test_examples(self) -> None:
        for row in TABLE.strip().splitlines():
            [name], *calls = row_words(row)
            model = (TOP / "examples" / name).read_bytes()
            reports = [ask(self.program, words, model).out for words in calls]
            depths = [int(words[-1]) for words in calls]
            with self.subTest(row):
                self.assertEqual(fault_of(self.program, reports, depths), "")

    def test_models_made_at_random(self) -> None:
        chance = random.Random(SEED)
        for number in range(MODELS):
            with self.subTest(number=number, seed=SEED):
                self.assertEqual(tried(chance, self.program), "")

    def coin(self, depth: int, *more: str) -> bytes:
        """A report of examples/coin.drn."""
        words = [
            "verify",
            "--goal",
            "heads",
            "--bound",
            "1/2",
            "--region",
            "1/10<=p<=2/5",
            "--depth",
            str(depth),
            *more,
        ]
        return ask(self.program, words, (TOP / "examples" / "coin.drn").read_bytes()).out

    def test_a_report_that_is_not_right(self) -> None:
        """Both halves of a region that is accepted as a whole are left open: they are decided, and not joined again."""
        whole = self.coin(1)
        head, leaf = whole[: whole.rindex(b"accept")], whole[whole.rindex(b"accept") :]
        halves = head + b"split 0\nunknown\nunknown\n"
        self.assertEqual(ask(self.program, ["check"], halves).out, b"sound accept 0 reject 0 unknown 2\n")
        answer = refine(self.program, halves, 2)
        self.assertEqual((answer.status, answer.note), (0, b""))
        self.assertEqual(ask(self.program, ["check"], answer.out).out, b"sound accept 2 reject 0 unknown 0\n")
        # One of them is decided by the numbers of the whole, which are not the least ones there: they are kept.
        kept = refine(self.program, head + b"split 0\n" + leaf + b"unknown\n", 2)
        self.assertEqual(kept.status, 0)
        self.assertIn(b"split 0\n" + leaf, kept.out)
        self.assertEqual(ask(self.program, ["check"], kept.out).out, b"sound accept 2 reject 0 unknown 0\n")

    def test_what_is_refused(self) -> None:
        report = self.coin(3)
        model = (TOP / "examples" / "coin.drn").read_bytes()
        rows = [
            (["refine", "--depth", "3"], report, 2, b"usage: --depth\n"),
            (["refine", "--depth", "2"], report, 2, b"usage: --depth\n"),
            (["refine", "--depth=21"], report, 2, b"usage: --depth\n"),
            (["refine", "--depth", "0"], report, 2, b"usage: --depth\n"),
            (["refine"], report, 2, b"usage: words\n"),
            (["refine", "--depth", "4", "--depth", "5"], report, 2, b"usage: words\n"),
            (["refine", "--depth", "4", "--precision", "5"], report, 2, b"usage: words\n"),
            (["refine", "4"], report, 2, b"usage: words\n"),
            (["refine", "--depth", "4"], model, 1, b"not sound: line 1: Syntax\n"),
            (["refine", "--depth", "4"], b"", 1, b"not sound: line 1: Truncated\n"),
            # A fault of the file is told before the depth's.
            (["refine", "--depth", "2"], report + b"x", 1, b"not sound: rest\n"),
            (["refine", "--depth", "4"], report[:-1], 1, b"not sound: line 20: Truncated\n"),
        ]
        for words, given, status, note in rows:
            with self.subTest(words=words, note=note):
                answer = ask(self.program, words, given)
                self.assertEqual(answer, Answer(status, b"", note))

    def test_a_grid_that_is_too_large(self) -> None:
        """The number of the grid, or an end over it, is 2^62 or more, or a row is too wide: `verify` refuses as
        well."""
        model = (
            b"@type: DTMC\n@parameters\np\n@model\nstate 0 init\n1 : p\n2 : 1-p\nstate 1 goal\n1 : 1\nstate 2\n2 : 1\n"
        )
        over = 2**58
        words = ["verify", "--goal", "goal", "--bound", "1/2", "--region", f"1/{over}<=p<=1/2", "--precision", "1"]
        report = ask(self.program, [*words, "--depth", "1"], model).out
        for depth in range(2, 8):
            wanted = ask(self.program, [*words, "--depth", str(depth)], model)
            answer = refine(self.program, report, depth)
            with self.subTest(depth=depth, wanted=wanted.note):
                if wanted.status == 0:
                    self.assertEqual(answer, wanted)
                else:
                    self.assertEqual((answer.status, answer.out), (wanted.status, b""))

    def test_a_row_that_is_too_wide(self) -> None:
        model = b"@type: DTMC\n@parameters\np q\n@model\nstate 0 init\n1 : p*q\n2 : 1-p*q\n"
        model += b"state 1 goal\n1 : 1\nstate 2\n2 : 1\n"
        words = [
            "verify",
            "--goal",
            "goal",
            "--bound",
            "1/2",
            "--precision",
            "30",
            "--region",
            "1/10^13<=p<=1/2,0<=q<=1/2",
        ]
        words[-1] = f"1/{10**12}<=p<=1/2,0<=q<=1/2"
        seen = set()
        report = ask(self.program, [*words, "--depth", "1"], model).out
        for depth in range(2, 21, 3):
            wanted = ask(self.program, [*words, "--depth", str(depth)], model)
            seen.add(wanted.status)
            with self.subTest(depth=depth):
                self.assertEqual(refine(self.program, report, depth), wanted)
        self.assertEqual(seen, {0, 4})


if __name__ == "__main__":
    given = [int(word) for word in sys.argv[1:]]
    MODELS, SEED = [*given, *(MODELS, SEED)[len(given) :]]
    unittest.main(argv=sys.argv[:1])
