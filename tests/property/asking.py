"""The program that is asked, and what it answers; what recheck.py says of a text; and random questions."""

from __future__ import annotations

import argparse
import io
import os
import random
import subprocess
import sys
import unittest
from pathlib import Path
from typing import Callable, List, NamedTuple, Optional

sys.dont_write_bytecode = True
TOP = Path(__file__).resolve().parents[2]
sys.path[:0] = [str(Path(__file__).resolve().parent), str(TOP / "recheck")]
import recheck  # noqa: E402

try:
    import hypothesis
    from hypothesis import HealthCheck, strategies
except ImportError:
    hypothesis = None  # type: ignore[assignment]

PROGRAM = os.environ.get("PLIFT_PROGRAM") or str(TOP / "build" / "quick" / "plift")
COUNT: Optional[int] = None  # of random questions, where it isn't the usual one
SEED = 1


class Answer(NamedTuple):
    """What a call came to."""

    status: int
    out: bytes
    note: bytes


def line_of(command: str, **options: str) -> List[str]:
    """A command with its options, in this order."""
    return [command, *(word for name, value in options.items() for word in (f"--{name}", value))]


def has_program() -> bool:
    """Whether it is built."""
    return os.path.isfile(PROGRAM) and os.access(PROGRAM, os.X_OK)


def ask(words: List[str], given: bytes) -> Answer:
    """What the program answers."""
    done = subprocess.run([PROGRAM, *words], input=given, capture_output=True, check=False)
    return Answer(done.returncode, done.stdout, done.stderr)


def checked(text: bytes) -> str:
    """What recheck.py says of a text."""
    read = recheck.Text(io.BytesIO(text))
    try:
        return recheck.check(read)
    except recheck.Fault as fault:
        return f"not sound: {read.place}{fault}"


def wrong_text(words: List[str], model: bytes, wanted: bytes, sound: str) -> str:
    """How the program's text isn't the one that is wanted, or isn't sound as it should be; nothing where all is
    well."""
    told = f"\n{model.decode()}{words}"
    if has_program():
        got = ask(words, model)
        if got != Answer(0, wanted, b""):
            return f"status {got.status}, {got.note!r}, {got.out.decode()}\nand not {wanted.decode()}{told}"
    return "" if checked(wanted) == sound else f"{checked(wanted)}{told}\n{wanted.decode()}"


def each_question(test: unittest.TestCase, fault_of: Callable[[random.Random], str], usual: int) -> None:
    """Asks so many random questions: nothing may be at fault with any. With hypothesis one that goes wrong is made as
    small as can be; without it they are asked in a plain loop."""
    count = usual if COUNT is None else COUNT
    if hypothesis is None:
        chance = random.Random(SEED)
        for number in range(count):
            with test.subTest(number=number, seed=SEED):
                test.assertEqual(fault_of(chance), "")
        return

    @hypothesis.seed(SEED)
    @hypothesis.settings(max_examples=count, deadline=None, database=None, suppress_health_check=list(HealthCheck))
    @hypothesis.given(strategies.randoms(use_true_random=False))
    def holds(chance: random.Random) -> None:
        """One question."""
        test.assertEqual(fault_of(chance), "")

    holds()


def main(what: str) -> None:
    """Runs the tests of a module with the words of its line."""
    global COUNT, SEED, PROGRAM
    words = argparse.ArgumentParser(description=what)
    words.add_argument("--count", type=int, help="how many questions")
    words.add_argument("--seed", type=int, default=SEED)
    words.add_argument("--program", metavar="PATH", default=PROGRAM, help="a built plift")
    given = words.parse_args()
    COUNT, SEED, PROGRAM = given.count, given.seed, given.program
    print(f"asked: {given.program}" if has_program() else "no program is built: the reference's own texts are tried")
    unittest.main(argv=sys.argv[:1])
