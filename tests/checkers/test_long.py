"""Texts of 1 MiB that would keep recheck.py busy: each is judged within 10 seconds of the processor."""

from __future__ import annotations

import random
import sys
import unittest

from scripts import RECHECK, TOP, run

sys.path[:0] = [str(TOP / "bench"), str(TOP / "recheck")]
import hostile  # noqa: E402
import recheck  # noqa: E402

SECONDS = 10


class Long(unittest.TestCase):
    """Long texts."""

    def judged(self, text: str, said: str) -> None:
        """What is said of a text, in time."""
        got = run([str(RECHECK)], text.encode(), SECONDS)
        self.assertEqual(got.out + got.note, said)

    def test_numbers_of_half_a_million_digits(self) -> None:
        """The numerator is above its limit, whatever the denominator is."""
        self.judged(hostile.KINDS["long-numbers"].make(), "not sound: line 15: Limit\n")

    def test_denominator_of_a_million_digits(self) -> None:
        """Whether the bound is in lowest terms is told before its denominator is above the limit."""
        self.judged(hostile.KINDS["long-denominator"].make(), "not sound: line 15: Limit\n")
        nines = "9" * 10**6
        self.judged(hostile.head().replace("bound 1/2", f"bound 3/{nines}"), "not sound: line 15: Syntax\n")

    def test_ends_of_half_a_million_digits(self) -> None:
        """Which end is the lower one is told before one is above the limit."""
        self.judged(hostile.KINDS["long-box"].make(), "not sound: line 19: Limit\n")
        digits = "8" * (2**19 - 512)
        for low, high in ((digits, digits), ("-" + digits, "-" + digits + "0")):
            self.judged(hostile.head().replace("box 0 1", f"box {low} {high}"), "not sound: line 19: Syntax\n")

    def test_numbers_too_many(self) -> None:
        """A leaf of half a million numbers."""
        self.judged(hostile.KINDS["long-accept"].make(), "not sound: line 20: Syntax\n")

    def test_rows_times_leaves(self) -> None:
        """2,500 rows that are weighed at sixteen corners for each of 8 and of 64 leaves."""
        self.judged(hostile.rows_by_leaves(3), "sound accept 8 reject 0 unknown 0\n")
        self.judged(hostile.rows_by_leaves(6), "sound accept 64 reject 0 unknown 0\n")

    def test_each_command_has_a_kind(self) -> None:
        """The hostile inputs are for every command of the program, and for recheck.py."""
        pages = {page.stem for page in (TOP / "man" / "help").glob("*.txt")} - {"plift", "plift-view"}
        self.assertEqual({kind.words[0] for kind in hostile.KINDS.values()}, pages | {"recheck"})

    def test_numbers_by_halves(self) -> None:
        """A long number is read as int reads it, of either sign, with zeros anywhere."""
        chance = random.Random(1)
        for length in (1, 1999, 2000, 2001, 4001):
            for _ in range(5):
                digits = "".join(chance.choice(["0", "0", "7", "9"]) for _ in range(length))
                for word in ("1" + digits, "-1" + digits, "1" + "0" * length, "-9" + "0" * length):
                    self.assertEqual(recheck.number(word.encode()), int(word))


if __name__ == "__main__":
    unittest.main()
