"""What `cost` says where the goal may be missed: a run that misses it counts with what it spends, and a property shows
that none does. So the pages say."""

from __future__ import annotations

import sys
import unittest
from pathlib import Path

sys.path.append(str(Path(__file__).resolve().parents[1] / "property"))
from asking import TOP, ask, has_program  # noqa: E402

# A try costs 1 and is done with p; else it is given up, where nothing is spent, or tried again.
MODEL = """@type: DTMC
@parameters
p
@reward_models
tries
@model
state 0 [1] init
1 : p
%d : 1-p
state 1 done
1 : 1
state 2
2 : 1
"""
REGION = ["--region", "1/2<=p<=9/10", "--precision", "8"]
COST = ["cost", "--goal", "done", "--reward", "tries", "--budget", "2", "--cap", "4", *REGION]
REACHED = ["property", "--formula", 'P>=1 [F "done"]', *REGION]


@unittest.skipUnless(has_program(), "no program is built")
class Missed(unittest.TestCase):
    """A goal that may be missed."""

    def lines(self, words: list[str], sink: int) -> list[str]:
        """What the program answers to a question of the model whose try fails into this state."""
        answer = ask(words, (MODEL % sink).encode())
        self.assertEqual((answer.status, answer.note), (0, b""))
        return answer.out.decode().split("\n")

    def test_budget_is_kept(self) -> None:
        """One try is 64 of 256 parts of the cap of 4; tries until one is done are 2 where p is 1/2."""
        self.assertIn("accept 64 0 0", self.lines(COST, sink=2))
        self.assertIn("accept 128 0 0", self.lines(COST, sink=0))

    def test_goal_is_missed(self) -> None:
        """The property holds where the goal is reached in the end, and fails where it may be missed."""
        self.assertIn("fails", self.lines(REACHED, sink=2))
        self.assertIn("holds", self.lines(REACHED, sink=0))

    def test_pages(self) -> None:
        """Whoever asks is told."""
        for page in ("README.md", "docs/GUIDE.md", "docs/STORM.md", "man/help/cost.txt", "man/plift.1"):
            text = " ".join((TOP / page).read_text(encoding="utf-8").split())
            self.assertRegex(text, "(PRISM and )?Storm (say|calls? the expectation) infin", page)
            self.assertTrue("P>=1 [F" in text or page == "docs/STORM.md", page)


if __name__ == "__main__":
    unittest.main()
