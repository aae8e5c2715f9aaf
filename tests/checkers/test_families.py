"""The generators of bench/models.py: what each writes is a model, and recheck.py finds the program's report sound."""

from __future__ import annotations

import os
import sys
import unittest

from scripts import RECHECK, TOP, run

sys.path[:0] = [str(TOP / "bench")]
import measure  # noqa: E402
import models  # noqa: E402

PROGRAM = os.environ.get("PLIFT_PROGRAM") or str(TOP / "build" / "quick" / "plift")
# Sizes of each family; what its states do to each other needs no more.
SIZES = {
    "relay": (3, 2),
    "robot": (4,),
    "walk": (7,),
    "dice": (2,),
    "mixed": (9,),
    "deep": (3, 4),
    "component": (9,),
    "expander": (9, 3),
    "chooser": (9, 3),
    "plane": (4,),
    "blocks": (3,),
    "spender": (9, 2),
    "memory": (2, 3),
    "disks": (6, 2, 3),
    "watchdog": (4, 3),
    "ring": (4, 3),
    "bus": (12, 3),
    "spares": (3, 3),
    "queue": (5, 3),
    "nested": (3, 2),
}


def goal_of(text: str) -> str:
    """The label of the goal: the last one of the model."""
    labels = [line.split()[-1] for line in text.splitlines() if line.startswith("state") and line[-1].isalpha()]
    return [label for label in labels if label not in ("init", "safe", "delivered")][-1]


def words_of(text: str, command: str) -> list[str]:
    """The words that ask about a model, whose values stay in their range on this region."""
    lines = text.splitlines()
    names = lines[lines.index("@parameters") + 1].split()
    region = ",".join(f"1/100<={name}<=1/90" for name in names)
    return [command, "--goal", goal_of(text), "--region", region, "--precision", "24", "--depth", "2"]


@unittest.skipUnless(os.access(PROGRAM, os.X_OK), "no program is built")
class Families(unittest.TestCase):
    """Each family, at a small size."""

    def test_each_has_sizes(self) -> None:
        """No family is left out here, nor in the page of the script."""
        self.assertEqual(set(SIZES), set(models.FAMILIES))
        for name in SIZES:
            self.assertIn(f"models.py {name} ", models.__doc__ or "")

    def judged(self, words: list[str], text: str) -> None:
        """The program's text of a model is sound for recheck.py."""
        with measure.scratch() as folder:
            source, target = (os.path.join(folder, name) for name in ("model", "report"))
            with open(source, "w", encoding="ascii") as file:
                file.write(text)
            self.assertEqual(measure.once([PROGRAM, *words], source, target, 20).status, 0)
            with open(target, "rb") as report:
                told = run([str(RECHECK)], report.read())
        self.assertEqual((told.status, told.out[:5]), (0, "sound"), told.note)

    def test_verify(self) -> None:
        """The quick program's report is sound."""
        for name, sizes in SIZES.items():
            with self.subTest(name):
                text = models.FAMILIES[name](*sizes)
                self.judged(words_of(text, "verify") + ["--bound", "1/2"], text)

    def test_cost(self) -> None:
        """So is that of costs."""
        text = models.spender(9, 2)
        self.judged(words_of(text, "cost") + ["--reward", "spent", "--budget", "1000", "--cap", "1000000"], text)


if __name__ == "__main__":
    unittest.main()
