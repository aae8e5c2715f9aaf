"""The numbers of the engines that the pages name are those of the code."""

from __future__ import annotations

import re
import unittest
from pathlib import Path

TOP = Path(__file__).resolve().parents[2]
# A constant: its file, its name, its page, and what stands there, with the number in it.
NAMED = [
    ("float_guess/src/sparse.rt", "STATES", "DECISIONS.md", "up to {} states and"),
    ("float_guess/src/sparse.rt", "ENTRIES", "DECISIONS.md", "states and {} entries"),
    ("rounded_iter/src/find.rt", "FIRST_PATIENCE", "DECISIONS.md", "don't do ({}, or"),
    ("rounded_iter/src/find.rt", "LARGE_PATIENCE", "DECISIONS.md", "or {} with costs in a large one"),
    ("lower_cert/src/begin.rt", "FIRST_PATIENCE", "DECISIONS.md", "from above {} to"),
    ("lower_cert/src/begin.rt", "FIRST_PASSES", "DECISIONS.md", "to {}), floats guess"),
    ("region_tree/src/recent.rt", "PLACES", "DECISIONS.md", "The last {} of each kind"),
    ("float_guess/src/krylov.rt", "STATES", "DECISIONS.md", "at most {} states and"),
    ("float_guess/src/krylov.rt", "ENTRIES", "DECISIONS.md", "states and {} entries that are kept, 0.4 MB"),
    ("float_guess/src/krylov.rt", "STATES", "PERFORMANCE.md", "has at most {} states and"),
    ("float_guess/src/krylov.rt", "ENTRIES", "PERFORMANCE.md", "states and {} transitions that count"),
    ("float_guess/src/visited.rt", "HELD_STATES", "PERFORMANCE.md", "a component of at most {} states one is held"),
]


def value(file: str, name: str) -> int:
    """A constant's value."""
    text = (TOP / "crates" / file).read_text(encoding="utf-8")
    found = re.findall(rf"^(?:pub(?:\(crate\))? )?const {name}: \w+ = ([\d_]+);", text, re.M)
    assert len(found) == 1, f"{file}: {name} stands {len(found)} times"
    return int(found[0])


class Constants(unittest.TestCase):
    """Each of the list."""

    def test_numbers(self) -> None:
        """They stand on their pages."""
        for file, name, page, told in NAMED:
            text = " ".join((TOP / "docs" / page).read_text(encoding="utf-8").split())
            self.assertIn(told.format(f"{value(file, name):,}"), text, f"{page}: {file} has another {name}")


if __name__ == "__main__":
    unittest.main()
