"""The words of docs/GLOSSARY.md: each stands where the page says."""

from __future__ import annotations

import re
import unittest
from pathlib import Path

TOP = Path(__file__).resolve().parents[2]
PAGE = TOP / "docs" / "GLOSSARY.md"
ROW = re.compile(r"^\| (?!Here |---)(.+?) \| (.+?) \| (.+?) \| (.+?) \|$", re.M)
NAME = re.compile(r"`([^`]+)`")


def missing(place: str) -> list[str]:
    """What a place names that isn't there: crates, and behind each its definitions and sources."""
    crate, lost = TOP / "crates", []
    for name in NAME.findall(place):
        if (TOP / "crates" / name).is_dir():
            crate = TOP / "crates" / name
            continue
        kind = "src" if name.endswith(".rt") else "specs"
        files = [crate / kind / name, crate / kind / f"{name}.antt", TOP / name, *TOP.glob(f"crates/*/{name}")]
        lost += [] if any(file.exists() for file in files) else [f"{crate.name}: {name}"]
    return lost


class Glossary(unittest.TestCase):
    """The page."""

    def test_rows(self) -> None:
        """Each row has the house's word, the field's, what it is and where, and that is there."""
        rows = ROW.findall(PAGE.read_text(encoding="utf-8"))
        self.assertGreater(len(rows), 50)
        for row in rows:
            self.assertEqual(missing(row[3]), [], row)

    def test_words_stand_once(self) -> None:
        """No word of the house is explained twice."""
        words = [row[0] for row in ROW.findall(PAGE.read_text(encoding="utf-8"))]
        self.assertEqual(len(words), len(set(words)))

    def test_a_place_that_is_not_there(self) -> None:
        """It is told."""
        self.assertEqual(
            missing("`lift_lump` `Nowhere`, `nothing.rt`"), ["lift_lump: Nowhere", "lift_lump: nothing.rt"]
        )


if __name__ == "__main__":
    unittest.main()
