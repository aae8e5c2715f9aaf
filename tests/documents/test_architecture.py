"""The map of docs/ARCHITECTURE.md: it has each crate, and each name and place that it and docs/DECISIONS.md cite is
there; the table of costs is the one that is made."""

from __future__ import annotations

import re
import subprocess
import sys
import unittest
from functools import lru_cache
from pathlib import Path

TOP = Path(__file__).resolve().parents[2]
ROW = re.compile(r"^\| (`[a-z_`, ]+`) \| ([^|]+) \| ([^|]+) \|$", re.M)
NAME = re.compile(r"`([A-Za-z_][A-Za-z0-9_.:/-]*)`")
# Words of the pages that aren't in the source: a program of the kit, a folder that it makes.
OUTSIDE = {"rt", "out/incremental", "rattle-kit-13b", "rattle-kit-13f"}


def page(name: str) -> str:
    """A page's text."""
    return (TOP / "docs" / name).read_text(encoding="utf-8")


def crates() -> list[str]:
    """All crates."""
    lines = (TOP / "crates.txt").read_text(encoding="utf-8").splitlines()
    return [line.partition(":")[0] for line in lines if line[:1].isalpha()]


@lru_cache(maxsize=None)
def source() -> frozenset[str]:
    """All words of code, definitions and scripts."""
    kinds = ("crates/*/src/*.rt", "crates/*/specs/*.antt", "tools/*.py", "recheck/*.py", "lab/plift_lab/*.py", "man/*")
    places = [path for kind in kinds for path in TOP.glob(kind)] + [TOP / "plift", TOP / "coq" / "Makefile"]
    texts = [path.read_text(encoding="utf-8") for path in places if path.is_file()]
    return frozenset(word for text in texts for form in (r"\w+", r"[\w-]+") for word in re.findall(form, text))


def is_there(name: str) -> bool:
    """Whether a file, a crate or a word of the source is called so."""
    if name in OUTSIDE or set(name.split("::")) <= source():
        return True
    places = ("", "docs/", "crates/", "crates/*/", "crates/*/*/", "lab/", "recheck/", "tests/", "tests/*/")
    return any(any(TOP.glob(place + name)) for place in places)


class Architecture(unittest.TestCase):
    """The pages for who works on plift."""

    def test_each_crate_has_a_row(self) -> None:
        """One, with definitions that are its own."""
        rows = [(re.findall(r"`(\w+)`", row[0]), row[2]) for row in ROW.findall(page("ARCHITECTURE.md"))]
        rows = [(named, told) for named, told in rows if set(named) <= set(crates())]
        self.assertEqual(sorted(name for named, _ in rows for name in named), sorted(crates()))
        for named, told in rows:
            for word in re.findall(r"`(\w+)`", told):
                files = [TOP / "crates" / name / "specs" / f"{word}.antt" for name in named]
                self.assertTrue(any(file.is_file() for file in files), f"{named}: {word}")

    def test_names_are_there(self) -> None:
        """Files, functions, definitions and laws."""
        for name in ("ARCHITECTURE.md", "DECISIONS.md"):
            words = sorted(set(NAME.findall(page(name))))
            self.assertGreater(len(words), 40)
            self.assertEqual([word for word in words if not is_there(word)], [], name)

    def test_functions_stand_in_their_files(self) -> None:
        """Where a page names a function behind its file."""
        named = re.findall(r"`(\w+)`:? \(?`(src/\w+\.rt)` \(`(\w+)`\)", page("ARCHITECTURE.md") + page("GLOSSARY.md"))
        self.assertGreater(len(named), 1)
        for crate, file, name in named:
            text = (TOP / "crates" / crate / file).read_text(encoding="utf-8")
            self.assertRegex(text, rf"\bfn {name}\b", f"{crate}/{file}")

    def test_a_name_that_is_not_there(self) -> None:
        """It is found."""
        self.assertFalse(is_there("no_such_name_anywhere"))
        self.assertFalse(is_there("Links::no_such_name"))

    def test_made_tables(self) -> None:
        """What is made from data is as it is made."""
        for script in ("tools/tables.py", "bench/figures.py"):
            words = [sys.executable, str(TOP / script), "--check"]
            ran = subprocess.run(words, stderr=subprocess.PIPE, text=True, check=False)
            self.assertEqual((ran.returncode, ran.stderr), (0, ""))


if __name__ == "__main__":
    unittest.main()
