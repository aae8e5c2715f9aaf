"""All Python is laid out by black, and passes flake8 and mypy in its strict form. Where one of these isn't installed,
its test is left out and says so: a user needs none of them."""

from __future__ import annotations

import shutil
import subprocess
import unittest
from pathlib import Path

TOP = Path(__file__).resolve().parents[2]
# What mypy is asked in one call each: a folder's scripts, or packages.
STRICT = [
    ["-p", "plift_lab"],
    ["-p", "plift_tiles"],
    ["bench"],
    ["lab"],
    ["lab/tests"],
    ["recheck"],
    ["tools"],
    ["tools/native"],
    ["-p", "hints", "-p", "drawing"],
    ["tests/checkers"],
    ["tests/coq"],
    ["tests/cost"],
    ["tests/definitions"],
    ["tests/documents"],
    ["tests/door"],
    ["tests/drawing"],
    ["tests/duplicates"],
    ["tests/hints"],
    ["tests/long"],
    ["tests/lumped"],
    ["tests/memory"],
    ["tests/parameters"],
    ["tests/property"],
    ["tests/refine"],
    ["tests/stored"],
    ["tests/structure"],
    ["tests/style"],
    ["tests/tiles"],
    ["tests/wrong-bodies"],
]


# Where the packages lie.
PACKAGES = {
    "lab/plift_lab": "plift_lab",
    "tiles/plift_tiles": "plift_tiles",
    "tools/drawing": "drawing",
    "tools/hints": "hints",
}


def python_files() -> list[str]:
    """The files that git knows."""
    told = subprocess.run(["git", "ls-files", "*.py"], cwd=TOP, capture_output=True, text=True, check=False).stdout
    return [name for name in told.splitlines() if (TOP / name).is_file()]


def said(*words: str) -> str:
    """What a tool says, where it isn't content."""
    ran = subprocess.run(words, cwd=TOP, stdout=subprocess.PIPE, stderr=subprocess.STDOUT, text=True, check=False)
    return ran.stdout if ran.returncode else ""


class Style(unittest.TestCase):
    """Layout, and what the tools find."""

    def setUp(self) -> None:
        if not (TOP / ".git").exists():
            self.skipTest("this is no checkout")

    def needs(self, tool: str) -> None:
        """Leaves the test out where the tool isn't installed."""
        if shutil.which(tool) is None:
            self.skipTest(f"{tool} isn't installed (apt install {tool})")

    def test_layout(self) -> None:
        """By black."""
        self.needs("black")
        self.assertEqual(said("black", "--check", "--quiet", *python_files()), "", "black . lays it out")

    def test_flake8(self) -> None:
        """By .flake8."""
        self.needs("flake8")
        self.assertEqual(said("flake8", *python_files()), "")

    def test_all_is_typed(self) -> None:
        """No folder with Python is left out of STRICT."""
        asked = {word for words in STRICT for word in words}
        folders = {str(Path(name).parent) for name in python_files()}
        inside = {folder for folder in folders for place in PACKAGES if f"{folder}/".startswith(f"{place}/")}
        self.assertEqual(sorted(folders - inside - asked), [])
        self.assertEqual(set(PACKAGES.values()) - asked, set())

    def test_types(self) -> None:
        """By pyproject.toml, folder by folder."""
        self.needs("mypy")
        for asked in STRICT:
            with self.subTest(asked):
                files = sorted(str(path.relative_to(TOP)) for path in (TOP / asked[0]).glob("*.py"))
                self.assertEqual(said("mypy", *(files or asked)), "")


if __name__ == "__main__":
    unittest.main()
