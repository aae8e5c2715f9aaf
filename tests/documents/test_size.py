"""The documents that are written by hand stay short. Those that are made from data or from the source are named here,
each with its script; what is made within a page stands between two marks, of which the first names the script."""

from __future__ import annotations

import re
import unittest
from pathlib import Path

TOP = Path(__file__).resolve().parents[2]
MOST = 250_000  # bytes of all that is written by hand
GENERATED = {
    "docs/MESSAGES.md": "tools/tables.py",
    "docs/PROMISES.md": "tools/tables.py",
    "docs/WALKS.md": "tools/walks.py",
}
MADE = re.compile(r"^<!-- made by (\S+): [^>]* -->\n.*?^<!-- end -->\n", re.M | re.S)


def documents() -> list[Path]:
    """The pages in Markdown."""
    places = ("*.md", "docs/*.md", "coq/*.md", "bench/*.md", "lab/*.md", "tests/*.md", "tests/*/*.md", "tiles/*.md")
    return sorted({path for place in places for path in TOP.glob(place)})


def by_hand() -> dict[str, int]:
    """The bytes of each page that no script makes."""
    pages = {str(path.relative_to(TOP)): path.read_text(encoding="utf-8") for path in documents()}
    return {name: len(MADE.sub("", text).encode()) for name, text in pages.items() if name not in GENERATED}


class Size(unittest.TestCase):
    """What the pages are long."""

    def test_all_together(self) -> None:
        """They are short enough."""
        sizes = by_hand()
        self.assertLessEqual(sum(sizes.values()), MOST, sizes)

    def test_generated_pages_are_there(self) -> None:
        """Each has its script, and so has each part of a page."""
        parts = {name: page for page in documents() for name in MADE.findall(page.read_text(encoding="utf-8"))}
        self.assertIn("bench/figures.py", parts)
        for page, script in [*GENERATED.items(), *((str(page), script) for script, page in parts.items())]:
            self.assertTrue((TOP / page).is_file() and (TOP / script).is_file(), page)

    def test_made_parts_are_not_counted(self) -> None:
        """What stands between the two marks, and nothing else."""
        text = "one\n<!-- made by tools/tables.py: limits -->\ntwo\n<!-- end -->\nthree\n"
        self.assertEqual(MADE.sub("", text), "one\nthree\n")

    def test_no_page_is_left_out(self) -> None:
        """What README names is among them."""
        named = set(re.findall(r"\]\(((?:docs|coq)/\w+\.md)\)", (TOP / "README.md").read_text(encoding="utf-8")))
        self.assertGreater(len(named), 10)
        self.assertLessEqual(named, {str(path.relative_to(TOP)) for path in documents()})


if __name__ == "__main__":
    unittest.main()
