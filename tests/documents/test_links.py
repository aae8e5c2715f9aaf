"""Where a page sends its reader to a part of another page, that part is there."""

from __future__ import annotations

import re
import unittest
from pathlib import Path

TOP = Path(__file__).resolve().parents[2]
NAMED = re.compile(r"`?(?:docs/)?([A-Z]+\.md)`?, (?:\"([^\"]+)\"|section (\d+))")


def pages() -> dict[str, str]:
    """All pages for readers, by name."""
    return {path.name: path.read_text(encoding="utf-8") for path in [TOP / "README.md", *TOP.glob("docs/*.md")]}


def headings(text: str) -> list[str]:
    """The headings of a page, without their marks."""
    return [line.lstrip("#").strip() for line in text.splitlines() if line.startswith("#")]


def lost(texts: dict[str, str]) -> list[str]:
    """What is sent to and isn't there: a heading begins with the words, or with the number, that are named."""
    found = []
    for page, text in texts.items():
        for target, title, number in NAMED.findall(text):
            starts = title or f"{number}."
            if not any(head.startswith(starts) for head in headings(texts.get(target, ""))):
                found.append(f"{page}: {target}, {starts}")
    return found


class Links(unittest.TestCase):
    """From page to page."""

    def test_parts(self) -> None:
        """Each is there."""
        texts = pages()
        self.assertGreater(sum(len(NAMED.findall(text)) for text in texts.values()), 5)
        self.assertEqual(lost(texts), [])

    def test_a_part_that_is_not_there(self) -> None:
        """It is told."""
        texts = {"A.md": '`B.md`, "Two"; `B.md`, section 3; `B.md`, "One"', "B.md": "# B\n\n## One and more\n"}
        self.assertEqual(lost(texts), ["A.md: B.md, Two", "A.md: B.md, 3."])


if __name__ == "__main__":
    unittest.main()
