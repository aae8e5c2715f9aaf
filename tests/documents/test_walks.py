"""What is said of the functions that docs/WALKS.md goes along."""

from __future__ import annotations

import sys
import unittest
from pathlib import Path

TOP = Path(__file__).resolve().parents[2]
sys.path.insert(0, str(TOP / "tools"))
import manual  # noqa: E402
import walks  # noqa: E402

SOURCE = """
/// Adds one. It never overflows. This is left out.
///
/// So is this.
#[inline]
pub fn grow(x: u64) -> u64 {
    x
}

impl Guide for Walker<'_, K> {
    /// Grows a walker.
    fn grow(&self) {}
}

fn bare() {}
"""


class Walks(unittest.TestCase):
    """Functions, with the comments above them."""

    def test_two_sentences(self) -> None:
        """The first two of the first paragraph, over attributes."""
        self.assertEqual(walks.comment_of(SOURCE, "grow"), "Adds one. It never overflows.")

    def test_function_of_a_type(self) -> None:
        """It is told from one of the same name."""
        self.assertEqual(walks.comment_of(SOURCE, "Walker::grow"), "Grows a walker.")

    def test_none(self) -> None:
        """A function that isn't there, or of which nothing is said."""
        for name in ("shrink", "bare", "Walker::bare"):
            with self.assertRaises(manual.Unmade):
                walks.comment_of(SOURCE, name)

    def test_commands(self) -> None:
        """Each begins where the words are read, and ends with the status."""
        text = (TOP / walks.TABLE).read_text(encoding="utf-8")
        found = walks.commands(text)
        self.assertEqual([name for name, _, _ in found], ["verify", "property", "bounded", "cost", "lumped"])
        for _, asked, steps in found:
            self.assertTrue(asked)
            self.assertEqual((steps[0].name, steps[-1].name), ("run", "end"))


if __name__ == "__main__":
    unittest.main()
