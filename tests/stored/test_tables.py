"""Tests of how the tables of the tests are read."""

import sys
import unittest
from pathlib import Path

sys.dont_write_bytecode = True
sys.path.insert(0, str(Path(__file__).resolve().parent))
import cases  # noqa: E402
import tables  # noqa: E402


class Tables(unittest.TestCase):
    def test_a_literal_stands_for_its_text(self) -> None:
        self.assertEqual(tables.unescaped('a\\n\\\n    b\\t\\"\\\\\\x7f'), 'a\nb\t"\\\x7f')

    def test_a_cell_stands_for_lines(self) -> None:
        self.assertEqual(tables.lines_of("a;b;"), b"a\nb\n")
        self.assertEqual(tables.lines_of("-"), b"")

    def test_a_text_with_changes(self) -> None:
        self.assertEqual(cases.changed("a;b;c", "2=x;y; & 3=z?;"), b"a\nx\ny\nz\xc8\n")
        self.assertEqual(cases.changed("a;b", "1="), b"b\n")

    def test_every_table_is_run_or_left_out(self) -> None:
        """No table is overlooked: each constant of more than one row is read by a case, or left out with a reason."""
        read = {"HEADS", "FILES", "DECIDED", "OVER_REGIONS", "LIMITS", "MODELS", "REPORTS", "REFUSED", "REGIONS"}
        read |= {
            "REFUSED_ROWS",
            "TREES",
            "WITHIN",
            "LUMPED",
            "PROPERTIES",
            "COSTS",
            "RANGES",
            "MIGRATED",
            "REFINED",
            "LINES",
            "LADDER",
            "TESTED",
            "PICTURES",
            "VIEWS",
        }
        for crate in ("plift_tests", "view_tests"):
            for path in sorted((tables.TOP / "crates" / crate / "src").glob("*.rt")):
                found = tables.CONSTANT.findall(path.read_text())
                names = {name for name, text in found if len(tables.rows(tables.unescaped(text))) > 1}
                left = {name for (_, module, name) in cases.LEFT_OUT if module == path.stem}
                self.assertEqual(names - read - left, set(), path.name)


if __name__ == "__main__":
    unittest.main()
