"""What holds of all definitions in specs/: each has a comment above it, and none cites a constant of code."""

import re
import unittest
from pathlib import Path
from typing import Iterator, Tuple

TOP = Path(__file__).resolve().parent.parent.parent
DEFINED = re.compile(r"(abbrev pub|unfoldable pub|pub record|pub data) .* : ")


def definitions() -> Iterator[Tuple[str, str, str]]:
    """Each line of the definitions that the contracts cite, with its place and the line above it."""
    for file in sorted(TOP.glob("crates/*/specs/*.antt")):
        above = ""
        for number, line in enumerate(file.read_text(encoding="utf-8").splitlines(), 1):
            yield f"{file.relative_to(TOP)}:{number}", line, above
            above = line


class Definitions(unittest.TestCase):
    def test_each_has_a_comment(self) -> None:
        bare = [
            place for place, line, above in definitions() if DEFINED.match(line) and not above.lstrip().startswith("--")
        ]
        self.assertEqual(bare, [])

    def test_none_cites_a_constant_of_code(self) -> None:
        citing = [place for place, line, _ in definitions() if line.startswith("use ") and "TheConstants" in line]
        self.assertEqual(citing, [])

    def test_there_are_some(self) -> None:
        self.assertGreater(sum(1 for _, line, _ in definitions() if DEFINED.match(line)), 500)


if __name__ == "__main__":
    unittest.main()
