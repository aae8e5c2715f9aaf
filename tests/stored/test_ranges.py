"""With `--from` each rectangle is decided at the least precision of the range that decides it: its leaf is the one that
`verify` writes for the rectangle alone at that precision, and at one bit less it writes none."""

from __future__ import annotations

import subprocess
import sys
import unittest
from pathlib import Path
from typing import List, NamedTuple

sys.dont_write_bytecode = True
TOP = Path(__file__).resolve().parents[2]
sys.path.insert(0, str(TOP / "lab"))
from plift_lab.program import QUICK  # noqa: E402
from plift_lab.regions import shown  # noqa: E402
from plift_lab.report import UNKNOWN, Leaf, Report  # noqa: E402

# Each row: an example, its goal, a bound, a region, a depth, the least and the greatest precision.
TABLE = """
coin.drn  | heads     | 1/2   | 1/10<=p<=9/10                          | 12 | 1 24
coin.drn  | heads     | 1/3   | 1/10<=p<=9/10                          | 14 | 4 9
loop.drn  | heads     | 1/2   | 1/10<=p<=9/10                          | 12 | 1 40
retry.drn | lost      | 1/40  | 1/10<=p<=1/2,1/10<=q<=1/2              | 11 | 1 24
retry.drn | lost      | 1/40  | 1/10<=p<=1/2,1/10<=q<=1/2              | 8  | 8 12
links.drn | lost      | 1/10  | 1/20<=p<=2/5,1/20<=q<=2/5              | 9  | 1 16
relay.drn | delivered | 19/20 | 1/10<=p<=3/10,1/10<=q<=3/10            | 9  | 1 24
chain.drn | lost      | 1/2   | 3/5<=p<=9/10,3/5<=q<=9/10,3/5<=r<=9/10 | 8  | 1 30
plain.drn | heads     | 1/3   |                                        | 0  | 1 40
die.drn   | one       | 1/6   | 2/5<=p<=3/5                            | 9  | 1 24
"""


class Asked(NamedTuple):
    """A row: a model's text, and the words of its question but for region, depth and precisions."""

    model: bytes
    words: List[str]

    def answer(self, region: str, *more: str) -> bytes:
        """The report of a region."""
        words = [str(QUICK), *self.words, *(["--region", " " + region] if region else []), *more]
        return subprocess.run(words, input=self.model, capture_output=True, check=True).stdout


def tree_of(report: bytes) -> bytes:
    """The lines behind the head."""
    return report[report.index(b"\nbox") :].split(b"\n", 2)[2]


@unittest.skipUnless(QUICK.is_file(), "build/quick has no program")
class Ranges(unittest.TestCase):
    def compare(self, asked: Asked, leaf: Leaf, least: int, lines: bytes) -> None:
        """One leaf, beside the reports of its rectangle at one precision each."""
        region = shown(leaf.rectangle)
        alone = tree_of(asked.answer(region, "--precision", str(leaf.precision)))
        self.assertEqual(alone, lines)
        if leaf.kind != UNKNOWN and leaf.precision > least:
            self.assertEqual(tree_of(asked.answer(region, "--precision", str(leaf.precision - 1))), b"unknown\n")

    def test_each_leaf_is_that_of_its_own_precision(self) -> None:
        count = 0
        for row in TABLE.strip().splitlines():
            name, goal, bound, region, depth, precisions = (part.strip() for part in row.split("|"))
            least, greatest = precisions.split()
            asked = Asked((TOP / "examples" / name).read_bytes(), ["verify", "--goal", goal, "--bound", bound])
            report = Report(asked.answer(region, "--depth", depth, "--precision", greatest, "--from", least), "")
            first = Report(asked.answer(region, "--depth", depth, "--precision", greatest), "")
            self.assertEqual((report.version, report.nodes), (2, first.nodes))
            texts = leaf_texts(tree_of(report.data))
            for leaf, lines in zip(report.leaves(), texts):
                count += 1
                with self.subTest(row, leaf=leaf.number):
                    self.compare(asked, leaf, int(least), lines)
        self.assertGreater(count, 400)


def leaf_texts(tree: bytes) -> List[bytes]:
    """The lines of each leaf, without that of its precision."""
    texts: List[bytes] = []
    for line in tree.splitlines(keepends=True):
        if line.startswith((b"accept", b"reject", b"unknown")):
            texts.append(line)
        elif not line.startswith((b"split", b"at")):
            texts[-1] += line
    return texts


if __name__ == "__main__":
    unittest.main()
