"""The data of bench/ that docs/PERFORMANCE.md is made of."""

from __future__ import annotations

import os
import sys
import tempfile
import unittest
from pathlib import Path

TOP = Path(__file__).resolve().parents[2]
sys.path.insert(0, str(TOP / "bench"))
import atva  # noqa: E402
import beside  # noqa: E402
import figures  # noqa: E402
import run  # noqa: E402

PROGRAM = os.environ.get("PLIFT_PROGRAM") or str(TOP / "build" / "quick" / "plift")


class Figures(unittest.TestCase):
    """Both tables."""

    def test_answers(self) -> None:
        """Each job that bench/run.py asks has a row, in its order, with numbers in all cells."""
        rows = figures.rows_of("figures.tsv")
        self.assertEqual(list(rows[0]), run.COLUMNS.split(","))
        asked = [
            (name, job.name(), str(job.depth), str(job.precision)) for name in run.SERIES for job in run.SERIES[name]
        ]
        self.assertEqual([(row["series"], row["model"], row["depth"], row["precision"]) for row in rows], asked)
        for row in rows:
            self.assertEqual(row["note"], "", row)
            self.assertGreater(float(row["verify seconds"]) * float(row["check seconds"]), 0, row)

    @unittest.skipUnless(os.access(PROGRAM, os.X_OK), "no program is built")
    def test_measured(self) -> None:
        """A job is measured as its row says: states, rectangles, bytes; and a refusal is told."""
        with tempfile.TemporaryDirectory() as folder:
            cells = run.row(run.dice(1, depth=4), folder, PROGRAM, 60)
            refused = run.row(run.dice(1, depth=40), folder, PROGRAM, 60)
        self.assertEqual(
            [cells[place] for place in (0, 1, 2, 3, 4, 7, 10)], ["dice 1", "9", "4", "24", "17", "1118", ""]
        )
        self.assertEqual((refused[4], refused[10]), ("", "usage: --depth"))

    def test_greatest(self) -> None:
        """Of each family the last model of the growing ones is shown."""
        shown = [row["model"] for row in figures.greatest(figures.rows_of("figures.tsv"))]
        self.assertEqual(shown, ["relay 9362 7", "ladder 32767", "robot 181", "walk 400", "mixed 4000"])

    def test_ratios(self) -> None:
        """A node is compared with a node where nodes are told, and a job too short for the clock isn't compared."""
        row = {
            "by": "instructions a node",
            "of what": "30",
            "of beside": "10",
            "nodes of what": "6",
            "nodes of beside": "2",
        }
        self.assertAlmostEqual(figures.ratio(row), 1)
        self.assertAlmostEqual(figures.ratio({**row, "nodes of what": "", "nodes of beside": ""}), 3)
        self.assertFalse(figures.tells({**row, "by": "seconds", "of beside": "0.001"}))
        self.assertTrue(figures.tells({**row, "by": "seconds"}))

    @unittest.skipUnless(os.access(PROGRAM, os.X_OK), "no program is built")
    def test_beside(self) -> None:
        """Each command is measured, a chain's quotient too, and the rows of the same commands are replaced."""
        job = beside.Job("dice", (1,), "won", "1/6", "1/10<=p<=9/10", 4)
        with tempfile.TemporaryDirectory() as folder:
            rows = list(beside.rows(beside.Place(folder, PROGRAM, job)))
        self.assertEqual(len({row[0] for row in rows}), 5)
        self.assertEqual([row[6] for row in rows if row[2] != "seconds"], ["1118", "1118"])
        names = list(figures.rows_of("beside.tsv")[0])
        table = (
            "# what it is\n" + "\n".join("\t".join(line) for line in [names, rows[0], ["other"] * len(names)]) + "\n"
        )
        changed = beside.replaced(table, ["\t".join([*rows[0][:5], "1.000", *rows[0][6:]])])
        self.assertEqual([line.split("\t")[5:6] for line in changed.splitlines()[2:]], [["1.000"], ["other"]])

    def test_benchmark(self) -> None:
        """atva.tsv has the columns and the jobs of bench/atva.py; what was decided covers as much as was asked."""
        rows = figures.rows_of("atva.tsv")
        self.assertEqual(list(rows[0]), list(atva.COLUMNS))
        names = [f"{job.family} ({','.join(map(str, job.arguments))})" for job in atva.JOBS]
        self.assertEqual([row["model"] for row in rows], names)
        for row in rows:
            if row["regions"]:
                self.assertEqual(
                    int(row["regions"]), sum(int(row[kind]) for kind in ("safe", "unsafe", "unknown")), row
                )
                self.assertGreaterEqual(float(row["covered"].rstrip(" %")), 95, row)

    def test_tiles(self) -> None:
        """tiles.tsv: the first report and the tiles are so much of the whole as is told."""
        for row in figures.rows_of("tiles.tsv"):
            tiles = float(row["tiles: number, sum, greatest"].split(", ")[1])
            share = (float(row["first report"]) + tiles) / float(row["whole"])
            self.assertAlmostEqual(share, float(row["(first + tiles) / whole"]), delta=0.15, msg=str(row))

    def test_page(self) -> None:
        """What was changed by hand between the marks is seen."""
        page = figures.PAGE.read_text(encoding="utf-8")
        self.assertEqual(figures.made(page), page)
        self.assertEqual(figures.made(page.replace("| relay 9362 7 | 65536", "| relay 9362 7 | 65537")), page)


if __name__ == "__main__":
    unittest.main()
