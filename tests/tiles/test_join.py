"""What is joined has the bytes of a single `verify`, and a tile that isn't of the job, or isn't whole, is refused."""

import shutil
import unittest
from typing import List

from common import EXAMPLES, Job, TilesCase, joined, split, work, written
from plift_lab.faults import Fault
from random_models import compare

# Each row: an example, its goal, a bound, a region, a precision, or the least and the greatest one, a first depth,
# deeper ones in turn, and whether there are tiles.
TABLE = """
coin.drn  | heads | 1/3   | 1/10<=p<=9/10                          | 10   | 0 | 1, 6  | some
loop.drn  | heads | 1/2   | 1/10<=p<=9/10                          | 24   | 2 | 9     | some
retry.drn | lost  | 1/40  | 1/10<=p<=1/2,1/10<=q<=1/2              | 10   | 4 | 7, 10 | some
retry.drn | lost  | 1/40  | 1/10<=q<=1/2,1/10<=p<=1/2              | 40   | 2 | 9     | some
links.drn | lost  | 1/10  | 1/20<=p<=2/5,1/20<=q<=2/5              | 16   | 3 | 6, 8  | some
chain.drn | lost  | 1/2   | 3/5<=p<=9/10,3/5<=q<=9/10,3/5<=r<=9/10 | 16   | 3 | 6, 8  | some
retry.drn | lost  | 3/100 | 1/10<=p<=3/10,1/20<=q<=1/5             | 10   | 0 | 5     | none
plain.drn | heads | 1/3   |                                        | 4    | 0 | 3     | none
coin.drn  | heads | 1/3   | 1/10<=p<=9/10                          | 1 10 | 0 | 1, 6  | some
retry.drn | lost  | 1/40  | 1/10<=p<=1/2,1/10<=q<=1/2              | 1 24 | 4 | 7, 10 | some
links.drn | lost  | 1/10  | 1/20<=p<=2/5,1/20<=q<=2/5              | 5 16 | 3 | 6, 8  | some
chain.drn | lost  | 1/2   | 3/5<=p<=9/10,3/5<=q<=9/10,3/5<=r<=9/10 | 9 9  | 3 | 6, 8  | some
retry.drn | lost  | 3/100 | 1/10<=p<=3/10,1/20<=q<=1/5             | 1 10 | 0 | 5     | none
"""
# A coin whose second parameter occurs in no row, and has negative ends.
DEAD = b"""@type: DTMC
@parameters
s p
@model
state 0 init
1 : p
2 : 1-p
state 1 heads
1 : 1
state 2
2 : 1
"""


class Bytes(TilesCase):
    """Joined reports beside those of a single `verify`."""

    def compare(self, model: bytes, words: List[str], depths: List[str]) -> int:
        """Takes a report from depth to depth, and returns how many tiles there were."""
        report, tiles = written(self.program, [*words, "--depth", depths[0]], model), 0
        for depth in depths[1:]:
            place = self.folder / str(len(list(self.folder.iterdir())))
            split(self.program, report, place, int(depth))
            job = Job(place)
            tiles += len(job.regions)
            self.assertEqual(work(self.program, job, job.numbers), 0)
            report = joined(job)
            self.assertEqual(report, written(self.program, [*words, "--depth", depth], model))
        return tiles

    def test_examples(self) -> None:
        for row in TABLE.strip().splitlines():
            name, goal, bound, region, precision, first, others, tiles = (part.strip() for part in row.split("|"))
            *least, greatest = precision.split()
            words = ["verify", "--goal", goal, "--bound", bound, "--precision", greatest]
            words += ["--from", *least] if least else []
            words += ["--region", region] if region else []
            with self.subTest(row):
                model = (EXAMPLES / name).read_bytes()
                count = self.compare(model, words, [first, *others.split(", ")])
                self.assertEqual("some" if count else "none", tiles)

    def test_a_region_that_begins_with_a_sign(self) -> None:
        words = ["verify", "--goal", "heads", "--bound", "1/3", "--region", " -1/2<=s<=-1/4,1/10<=p<=9/10"]
        self.assertGreater(self.compare(DEAD, words, ["1", "4"]), 0)

    def test_a_report_that_was_migrated(self) -> None:
        first = written(self.program, ["migrate"], (EXAMPLES / "retry-tree.report").read_bytes())
        split(self.program, first, self.folder / "work", 7)
        job = Job(self.folder / "work")
        self.assertEqual(work(self.program, job, job.numbers), 0)
        self.assertEqual(joined(job), written(self.program, ["migrate"], self.retry(7)))
        self.assertEqual(joined(job), self.retry(7, "--from", "10"))

    def test_models_made_at_random(self) -> None:
        came = list(compare(count=40, seed=1))
        self.assertEqual([one.fault for one in came if one.fault], [])
        self.assertGreaterEqual(sum(one.tiles > 0 for one in came), 15)


class Tiles(TilesCase):
    """Tiles that are left, and tiles that aren't as they should be."""

    def setUp(self) -> None:
        super().setUp()
        self.done = self.done_job()

    def refused(self, told: str) -> None:
        """The job isn't joined, neither whole nor in part."""
        for partial in (False, True):
            with self.assertRaises(Fault) as caught:
                joined(self.done, partial)
            self.assertEqual(caught.exception.status, 9)
            self.assertIn(told, str(caught.exception))

    def test_a_tile_that_is_left_stays_unknown(self) -> None:
        whole = self.program.check(joined(self.done))
        counts = []
        for number in self.done.numbers:
            self.done.report(number).unlink()
            answer = self.program.check(joined(self.done, partial=True))
            counts.append(int(answer.split()[-1]))
        # Three halvings are left, so eight unknown leaves stand in the place of each tile.
        self.assertEqual((counts[-1], answer), (24, "sound accept 1 reject 2 unknown 24"))
        self.assertLess(int(whole.split()[-1]), counts[0])

    def test_what_is_joined_in_part_goes_on(self) -> None:
        self.done.report(2).unlink()
        split(self.program, joined(self.done, partial=True), self.folder / "next", 9)
        job = Job(self.folder / "next")
        self.assertEqual(work(self.program, job, job.numbers), 0)
        self.assertTrue(self.program.check(joined(job)).startswith("sound "))

    def test_a_tile_of_another_place_or_job(self) -> None:
        shutil.copy(self.done.report(1), self.done.report(2))
        self.refused("tile 2 isn't of this job")
        shutil.copy(self.done_job(depth=8, name="deeper").report(2), self.done.report(2))
        self.refused("tile 2 isn't of this job")

    def test_a_tile_that_is_cut_off(self) -> None:
        tile = self.done.report(3).read_bytes()
        for length in range(len(tile)):
            self.done.report(3).write_bytes(tile[:length])
            with self.assertRaises(Fault) as caught:
                joined(self.done)
            self.assertIn("tile 3 is cut off", str(caught.exception))
        self.refused("tile 3 is cut off")
        self.done.report(3).write_bytes(tile + b"unknown\n")
        self.refused("tile 3 has something behind its last node")

    def test_a_tile_that_lies_is_told_by_check(self) -> None:
        tile = self.done.report(2).read_bytes()
        self.assertIn(b"\naccept 22 78 282 ", tile)
        self.done.report(2).write_bytes(tile.replace(b"\naccept 22 78 282 ", b"\naccept 22 77 282 ", 1))
        with self.assertRaises(Fault) as caught:
            self.program.check(joined(self.done))
        self.assertIn("not sound: node", str(caught.exception))

    def test_a_base_with_other_leaves(self) -> None:
        (self.folder / "work/base.report").write_bytes(self.retry(5))
        self.refused("unknown leaves, and there are 3 tiles")


if __name__ == "__main__":
    unittest.main()
