"""What each line of words is answered, and each folder and report that is at fault: a status and one line."""

import unittest

from common import EXAMPLES, TilesCase, written

COIN = "verify --goal heads --bound 1/4 --precision 10".split()

# Each row: the words, and the file on standard input behind `<`; the status; what the line on standard error holds.
TABLE = """
                                            | 2  | name a command: split, left, work, join, status
refine work                                 | 2  | invalid choice: 'refine'
split                                       | 2  | required: DIR, --depth
split new < tree.report                     | 2  | required: --depth
split new --depth x < tree.report           | 2  | --depth is a whole number from 1 to 20, and not 'x'
split new --depth 4 < tree.report           | 2  | --depth 4: the report has depth 4, and a greater one is due
split new --depth 21 < tree.report          | 2  | --depth is a whole number from 1 to 20, and not '21'
split work --depth 7 < tree.report          | 2  | work is there already
split tree.report --depth 7 < tree.report   | 2  | tree.report is there already
split none/new --depth 7 < tree.report      | 2  | none/new can't be written: No such file or directory
split tree.report/x --depth 7 < tree.report | 2  | tree.report/x can't be written: Not a directory
split new --depth 7 < cut.report            | 1  | not sound: line 51: Truncated
split new --depth 7 < empty                 | 1  | not sound: line 1: Truncated
split new --depth 7 < changed.report        | 1  | not sound: node 4 state 1 choice 0 corner 1: 6560 > 6400
split new --depth 7 < steps.text            | 1  | not sound: line 1: Syntax
split new --depth 7 < property.text         | 1  | not sound: line 1: Syntax
split new --depth 17 < fine.report          | 2  | usage: --region Wide
left none                                   | 2  | none is no folder that `plift-tiles split` has made
left tree.report                            | 2  | tree.report is no folder that `plift-tiles split` has made
left other                                  | 2  | other has another job.txt or tiles.txt than `plift-tiles split` writes
join strange --partial                      | 2  | strange has another job.txt or tiles.txt than `plift-tiles split` writes
join deeper --partial                       | 9  | deeper/base.report has depth 4, which job.txt doesn't tell
join loud --partial                         | 2  | loud has another job.txt or tiles.txt
left short                                  | 9  | short/tiles.txt has 2 tiles, and job.txt tells 3
left work more                              | 2  | unrecognized arguments: more
work none 1                                 | 2  | none is no folder that `plift-tiles split` has made
work work                                   | 2  | name tiles by their numbers, or a part of them by --part K/M
work work 1 --part 1/2                      | 2  | name tiles by their numbers, or a part of them by --part K/M
work work 0                                 | 2  | a tile is a whole number from 1 to 3, and not '0'
work work 1 4                               | 2  | a tile is a whole number from 1 to 3, and not '4'
work work x                                 | 2  | a tile is a whole number from 1 to 3, and not 'x'
work work --part 3                          | 2  | M in --part K/M is a whole number from 1 to 999999999, and not ''
work work --part 0/3                        | 2  | K in --part K/M is a whole number from 1 to 3, and not '0'
work work --part 4/3                        | 2  | K in --part K/M is a whole number from 1 to 3, and not '4'
join work                                   | 9  | 3 of 3 tiles have no report, the first is tile 1; --partial leaves them unknown
join work --part                            | 2  | unrecognized arguments: --part
status                                      | 2  | required: DIR
"""


class Words(TilesCase):
    """Lines that are refused, and what the others print."""

    def setUp(self) -> None:
        super().setUp()
        tree = (EXAMPLES / "retry-tree.report").read_bytes()
        fine = written(self.program, [*COIN, "--region", f"1/{2 ** 45}<=p<=1/2"], (EXAMPLES / "coin.drn").read_bytes())
        texts = {
            "tree.report": tree,
            "cut.report": tree[:-1],
            "empty": b"",
            "fine.report": fine,
            "changed.report": tree.replace(b"\naccept 9 41 ", b"\naccept 9 40 ", 1),
            "steps.text": tree.replace(b"plift 1", b"plift-bounded 1", 1),
            "property.text": tree.replace(b"plift 1", b"plift-property 1", 1),
        }
        for name, data in texts.items():
            (self.folder / name).write_bytes(data)
        self.job()
        for name in ("other", "short", "strange", "deeper", "loud"):
            self.job(name=name)
        told = (self.folder / "work/job.txt").read_text()
        (self.folder / "strange/job.txt").write_text(told.replace("levels 3", "levels 40"))
        (self.folder / "deeper/job.txt").write_text(told.replace("depth 7\nlevels 3", "depth 20\nlevels 18"))
        (self.folder / "loud/job.txt").write_text(told.replace("levels 3", "levels \x1b[2J"))
        (self.folder / "other/job.txt").write_text("depth 7\n")
        lines = (self.folder / "short/tiles.txt").read_text().splitlines(keepends=True)
        (self.folder / "short/tiles.txt").write_text("".join(lines[:2]))

    def test_lines_that_are_refused(self) -> None:
        before = sorted(self.folder.rglob("*"))
        for row in TABLE.strip("\n").splitlines():
            line, status, told = (part.strip() for part in row.split("|"))
            words, _, name = (part.strip() for part in line.partition("<"))
            with self.subTest(line):
                came = self.call(words, (self.folder / name).read_bytes() if name else b"")
                self.assertEqual((came.status, came.out), (int(status), b""), came.told)
                self.assertIn(told, came.told)
                self.assertEqual((came.told[:13], came.told.count("\n")), ("plift-tiles: ", 1))
        self.assertEqual(sorted(self.folder.rglob("*")), before)

    def test_no_program_is_told_and_none_is_built(self) -> None:
        for line in ("split new --depth 7", "work work 1"):
            came = self.call(line, (self.folder / "tree.report").read_bytes(), program=self.folder / "none")
            self.assertEqual((came.status, came.told.count("\n")), (70, 1))
            self.assertIn("none, which is no program", came.told)

    def test_what_the_commands_print(self) -> None:
        self.assertEqual(self.call("status work").out, b"tiles 3 done 0 left 3 share 0.0 %\n")
        self.assertEqual(self.call("left work").out, b"1\n2\n3\n")
        self.assertEqual(self.call("work work 2"), (0, b"", ""))
        self.assertEqual(self.call("left work").out, b"1\n3\n")
        self.assertEqual(self.call("status work").out, b"tiles 3 done 1 left 2 share 33.3 %\n")
        self.assertEqual(self.call("work work --part 1/2"), (0, b"", ""))
        self.assertEqual((self.call("left work").out, self.call("join work")), (b"", (0, self.retry(7), "")))
        self.assertEqual(self.call("status work").out, b"tiles 3 done 3 left 0 share 100.0 %\n")
        self.assertTrue(self.call("--help").out.startswith(b"usage: plift-tiles"))
        self.assertTrue(self.call("work --help").out.startswith(b"usage: plift-tiles work"))

    def test_what_the_folder_holds(self) -> None:
        told = "depth 7\nlevels 3\nbound 1/40\nprecision 10\ntiles 3\n"
        self.assertEqual((self.folder / "work/job.txt").read_text(), told)
        range_of = self.ranged_job()
        self.assertEqual((range_of.place / "job.txt").read_text(), told.replace("tiles", "from 3\ntiles"))
        self.assertEqual(range_of.words(1)[-4:], ["--precision", "10", "--from", "3"])
        regions = "1\t1/10<=p<=1/5,1/5<=q<=3/10\n2\t1/5<=p<=3/10,1/10<=q<=1/5\n3\t1/5<=p<=3/10,1/5<=q<=3/10\n"
        self.assertEqual((self.folder / "work/tiles.txt").read_text(), regions)
        names = sorted(path.name for path in (self.folder / "work").iterdir())
        self.assertEqual(names, ["base.report", "done", "job.txt", "model.drn", "tiles.txt"])


if __name__ == "__main__":
    unittest.main()
