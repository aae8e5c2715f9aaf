"""The tables of tools/words say what the definitions say: commands, options, ranges, limits, statuses and causes; and a
change of theirs shows in each page that is made from them."""

from __future__ import annotations

import re
import sys
import unittest
from collections import Counter
from pathlib import Path
from typing import Dict, List
from unittest import mock

TOP = Path(__file__).resolve().parents[2]
sys.dont_write_bytecode = True
sys.path.insert(0, str(TOP / "tools"))
import hints  # noqa: E402
import manual  # noqa: E402
import tables  # noqa: E402
from hints import data  # noqa: E402

NUMBER = re.compile(r"^(\w+) = (.+)$", re.M)
CODES = re.compile(r'codes "([^"]+)"')
NAME = re.compile(r"`([^`]+)`")
FORM = re.compile(r'^is_\w+ = is_command \(codes "(\w+)"\) \((.*?\[\])\) (.*)$', re.M)


def specs(crate: str, file: str) -> str:
    """A file of definitions."""
    return (TOP / "crates" / crate / "specs" / f"{file}.antt").read_text(encoding="utf-8")


def value(text: str) -> int:
    """A number: digits, or a power of 2."""
    power, mark, exponent = text.replace(" ", "").partition("2^")
    return 1 << int(exponent) if mark and not power else int(text)


def number(crate: str, file: str, name: str) -> int:
    """The number that a definition stands for."""
    return value(dict(NUMBER.findall(specs(crate, file)))[name])


def option(name: str, command: str = "verify") -> Dict[str, str]:
    """The row of an option."""
    return next(row for row in data.options_of(command) if row["option"] == name)


def span(row: Dict[str, str]) -> List[int]:
    """The digits and the range of an option."""
    return [int(row[key]) for key in ("digits", "low", "high")]


def named(of: str) -> Counter[str]:
    """The causes that the tables name of one kind, each as often as it is told."""
    return Counter(name for row in data.table("causes") if row["of"] == of for name in NAME.findall(row["causes"]))


def causes(crate: str, function: str) -> List[str]:
    """The names that a definition gives to causes, but for that of want of memory, which is told otherwise."""
    lines = [line for line in specs(crate, "Faults").splitlines() if line.startswith(f"{function} ")]
    return [name for line in lines for name in CODES.findall(line) if name != "Memory"]


class Source(unittest.TestCase):
    """What the tables have in common with the definitions."""

    def test_limits(self) -> None:
        """Each limit is the number of the definitions that it names, and no two rows name one."""
        rows = data.table("limits")
        self.assertGreater(len(rows), 20)
        for row in rows:
            for told in row["definition"].split(", "):
                with self.subTest(told):
                    file, name = told.split(" ")
                    crate, spec = file.split("/")
                    self.assertEqual(number(crate, spec, name), value(row["number"]))
        names = [name for row in rows for name in row["definition"].split(", ")]
        self.assertEqual(len(names), len(set(names)))

    def test_ranges(self) -> None:
        """The digits, the range and the default of each number."""
        digits, job = number("plift_words", "Values", "most_option_digits"), specs("plift_words", "Job")
        depth, precision = number("lift_grid", "Rectangle", "most_halvings"), number(
            "corner_lift", "Case", "most_precision"
        )
        self.assertEqual(span(option("--depth")), [digits, 0, depth])
        self.assertEqual(span(option("--depth", "refine")), [digits, 1, depth])
        self.assertIn(f"option_number 0 most_halvings (unwrap_or word (codes \"{option('--depth')['left']}\"))", job)
        self.assertIn("option_number 1 most_halvings word", job)
        self.assertEqual(span(option("--precision")), [digits, 1, precision])
        left = option("--precision")["left"]
        self.assertIn(f'option_number 1 most_precision (unwrap_or word (codes "{left}"))', job)
        self.assertEqual(span(option("--from")), [digits, 1, precision])
        for name, row, most in (
            ("most_step_digits", option("--steps", "bounded"), number("plift_words", "Values", "most_steps")),
            ("most_block_digits", option("N", "generate"), number("model_gen", "Ladder", "most_blocks")),
            ("most_cap_digits", option("--cap", "cost"), number("lift_cert", "Bound", "part_limit") - 1),
        ):
            with self.subTest(name):
                self.assertEqual(span(row), [number("plift_words", "Values", name), 1, most])

    def test_commands_and_options(self) -> None:
        """The commands and the options of plift are those that its grammar names; so are the options of plift-view."""
        line = specs("plift_words", "Line")
        words = set(CODES.findall(line)) | set(CODES.findall(specs("plift_words", "Job")))
        others = {word for word in words if re.fullmatch("[a-z]+", word)}
        self.assertEqual(others, set(data.commands()))
        view = re.findall(r'option \(codes "(\w+)"\)', specs("view_words", "Words"))
        self.assertEqual([f"--{name}" for name in view], [row["option"] for row in data.options_of("plift-view")])

    def test_options_of_each_command(self) -> None:
        """The options that have to stand behind a command that asks, and those that may, are those of the tables."""
        line = specs("plift_words", "Line")
        common, of_range = (
            CODES.findall(next(told for told in line.splitlines() if told.startswith(f"{name} =")))
            for name in ("common_options", "range_options")
        )
        asking = FORM.findall(line)
        self.assertEqual([name for name, _, _ in asking], ["verify", "bounded", "lumped", "property", "cost"])
        for name, must, may in asking:
            with self.subTest(name):
                needed = {row["option"]: row["needed"] == "yes" for row in data.options_of(name)}
                told = {option: True for option in CODES.findall(must)}
                left = of_range if "range_options" in may else []
                told.update((option, False) for option in [*CODES.findall(may), *left, *common])
                self.assertEqual(told, needed)
        every = next(told for told in specs("plift_words", "Parser").splitlines() if told.startswith("option_names ="))
        rows = [row["option"] for row in data.table("options") if row["commands"] != "plift-view"]
        self.assertEqual(set(CODES.findall(every)), set(rows) - {"N"})

    def test_door(self) -> None:
        """The launcher knows the same commands."""
        door = (TOP / "tools" / "door.sh").read_text(encoding="utf-8")
        is_command = re.search(r"is_command\(\) \{.*?case \$1 in\n(.*?)\) ;;", door, re.S)
        self.assertEqual(is_command and is_command[1].split(" | "), ["    verify", *data.commands()[1:]])

    def test_statuses(self) -> None:
        """The numbers of the statuses, and that hints know each note's."""
        numbers = re.findall(r"^status_number status\.\w+ = (\d+)$", specs("check_notes", "Status"), re.M)
        self.assertEqual([row["status"] for row in data.table("statuses")], [*numbers, "70"])
        notes = {row["status"]: NAME.findall(row["note"]) for row in data.table("statuses")}
        for front, status in hints.STATUSES.items():
            self.assertTrue(any(note.startswith(front.rstrip()) for note in notes[str(status)]), front)
        usage = [note.split(" ")[1] for note in notes["2"]]
        asked = [row["option"] for row in data.table("options") if row["commands"] != "plift-view"]
        self.assertEqual(set(usage), {"words", *asked})

    def test_causes(self) -> None:
        """Each cause of a model is told once; of a region at least once; of a row and of a view those of MESSAGES."""
        self.assertEqual(named("model"), Counter(causes("drn_read", "cause_name")))
        self.assertEqual(set(named("region")), set(causes("lift_grid", "error_name")))
        notes: Dict[str, List[str]] = {}
        for row in data.table("notes"):
            notes.setdefault(row["table"], []).extend(NAME.findall(row["notes"].split(" of ")[0]))
        self.assertEqual(set(named("model")), set(notes["3"]))
        self.assertEqual(set(named("row")), set(notes["4"]))
        self.assertEqual(set(named("region")), {note[9:] for note in notes["2"] if note.startswith("--region ")})
        self.assertEqual(set(named("view")), {note.split()[-1] for note in notes["2 view"] if note.startswith("--")})


class Pages(unittest.TestCase):
    """What is made from the tables."""

    def test_all_is_shown(self) -> None:
        """Each part that can be made stands in one page, once."""
        texts = [(TOP / name).read_text(encoding="utf-8") for name in manual.makers()]
        parts = Counter(found[1] for text in texts for found in manual.PART.findall(text))
        expected = {*manual.TABLES, "causes of a model", "faults of a row", "causes of a region", "causes of a view"}
        expected |= {f"notes {row['table']}" for row in data.table("notes")}
        self.assertEqual(parts, Counter(expected))
        self.assertEqual({found[1] for text in texts for found in manual.MAN_PART.findall(text)}, set(manual.MAN_PARTS))

    def changed(self, name: str, column: str, text: str) -> List[str]:
        """The files that a change of the last row of a table makes stale."""
        rows = [dict(row) for row in data.table(name)]
        rows[-1][column] = text
        real = data.table

        def table(asked: str) -> List[data.Row]:
            """The tables, one of them changed."""
            return rows if asked == name else real(asked)

        with mock.patch.object(data, "table", table), mock.patch.object(manual, "table", table):
            with mock.patch.dict(tables.FILES, manual.makers(), clear=True):
                return sorted(tables.stale())

    def test_what_a_change_makes_stale(self) -> None:
        """A word that is changed makes each page stale that has it, and no other."""
        self.assertEqual(self.changed("limits", "number", "7"), ["docs/FORMATS.md"])
        self.assertEqual(self.changed("notes", "remedy", "Do so."), ["docs/MESSAGES.md"])
        self.assertEqual(self.changed("causes", "where", "there"), ["docs/FORMATS.md"])
        self.assertEqual(self.changed("statuses", "meaning", "so"), ["docs/GUIDE.md", "man/plift.1"])
        self.assertEqual(self.changed("statuses", "short", "so"), ["man/help/plift.txt"])
        self.assertEqual(self.changed("commands", "short", "so"), ["completion/_plift"])
        self.assertEqual(self.changed("commands", "help", "so"), ["man/help/plift.txt"])
        self.assertEqual(self.changed("options", "meaning", "so"), ["man/help/plift-view.txt", "man/plift-view.1"])

    def test_a_part_that_nothing_makes(self) -> None:
        """It is refused, and so is a help without its paragraphs."""
        with self.assertRaisesRegex(manual.Unmade, "the part 'no such'"):
            manual.document("<!-- made by tools/tables.py: no such -->\n<!-- end -->\n")
        with self.assertRaisesRegex(manual.Unmade, "the help of refine has no paragraph of options"):
            manual.help_text("refine", "plift refine\n\nNothing.\n")
        with self.assertRaisesRegex(manual.Unmade, "the help of plift has no paragraph"):
            manual.help_of_all("plift\n")


if __name__ == "__main__":
    unittest.main()
