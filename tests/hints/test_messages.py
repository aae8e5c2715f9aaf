"""Each note that the sources can write stands in tools/words/notes.tsv, of which docs/MESSAGES.md is made, with its
meaning and a remedy, and has a hint."""

from __future__ import annotations

import re
import sys
import unittest
from pathlib import Path
from typing import List, Tuple

sys.dont_write_bytecode = True
TOP = Path(__file__).resolve().parent.parent.parent
sys.path.insert(0, str(TOP / "tools"))

import hints  # noqa: E402
from hints import model  # noqa: E402
from hints.advice import advice_on, rows  # noqa: E402

PAGE = (TOP / "docs" / "MESSAGES.md").read_text(encoding="utf-8")
UNTOLD = {"Memory"}  # told as `out of memory`
UNREACHED = {"not read"}  # kept for faults that have statuses of their own


def source(name: str) -> str:
    return (TOP / "crates" / name).read_text(encoding="utf-8")


def names_in(text: str, kind: str) -> List[str]:
    """The names that a function gives to the variants of an enum."""
    return [name for name in re.findall(rf'{kind}::\w+ => b?"(\w+)"', text) if name not in UNTOLD]


def variants(text: str, kind: str) -> List[str]:
    """The variants of an enum, as it is declared."""
    body = re.search(rf"pub enum {kind}(?:<[^>]*>)? \{{(.*?)\n\}}", text, re.S)
    assert body, kind
    return re.findall(r"^    (\w+)(?= [={]|,|\()", body[1], re.M)


def causes() -> List[str]:
    return names_in(source("drn_read/src/error.rt"), "DrnCause")


def region_causes() -> List[str]:
    return names_in(source("lift_grid/src/error.rt"), "RegionError")


def text_causes() -> List[str]:
    return names_in(source("check_notes/src/unsound.rt"), "TextCause")


def view_causes() -> List[str]:
    return names_in(source("view_top/src/notes.rt"), "Cause")


def whole_notes(name: str) -> List[str]:
    """The notes that stand in a source as they are written."""
    return re.findall(r'b"([^"\\]+)\\n"', source(name))


def written(text: str) -> List[str]:
    """The notes that calls of `write_words` put together, with X in the place of each number."""
    notes = []
    for call in re.findall(r"write_words\(\s*notes,\s*&\[(.*?)\],\s*\)", text, re.S):
        parts = re.findall(r'Word::(?:Text\(b"([^"]*)"\)|(Count|Number)\(|Text\((relation|fault))', call)
        notes.append("".join(part if not (number or made) else "X" for part, number, made in parts))
    return notes


def body(name: str, file: str) -> str:
    """The text of a function."""
    found = re.search(rf"fn {name}.*?\n}}\n", source(f"check_notes/src/{file}"), re.S)
    assert found
    return found[0]


ROW_FAULTS = [*written(body("write_row_fault", "rows.rt")), "too wide"]
MISSES = written(body("write_miss", "unsound.rt"))
NODE_FAULTS = re.findall(r'write_node_fault\(notes, node, b" (\w+)"\)', source("check_notes/src/unsound.rt"))


def numbered(note: str) -> str:
    """The note with a number in the place of each X."""
    return re.sub(r"(?<![A-Za-z])X(?![A-Za-z])", "7", note)


def unsound_notes() -> List[str]:
    """What may stand behind `not sound: `."""
    misses = [note for miss in MISSES for note in both_relations(miss)]
    lines = [f"line 7: {cause}" for cause in text_causes()]
    rows = [f"state 7 choice 7: {numbered(fault)}" for fault in ROW_FAULTS]
    nodes = [f"node 7 {numbered(miss)}" for miss in misses] + [f"node 7 {fault}" for fault in NODE_FAULTS]
    return lines + rows + nodes + ["rest"]


def both_relations(miss: str) -> List[str]:
    """A note of a bound, whose sign is written by a function, with either sign."""
    return [miss.replace("XXX", "X > X"), miss.replace("XXX", "X <= X")] if "XXX" in miss else [miss]


def all_notes() -> List[Tuple[str, int, str, str]]:
    """Each note: the page's section, the status, the note, and the program."""
    plain = whole_notes("plift_top/src/notes.rt")
    usage = [note[7:] for note in plain if note.startswith("usage: ")]
    usage += [f"--region {cause}" for cause in region_causes()]
    notes = [("2", 2, f"usage: {part}", "plift") for part in usage]
    notes += [("3", 3, f"model: line 7: {cause}", "plift") for cause in causes()]
    notes += [("4", 4, f"rows: state 7 choice 7: {numbered(fault)}", "plift") for fault in ROW_FAULTS]
    for program in ("plift", "plift-view"):
        notes += [("1", 1, f"not sound: {fault}", program) for fault in unsound_notes()]
    statuses = {
        "lump: not a chain": 3,
        "lump: too wide": 4,
        "read fault": 5,
        "write fault": 6,
        "too long": 7,
        "out of memory": 8,
    }
    for name, program in (("plift_top", "plift"), ("view_top", "plift-view")):
        found = [note for note in whole_notes(f"{name}/src/notes.rt") if not note.startswith("usage: ")]
        notes += [(str(statuses[note]), statuses[note], note, program) for note in found]
    notes.append(("2 of plift-view", 2, "usage: words", "plift-view"))
    notes += [("2 of plift-view", 2, f"usage: {part}", "plift-view") for part in view_usage()]
    return notes


def view_usage() -> List[str]:
    """The options of plift-view with the causes that each can have: an axis is never wrong in its spelling."""
    axes = ["--x UnknownName", "--y UnknownName", "--y Repeated"]
    return axes + [f"--at 7 {cause}" for cause in view_causes()]


def without_front(section: str, note: str) -> str:
    """A note without the front that all notes of its section share."""
    front = next(front for front in hints.FRONTS if note.startswith(front))
    rest = note[len(front) :] if front.endswith(" ") else note
    return rest.split(": ", 1)[-1] if front in ("model: ", "rows: ") else rest


class Messages(unittest.TestCase):
    def test_sources(self) -> None:
        """What the sources are read for was found: the lists are those of the enums."""
        self.assertEqual(set(causes()) | UNTOLD, set(variants(source("drn_read/src/error.rt"), "DrnCause")))
        self.assertEqual(set(region_causes()) | UNTOLD, set(variants(source("lift_grid/src/error.rt"), "RegionError")))
        self.assertEqual(set(text_causes()) | UNTOLD, set(variants(source("line_text/src/error.rt"), "TextCause")))
        self.assertEqual(set(view_causes()), set(variants(source("view_words/src/job.rt"), "Cause")))
        self.assertEqual(len(ROW_FAULTS), len(variants(source("lift_rows/src/error.rt"), "RowError")))
        self.assertEqual(len(MISSES), len(variants(source("lift_cert/src/miss.rt"), "Miss")))
        self.assertEqual(len(NODE_FAULTS), 2)
        self.assertEqual(set(re.findall(r'b"(not read)"', source("check_notes/src/unsound.rt"))), UNREACHED)

    def test_page(self) -> None:
        """Each note has a row with a meaning and a remedy."""
        for section, _, note, program in all_notes():
            with self.subTest(note=note, program=program):
                advice = advice_on(section, without_front(section, note))
                self.assertIsNotNone(advice)
                self.assertTrue(advice and advice.meaning and advice.remedy)

    def test_hints(self) -> None:
        """Each note has a hint, also where neither words nor text are there."""
        for _, status, note, program in all_notes():
            with self.subTest(note=note, program=program):
                self.assertTrue(hints.hints(status, note, [], None, program))

    def test_details(self) -> None:
        """Each cause of the model has a function that looks into the text, and no other has."""
        self.assertEqual(set(model.CAUSES), set(causes()))

    def test_no_other_rows(self) -> None:
        """Each note of the page is one that a program writes."""
        notes = {(section, without_front(section, note)) for section, _, note, _ in all_notes()}
        for section, told_rows in rows().items():
            for row in told_rows:
                for told in row.notes:
                    with self.subTest(section=section, note=told):
                        self.assertTrue(any(s == section and hints.advice.matches(told, rest) for s, rest in notes))

    def test_order(self) -> None:
        """The page's sections stand in the order of the statuses."""
        statuses = [int(s) for s in re.findall(r"^## Status (\d+)", PAGE, re.M)]
        self.assertEqual(statuses, sorted(statuses))
        self.assertEqual(set(statuses), set(range(9)))


if __name__ == "__main__":
    unittest.main()
