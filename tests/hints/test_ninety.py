"""The mistakes of the tables `of_*.py`: what the program says, and that the hints tell what, where and what to do.

A program is taken from PLIFT_TEST_PROGRAM, from build/quick or from crates/plift/out; where there is none the tables'
notes are taken as they stand. What a shell says of a region without quotes never reaches the program, and so no table.
"""

from __future__ import annotations

import os
import subprocess
import sys
import unittest
from pathlib import Path
from typing import Any, Callable, Dict, List, Tuple

sys.dont_write_bytecode = True
sys.path[:0] = [str(Path(__file__).resolve().parent), str(Path(__file__).resolve().parent.parent.parent / "tools")]

import hints  # noqa: E402
import of_costs  # noqa: E402
import of_formulas  # noqa: E402
import of_lines  # noqa: E402
import of_models  # noqa: E402
import of_regions  # noqa: E402
import of_reports  # noqa: E402
import of_rows  # noqa: E402
from table import Mistake, program, told_of  # noqa: E402

MODULES = (of_costs, of_formulas, of_lines, of_models, of_regions, of_reports, of_rows)
TABLES = {module.__name__: module.MISTAKES for module in MODULES}
LEAST = 200  # mistakes in all tables


def named(mistake: Mistake) -> str:
    return f"{mistake.program} {mistake.words}"[:80]


class Mistakes(unittest.TestCase):
    def for_each(self, test: Callable[[Mistake], None]) -> None:
        """Tests each mistake of each table by itself."""
        for table, mistakes in TABLES.items():
            for number, mistake in enumerate(mistakes):
                with self.subTest(table=table, number=number, words=named(mistake), note=mistake.note):
                    test(mistake)

    def test_number(self) -> None:
        self.assertGreaterEqual(sum(map(len, TABLES.values())), LEAST)

    def test_notes(self) -> None:
        """The built program says of each mistake what the table says."""
        programs = {name: program(name) for name in ("plift", "plift-view")}
        if not programs["plift"]:
            self.skipTest("no program is built: tools/hints.py is tested with the tables' notes alone")

        def is_told(mistake: Mistake) -> None:
            path = programs[mistake.program]
            if path:
                ran = subprocess.run(
                    [path] + mistake.split(), input=mistake.text or b"", capture_output=True, timeout=60
                )
                told = hints.note_in(ran.stderr.decode("utf-8", "replace"))
                self.assertEqual((mistake.status, mistake.note), (ran.returncode, told))

        self.for_each(is_told)

    def test_streams(self) -> None:
        """What the built program says where standard input or output fails."""
        path = program()
        if not path:
            self.skipTest("no program is built")
        folder = os.open("/", os.O_RDONLY)
        reader, writer = os.pipe()
        os.close(reader)
        with open("/dev/full", "wb") as full, open("/dev/null", "rb") as nothing:
            runs: List[Tuple[List[str], Dict[str, Any], int, str]] = [
                (["check"], {"stdin": folder}, 5, "read fault"),
                (["check"], {"preexec_fn": lambda: os.close(0)}, 5, "read fault"),
                (["generate", "3"], {"stdin": nothing, "stdout": full}, 6, "write fault"),
                (["generate", "3"], {"stdin": nothing, "stdout": writer}, 6, "write fault"),
                (["generate", "3"], {"stdin": nothing, "preexec_fn": lambda: os.close(1)}, 6, "write fault"),
            ]
            for words, streams, status, note in runs:
                with self.subTest(words=words, streams=list(streams), note=note):
                    streams.setdefault("stdout", subprocess.DEVNULL)
                    ran = subprocess.run([path] + words, stderr=subprocess.PIPE, timeout=60, **streams)
                    self.assertEqual((ran.returncode, ran.stderr.decode().strip()), (status, note))
                    self.assertTrue(hints.hints(status, note, words, None))
        os.close(folder)
        os.close(writer)

    def test_hints(self) -> None:
        """The hints hold what the table asks for, in a few printable lines."""

        def helps(mistake: Mistake) -> None:
            lines = told_of(mistake)
            for part in mistake.told:
                self.assertIn(part, "\n".join(lines))
            self.assertEqual(bool(lines), mistake.status != 0)
            self.assertEqual(lines, hints.finished(lines))

        self.for_each(helps)

    def test_rule_alone(self) -> None:
        """Without words and text there is a hint, too."""

        def has_rule(mistake: Mistake) -> None:
            lines = hints.hints(mistake.status, mistake.note, [], None, mistake.program)
            self.assertEqual(bool(lines), mistake.status != 0)

        self.for_each(has_rule)


if __name__ == "__main__":
    unittest.main()
