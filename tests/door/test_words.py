"""Help, man pages, completion and the grammar name the same commands and options, and the examples of the help work."""

import os
import re
import shlex
import subprocess
import tempfile
import unittest
from typing import Set

from common import COMMANDS, TOP, quick_program, tool

line = tool("line")
OPTION = re.compile(r"(?<![\w-])--[a-z]+")
# What the launchers answer themselves.
DOOR = {"--help", "--version", "--quick"}
# The options of all commands.
ASKED = {*line.VERIFY.valued, *line.BOUNDED.valued, *line.PROPERTY.valued, *line.COST.valued, *line.LUMPED.valued}


def help_of(name: str) -> str:
    return (TOP / f"man/help/{name}.txt").read_text()


def part_of(text: str, begin: str, end: str) -> str:
    """Returns what stands between two pieces of a text."""
    return text.split(begin, 1)[1].split(end, 1)[0]


def rows_of(text: str) -> Set[str]:
    """Returns the options in the first column of a table."""
    rows = [row for row in text.splitlines() if row.startswith("| `--")]
    return {option for row in rows for option in OPTION.findall(row.split("|")[1])}


def man_of(name: str) -> str:
    return (TOP / f"man/{name}.1").read_text().replace("\\-", "-")


class Named(unittest.TestCase):
    formats = (TOP / "docs/FORMATS.md").read_text(encoding="utf-8")

    def test_the_grammar(self) -> None:
        words = part_of(self.formats, "## The command line", "Any other line")
        self.assertEqual(set(OPTION.findall(words)) - {"--name"}, ASKED)
        view = part_of(self.formats, "## The view of a report", "## Notes")
        self.assertEqual(rows_of(view), {*line.VIEW.valued, *line.VIEW.flags})
        named = part_of(words, "The first word is", "\n")
        self.assertEqual(re.findall(r"`(\w+)`", named), COMMANDS)

    def test_the_ranges(self) -> None:
        values = part_of(self.formats, "| Value | Grammar and range |", "\n\n")
        for name, row in (
            ("--depth", "`--depth`"),
            ("--precision", "`--precision`"),
            ("--steps", "`--steps`"),
            ("--cap", "`--cap`"),
            ("N", "the number of blocks"),
        ):
            digits, low, high = line.RANGES[name]
            self.assertIn(f"| {row} | 1 to {digits} digits, {low} to {high:,} |", values)
        digits, low, _ = line.RANGES["--from"]
        self.assertIn(f"| `--from` | 1 to {digits} digits, {low} to the precision |", values)
        for text in (
            help_of("verify"),
            help_of("property"),
            help_of("cost"),
            help_of("lumped"),
            re.sub(r"\s+", " ", man_of("plift")),
        ):
            for name in ("--depth", "--precision"):
                self.assertRegex(text, rf"{name} \S+[^-]*{line.RANGES[name][1]} to {line.RANGES[name][2]}\b")
        for text in (help_of("bounded"), re.sub(r"\s+", " ", man_of("plift"))):
            for name in ("--depth", "--precision", "--steps"):
                self.assertRegex(text, rf"{name} \S+[^-]*{line.RANGES[name][1]} to {line.RANGES[name][2]}\b")
        self.assertIn(f"1 to {line.RANGES['N'][2]}", help_of("generate"))
        for text in (help_of("cost"), re.sub(r"\s+", " ", man_of("plift"))):
            self.assertRegex(text, rf"--cap \S+[^-]*1 to {line.RANGES['--cap'][2]}\b")

    def test_help(self) -> None:
        self.assertEqual(set(OPTION.findall(help_of("verify"))), set(line.VERIFY.valued))
        self.assertEqual(set(OPTION.findall(help_of("lumped"))), set(line.LUMPED.valued))
        self.assertEqual(set(OPTION.findall(help_of("bounded"))), set(line.BOUNDED.valued))
        self.assertEqual(set(OPTION.findall(help_of("property"))), set(line.PROPERTY.valued))
        self.assertEqual(set(OPTION.findall(help_of("cost"))), set(line.COST.valued))
        view = set(OPTION.findall(help_of("plift-view"))) - set(line.VERIFY.valued)
        self.assertEqual(view, {*line.VIEW.valued, *line.VIEW.flags, *DOOR})
        self.assertEqual(set(OPTION.findall(help_of("plift"))), {*ASKED, *DOOR})
        for command in COMMANDS:
            self.assertIn(f"plift {command}", help_of("plift"))
            self.assertTrue(help_of(command).startswith(f"plift {command}"))
        for path in (TOP / "man/help").glob("*.txt"):
            self.assertLessEqual(max(map(len, path.read_text().splitlines())), 80, path)

    def test_man_pages(self) -> None:
        plift, view = (set(OPTION.findall(man_of(name))) for name in ("plift", "plift-view"))
        self.assertEqual(plift, {*ASKED, *DOOR})
        self.assertEqual(view, {*line.VIEW.valued, *line.VIEW.flags, *DOOR})
        version = (TOP / "VERSION").read_text().strip()
        for name in ("plift", "plift-view"):
            self.assertIn(f'"plift {version}"', man_of(name))

    def test_man_pages_are_well_formed(self) -> None:
        for name in ("plift", "plift-view"):
            try:
                command = ["groff", "-man", "-ww", "-Tutf8", str(TOP / f"man/{name}.1")]
                ran = subprocess.run(command, capture_output=True)
            except FileNotFoundError:
                self.skipTest("groff isn't there")
            self.assertEqual((ran.returncode, ran.stderr), (0, b""))

    def test_the_version_is_the_same_everywhere(self) -> None:
        version = (TOP / "VERSION").read_text().strip()
        self.assertIn(f"\nversion: {version}\n", (TOP / "CITATION.cff").read_text())
        self.assertIn(f"\n## {version} - ", (TOP / "CHANGELOG.md").read_text())

    def test_completion_for_zsh(self) -> None:
        text = (TOP / "completion/_plift").read_text()
        self.assertEqual(set(OPTION.findall(text)), {*ASKED, *line.VIEW.valued, *line.VIEW.flags, *DOOR})
        self.assertTrue(all(f"'{command}:" in text for command in COMMANDS))


class Completed(unittest.TestCase):
    """What bash offers for a front of a line."""

    def offered(self, *words: str) -> Set[str]:
        lines = [
            f". {shlex.quote(str(TOP / 'completion/plift.bash'))}",
            f"COMP_WORDS=({' '.join(map(shlex.quote, words))})",
            f"COMP_CWORD={len(words) - 1}",
            "_plift_view" if words[0] == "plift-view" else "_plift",
            'printf "%s\\n" "${COMPREPLY[@]}"',
        ]
        ran = subprocess.run(["bash", "-c", "\n".join(lines)], capture_output=True, text=True)
        self.assertEqual(ran.stderr, "")
        return set(ran.stdout.split())

    def test_plift(self) -> None:
        self.assertEqual(self.offered("plift", ""), {*COMMANDS, *DOOR})
        self.assertEqual(self.offered("plift", "--quick", ""), {*COMMANDS, *DOOR} - {"--quick"})
        self.assertEqual(self.offered("plift", "--help", "s"), {"selftest"})
        self.assertEqual(self.offered("plift", "verify", ""), {*line.VERIFY.valued, "--help"})
        self.assertEqual(self.offered("plift", "lumped", ""), {*line.LUMPED.valued, "--help"})
        self.assertEqual(self.offered("plift", "bounded", ""), {*line.BOUNDED.valued, "--help"})
        self.assertEqual(self.offered("plift", "bounded", "--steps", "3", "--s"), set())
        self.assertEqual(self.offered("plift", "property", ""), {*line.PROPERTY.valued, "--help"})
        self.assertEqual(self.offered("plift", "property", "--formula", ""), set())
        self.assertEqual(
            self.offered("plift", "property", "--formula=P", "--"),
            {"--region", "--depth", "--precision", "--from", "--help"},
        )
        self.assertEqual(self.offered("plift", "cost", ""), {*line.COST.valued, "--help"})
        self.assertEqual(self.offered("plift", "cost", "--reward", ""), set())
        self.assertEqual(self.offered("plift", "cost", "--goal", "x", "--c"), {"--cap"})
        left = {"--bound", "--region", "--precision", "--from", "--help"}
        self.assertEqual(self.offered("plift", "verify", "--goal", "x", "--depth=3", "--"), left)
        self.assertEqual(self.offered("plift", "--quick", "verify", "--b"), {"--bound"})
        self.assertEqual(self.offered("plift", "verify", "--goal", "-"), set())
        self.assertEqual(self.offered("plift", "verify", "--from", "1", "--f"), set())
        self.assertEqual(self.offered("plift", "verify", "--from", "-"), set())
        self.assertEqual(self.offered("plift", "refine", ""), {*line.REFINE.valued, "--help"})
        self.assertEqual(self.offered("plift", "refine", "--depth", ""), set())
        self.assertEqual(self.offered("plift", "refine", "--depth=3", "--"), {"--help"})
        for command in ("check", "migrate"):
            self.assertEqual(self.offered("plift", command, ""), {"--help"})

    def test_view(self) -> None:
        self.assertEqual(self.offered("plift-view", ""), {*line.VIEW.valued, *line.VIEW.flags, *DOOR})
        self.assertEqual(self.offered("plift-view", "--x", "p", ""), {"--y", "--at"})
        self.assertEqual(self.offered("plift-view", "--at", "p=1", "--at", "q=1", "-"), {"--x", "--y", "--at"})
        self.assertEqual(self.offered("plift-view", "--summary", ""), set())


class Examples(unittest.TestCase):
    def test_examples_of_the_help(self) -> None:
        if not all(quick_program(name) for name in ("plift", "plift-view")):
            self.skipTest("build/quick has no programs")
        with tempfile.TemporaryDirectory() as folder:
            environment = {**os.environ, "PATH": f"{TOP / 'build/quick'}:{os.environ['PATH']}"}
            for path in sorted((TOP / "man/help").glob("*.txt")):
                for example in path.read_text().split("Example")[1:]:
                    command = example.split("\n\n")[1].strip()
                    shell = ["bash", "-c", f"set -eo pipefail; {command}"]
                    ran = subprocess.run(shell, cwd=folder, env=environment, capture_output=True)
                    self.assertEqual((ran.returncode, ran.stderr), (0, b""), command)
                    self.assertTrue(ran.stdout, command)


if __name__ == "__main__":
    unittest.main()
