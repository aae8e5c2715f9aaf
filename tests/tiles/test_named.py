"""Help, man page and completion of plift-tiles name the same commands and options."""

import re
import shlex
import subprocess
import unittest
from typing import Set

from common import COMMAND, TOP, TilesCase
from plift_tiles.cli import COMMANDS

OPTION = re.compile(r"(?<![\w-])--[a-z]+")
OWN = {"--depth", "--part", "--partial", "--help"}


class Named(TilesCase):
    """What the texts name."""

    def test_help(self) -> None:
        named = set()
        for command in COMMANDS:
            named |= set(OPTION.findall(self.call(f"{command} --help").out.decode()))
        self.assertEqual(named, OWN)

    def test_man_page(self) -> None:
        text = (TOP / "man/plift-tiles.1").read_text()
        options = set(OPTION.findall(text.replace("\\-", "-").split(".SH EXAMPLES")[0]))
        self.assertEqual(options, OWN | {"--version"})
        self.assertEqual({each for each in COMMANDS if f"\n.B {each}\n" in text}, set(COMMANDS))
        self.assertIn(f'"plift {(TOP / "VERSION").read_text().strip()}"', text)

    def test_completion_for_zsh(self) -> None:
        text = (TOP / "completion/_plift-tiles").read_text()
        self.assertEqual(set(OPTION.findall(text)), OWN | {"--version"})
        self.assertEqual(set(re.findall(r"^        '(\w+):", text, re.M)), set(COMMANDS))

    def offered(self, *words: str) -> Set[str]:
        """What bash offers for the last of these words."""
        lines = [
            f". {shlex.quote(str(TOP / 'completion/plift-tiles.bash'))}",
            f"COMP_WORDS=({' '.join(map(shlex.quote, words))})",
            f"COMP_CWORD={len(words) - 1}",
            "_plift_tiles",
            'printf "%s\\n" "${COMPREPLY[@]}"',
        ]
        ran = subprocess.run(["bash", "-c", "\n".join(lines)], cwd=self.folder, capture_output=True, text=True)
        self.assertEqual(ran.stderr, "")
        return set(ran.stdout.split())

    def test_completion_for_bash(self) -> None:
        self.job()
        tiles = str(COMMAND)
        self.assertEqual(self.offered(tiles, ""), {*COMMANDS, "--help", "--version"})
        self.assertEqual(self.offered(tiles, "sp"), {"split"})
        self.assertEqual(self.offered(tiles, "left", "wo"), {"work"})
        self.assertEqual(self.offered(tiles, "split", "new", "--d"), {"--depth"})
        self.assertEqual(self.offered(tiles, "split", "new", "--depth", ""), set())
        self.assertEqual(self.offered(tiles, "work", "work", ""), {"1", "2", "3", "--part", "--help"})
        self.assertEqual(self.offered(tiles, "join", "work", "--"), {"--partial", "--help"})
        self.assertEqual(self.offered(tiles, "status", "work", ""), {"--help"})


if __name__ == "__main__":
    unittest.main()
