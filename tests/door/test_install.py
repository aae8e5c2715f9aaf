"""What ./install puts where, and that it takes all of it away again."""

import os
import shutil
import subprocess
import unittest
from pathlib import Path
from typing import Any, List

from common import DoorCase, STAND_IN, TOP, write_program

COMMANDS = ["plift", "plift-recheck", "plift-view"]


class Install(DoorCase):
    PARTS = DoorCase.PARTS + ("LICENSE", "CHANGELOG.md", "recheck", "examples")

    def setUp(self) -> None:
        super().setUp()
        self.prefix = self.room / "it's a prefix"

    def install(self, *words: object, **environment: str) -> "subprocess.CompletedProcess[str]":
        environment = {**self.environment, **environment}
        command = [str(self.top / "install"), *map(str, words)]
        return subprocess.run(command, capture_output=True, text=True, env=environment, cwd=self.room)

    def run_installed(self, name: str, *words: str, **how: Any) -> "subprocess.CompletedProcess[bytes]":
        return self.run_door(*words, door=self.prefix / "bin" / name, **how)

    def installed(self, root: Path) -> List[str]:
        return sorted(str(path.relative_to(root)) for path in root.rglob("*") if not path.is_dir())

    def both_built(self) -> None:
        self.built("plift")
        self.built("plift_view")

    def test_what_is_installed_runs_without_the_checkout(self) -> None:
        self.both_built()
        ran = self.install(self.prefix)
        self.assertEqual((ran.returncode, ran.stdout), (0, ""), ran.stderr)
        self.top.rename(self.room / "moved away")
        self.assertEqual(sorted(path.name for path in (self.prefix / "bin").iterdir()), COMMANDS)
        for shell in ([], ["sh"], ["bash"]):
            wish = {"COPY": "1", "STATUS": "4"}
            shown = self.run_installed("plift", "a  b", "", shell=shell, input=b"x", environment=wish, cwd="/")
            self.assertEqual((shown.returncode, shown.stdout, shown.stderr), (4, b"<a  b><>\nx", b""))
        self.assertEqual(self.run_installed("plift", "--version").stdout, b"plift 0.9.0 (proved)\n")
        text = (TOP / "man/help/plift-view.txt").read_bytes()
        self.assertEqual(self.run_installed("plift-view", "--help").stdout, text)
        shown = self.run_installed("plift", "--quick", "check")
        self.assertEqual((shown.returncode, shown.stdout, shown.stderr), (0, b"<check>\n", b""))
        shown = self.run_installed("plift-recheck", input=(TOP / "examples/coin.report").read_bytes())
        self.assertEqual(shown.stdout, b"sound accept 0 reject 1 unknown 0\n")
        pages = ("man/man1/plift.1", "man/man1/plift-view.1")
        for page in (*pages, "bash-completion/completions/plift", "zsh/site-functions/_plift"):
            self.assertTrue((self.prefix / "share" / page).is_file(), page)

    def test_installed_again_and_removed(self) -> None:
        self.both_built()
        (self.prefix / "bin").mkdir(parents=True)
        (self.prefix / "bin/other").write_text("not plift's\n")
        self.assertEqual(self.install(self.prefix).returncode, 0)
        first = self.installed(self.prefix)
        self.assertEqual(self.install(self.prefix).returncode, 0)
        self.assertEqual(self.installed(self.prefix), first)
        ran = self.install("--uninstall", self.prefix)
        self.assertEqual(ran.returncode, 0, ran.stderr)
        self.assertEqual([str(path.relative_to(self.prefix)) for path in self.prefix.rglob("*")], ["bin", "bin/other"])
        ran = self.install("--uninstall", self.prefix)
        self.assertEqual((ran.returncode, ran.stderr.count("\n")), (1, 1))

    def test_below_another_root(self) -> None:
        self.both_built()
        root = self.room / "root"
        self.assertEqual(self.install("/usr", DESTDIR=str(root)).returncode, 0)
        self.assertIn("top='/usr/libexec/plift'\n", (root / "usr/bin/plift").read_text())
        self.assertEqual(self.install("--uninstall", "/usr", DESTDIR=str(root)).returncode, 0)
        self.assertEqual(self.installed(root), [])

    def test_a_relative_prefix(self) -> None:
        self.both_built()
        self.assertEqual(self.install("here").returncode, 0)
        self.assertEqual(self.run_door("x", door=self.room / "here/bin/plift", cwd="/").stdout, b"<x>\n")

    def refused(self, *words: object, status: int = 1) -> str:
        ran = self.install(*words)
        self.assertEqual((ran.returncode, ran.stdout, ran.stderr.count("\n")), (status, "", 1), ran.stderr)
        self.assertTrue(ran.stderr.startswith("install: "), ran.stderr)
        return ran.stderr

    def test_refusals(self) -> None:
        self.assertIn("isn't built", self.refused(self.prefix))
        self.assertFalse((self.prefix / "libexec/plift.new").exists())
        self.both_built()
        (self.room / "a file").write_text("")
        self.assertIn("can't be written", self.refused(self.room / "a file"))
        self.assertIn("can't be written", self.refused("/proc/plift"))
        for words in (["--no"], ["a", "b"], ["--quick", "--uninstall"], [""]):
            self.refused(*words, status=2)
        os.utime(self.top / "crates/plift/out/plift", (900, 900))
        self.assertIn("newer", self.refused(self.prefix))

    def test_further_commands_where_they_are_there(self) -> None:
        self.both_built()
        write_program(self.top / "plift-lab", '#!/bin/sh\ncat "$(dirname "$0")/lab/words"; echo "$@"\n')
        (self.top / "lab").mkdir()
        (self.top / "lab/words").write_text("lab\n")
        self.assertEqual(self.install(self.prefix).returncode, 0)
        ran = self.run_installed("plift-lab", "x  y")
        self.assertEqual(ran.stdout, b"lab\nx  y\n")

    def test_tiles_run_without_the_checkout(self) -> None:
        for part in ("plift-tiles", "tiles", "lab"):
            if (TOP / part).is_dir():
                shutil.copytree(TOP / part, self.top / part)
            else:
                shutil.copy2(TOP / part, self.top / part)
        self.both_built()
        self.assertEqual(self.install(self.prefix).returncode, 0)
        self.top.rename(self.room / "moved away")
        for page in (
            "man/man1/plift-tiles.1",
            "bash-completion/completions/plift-tiles",
            "zsh/site-functions/_plift-tiles",
        ):
            self.assertTrue((self.prefix / "share" / page).is_file(), page)
        self.assertEqual(
            self.run_installed("plift-tiles", "--version").stdout, b"plift-tiles " + (TOP / "VERSION").read_bytes()
        )
        # The program that is installed beside it is asked, whatever the PATH has.
        ran = self.run_installed(
            "plift-tiles",
            "split",
            "x",
            "--depth",
            "3",
            environment={"NOTE": "the installed", "STATUS": "1"},
            cwd=self.room,
        )
        self.assertEqual((ran.returncode, ran.stderr), (1, b"plift-tiles: plift refuses this: the installed\n"))

    def test_quick_programs(self) -> None:
        quick = self.top / "tools/quick.py"
        quick.write_text("import sys; print('quick: no cargo', file=sys.stderr); sys.exit(70)\n")
        ran = self.install("--quick", self.prefix)
        self.assertEqual((ran.returncode, ran.stderr), (70, "quick: no cargo\n"))
        for name in ("plift", "plift-view"):
            write_program(self.top / "build/quick" / name, STAND_IN)
        quick.write_text(f"import sys; print({str(self.top)!r} + '/build/quick/' + sys.argv[1])\n")
        os.utime(quick, (1000, 1000))
        os.utime(self.top / "tools/native", (1000, 1000))
        self.assertEqual(self.install("--quick", self.prefix).returncode, 0)
        self.assertEqual(self.run_installed("plift", "--version").stdout, b"plift 0.9.0 (quick)\n")


if __name__ == "__main__":
    unittest.main()
