"""A launcher that is told to end leaves nothing behind: the program, the prover and cargo end before it, and no file
that was half written stays."""

from __future__ import annotations

import shutil
import signal
import subprocess
import unittest
from pathlib import Path
from typing import Dict, List, Mapping, Tuple

from common import ENDING, PATIENCE, TOP, DoorCase, as_from_a_shell, waits, write_program

# Compiles for a minute, by a process of its own. It tells both in the file $CALLS.
FAKE_CARGO = """#!/bin/sh
case $1 in
--version) echo "$(basename "$0") 1.80.0" ;;
build)
    sleep 1000 &
    echo "$$ $!" >"$CALLS"
    wait
    ;;
esac
"""


class Signals(DoorCase):
    """Launchers that are ended."""

    def start(self, *words: str, **environment: str) -> "subprocess.Popen[bytes]":
        """Starts a command of the checkout, which by and by tells the numbers of what it has started."""
        self.calls.unlink(missing_ok=True)
        return subprocess.Popen(
            words, stdout=-3, stderr=-1, env={**self.environment, **environment}, preexec_fn=as_from_a_shell
        )

    def numbers(self) -> List[int]:
        """The processes that were started, once they are."""
        for _ in waits():
            for line in self.lines():
                words = line.split()
                if words and (words[0] == "slow" or words[0].isdigit()):
                    return [int(word) for word in words if word.isdigit()]
        self.fail("nothing was started")

    def check_ends(self, started: "subprocess.Popen[bytes]", number: int) -> str:
        """Ends it by the signal: so it ends, and so do those. Returns what was told."""
        below = self.numbers()
        started.send_signal(number)
        told = started.communicate(timeout=PATIENCE)[1].decode()
        self.assertEqual(started.returncode, -number, told)
        self.assertNotIn("Traceback", told)
        for _ in waits():
            if not any(is_running(each) for each in below):
                return told
        self.fail(f"{[each for each in below if is_running(each)]} run on")

    def test_program_with_hints(self) -> None:
        """The program that runs below a launcher that adds hints."""
        self.built()
        for number in ENDING:
            with self.subTest(number):
                started = self.start(str(self.top / "plift"), "check", PLIFT_HINTS="1", SLEEP=str(self.calls))
                self.assertEqual(self.check_ends(started, number), "")

    def test_build_of_the_proved_program(self) -> None:
        """The prover, which the build has started."""
        for number in ENDING:
            with self.subTest(number):
                started = self.start(str(self.top / "plift"), "check", SLOW_CRATES="lift_base")
                told = self.check_ends(started, number)
                self.assertIn("plift: interrupted; the next build goes on from here", told)
                self.assertEqual([str(it) for it in self.top.glob("crates/*/out/room")], [])

    def with_cargo(self) -> None:
        """Puts a fake cargo where it is found, and what builds the quick programs into the checkout."""
        for name in ("cargo", "rustc"):
            write_program(self.room / "bin" / name, FAKE_CARGO)
        shutil.copy2(TOP / "tools/quick.py", self.top / "tools/quick.py")
        shutil.rmtree(self.top / "tools/native")
        shutil.copytree(TOP / "tools/native", self.top / "tools/native")
        for crate in self.CRATES:
            shutil.rmtree(self.top / "crates" / crate / "out", ignore_errors=True)

    def test_build_of_the_quick_program(self) -> None:
        """Cargo, and what it has started."""
        self.with_cargo()
        asked = [(["plift", "--quick", "check"], number) for number in ENDING]
        asked += [(["plift-view", "--quick"], signal.SIGHUP), (["install", "--quick", "here"], signal.SIGPIPE)]
        for words, number in asked:
            with self.subTest(words=words, number=number):
                started = self.start(str(self.top / words[0]), *words[1:])
                self.assertIn("quick: stopped; nothing was replaced", self.check_ends(started, number))
                self.assertEqual([str(it) for it in self.top.glob("build/quick/*.new")], [])

    def test_installing(self) -> None:
        """Where it is ended while it copies, nothing of it stays."""
        self.built()
        self.built("plift_view")
        copy, go_on = shutil.which("cp"), self.room / "go on"
        waiting = f"until [ -e '{go_on}' ]; do sleep 0.05; done"
        write_program(self.room / "bin/cp", f'#!/bin/sh\necho $$ >"$CALLS"\n{waiting}\nexec {copy} "$@"\n')
        for number in ENDING:
            with self.subTest(number):
                started = self.start(str(self.top / "install"), str(self.room / "a/new/prefix"))
                self.numbers()
                started.send_signal(number)
                go_on.touch()
                self.assertEqual(started.communicate(timeout=PATIENCE)[1], b"")
                go_on.unlink()
                self.assertEqual(started.returncode, 128 + number)
                self.assertFalse((self.room / "a").exists())


class Writing(DoorCase):
    """What is told at once, where it can't be written."""

    def ends(self, line: str, *words: str, environment: Mapping[str, str] = {}) -> "subprocess.CompletedProcess[bytes]":
        """Runs a line of the shell in which "$@" is the command."""
        return subprocess.run(
            ["sh", "-c", line, "sh", *words], capture_output=True, env={**self.environment, **environment}, check=False
        )

    def test_help_and_version(self) -> None:
        """The status of the program's own write fault, and its note."""
        for door in ("plift", "plift-view"):
            for words in (["--help"], ["--version"], ["verify", "--help"] if door == "plift" else ["-h"]):
                for place in ("/dev/full", "&-"):
                    ran = self.ends(f'"$@" >{place}', str(self.top / door), *words)
                    self.assertEqual((ran.returncode, ran.stderr), (6, b"write fault\n"), (door, words, place))
                ran = self.ends('"$@" >/dev/full 2>&-', str(self.top / door), *words)
                self.assertEqual((ran.returncode, ran.stderr), (6, b""))

    def test_help_that_is_not_there(self) -> None:
        """That is no write fault."""
        (self.top / "man/help/plift.txt").unlink()
        ran = self.run_door("--help")
        self.assertEqual(ran.returncode, 70)
        self.assertIn(b"its help isn't found", ran.stderr)

    def test_refused_install(self) -> None:
        """It leaves no folder, however it is refused."""
        prefix = self.room / "a/new/prefix"
        refused: List[Tuple[List[str], Dict[str, str]]] = [
            ([], {}),
            (["--quick"], {}),
            ([], {"DESTDIR": str(self.room / "b")}),
            (["--uninstall"], {}),
        ]
        for words, environment in refused:
            ran = self.ends('"$@"', str(self.top / "install"), *words, str(prefix), environment=environment)
            self.assertIn(ran.returncode, (1, 70))
            self.assertFalse((self.room / "a").exists() or (self.room / "b").exists(), words)

    def test_install_without_room(self) -> None:
        """Where copying fails, folders that were there stay, and others don't."""
        self.built()
        self.built("plift_view")
        write_program(self.room / "bin/cp", "#!/bin/sh\nexit 1\n")
        (self.room / "a").mkdir()
        ran = self.ends('"$@"', str(self.top / "install"), str(self.room / "a/new/prefix"))
        self.assertEqual((ran.returncode, ran.stderr.count(b"\n")), (1, 1), ran.stderr)
        self.assertEqual(list((self.room / "a").iterdir()), [])


def is_running(number: int) -> bool:
    """Whether this process is there, and not only waited for."""
    try:
        return Path(f"/proc/{number}/stat").read_text().rpartition(")")[2].split()[0] != "Z"
    except OSError:
        return False


if __name__ == "__main__":
    unittest.main()
