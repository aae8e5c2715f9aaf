"""The launchers: what they answer at once, and that words, streams, statuses and signals are the program's."""

import os
import pty
import shutil
import signal
import subprocess
import unittest
from typing import Dict, List

from common import COMMANDS, PATIENCE, DoorCase, as_from_a_shell, waits

WORDS = ["verify", "", " two  blanks ", "it's \"quoted\"", "a\nline\n", "*", "$HOME", "--goal=-", "\\"]
SHELLS: List[List[str]] = [[], ["bash"], ["bash", "--posix"]]
HINTS = """import os, sys
print("hint:", os.environ["PLIFT_NOTE"], sys.argv[1:], sys.stdin.read(), file=sys.stderr)
"""
# What builds the quick program, and where that fails.
QUICK = """import os, shutil, sys
from pathlib import Path
print("quick: built", file=sys.stderr)
path = Path(__file__).resolve().parent.parent / "build" / "quick" / sys.argv[1]
path.parent.mkdir(parents=True, exist_ok=True)
shutil.copy(os.environ["STAND_IN"], path)
print(path)
"""
NO_CARGO = "import sys; print('quick: no cargo', file=sys.stderr); sys.exit(70)\n"


class Door(DoorCase):
    def hinted(self) -> Dict[str, str]:
        """Puts hints in the place of the real ones: they tell what they are given."""
        (self.top / "tools/hints.py").write_text(HINTS)
        return {"PLIFT_HINTS": "1"}

    def with_and_without_hints(self) -> List[Dict[str, str]]:
        """What the environment has besides, without hints and with them."""
        return [{}, self.hinted()]


class Answers(Door):
    """What is told without a program."""

    def test_help(self) -> None:
        texts = {path.stem: path.read_bytes() for path in (self.top / "man/help").glob("*.txt")}
        for shell in SHELLS:
            for words in (["--help"], ["-h"], ["help"], ["--quick", "--help"]):
                self.assertEqual(self.run_door(*words, shell=shell).stdout, texts["plift"], words)
                view = self.run_door(*words, shell=shell, door=self.top / "plift-view")
                self.assertEqual(view.stdout, texts["plift-view"], words)
        for command in COMMANDS:
            asked = (
                ["help", command],
                ["--help", command],
                [command, "--help"],
                [command, "-h"],
                [command, "--goal", "x", "--help"],
            )
            for words in asked:
                ran = self.run_door(*words)
                self.assertEqual((ran.returncode, ran.stdout, ran.stderr), (0, texts[command], b""), words)

    def test_version(self) -> None:
        self.assertEqual(self.version(), "plift 0.9.0 (not built)\n")
        program = self.built()
        self.assertEqual(self.version(), "plift 0.9.0 (proved)\n")
        self.assertEqual(self.version(name="plift-view"), "plift-view 0.9.0 (not built)\n")
        os.utime(program, (900, 900))
        self.assertEqual(self.version(), "plift 0.9.0 (proved, sources are newer)\n")
        self.assertEqual(self.version("--quick"), "plift 0.9.0 (not built)\n")

    def test_version_tells_the_commit(self) -> None:
        git = ["git", "-C", str(self.top), "-c", "user.name=x", "-c", "user.email=x@example.org"]
        for words in (["init", "-q"], ["add", "."], ["commit", "-q", "-m", "x"]):
            subprocess.run([*git, *words], check=True)
        commit = subprocess.run([*git, "rev-parse", "--short=7", "HEAD"], capture_output=True, text=True).stdout.strip()
        self.assertEqual(self.version(), f"plift 0.9.0 (commit {commit}, not built)\n")
        (self.top / "crates/plift/src/lib.rt").write_text("changed\n")
        self.assertEqual(self.version(), f"plift 0.9.0 (commit {commit} with changes, not built)\n")

    def test_plain_faults_are_told_before_a_build(self) -> None:
        for line in ("plift", "plift verfy", "plift help me", "plift verify --goal x", "plift-view x", "plift --quick"):
            name, *words = line.split()
            ran = self.run_door(*words, door=self.top / name, environment={"PLIFT_HINTS": "1"})
            note, *hints = ran.stderr.decode().splitlines()
            self.assertEqual((ran.returncode, ran.stdout, note), (2, b"", "usage: words"), words)
            self.assertTrue(hints and all(hint.startswith("hint: ") for hint in hints), hints)
        self.assertEqual(self.lines(), [])

    def test_a_program_that_is_built_answers_itself(self) -> None:
        self.built()
        self.assertEqual(self.run_door("verfy", environment={"STATUS": "2"}).stdout, b"<verfy>\n")


class Runs(Door):
    """What the program gets and gives."""

    def test_words_and_streams_are_unchanged(self) -> None:
        self.built()
        told = "".join(f"<{word}>" for word in WORDS) + "\n"
        for environment in self.with_and_without_hints():
            for shell in SHELLS:
                given = b"in\0put\n"
                ran = self.run_door(*WORDS, shell=shell, input=given, environment={**environment, "COPY": "1"})
                self.assertEqual((ran.returncode, ran.stdout, ran.stderr), (0, told.encode() + given, b""), shell)

    def test_statuses_and_notes(self) -> None:
        self.built()
        for shell in SHELLS:
            for status in (0, 1, 2, 8, 70):
                environment = {"STATUS": str(status), "NOTE": "a note  \\n"}
                ran = self.run_door("check", shell=shell, environment=environment)
                self.assertEqual((ran.returncode, ran.stderr), (status, b"a note  \\n\n"))
                environment = {**environment, **self.hinted(), "COPY": "1"}
                with open(self.top / "VERSION", "rb") as file:
                    ran = self.run_door("check", "a b", shell=shell, stdin=file, environment=environment)
                hint = f"hint: a note  \\n ['{status}', '--', 'check', 'a b'] " if status else ""
                self.assertEqual(ran.returncode, status)
                self.assertTrue(ran.stderr.decode().startswith("a note  \\n\n" + hint), ran.stderr)
                os.unlink(self.top / "tools/hints.py")

    def test_hints_of_the_view(self) -> None:
        self.built("plift_view")
        environment = {"STATUS": "2", "NOTE": "note", **self.hinted()}
        script = "import os, sys\nprint('hint:', os.environ['PLIFT_PROGRAM'], file=sys.stderr)\n"
        (self.top / "tools/hints.py").write_text(script)
        view = self.top / "plift-view"
        ran = self.run_door("--x", "p", door=view, environment=environment)
        self.assertEqual(ran.stderr, b"note\nhint: plift-view\n")
        self.assertEqual(self.run_door("--follow", door=view, environment=environment).stderr, b"note\n")

    def test_no_hints_where_they_are_not_wanted_or_missing(self) -> None:
        self.built()
        environment = {"STATUS": "3", "NOTE": "note"}
        self.assertEqual(self.run_door(environment={**environment, "PLIFT_HINTS": "1"}).stderr, b"note\n")
        self.hinted()
        for wish in ("0", "", "2"):
            self.assertEqual(self.run_door(environment={**environment, "PLIFT_HINTS": wish}).stderr, b"note\n")
        (self.top / "tools/hints.py").write_text("import sys; sys.exit(1)\n")
        ran = self.run_door(environment={**environment, "PLIFT_HINTS": "1"})
        self.assertEqual((ran.returncode, ran.stderr), (3, b"note\n"))

    def test_closed_streams(self) -> None:
        self.built()
        for environment in self.with_and_without_hints():
            for shut in ("<&-", "2>&-", "<&- 2>&-"):
                shell = ["sh", "-c", f'"$@" {shut}', "sh"]
                ran = self.run_door("check", shell=shell, environment={**environment, "STATUS": "5"})
                self.assertEqual((ran.returncode, ran.stdout), (5, b"<check>\n"), shut)

    def test_a_program_that_dies_by_a_signal(self) -> None:
        self.built()
        for environment in self.with_and_without_hints():
            for shell in SHELLS:
                for name in ("TERM", "KILL", "SEGV"):
                    ran = self.run_door(shell=shell, environment={**environment, "DIE": name})
                    status = -getattr(signal, f"SIG{name}")
                    self.assertEqual((ran.returncode, ran.stderr), (status, b""), (shell, name, environment))

    def test_a_signal_ends_the_program_too(self) -> None:
        self.built()
        slept = self.room / "slept"
        for environment in self.with_and_without_hints():
            for shell in SHELLS:
                for number in (signal.SIGTERM, signal.SIGINT, signal.SIGHUP, signal.SIGQUIT):
                    started = subprocess.Popen(
                        [*shell, str(self.top / "plift"), "check"],
                        stdout=subprocess.DEVNULL,
                        stderr=subprocess.PIPE,
                        env={**self.environment, **environment, "SLEEP": str(slept)},
                        preexec_fn=as_from_a_shell,
                    )
                    for _ in waits():
                        if started.poll() is not None or (slept.exists() and slept.read_text().endswith("\n")):
                            break
                    program = int(slept.read_text())
                    started.send_signal(number)
                    assert started.stderr
                    ended = started.wait(timeout=PATIENCE), started.stderr.read()
                    # Bash passes QUIT over, and tells it by its status.
                    told = 131 if shell and environment and number == signal.SIGQUIT else -number
                    self.assertEqual(ended, (told, b""), (shell, environment))
                    started.stderr.close()
                    self.assertFalse(os.path.exists(f"/proc/{program}"))
                    slept.unlink()

    def test_a_terminal(self) -> None:
        self.built()
        self.hinted()
        try:
            leader, follower = pty.openpty()
        except OSError:
            self.skipTest("no terminal can be opened here")
        environment = {**self.environment, "STATUS": "3", "NOTE": "note"}
        ran = subprocess.Popen(
            [str(self.top / "plift"), "verify", "--goal", "a", "--bound=1"],
            env=environment,
            start_new_session=True,
            stdin=follower,
            stdout=subprocess.DEVNULL,
            stderr=follower,
        )
        os.close(follower)
        os.write(leader, b"\x04")
        self.assertEqual(ran.wait(timeout=PATIENCE), 3)
        told = os.read(leader, 10000).decode().splitlines()
        os.close(leader)
        self.assertIn("plift: reading the model from standard input; give a file by < model.drn", told[0] + told[1])
        self.assertIn("note", told)


class Finds(Door):
    """How the program is found, or built."""

    def test_through_a_link_and_with_cdpath(self) -> None:
        self.built()
        link = self.room / "a link"
        link.symlink_to(self.top / "plift")
        empty = self.room / "empty"
        empty.mkdir()
        for shell in SHELLS:
            ran = self.run_door("x", door="../a link", shell=shell, cwd=empty, environment={"CDPATH": f"{self.room}:/"})
            self.assertEqual((ran.returncode, ran.stdout), (0, b"<x>\n"), ran.stderr)
        path = {"PATH": f"{self.room}:{self.environment['PATH']}"}
        ran = self.run_door("y", door="a link", shell=["env"], cwd=empty, environment=path)
        self.assertEqual(ran.stdout, b"<y>\n", ran.stderr)

    def test_its_folder_is_lost(self) -> None:
        alone = self.room / "alone/plift"
        alone.parent.mkdir()
        shutil.copy2(self.top / "plift", alone)
        ran = self.run_door("x", door=alone)
        self.assertEqual((ran.returncode, ran.stdout, ran.stderr), (70, b"", b"plift: its own folder isn't found\n"))

    def test_builds_where_it_is_not_built(self) -> None:
        ran = self.run_door("check", input=b"text", environment={"COPY": "1"})
        self.assertEqual((ran.returncode, ran.stdout), (0, b"<check>\ntext"), ran.stderr)
        told = ran.stderr.decode()
        self.assertIn("plift: the proved program is not built yet\n", told)
        self.assertRegex(told, "plift: for an answer now, .* --quick check ..")
        self.assertRegex(told, "about [0-9]+ minutes on")
        self.assertIn("begin plift run", " ".join(self.lines()))
        count = len(self.lines())
        self.assertEqual(self.run_door("check").stderr, b"")
        self.assertEqual(len(self.lines()), count)

    def test_sources_that_are_newer(self) -> None:
        program = self.built()
        os.utime(program, (2000, 2000))
        self.assertEqual(self.version(), "plift 0.9.0 (proved)\n")
        now = (3000, 3000)
        for source in ("crates/other/src/lib.rt", "crates/view_top/src/lib.rt"):
            os.utime(self.top / source, now)
            self.assertEqual(self.run_door("check").stderr, b"", source)
        for source in ("crates.txt", "crates/lift_base/src/lib.rt", "crates/plift_top/specs/Lib.antt"):
            os.utime(self.top / source, now)
            self.assertIn(b"newer", self.run_door("--version").stdout, source)
            os.utime(self.top / source, (1000, 1000))
        self.assertEqual(self.version(), "plift 0.9.0 (proved)\n")
        os.utime(self.top / "crates/lift_base/proofs/deep/proof.antt", now)
        os.utime(self.top / "build/plift.looked", now)
        self.assertIn(b"newer", self.run_door("--version").stdout)
        ran = self.run_door("check")
        self.assertIn(b"plift: the sources are newer than the proved program\n", ran.stderr)
        self.assertEqual(self.run_door("check").stderr, b"")

    def test_a_start_takes_no_other_process(self) -> None:
        self.built()
        self.assertEqual(self.run_door("check").stderr, b"")
        for environment in self.with_and_without_hints():
            ran = self.run_door("check", environment={**environment, "PATH": str(self.room / "nothing")})
            self.assertEqual((ran.returncode, ran.stdout, ran.stderr), (0, b"<check>\n", b""))

    def test_without_python(self) -> None:
        alone = {"PATH": str(self.room / "nothing")}
        ran = self.run_door(environment=alone)
        self.assertEqual((ran.returncode, ran.stderr), (2, b"usage: words\n"))
        for words in (["check"], ["--quick", "check"]):
            ran = self.run_door(*words, environment=alone)
            self.assertEqual((ran.returncode, ran.stdout), (70, b""))
            self.assertIn(b"not on the PATH", ran.stderr)

    def test_no_prover(self) -> None:
        (self.room / "bin/rt").unlink()
        for name in ("plift", "plift-view"):
            words = ["check"] if name == "plift" else []
            ran = self.run_door(
                *words, door=self.top / name, environment={"PATH": f"{self.room / 'bin'}:/usr/bin:/bin"}
            )
            self.assertEqual((ran.returncode, ran.stdout), (70, b""))
            self.assertIn(f"{name}: the command rt of the Rattle kit is not on the PATH".encode(), ran.stderr)

    def test_a_build_that_fails(self) -> None:
        ran = self.run_door("check", environment={"BROKEN_CRATES": "lift_base"})
        self.assertEqual((ran.returncode, ran.stdout), (70, b""))
        self.assertIn(b"plift: lift_base was not built; see ", ran.stderr)

    def test_logs_that_cannot_be_written(self) -> None:
        (self.top / "build").mkdir()
        (self.top / "build/logs").write_text("a file\n")
        ran = self.run_door("check")
        self.assertEqual((ran.returncode, ran.stdout), (70, b""))
        self.assertIn(b"plift: it was not built: ", ran.stderr)
        self.assertNotIn(b"Traceback", ran.stderr)

    def test_quick(self) -> None:
        (self.top / "tools/quick.py").write_text(QUICK)
        ran = self.run_door("--quick", "check", "--quick", environment={"STATUS": "1"})
        self.assertEqual((ran.returncode, ran.stderr), (2, b"usage: words\n"))
        ran = self.run_door("--quick", "check", environment={"STATUS": "1"})
        self.assertEqual((ran.returncode, ran.stdout, ran.stderr), (1, b"<check>\n", b"quick: built\n"))
        ran = self.run_door("--quick", "check", environment={"STATUS": "1"})
        self.assertEqual((ran.returncode, ran.stdout, ran.stderr), (1, b"<check>\n", b""))
        self.assertEqual(self.version("--quick"), "plift 0.9.0 (quick)\n")
        (self.top / "tools/quick.py").write_text(NO_CARGO)
        ran = self.run_door("--quick", "check")
        self.assertEqual((ran.returncode, ran.stdout, ran.stderr), (70, b"", b"quick: no cargo\n"))


if __name__ == "__main__":
    unittest.main()
