"""The checkers of recheck/ have a status for each thing that may be wrong outside a text, and not 1, which is that of a
text that isn't sound; they tell the cause in a line, and never by a trace of Python's."""

from __future__ import annotations

import os
import signal
import subprocess
import sys
import tempfile
import time
import unittest
from pathlib import Path

from scripts import LUMPED, RECHECK, TOP, Ending, run, shell

REPORT = str(TOP / "examples" / "retry.report")
SOUND = "sound accept 1 reject 0 unknown 0\n"
DIE = str(TOP / "examples" / "die.drn")
# A coin is its own quotient.
COIN = str(TOP / "examples" / "coin.drn")
COIN_REPORT = (TOP / "examples" / "coin.report").read_bytes()


class EndCase(unittest.TestCase):
    """A test of how a script ends."""

    def ends(self, got: Ending, status: int, note: str) -> None:
        """With this status, nothing on standard output, and one line on standard error that begins so."""
        self.assertEqual((got.status, got.out), (status, ""), got.note)
        self.assertTrue(got.note.startswith(note), got.note)
        self.assertEqual(got.note.count("\n"), 1, got.note)


class Recheck(EndCase):
    """recheck.py"""

    def test_file_is_read(self) -> None:
        """A report is read by its name as by standard input."""
        self.assertEqual(run([str(RECHECK), REPORT]), Ending(0, SOUND, ""))
        self.assertEqual(run([str(RECHECK)], Path(REPORT).read_bytes()), Ending(0, SOUND, ""))

    def test_unsound_file(self) -> None:
        """Of a file that isn't sound the same is said as of standard input."""
        wanted = Ending(1, "", "not sound: line 1: Syntax\n")
        self.assertEqual(run([str(RECHECK), DIE]), wanted)
        self.assertEqual(run([str(RECHECK)], Path(DIE).read_bytes()), wanted)

    def test_help(self) -> None:
        """Help is told on standard output."""
        for word in ("--help", "-h"):
            got = run([str(RECHECK), word])
            self.assertEqual((got.status, got.note), (0, ""))
            self.assertIn("python3 recheck.py [FILE]", got.out)

    def test_other_words(self) -> None:
        """Other words are refused, and nothing is judged."""
        for words in ([REPORT, REPORT], ["--quiet"], ["-"], [REPORT, "--help"]):
            self.ends(run([str(RECHECK), *words], Path(REPORT).read_bytes()), 2, "usage: recheck.py [FILE]")

    def test_write_fault(self) -> None:
        """An answer that can't be written is no answer."""
        for line in ('"$@" >/dev/full', '"$@" >&-'):
            for word in (REPORT, "--help"):
                self.ends(shell(line, str(RECHECK), word), 6, "write fault")

    def test_pipe_that_nobody_reads(self) -> None:
        """A pipe whose other end is closed takes no answer."""
        read, write = os.pipe()
        os.close(read)
        done = subprocess.run([sys.executable, str(RECHECK), REPORT], stdout=write, stderr=subprocess.PIPE, check=False)
        os.close(write)
        self.assertEqual(done.returncode, 6)
        self.assertTrue(done.stderr.startswith(b"write fault"), done.stderr)

    def test_read_fault(self) -> None:
        """What can't be read isn't judged."""
        for word in ("nofile", str(TOP), "/proc/self/mem"):
            self.ends(run([str(RECHECK), word]), 5, "read fault")
        self.ends(shell('"$@" <&-', str(RECHECK)), 5, "read fault")

    def test_closed_standard_error(self) -> None:
        """The status is the same where nobody hears the cause, and the cause isn't written elsewhere."""
        for line, status in (('"$@" nofile 2>&-', 5), ('"$@" a b 2>&-', 2), ('"$@" 2>&- </dev/null', 1)):
            self.assertEqual(shell(line, str(RECHECK)), Ending(status, "", ""))

    def test_ctrl_c(self) -> None:
        """Ended by ctrl-C while it waits, it says nothing."""
        for words in ([str(RECHECK)], [str(LUMPED), DIE]):
            child = subprocess.Popen([sys.executable, *words], stdin=-1, stdout=-1, stderr=-1, preexec_fn=hear_ctrl_c)
            while Path(f"/proc/{child.pid}/wchan").read_text() not in ("pipe_read", "anon_pipe_read"):
                time.sleep(0.01)
                self.assertIsNone(child.poll())
                if time.process_time() > 60:
                    self.fail("it doesn't wait for its input")
            child.send_signal(signal.SIGINT)
            self.assertEqual(child.communicate(), (b"", b""))
            self.assertEqual(child.returncode, 130)

    def test_want_of_memory(self) -> None:
        """A text that finds no room isn't judged."""
        code = "import sys; sys.path.insert(0, sys.argv[1]); import recheck; print(open('/proc/self/status').read())"
        sizes = run(["-c", code, str(TOP / "recheck")]).out
        peak = next(line for line in sizes.split("\n") if line.startswith("VmPeak"))
        room = int(peak.split()[1]) * 1024 + 2**23
        text = Path(REPORT).read_bytes().replace(b"accept 28 93 308 0 1024\n", b"accept" + b" 10" * 340000 + b"\n")
        self.assertEqual(run([str(RECHECK)], text).status, 1)
        self.assertEqual(run([str(RECHECK)], text, room=room), Ending(8, "", "out of memory\n"))


def hear_ctrl_c() -> None:
    """For a process that is started: it hears ctrl-C though these tests may pass it over, as in the background."""
    signal.signal(signal.SIGINT, signal.SIG_DFL)


class Lumped(EndCase):
    """lumped.py"""

    def test_words(self) -> None:
        """Help is told, and other words are refused."""
        got = run([str(LUMPED), "--help"])
        self.assertEqual((got.status, got.note), (0, ""))
        self.assertIn("python3 lumped.py MODEL [LABEL] < report", got.out)
        wrong: list[list[str]] = [[], [DIE, "one", "two"]]
        for words in wrong:
            self.ends(run([str(LUMPED), *words]), 2, "usage: lumped.py MODEL [LABEL] < report")

    def test_read_fault(self) -> None:
        """A model or a report that can't be read."""
        for word in ("nofile", str(TOP)):
            self.ends(run([str(LUMPED), word]), 5, "read fault")
        self.ends(shell('"$@" <&-', str(LUMPED), DIE), 5, "read fault")

    def test_write_fault(self) -> None:
        """An answer that can't be written is none."""
        with tempfile.NamedTemporaryFile("wb") as file:
            file.write(COIN_REPORT)
            file.flush()
            self.assertEqual(shell(f'"$@" <{file.name}', str(LUMPED), COIN).status, 0)
            for place in ("/dev/full", "&-"):
                self.ends(shell(f'"$@" <{file.name} >{place}', str(LUMPED), COIN), 6, "write fault")

    def test_no_chain(self) -> None:
        """A model that isn't a chain, or no model at all."""
        for name in ("retry.drn", "retry.report"):
            self.ends(run([str(LUMPED), str(TOP / "examples" / name)]), 3, "the model is no chain that plift reads")

    def test_no_report(self) -> None:
        """Another text isn't the quotient, and a line of it is shown without bytes that a terminal obeys."""
        self.ends(run([str(LUMPED), DIE], b"plift 2\n"), 1, "not a report of version 1")
        got = run([str(LUMPED), DIE, "one"], b"plift 1\n\x1b[2J\xff\nbound 1/2\n")
        self.assertEqual(got, Ending(1, "", "not the quotient\none: line 2: \\x1b[2J\\xff, not kind dtmc\n"))

    def test_unknown_label(self) -> None:
        """A label that no state has."""
        got = run([str(LUMPED), DIE, "none"], b"plift 1\nbound 1/2\n")
        self.assertEqual(got, Ending(1, "", "not the quotient\nno state has the label\n"))


if __name__ == "__main__":
    unittest.main()
