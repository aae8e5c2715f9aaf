"""The program tools/hints.py: what it writes and how it ends, whatever it is given."""

from __future__ import annotations

import importlib.util
import os
import random
import resource
import shutil
import subprocess
import sys
import tempfile
import unittest
from pathlib import Path
from typing import Any, List, Union

sys.dont_write_bytecode = True
TOP = Path(__file__).resolve().parent.parent.parent
PROGRAM = TOP / "tools" / "hints.py"
sys.path[:0] = [str(Path(__file__).resolve().parent), str(TOP / "tools")]

import hints  # noqa: E402
from hints.refusal import Refusal  # noqa: E402
from hints.told import printable  # noqa: E402
from table import PLAIN, REPORT, RETRY  # noqa: E402
from test_messages import all_notes  # noqa: E402

SPEC = importlib.util.spec_from_file_location("started", PROGRAM)
assert SPEC and SPEC.loader
STARTED = importlib.util.module_from_spec(SPEC)
SPEC.loader.exec_module(STARTED)

LABEL = ["verify", "--goal", "lsot", "--bound", "1/2"]
UNKNOWN = "model: line 31: UnknownLabel"
SECONDS = 2.0
RANDOM = 600  # random changes that are tried


def processor_seconds() -> float:
    """The processor time that child processes have taken: other work on the machine doesn't count."""
    used = resource.getrusage(resource.RUSAGE_CHILDREN)
    return used.ru_utime + used.ru_stime


class Ended:
    """How a run ended, and what it wrote."""

    def __init__(self, arguments: List[Any], note: Union[str, bytes, None], **streams: Any):
        kept = {key: value for key, value in os.environ.items() if not key.startswith("PLIFT_")}
        environment = {os.fsencode(k): os.fsencode(v) for k, v in kept.items()}
        if note is not None:
            environment[b"PLIFT_NOTE"] = note if isinstance(note, bytes) else note.encode()
        for name, value in streams.pop("more", {}).items():
            environment[name.encode()] = value.encode()
        command = [sys.executable, "-B", str(streams.pop("program", PROGRAM))] + arguments
        streams.setdefault("stdin", subprocess.DEVNULL)
        ran = subprocess.run(
            command, env=environment, stdout=subprocess.PIPE, stderr=subprocess.PIPE, timeout=60, **streams
        )
        self.status, self.out = ran.returncode, ran.stdout
        self.lines: List[str] = ran.stderr.decode("utf-8").splitlines()


class Program(unittest.TestCase):
    def ended(self, arguments: List[Any], note: Union[str, bytes, None] = UNKNOWN, **streams: Any) -> List[str]:
        """The lines of a run, which ends well and says nothing else."""
        run = Ended(arguments, note, **streams)
        self.assertEqual((run.status, run.out), (0, b""))
        self.assertLessEqual(len(run.lines), hints.MOST_LINES)
        for line in run.lines:
            self.assertTrue(line.startswith("hint: ") and line.isprintable(), line)
        return run.lines

    def with_text(
        self, text: bytes, arguments: List[Any], note: Union[str, bytes, None] = UNKNOWN, **streams: Any
    ) -> List[str]:
        """The lines where standard input is a file with this text."""
        with tempfile.TemporaryFile() as file:
            file.write(text)
            file.flush()
            return self.ended(arguments, note, stdin=file, **streams)

    def test_text(self) -> None:
        """The text of a file is looked into from its start, and the file stays where it stood."""
        lines = self.with_text(RETRY, ["3", "--"] + LABEL)
        self.assertIn("is lost meant?", lines[0])
        with tempfile.TemporaryFile() as file:
            file.write(RETRY)
            file.seek(7)
            self.ended(["3", "--"] + LABEL, stdin=file)
            self.assertEqual(file.tell(), 7)

    def test_installed(self) -> None:
        """Where they are installed, hints find the notes beside them; without these they tell what they find."""
        with tempfile.TemporaryDirectory() as prefix:
            tools = Path(prefix, "libexec", "plift", "tools")
            shutil.copytree(TOP / "tools" / "hints", tools / "hints", ignore=shutil.ignore_patterns("__pycache__"))
            shutil.copy(PROGRAM, tools)
            self.assertEqual(self.ended(["3", "--"] + LABEL, program=tools / "hints.py"), [])
            found = self.with_text(RETRY, ["3", "--"] + LABEL, program=tools / "hints.py")
            self.assertIn("is lost meant?", found[0])
            shutil.copytree(TOP / "tools" / "words", tools / "words")
            self.assertIn("No state has the label", self.ended(["3", "--"] + LABEL, program=tools / "hints.py")[0])

    def test_no_text(self) -> None:
        """Without a file, the rule is told."""
        rule = self.ended(["3", "--"] + LABEL)
        self.assertIn("No state has the label", rule[0])
        pipe = self.ended(["3", "--"] + LABEL, stdin=subprocess.PIPE)
        self.assertEqual(rule, pipe)
        closed = self.ended(["3", "--"] + LABEL, preexec_fn=lambda: os.close(0))
        self.assertEqual(rule, closed)

    def test_text_of_another_question(self) -> None:
        """What judges a text of another question than a report's is told, also where the text comes through a pipe."""
        for form in (b"bounded", b"property", b"cost"):
            lines = self.with_text(
                b"plift-" + form + b" 1\nkind dtmc\n", ["1", "--", "check"], "not sound: line 1: Syntax"
            )
            self.assertIn("python3 recheck/recheck.py FILE judges it", " ".join(lines))
        lines = self.ended(["1", "--", "check"], "not sound: line 1: Syntax", stdin=subprocess.PIPE)
        self.assertIn("`recheck/recheck.py` the texts of `bounded`, `property` and `cost`", " ".join(lines))

    def test_streams(self) -> None:
        """What standard input and output are is told where reading or writing failed."""
        folder = (
            "import os, runpy, sys; os.dup2(os.open('/', os.O_RDONLY), 0); sys.argv[:] = sys.argv[1:];"
            " runpy.run_path(sys.argv[0], run_name='__main__')"
        )
        run = subprocess.run(  # Python itself doesn't start with a folder there
            [sys.executable, "-B", "-c", folder, str(PROGRAM), "5", "--", "check"],
            env={**os.environ, "PLIFT_NOTE": "read fault"},
            stdin=subprocess.DEVNULL,
            stderr=subprocess.PIPE,
        )
        self.assertIn(b"is a directory", run.stderr)
        self.assertIn("closed", self.ended(["5", "--", "check"], "read fault", preexec_fn=lambda: os.close(0))[0])
        self.assertIn("a pipe", self.ended(["6", "--", "check"], "write fault")[0])
        with open("/dev/full", "wb") as full:
            run = subprocess.run(
                [sys.executable, "-B", str(PROGRAM), "6", "--", "check"],
                env={**os.environ, "PLIFT_NOTE": "write fault"},
                stdin=subprocess.DEVNULL,
                stdout=full,
                stderr=subprocess.PIPE,
            )
        self.assertIn(b"/dev/full", run.stderr)

    def test_closed(self) -> None:
        """A closed standard error, or no stream at all, changes nothing."""
        for streams in ((2,), (0, 1, 2)):

            def close() -> None:
                """Before the program begins."""
                for stream in streams:
                    os.close(stream)

            command = [sys.executable, "-B", str(PROGRAM), "3", "--"] + LABEL
            ran = subprocess.run(command, env={**os.environ, "PLIFT_NOTE": UNKNOWN}, preexec_fn=close)
            self.assertEqual(ran.returncode, 0)

    def test_arguments(self) -> None:
        """Other arguments than STATUS -- WORDS have no hints, and neither has what is no note."""
        self.assertEqual(self.ended([]), [])
        for arguments in (
            ["3"],
            ["--"],
            ["x", "--"],
            ["3", "verify"],
            ["-1", "--"],
            ["9" * 5000, "--"],
            ["\u0663", "--"],
        ):
            self.assertEqual(STARTED.told(arguments), b"")
        for note in ("", "something else", "hint: usage: words"):
            self.assertEqual(hints.hints(3, note, ["check"], None), [])

    def test_unknown_cause(self) -> None:
        """A note that no program writes has no hint, or the rule of one that is like it; never a trace."""
        for note in (
            "model: line 1: Nothing",
            "usage: --colour",
            "not sound: node 1",
            "rows: ",
            "model: line x: Syntax",
        ):
            for status in range(9):
                hints.explained(Refusal(status, note, ["verify"], RETRY))

    def test_not_utf8(self) -> None:
        """Bytes that aren't UTF-8, in the words, the note and the text."""
        lines = self.ended(["2", "--", "verify", "--goal", b"gr\xfc\xdfe", "--bound", "1/2"], "")
        self.assertIn("isn't UTF-8", lines[0])
        self.with_text(bytes(range(256)) * 9, ["3", "--", b"\xff\xfe"], b"model: line 2: NotText\xff")
        self.with_text(RETRY, ["2", "--", "verify", "--goal", "x", "--bound", b"\xff%"], "usage: --bound")

    def test_escapes(self) -> None:
        """No control character of a text or a word gets to the terminal."""
        evil = RETRY.replace(b"1 : p", b"1 : \x1b[31mp\x07")
        self.assertIn("1B", "".join(self.with_text(evil, ["3", "--"] + LABEL, "model: line 9: NotText")))
        self.ended(["2", "--", "verify", "\x1b]0;title\x07", "\u202egnp", "--goal", "x"], "usage: words")

    def test_view(self) -> None:
        """The program's name says which line of words it is."""
        lines = self.with_text(
            REPORT, ["2", "--", "--x", "P"], "usage: --x UnknownName", more={"PLIFT_PROGRAM": "plift-view"}
        )
        self.assertIn("its parameters are p, q; is p meant?", lines[1])

    def test_note_behind_progress(self) -> None:
        """The note is the last line that is one."""
        progress = "decided 0 %, leaves 0\rdecided 10 %, leaves 3\n" + "not sound: rest\n"
        self.assertTrue(self.with_text(REPORT + b"\n", ["1", "--", "--follow"], progress))

    def test_time(self) -> None:
        """Large texts, long lines and deep values take no longer than it says: all of the time is the processor's."""
        row = b"0 : 1\n"
        texts = {
            "lines": (RETRY + b"\n" * 2**23, "model: line 31: UnknownLabel"),
            "states": (
                b"@type: DTMC\n@model\n" + b"".join(b"state %d l%d\n" % (s, s) + row for s in range(65536)),
                "model: line 131074: UnknownLabel",
            ),
            "one line": (b"x" * 2**24, "model: line 1: LongLine"),
            "a long line": (b"@type: DTMC\n@parameters\n" + b"a " * 2**19 + b"\n", "model: line 3: LimitParameters"),
            "a deep value": (b"@type: DTMC\n@model\nstate 0\n0 : " + b"(" * 2**19 + b"\n", "model: line 4: Long"),
            "a long sum": (b"@type: DTMC\n@model\nstate 0\n0 : 1" + b"+1" * 2000 + b"^\n", "model: line 4: Power"),
            "digits": (b"@type: DTMC\n@model\nstate 0\n0 : 1e" + b"9" * 2**19 + b"\n", "model: line 4: Wide"),
            "a report": (REPORT + b"unknown\n" * 2**22, "not sound: rest"),
        }
        for name, (text, note) in texts.items():
            with self.subTest(text=name):
                status = 1 if note.startswith("not") else 3
                start = processor_seconds()
                self.assertTrue(self.with_text(text, [str(status), "--"] + LABEL, note))
                self.assertLess(processor_seconds() - start, SECONDS)

    def test_random(self) -> None:
        """Texts, words and notes with random changes give no trace, but lines that can be shown."""
        chance = random.Random(5)
        words = PLAIN.replace("'", "").split()
        notes = [note for _, _, note, _ in all_notes()]
        for _ in range(RANDOM):
            text = bytearray(chance.choice([RETRY, REPORT]))
            for _ in range(chance.randrange(1, 6)):
                at = chance.randrange(len(text))
                text[at : at + chance.randrange(3)] = bytes(chance.choices(range(256), k=chance.randrange(4)))
            changed = list(words)
            changed[chance.randrange(len(words))] = "".join(
                chance.choices("-=<>pq1/0.,%~\u00fc\udcff \n", k=chance.randrange(9))
            )
            note = chance.choice(notes).replace("7", str(chance.randrange(40)))
            program = chance.choice(["plift", "plift-view"])
            refusal = Refusal(chance.randrange(9), hints.note_in(note), changed, bytes(text), program)
            for line in hints.finished(hints.explained(refusal)):
                self.assertEqual(line, printable(line), (note, changed))


if __name__ == "__main__":
    unittest.main()
