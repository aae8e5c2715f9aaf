"""lumped.py reads a model as docs/FORMATS.md says, and as the program does: the quotient of each text here is told by
hand, and is the one that the program writes where it is built."""

from __future__ import annotations

import os
import subprocess
import tempfile
import unittest

from scripts import LUMPED, TOP, Ending, run

PROGRAM = os.environ.get("PLIFT_PROGRAM") or str(TOP / "build" / "quick" / "plift")
HEAD = b"@type: DTMC\n@parameters\np\n"


def report(states: int, goal: str, rows: str) -> bytes:
    """The head of a report for a chain over p whose common denominator is 1, as far as lumped.py reads it."""
    head = f"plift 1\nkind dtmc\nparameters 1 p\ncommon 1\nstates {states}\ninit 0\ngoal {goal}\n"
    return (head + rows + "bound 1/1\n").encode()


COIN = report(3, "1 1", "row 0 0 2\nto 1 1:1\nto 2 0:1 1:-1\nrow 1 0 1\nto 1 0:1\nrow 2 0 1\nto 2 0:1\n")
# State 2 is a goal state, too.
SURE = report(2, "1 1", "row 0 0 1\nto 1 0:1\nrow 1 0 1\nto 1 0:1\n")
BODY = b"@model\nstate 0 init\n1 : p\n2 : 1-p\nstate 1 done\n1 : 1\nstate 2\n2 : 1\n"

# Each text, its label, and its quotient.
TEXTS = {
    "bytes above 127 in a comment": (HEAD + b"// \xc8\xff\n" + BODY, "done", COIN),
    "carriage returns in a comment": (HEAD + BODY.replace(b"state 1", b"// x\r2 : 0\r1 : 1\nstate 1"), "done", COIN),
    "a comment that ends with two carriage returns": (HEAD + b"// \r\r\n" + BODY, "done", COIN),
    "lines that end with carriage return and line feed": ((HEAD + BODY).replace(b"\n", b"\r\n"), "done", COIN),
    "a plain label that ends with a quote": (HEAD + BODY.replace(b"state 2", b'state 2 done"'), "done", COIN),
    "a plain label that ends with a quote is asked for": (HEAD + BODY.replace(b"done", b'done"'), 'done"', COIN),
    "a label in quotes": (HEAD + BODY.replace(b"done", b'"done"'), "done", COIN),
    "a label in quotes behind a group": (HEAD + BODY.replace(b"1 done", b'1 [0]"done"'), "done", COIN),
    "two states with the label": (HEAD + BODY.replace(b"state 2", b'state 2 "a b"done'), "done", SURE),
    "a reward model whose name begins with a dollar": (HEAD + b"@reward_models\n$a\n" + BODY, "done", COIN),
    "a reward model that looks like a placeholder": (
        HEAD + b"@reward_models\n$a:b\n@placeholders\n$a : p\n" + BODY.replace(b": p", b": $a"),
        "done",
        COIN,
    ),
    "an empty list of parameters": (
        b"@type: DTMC\n@parameters\n\n" + BODY.replace(b"1 : p\n2 : 1-p", b"1 : 1"),
        "done",
        SURE.replace(b"parameters 1 p", b"parameters 0")
        .replace(b"states 2", b"states 3")
        .replace(b"bound", b"row 2 0 1\nto 2 0:1\nbound"),
    ),
    "a comment between a section and its list": (HEAD.replace(b"\np\n", b"\n//q\np\n") + BODY, "done", COIN),
    "a type without a blank": (HEAD.replace(b": ", b":") + BODY, "done", COIN),
    "zero times a large power of ten": (HEAD + BODY.replace(b": p\n", b": p+0e99999999999999\n"), "done", COIN),
    "a small number with zeros": (
        HEAD + BODY.replace(b": p\n", b": p*0." + b"0" * 5000 + b"1e5001\n"),
        "done",
        COIN,
    ),
}


class Texts(unittest.TestCase):
    """The texts above."""

    def judged(self, model: bytes, label: str, text: bytes) -> Ending:
        """What lumped.py says of a model and a report."""
        with tempfile.NamedTemporaryFile(suffix=".drn") as file:
            file.write(model)
            file.flush()
            return run([str(LUMPED), file.name, label], text)

    def test_quotients(self) -> None:
        """The quotient of each text is accepted."""
        for name, (model, label, wanted) in TEXTS.items():
            with self.subTest(name):
                got = self.judged(model, label, wanted)
                self.assertEqual((got.status, got.note), (0, ""))

    def test_program(self) -> None:
        """The program reads each text as it is told here."""
        if not os.access(PROGRAM, os.X_OK):
            self.skipTest("no program is built")
        for name, (model, label, wanted) in TEXTS.items():
            with self.subTest(name):
                words = [PROGRAM, "lumped", "--goal", label, "--bound", "1", "--precision", "4"]
                words += ["--region", "1/10<=p<=2/5"] if b"parameters 1" in wanted else []
                done = subprocess.run(words, input=model, capture_output=True, check=False)
                self.assertEqual(done.stderr, b"")
                self.assertEqual(done.stdout[: len(wanted)], wanted)

    def test_report_of_another_model(self) -> None:
        """Where a plain label only looks like the one asked for, the report of the other model is refused."""
        model, label, _ = TEXTS["a plain label that ends with a quote"]
        got = self.judged(model, label, SURE)
        self.assertEqual(got, Ending(1, "", "not the quotient\ndone: line 5: states 2, not states 3\n"))

    def test_each_label_is_tried(self) -> None:
        """Without a label the one is told whose quotient it is."""
        with tempfile.NamedTemporaryFile(suffix=".drn") as file:
            file.write(HEAD + BODY)
            file.flush()
            got = run([str(LUMPED), file.name], COIN)
        self.assertEqual(got, Ending(0, "the quotient of 3 states has 3, for the goal done\n", ""))


if __name__ == "__main__":
    unittest.main()
