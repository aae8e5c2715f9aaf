"""What tools/line.py refuses, it refuses as the program does."""

import os
import random
import subprocess
import sys
import unittest
from pathlib import Path
from typing import Callable, Dict, List, Optional, Sequence, Union

from common import COMMANDS, TOP, quick_program, tool

line = tool("line")

WORDS = [
    *COMMANDS,
    "--goal",
    "--bound",
    "--region",
    "--depth",
    "--formula",
    '--formula=P<=1/2[F"a"]',
    '--formula=P>=0.5 [ "a b" U "c" ]',
    "--formula=P",
    "--formula=",
    '--formula=P>2[F"a"]',
    "--reward",
    "--reward=a",
    "--reward=",
    "--reward=a b",
    "--reward=\u00fc",
    "--budget",
    "--budget=1/2",
    "--budget=3",
    "--budget=1e-19",
    "--cap",
    "--cap=1",
    "--cap=2",
    "--cap=0",
    "--cap=4294967295",
    "--cap=4294967296",
    "--cap=0000000002",
    "--cap=00000000002",
    "--precision",
    "--from",
    "--from=1",
    "--from=024",
    "--from=25",
    "--from=0",
    "--precision=40",
    "--steps",
    "--steps=64",
    "--steps=65",
    "--steps=064",
    "--steps=0",
    "--goal=a",
    "--bound=1/2",
    "--bound=",
    "--depth=3",
    "--depth=21",
    "--precision=0",
    "--precision=040",
    "-1",
    "",
    " ",
    "a",
    "1/2",
    "3%",
    "1e-3",
    "0.5",
    "2",
    "1/4294967295",
    "1/4294967296",
    "9223372036854775808/9223372036854775809",
    "1e-19",
    "20",
    "32767",
    "32768",
    "000001",
    "p=1",
    "--x",
    "--y",
    "--at",
    "--x=",
    "--at=p=1",
    "--at=p",
    "--summary",
    "--follow",
    "--summary=",
    "--help",
    "help",
    "--",
    "-",
    "\u00fc",
    "a\nb",
    "=",
    "--goal=--bound",
    "\u0663",
]
PLIFT = {
    "": "usage: words",
    "verfy": "usage: words",
    "verify": "usage: words",
    "verify --goal a": "usage: words",
    "verify --bound 1/2": "usage: words",
    "verify --goal a --bound 1/2 --goal b": "usage: words",
    "verify --goal a --bound 1/2 --colour red": "usage: words",
    "verify --goal a --bound 1/2 --region -1<=p<=1": "usage: words",
    "verify --goal a --bound 1/2 model.drn": "usage: words",
    "verify --goal a --bound 1/2 --depth 21": "usage: --depth",
    "verify --goal a --bound 1/2 --precision 41": "usage: --precision",
    "verify --goal \u00fc --bound 1/2": "usage: --goal",
    "verify --goal a --bound 1/2 --steps 3": "usage: words",
    "verify --goal a --bound 1/2 --from": "usage: words",
    "verify --goal a --bound 1/2 --from 1 --from 2": "usage: words",
    "verify --goal a --bound 1/2 --from 0": "usage: --from",
    "verify --goal a --bound 1/2 --from 25": "usage: --from",
    "verify --goal a --bound 1/2 --from 41 --precision 40": "usage: --from",
    "verify --goal a --bound 1/2 --from 5 --precision 4": "usage: --from",
    "verify --goal a --bound 1/2 --from 0001": "usage: --from",
    "verify --goal a --bound 1/2 --from x": "usage: --from",
    "verify --from x --goal a --bound 1/2 --precision 41": "usage: --precision",
    "verify --from x --goal a --bound 2": "usage: --bound",
    "bounded --goal a --bound 1/2": "usage: words",
    "bounded --goal a --bound 1/2 --steps 3 --from 1": "usage: words",
    "bounded --goal a --bound 1/2 --steps": "usage: words",
    "bounded --goal a --bound 1/2 --steps 0": "usage: --steps",
    "bounded --goal a --bound 1/2 --steps 65": "usage: --steps",
    "bounded --goal a --bound 1/2 --steps 064": "usage: --steps",
    "bounded --steps 0 --goal a --bound 1/2 --precision 41": "usage: --precision",
    "property": "usage: words",
    "property --formula": "usage: words",
    "property --formula=": "usage: words",
    "property --formula P --formula P": "usage: words",
    "property --formula P --goal a": "usage: words",
    "property --formula P --bound 1/2": "usage: words",
    "property --formula P --from": "usage: words",
    "property --formula P --from 1 --from 2": "usage: words",
    "property --formula P --from 0": "usage: --formula Syntax",
    "property --formula=P<=1[F\"a\"] --from 0": "usage: --from",
    "property --formula=P<=1[F\"a\"] --from 25": "usage: --from",
    "property --from 5 --formula=P<=1[F\"a\"] --precision 4": "usage: --from",
    "property --from x --formula=P<=1[F\"a\"] --precision 41": "usage: --precision",
    "property --formula P --steps 1": "usage: words",
    "property --goal a --bound 1/2": "usage: words",
    "verify --goal a --bound 1/2 --formula P": "usage: words",
    "property --formula P --depth 21": "usage: --formula Syntax",
    "property --formula=P<=1/0[F\"a\"] --depth 21": "usage: --formula Bound",
    "property --precision 0 --depth 21 --formula=P<=1[F\"a\"]": "usage: --depth",
    "property --precision 0 --formula=P<=1[F\"a\"]": "usage: --precision",
    "cost": "usage: words",
    "cost --goal a --reward b --budget 1": "usage: words",
    "cost --goal a --reward b --cap 1": "usage: words",
    "cost --goal a --budget 1 --cap 1": "usage: words",
    "cost --reward b --budget 1 --cap 1": "usage: words",
    "cost --goal a --reward b --budget 1 --cap 1 --bound 1": "usage: words",
    "cost --goal a --reward b --budget 1 --cap 1 --steps 1": "usage: words",
    "cost --goal a --reward b --budget 1 --cap 1 --from 1": "usage: words",
    "cost --goal a --reward b --budget 1 --cap 1 --formula P": "usage: words",
    "cost --goal a --reward b --budget 1 --cap 1 --cap 1": "usage: words",
    "cost --goal a --reward b --budget": "usage: words",
    "cost --goal a --reward b --budget=": "usage: words",
    "cost --goal \u00fc --reward \u00fc --budget 2 --cap 0 --depth 21": "usage: --goal",
    "cost --goal a --reward \u00fc --budget 2 --cap 0 --depth 21": "usage: --depth",
    "cost --goal a --reward \u00fc --budget 2 --cap 0 --precision 41": "usage: --precision",
    "cost --goal a --reward \u00fc --budget 2 --cap 0": "usage: --reward",
    "cost --goal a --reward b --budget 2 --cap 0": "usage: --cap",
    "cost --goal a --reward b --budget 2 --cap 4294967296": "usage: --cap",
    "cost --goal a --reward b --budget 2 --cap 00000000001": "usage: --cap",
    "cost --goal a --reward b --budget 2 --cap 1.0": "usage: --cap",
    "cost --goal a --reward b --budget 2 --cap 1": "usage: --budget",
    "cost --goal a --reward b --budget 1/0 --cap 1": "usage: --budget",
    "cost --goal a --reward b --budget 1/4294967296 --cap 1": "usage: --budget",
    "cost --goal a --reward b --budget 4611686018427387905/4294967295 --cap 4294967295": "usage: --budget",
    "cost --goal a --reward b --budget 1e-19 --cap 1": "usage: --budget",
    "verify --goal a --bound 1/2 --reward b": "usage: words",
    "bounded --goal a --bound 1/2 --steps 3 --budget 1": "usage: words",
    "property --formula P --cap 1": "usage: words",
    "lumped --goal a": "usage: words",
    "lumped --goal a --bound 1/2 --steps 3": "usage: words",
    "lumped --goal a --bound 1/2 --from 1": "usage: words",
    "lumped --goal a --bound 2": "usage: --bound",
    "check report": "usage: words",
    "migrate report": "usage: words",
    "migrate --from 1": "usage: words",
    "refine": "usage: words",
    "refine 3": "usage: words",
    "refine --depth": "usage: words",
    "refine --depth=": "usage: words",
    "refine --depth -3": "usage: words",
    "refine --depth 3 --depth 4": "usage: words",
    "refine --depth 3 x": "usage: words",
    "refine --precision 3": "usage: words",
    "refine --depth 0": "usage: --depth",
    "refine --depth 21": "usage: --depth",
    "refine --depth 0004": "usage: --depth",
    "refine --depth x": "usage: --depth",
    "generate": "usage: words",
    "generate 0": "usage: N",
    "generate -1": "usage: words",
    "generate 000001": "usage: N",
    "selftest 32768": "usage: N",
    "selftest 1 2": "usage: words",
}
PLAIN = [
    "check",
    "migrate",
    "refine --depth 1",
    "refine --depth=020",
    "generate 1",
    "selftest 32767",
    "verify --bound=1/2 --goal=a",
    "verify --goal a --bound 1/2 --region x --depth 020 --precision 1",
    "bounded --steps=64 --bound=1/2 --goal=a",
    'property --formula=P<=1[F"a"]',
    'property --depth 020 --formula P<=1[F"a"] --region x --precision=40',
    'property --from=004 --formula P<=1[F"a"] --precision 4',
    "cost --goal a --reward b --budget 2 --cap 2",
    "cost --cap=0000000001 --budget 0 --reward=[b] --goal=a --region x",
    "cost --depth 20 --precision 1 --goal a --reward ! --budget 4294967295 --cap 4294967295",
    "cost --goal a --reward ~ --budget 4611686018427387903/4294967295 --cap 4294967295",
    "lumped --depth 20 --bound=1/2 --goal=a",
    "verify --from 24 --bound=1/2 --goal=a",
    "verify --from=004 --bound=1/2 --goal=a --precision 4",
]
# Formulas, and the cause for which they are refused.
FORMULAS = {
    'P<=1/2[F"a"]': None,
    'P\t < 0.5e0 [ F\t"a b" ] '[:-1]: None,
    'P >= 1/2["a"U"b"]': None,
    'P>1e-3 [ "F" U "U" ]': None,
    'P<=4294967294/4294967295 [F"]["]': None,
    'P<=2/4294967296 [F"a"]': None,
    'P<=1/4294967296 [F"a"]': "Bound",
    'P<=1.5 [F"a"]': "Bound",
    'P<=1/0 [F"a"]': "Bound",
    'P<=0/0.0 [F"a"]': "Bound",
    'P<=1e-19 [F"a"]': "Bound",
    'P<=1/0 [F"a"': "Syntax",
    "": "Syntax",
    "P": "Syntax",
    'p<=1/2 [F"a"]': "Syntax",
    ' P<=1/2 [F"a"]': "Syntax",
    'P<=1/2 [F"a"] ': "Syntax",
    'P< =1/2 [F"a"]': "Syntax",
    'P==1/2 [F"a"]': "Syntax",
    'P=<1/2 [F"a"]': "Syntax",
    'P<=-1/2 [F"a"]': "Syntax",
    'P<=1 /2 [F"a"]': "Syntax",
    'P<=.5 [F"a"]': "Syntax",
    'P<=1/2/2 [F"a"]': "Syntax",
    'P<= [F"a"]': "Syntax",
    'P<=1/2 F"a"]': "Syntax",
    'P<=1/2 [F a]': "Syntax",
    'P<=1/2 [F""]': "Syntax",
    'P<=1/2 [F"\t"]': "Syntax",
    'P<=1/2 [F"\u00fc"]': "Syntax",
    'P<=1/2\n[F"a"]': "Syntax",
    'P<=1/2 [f"a"]': "Syntax",
    'P<=1/2 ["a"]': "Syntax",
    'P<=1/2 ["a" F "b"]': "Syntax",
    'P<=1/2 [F "a" U "b"]': "Syntax",
    'P<=1/2 ["a" U]': "Syntax",
    'P<=1/2 [U "a"]': "Syntax",
    'P<=1/2 [F"a"': "Syntax",
    'P<=1/2 [F"a"]]': "Syntax",
    'P<=1/2 [F"a""]': "Syntax",
    'P<=\u0661 [F"a"]': "Syntax",
}
# Pieces that formulas are made of at random.
PIECES = [
    "P",
    "<=",
    "<",
    ">=",
    ">",
    "=",
    "1/2",
    "0.5",
    "2",
    "1/0",
    "1e-19",
    "[",
    "]",
    "F",
    "U",
    '"a"',
    '"b c"',
    '""',
    '"',
    " ",
    "\t",
    "a",
    "-",
    "/",
]
VIEW = {
    "x": True,
    "--x": True,
    "--x p --x q": True,
    "--summary --follow": True,
    "--summary=": True,
    "--summary": False,
    "": False,
    "--at p=1 --at=q=2 --x=": False,
    "--x -": False,
    "--x=-p": False,
    "--x -p": True,
}


class Line(unittest.TestCase):
    def test_faults_of_plift(self) -> None:
        for words, note in PLIFT.items():
            self.assertEqual(line.plift_note(words.split()), note, words)

    def test_plain_lines_pass(self) -> None:
        for words in PLAIN:
            self.assertIsNone(line.plift_note(words.split()), words)

    def test_formulas(self) -> None:
        for text, cause in FORMULAS.items():
            note = f"usage: --formula {cause}" if cause else None
            self.assertEqual(
                line.plift_note(["property", "--formula", text or " "]),
                note if text else "usage: --formula Syntax",
                text,
            )

    def test_faults_of_view(self) -> None:
        for words, is_fault in VIEW.items():
            self.assertEqual(line.view_note(words.split()), "usage: words" if is_fault else None, words)

    def told(self, word: Union[str, bytes], hints: str) -> "subprocess.CompletedProcess[bytes]":
        """What is told of a word, where hints are asked for or not."""
        words = ["python3", str(TOP / "tools/line.py"), "plift", word]
        return subprocess.run(words, env={**os.environ, "PLIFT_HINTS": hints}, capture_output=True)

    def test_note_and_hint(self) -> None:
        ran = self.told("verfy", "1")
        self.assertEqual((ran.returncode, ran.stdout), (2, b""))
        note, *hints = ran.stderr.splitlines()
        self.assertEqual(note, b"usage: words")
        self.assertTrue(hints and all(it.startswith(b"hint: ") for it in hints), hints)

    def test_note_alone_where_no_hints_are_wanted(self) -> None:
        for hints in ("", "0"):
            ran = self.told("verfy", hints)
            self.assertEqual((ran.returncode, ran.stdout, ran.stderr), (2, b"", b"usage: words\n"))

    def test_closed_standard_error(self) -> None:
        """The status is the same where nobody hears the note, and it isn't written elsewhere."""
        environments: List[Dict[str, str]] = [{}, {"PLIFT_HINTS": "1"}]
        for place in ("&-", "/dev/full"):
            for environment in environments:
                command = [
                    "sh",
                    "-c",
                    f'"$@" 2>{place}',
                    "sh",
                    sys.executable,
                    str(TOP / "tools/line.py"),
                    "plift",
                    "x",
                ]
                ran = subprocess.run(command, capture_output=True, env={**os.environ, **environment}, check=False)
                self.assertEqual((ran.returncode, ran.stdout, ran.stderr), (2, b"", b""))

    def test_word_that_is_no_text_has_no_note(self) -> None:
        ran = self.told(b"\xff", "1")
        self.assertEqual(ran.returncode, 2)
        self.assertTrue(ran.stderr.startswith(b"hint: "), ran.stderr)
        self.assertEqual(self.told(b"\xff", "0").stderr, b"")


class AgainstTheProgram(unittest.TestCase):
    """Lines made at random, asked of the program that isn't proved, where it is built."""

    def asked(self, program: Path, words: Sequence[str]) -> Optional[str]:
        ran = subprocess.run([program, *words], stdin=subprocess.DEVNULL, capture_output=True, text=True)
        note = ran.stderr.rstrip("\n")
        return note if note.startswith("usage: ") and ran.returncode == 2 else None

    def compare(
        self, name: str, front: Callable[[random.Random], List[str]], note_of: Callable[[List[str]], Optional[str]]
    ) -> None:
        program, chance = quick_program(name), random.Random(1)
        if program is None:
            self.skipTest("build/quick has no program")
        for _ in range(400):
            words = front(chance) + [chance.choice(WORDS) for _ in range(chance.randrange(5))]
            note = note_of(words)
            if note is None and (words[:1] in (["generate"], ["selftest"]) or "--" in words):
                continue
            self.assertEqual(note, self.asked(program, words), words)

    def test_plift(self) -> None:
        fronts = [
            "",
            "verify",
            "verify --goal a",
            "verify --goal a --bound 1/2",
            "verify --goal=a --bound",
            "generate",
            "lumped --goal a --bound 1/2",
            "bounded --goal a --bound 1/2",
            "bounded --goal a --bound 1/2 --steps",
            "property",
            "property --formula",
            'property --formula P<=1[F"a"]',
            "cost --goal a --reward b --budget 1",
            "cost --goal a --reward b --budget 1 --cap",
            "cost --goal a --cap 2 --budget",
            "cost --goal a --budget 1 --cap 2 --reward",
        ]
        self.compare("plift", lambda chance: chance.choice(fronts).split(), line.plift_note)

    def test_formulas(self) -> None:
        """Those of the table, and what is made of the pieces of formulas."""
        program, chance = quick_program("plift"), random.Random(1)
        if program is None:
            self.skipTest("build/quick has no program")
        formulas = [text for text in FORMULAS if text]
        for _ in range(400):
            parts = ["P", "<=", "1/2", "[", *chance.choice([["F", '"a"'], ['"b c"', "U", '"a"']]), "]"]
            for _ in range(chance.randrange(4)):
                at = chance.randrange(len(parts) + 1)
                parts[at : at + chance.randrange(2)] = [chance.choice(PIECES)]
            formulas.append("".join(parts))
        for text in formulas:
            if text and not text.startswith("-"):
                words = ["property", "--formula", text]
                self.assertEqual(line.plift_note(words), self.asked(program, words), text)

    def test_view(self) -> None:
        self.compare("plift-view", lambda chance: [], line.view_note)


if __name__ == "__main__":
    unittest.main()
