"""Tests of what draws texts of `bounded`, `property` and `cost`: its pictures of reports have the bytes of plift-view,
and its answers to texts for a number of steps, of properties and of costs are those that were worked out by hand."""

import hashlib
import json
import os
import subprocess
import sys
import tempfile
import unittest
from pathlib import Path
from typing import Any, Dict, List, NamedTuple, Tuple
from unittest import mock

sys.dont_write_bytecode = True
TOP = Path(__file__).resolve().parents[2]
sys.path.insert(0, str(TOP / "tools"))
import draw as script  # noqa: E402

VIEW = TOP / "build" / "quick" / "plift-view"
SHOWN: List[List[str]] = [[], ["--summary"], ["--x", "none"]]
NARROW = "100000000001/1000000000000"
"""So little above 1/10 that an axis between them has no ticks."""
Refusals = List[Tuple[List[str], Any, int, str]]  # words, a text, a status and a note
PLIFT = TOP / "build" / "quick" / "plift"

# A coin that is thrown again in half of the cases, and shows heads with p: within two steps 3p/4.
COIN = """plift-bounded 1;kind dtmc;parameters 1 p;common 2;states 3;init 0;goal 1 1;row 0 0 3;to 0 0:1;to 1 1:1;to 2 0:1 1:-1;
row 1 0 1;to 1 0:2;row 2 0 1;to 2 0:2;bound 1/4;steps 2;precision 4;depth %d;grid 20;box %s;%s"""
ONE = COIN % (0, "4 6", "accept;x 1 3 16 0;x 2 4 16 0;")
# From 1/5 to 4/5: halved at 1/2, and the lower half at 7/20 once more.
TREE = COIN % (2, "4 16", "split 0;split 0;unknown;unknown;unknown;")
HALVES = COIN % (1, "4 16", "split 0;unknown;reject b 6/16;y 1 4 16 0;choice 1 0 - 0;y 2 6 16 0;choice 2 0 - 0;")


# Either of two choices shows heads with p, or with the rest: one of them with 3/4 or more where p is far from 1/2.
TWIN = """plift-property 1;kind mdp;parameters 1 p;common 1;states 3;init 0;goal 1 1;row 0 0 2;to 1 1:1;to 2 0:1 1:-1;
row 0 1 2;to 1 0:1 1:-1;to 2 1:1;row 1 0 1;to 1 0:1;row 2 0 1;to 2 0:1;property %s;precision 3;depth 2;grid 4;box 0 4;%s"""
PROPERTY = TWIN % (
    "< 3/4",
    "split 0;split 0;fails;lower e 1 k 1 m 1 b 6/8;y 6 8 0;choice 1 - -;rank 1 0 -;unknown;"
    "split 0;unknown;fails;lower e 1 k 1 m 1 b 6/8;y 6 8 0;choice 0 - -;rank 1 0 -;",
)
# The same in version 2: one leaf needs 2 bits, and the other is told with 4.
RANGED = (
    PROPERTY.replace("plift-property 1", "plift-property 2")
    .replace("precision 3;", "precision 4;from 2;")
    .replace("split 0;fails;lower e 1 k 1 m 1 b 6/8;y 6 8 0;", "split 0;at 2;fails;lower e 1 k 1 m 1 b 3/4;y 3 4 0;")
    .replace(
        "unknown;fails;lower e 1 k 1 m 1 b 6/8;y 6 8 0;", "unknown;at 4;fails;lower e 1 k 1 m 1 b 12/16;y 12 16 0;"
    )
)
ALWAYS = TWIN % (
    ">= 1/4",
    "split 0;split 0;fails;x 2 8 0;choice 0 - 0;holds;lower e 2 k 1 m 2 b 2/8;y 2 8 0;rank 1 0 -;"
    "split 0;holds;lower e 2 k 1 m 2 b 2/8;y 2 8 0;rank 1 0 -;unknown;",
)


# The first coin again, at 1 for each throw: two throws on average, whatever p is.
COST = """plift-cost 1;kind dtmc;parameters 1 p;common 2;states 3;init 0;goal 1 1;row 0 0 3;to 0 0:1;to 1 1:1;to 2 0:1 1:-1;
row 1 0 1;to 1 0:2;row 2 0 1;to 2 0:2;cost 1/1 0/1 0/1;cap 4;budget %s;precision 4;depth 1;grid 20;box 4 16;
split 0;%s;accept 8 0 0;"""
AFFORDABLE, HALF = COST % ("2/1", "accept 8 0 0"), COST % ("9/4", "unknown")


class Answer(NamedTuple):
    """What a program came to."""

    status: int
    out: str
    note: str


def text(lines: str) -> bytes:
    """A text whose lines end with semicolons."""
    return lines.replace("\n", "").replace(";", "\n").encode()


def ask(program: List[str], words: List[str], given: bytes) -> Answer:
    """What a program answers."""
    done = subprocess.run([*program, *words], input=given, capture_output=True)
    return Answer(done.returncode, done.stdout.decode(), done.stderr.decode())


def draw(words: List[str], given: bytes) -> Answer:
    """What the script answers, as `main` would write it."""
    try:
        return Answer(0, script.answer(words, given), "")
    except script.Refused as refusal:
        return Answer(refusal.status, "", f"{refusal}\n")


def field_of(picture: str) -> List[str]:
    """The paths of the kinds, accepted, rejected and unknown, and that of the borders."""
    return [
        line.partition(' d="')[2].partition('"')[0] for line in picture.splitlines() if line.startswith("<path fill")
    ]


class Steps(unittest.TestCase):
    """Texts for a number of steps."""

    def test_a_bar(self) -> None:
        answer = draw([], text(HALVES))
        self.assertEqual((answer.status, answer.note), (0, ""))
        low, high = "M0 1048576H524288V0H0z", "M524288 1048576H1048576V0H524288z"
        self.assertEqual(field_of(answer.out), ["", high, low, low + high])
        self.assertIn(">at most 1/4 within 2 steps, numbers over 2^4, depth 1</text>", answer.out)
        self.assertIn(">Markov chain, states: 3</text>", answer.out)
        self.assertIn(">accepted 0.0000 %, rejected 50.0000 %, unknown 50.0000 % of the volume", answer.out)
        self.assertIn(">from 1/5 to 4/5</text>", answer.out)
        self.assertIn('<text x="270" y="20">0.350</text>', answer.out)

    def test_a_table(self) -> None:
        self.assertEqual(
            draw(["--summary"], text(ONE)).out.splitlines(),
            [
                "leaves accept 1 reject 0 unknown 0",
                "share accept 1 100.0000 %",
                "share reject 0 0.0000 %",
                "share unknown 0 0.0000 %",
                "greatest accept depth 0 p 1/5 3/10",
                "least accept depth 0 p 1/5 3/10",
                "depth 0 accept 1 reject 0 unknown 0",
            ],
        )

    def test_refusals(self) -> None:
        table: Refusals = [
            (
                [],
                text(ONE.replace("x 2 4", "x 2 3")),
                1,
                "not sound: node 0 step 2 state 0 choice 0 corner 0: 124 > 120\n",
            ),
            ([], text(TREE), 1, "not sound: node 4 depth\n"),
            ([], text(ONE)[:-1], 1, "not sound: line 24: Truncated\n"),
            (["--x", "q"], text(ONE), 2, "usage: --x UnknownName\n"),
            (["--x=p", "--y", "p"], text(ONE), 2, "usage: --y Repeated\n"),
            (["--at", "p=1/4"], text(ONE), 2, "usage: --at 1 Repeated\n"),
            (["--summary", "--x", "p"], text(ONE), 2, "usage: words\n"),
            (["here"], text(ONE), 2, "usage: words\n"),
        ]
        for words, given, status, note in table:
            with self.subTest(words=words, note=note):
                answer = draw(words, given)
                self.assertEqual(answer, Answer(status, "", note))

    def test_streams(self) -> None:
        """Streams that are closed, full or folders have the statuses of plift-view, and no trace."""
        with tempfile.TemporaryDirectory() as folder:
            path = Path(folder, "text")
            path.write_bytes(text(ONE))
            for line, status, note in (
                (f'"$@" <{path} >/dev/full', 6, "write fault\n"),
                (f'"$@" <{path} >&-', 6, "write fault\n"),
                ('"$@" <&-', 5, "read fault\n"),
                (f'"$@" here <{path} 2>&-', 2, ""),
                (f'"$@" here <{path} 2>/dev/full', 2, ""),
            ):
                command = ["sh", "-c", line, "sh", sys.executable, str(TOP / "tools" / "draw.py")]
                ran = subprocess.run(command, capture_output=True, encoding="utf-8", check=False)
                self.assertEqual(Answer(ran.returncode, ran.stdout, ran.stderr), Answer(status, "", note), line)


class Properties(unittest.TestCase):
    """Texts of properties have the look of reports: what holds that of what is accepted, what fails that of what is
    rejected."""

    def test_a_bar(self) -> None:
        answer = draw([], text(PROPERTY))
        self.assertEqual((answer.status, answer.note), (0, ""))
        bars = [f"M{low} 1048576H{low + 262144}V0H{low}z" for low in range(0, 1048576, 262144)]
        self.assertEqual(field_of(answer.out), ["", bars[0] + bars[3], bars[1] + bars[2], "".join(bars)])
        self.assertIn(">below 3/4, numbers over 2^3, depth 2</text>", answer.out)
        self.assertIn(">Markov decision process, states: 3</text>", answer.out)
        self.assertIn(">holds 0.0000 %, fails 50.0000 %, unknown 50.0000 % of the volume", answer.out)
        for word in ("holds", "fails", "unknown"):
            self.assertIn(f'y="98">{word}</text>', answer.out)

    def test_the_look_is_that_of_a_report(self) -> None:
        report = draw([], (TOP / "examples" / "coin.report").read_bytes()).out
        patterns = [line.partition('"20000" height')[2] for line in report.splitlines() if line.startswith("<pattern")]
        shown = [
            line.partition('"20000" height')[2]
            for line in draw([], text(PROPERTY)).out.splitlines()
            if line.startswith("<pattern")
        ]
        self.assertEqual((shown, len(shown)), (patterns, 3))

    def test_the_comparisons(self) -> None:
        for op, words in (("<=", "at most"), ("<", "below"), (">=", "at least"), (">", "above")):
            unknown = TWIN.replace("depth 2", "depth 0") % (f"{op} 1/3", "unknown;")
            self.assertIn(f">{words} 1/3, numbers over 2^3, depth 0</text>", draw([], text(unknown)).out)

    def test_a_range_of_precisions(self) -> None:
        """The second version is drawn as the first; its title tells the range."""
        first, second = (draw([], text(it)).out for it in (PROPERTY, RANGED))
        self.assertEqual(field_of(second), field_of(first))
        self.assertIn(">below 3/4, numbers over 2^2 to 2^4, depth 2</text>", second)

    def test_a_table(self) -> None:
        changed = ALWAYS.replace("fails;x 2 8 0;choice 0 - 0", "fails;x 1 8 0;choice 0 - 0")
        self.assertEqual(
            draw(["--summary"], text(changed)).note, "not sound: node 2 state 0 choice 0 corner 1: 8 > 4\n"
        )
        wanted = [
            "leaves holds 2 fails 0 unknown 2",
            "share holds 1/2 50.0000 %",
            "share fails 0 0.0000 %",
            "share unknown 1/2 50.0000 %",
            "greatest holds depth 2 p 1/4 1/2",
            "least holds depth 2 p 1/4 1/2",
            "depth 0 holds 0 fails 0 unknown 0",
            "depth 1 holds 0 fails 0 unknown 0",
            "depth 2 holds 2 fails 0 unknown 2",
        ]
        undecided = ALWAYS.replace("fails;x 2 8 0;choice 0 - 0", "unknown")
        self.assertEqual(draw(["--summary"], text(undecided)).out.splitlines(), wanted)
        self.assertEqual(draw(["--summary"], text(ALWAYS)).note, "not sound: node 2 bound: 8 >= 8\n")


class Costs(unittest.TestCase):
    """Texts of costs have leaves within the budget, and unknown ones, with the look that these have in a report."""

    def test_a_bar(self) -> None:
        answer = draw([], text(HALF))
        self.assertEqual((answer.status, answer.note), (0, ""))
        low, high = "M0 1048576H524288V0H0z", "M524288 1048576H1048576V0H524288z"
        self.assertEqual(field_of(answer.out), [high, low, low + high])
        self.assertIn(">expected cost at most 9/4, cap 4, numbers over 2^4, depth 1</text>", answer.out)
        self.assertIn("<desc>within budget 50.0000 %, unknown 50.0000 % of the volume, rounded down</desc>", answer.out)
        self.assertIn('<text x="54" y="98">within budget</text>\n<text x="194" y="98">unknown</text>', answer.out)
        self.assertNotIn("rejected", answer.out)

    def test_the_look_is_that_of_a_report(self) -> None:
        report = draw([], (TOP / "examples" / "coin.report").read_bytes()).out
        accepted, _, unknown = (line for line in report.splitlines() if line.startswith("<pattern"))
        self.assertEqual(
            [line for line in draw([], text(HALF)).out.splitlines() if line.startswith("<pattern")], [accepted, unknown]
        )

    def test_a_table(self) -> None:
        self.assertEqual(
            draw(["--summary"], text(HALF)).out.splitlines(),
            [
                "leaves accept 1 unknown 1",
                "share accept 1/2 50.0000 %",
                "share unknown 1/2 50.0000 %",
                "greatest accept depth 1 p 1/2 4/5",
                "least accept depth 1 p 1/2 4/5",
                "depth 0 accept 0 unknown 0",
                "depth 1 accept 1 unknown 1",
            ],
        )

    def test_refusals(self) -> None:
        table: Refusals = [
            (
                [],
                AFFORDABLE.replace("cost 1/1", "cost 3/2"),
                1,
                "not sound: node 1 state 0 choice 0 corner 0: 160 > 80\n",
            ),
            ([], AFFORDABLE.replace("budget 2/1", "budget 1/1"), 1, "not sound: node 1 budget: 32 > 16\n"),
            (["--x", "q"], AFFORDABLE, 2, "usage: --x UnknownName\n"),
        ]
        for words, given, status, note in table:
            with self.subTest(words=words, note=note):
                self.assertEqual(draw(words, text(given)), Answer(status, "", note))


class Door(unittest.TestCase):
    """plift-view takes each kind of text, from a file and through a pipe."""

    def ask_door(self, words: List[str], given: bytes, by_file: bool) -> Answer:
        door = [str(TOP / "plift-view"), "--quick", *words]
        with tempfile.TemporaryFile() as file:
            file.write(given)
            file.seek(0)
            how: Dict[str, Any] = {"stdin": file} if by_file else {"input": given}
            done = subprocess.run(door, capture_output=True, env={**os.environ, "PLIFT_HINTS": "0"}, **how)
        return Answer(done.returncode, done.stdout.decode(), done.stderr.decode())

    def test_each_kind(self) -> None:
        if not os.access(VIEW, os.X_OK):
            self.skipTest("the quick program isn't built")
        report = (TOP / "examples" / "retry-tree.report").read_bytes()
        for by_file in (True, False):
            for words in SHOWN:
                with self.subTest(words=words, by_file=by_file):
                    self.assertEqual(self.ask_door(words, text(HALVES), by_file), draw(words, text(HALVES)))
                    self.assertEqual(self.ask_door(words, text(PROPERTY), by_file), draw(words, text(PROPERTY)))
                    self.assertEqual(self.ask_door(words, text(RANGED), by_file), draw(words, text(RANGED)))
                    self.assertEqual(self.ask_door(words, text(HALF), by_file), draw(words, text(HALF)))
                    self.assertEqual(self.ask_door(words, report, by_file), ask([str(VIEW)], words, report))
            self.assertEqual(self.ask_door(["--follow"], text(HALVES), by_file).out.encode(), text(HALVES))
            for front in (
                b"plift-bounded 10\n",
                b"plift-property 10\n",
                b"plift-cost 10\n",
                b"plift-propert 1\n",
                b"plift-bounde",
            ):
                self.assertEqual(self.ask_door([], front, by_file), ask([str(VIEW)], [], front))
            self.assertEqual(self.ask_door([], b"", by_file), Answer(1, "", "not sound: line 1: Truncated\n"))


class Rescaled(unittest.TestCase):
    """A text or a report whose parameters run from 0 to 1 is shown in the numbers that the file beside it tells."""

    def setUp(self) -> None:
        folder = tempfile.TemporaryDirectory()
        self.addCleanup(folder.cleanup)
        self.path = Path(folder.name, "a text")

    def told(self, given: bytes, **more: Any) -> Path:
        """Writes a text, and beside it what plift-lab would."""
        self.path.write_bytes(given)
        told = {"goal": "lost", "scale": {"p": ["1/10", "1/2"]}, "sha256": hashlib.sha256(given).hexdigest(), **more}
        beside = Path(f"{self.path}.json")
        lines = ",\n".join(f"{json.dumps(name)}: {json.dumps(value)}" for name, value in told.items())
        beside.write_text("{\n" + lines + "\n}\n")
        return beside

    def show(self, words: List[str], given: bytes, **more: Any) -> Answer:
        """What the script answers, when the text stands beside such a file."""
        beside = self.told(given, **more)
        with mock.patch("line.tell") as tell:
            try:
                shown = script.answer(words, given, beside)
            except script.Refused as refusal:
                return Answer(refusal.status, "", f"{refusal}\n")
        return Answer(0, shown, "".join(call.args[0] for call in tell.call_args_list))

    def show_by_door(self, words: List[str], given: bytes, **more: Any) -> Answer:
        """What plift-view answers of the same."""
        self.told(given, **more)
        with open(self.path, "rb") as source:
            door = [str(TOP / "plift-view"), "--quick", *words]
            environment = {**os.environ, "PLIFT_HINTS": "0"}
            done = subprocess.run(door, capture_output=True, stdin=source, env=environment)
        return Answer(done.returncode, done.stdout.decode(), done.stderr.decode())

    def test_a_text(self) -> None:
        plain = draw([], text(PROPERTY)).out
        self.assertIn("from 0 to 1<", plain)
        answer = self.show([], text(PROPERTY))
        self.assertEqual((answer.status, answer.note), (0, ""))
        self.assertEqual(field_of(answer.out), field_of(plain))
        for line in (
            ">P( reach lost ) below 3/4, numbers over 2^3, depth 2</text>",
            "states: 3; parameters from 0 to 1 in the report, here in your own numbers</text>",
            ">from 1/10 to 1/2</text>",
            '<text x="270" y="20">0.200</text>',
        ):
            self.assertIn(line, answer.out)
        lines = self.show(["--summary"], text(PROPERTY)).out.splitlines()
        self.assertEqual(lines[4], "greatest fails depth 2 p 1/10 1/5")

    def test_a_value_is_the_users(self) -> None:
        given = text(PROPERTY.replace("parameters 1 p", "parameters 2 p q").replace("box 0 4", "box 0 4 0 4"))
        words = ["--x", "q", "--y", "p"]
        self.assertIn(">from 0 to 1</text>", self.show(words, given).out)
        answer = self.show(["--x", "q", "--at", "p=1/4"], given, scale={"p": ["1/5", "3/5"], "q": ["1/9", "2/9"]})
        self.assertEqual(answer.status, 2, "an axis is chosen, and it is p")
        answer = self.show(["--x", "p", "--at", "q=1/6"], given, scale={"p": ["1/5", "3/5"], "q": ["1/9", "2/9"]})
        self.assertIn("q = 1/6</text>", answer.out)
        answer = self.show(["--x", "p", "--at", "q=1/4"], given, scale={"p": ["1/5", "3/5"], "q": ["1/9", "2/9"]})
        self.assertEqual(answer.note, "usage: --at 1 Outside\n")

    def test_labels(self) -> None:
        answer = self.show([], text(PROPERTY), goal='a<b & "c"\x1b\u00fc')
        self.assertIn(">P( reach a&lt;b &amp; &quot;c&quot;\\u{1b}\\u{fc} ) below 3/4", answer.out)
        self.assertIn(f"reach {'a' * 60}.. )", self.show([], text(PROPERTY), goal="a" * 999).out)

    def test_what_the_region_does_not_bear_out(self) -> None:
        answer = self.show_by_door([], text(HALVES))
        end = "without it the report is shown by itself\n"
        self.assertEqual(
            answer, Answer(2, "", f"a text.json tells of p what the report's region doesn't bear out: {end}")
        )
        self.assertIn("tells of q what", self.show([], text(PROPERTY), scale={"q": ["0", "2"]}).note)
        wrong: List[Dict[str, Any]] = [
            {"scale": {"p": ["1/2", "1/2"]}},
            {"scale": {"p": ["0", "1/0"]}},
            {"scale": {"p": [0, 1]}},
            {"scale": {"p": ["0"]}},
            {"scale": []},
            {"scale": None},
            {"sha256": [1]},
        ]
        for more in wrong:
            answer = self.show([], text(PROPERTY), **more)
            if "sha256" in more:
                self.assertIn("is of another report", answer.note)
            else:
                self.assertEqual(answer.note, f"a text.json isn't in the form that plift-lab writes: {end}", more)

    def test_of_another_report(self) -> None:
        answer = self.show([], text(PROPERTY), sha256="0" * 64)
        self.assertEqual(answer.note, "plift-view: a text.json is of another report, and isn't read\n")
        self.assertEqual(answer.out, draw([], text(PROPERTY)).out)

    def test_a_report(self) -> None:
        if not os.access(VIEW, os.X_OK):
            self.skipTest("the quick program isn't built")
        line = [str(PLIFT), "verify", "--goal", "heads", "--bound", "1/2", "--region", "0<=p<=1", "--depth", "4"]
        done = subprocess.run(line, input=(TOP / "examples/coin.drn").read_bytes(), capture_output=True, check=True)
        plain = ask([str(VIEW)], [], done.stdout).out
        self.assertIn(">from 0 to 1</text>", plain)
        answer = self.show_by_door([], done.stdout, scale={"p": ["1/5", "3/5"]})
        self.assertEqual(answer, self.show([], done.stdout, scale={"p": ["1/5", "3/5"]}))
        self.assertEqual((field_of(answer.out), answer.note), (field_of(plain), ""))
        self.assertIn(">from 1/5 to 3/5</text>", answer.out)
        self.assertIn("P( reach lost ) at most 1/2", answer.out)
        # What isn't rescaled is the program's to show.
        self.assertEqual(self.show_by_door([], done.stdout, scale={}).out, plain)


class Reports(unittest.TestCase):
    """Of reports the script's answers are those of plift-view, byte for byte."""

    WORDS: List[List[str]] = [
        [],
        ["--summary"],
        ["--x", "q"],
        ["--y", "p"],
        ["--x", "q", "--y", "p"],
        ["--x", "p", "--y", "p"],
        ["--at", "q=1/2"],
        ["--at", "r=9/10"],
        ["--at=r=0.9", "--x", "r"],
        ["--at", "p=1/4", "--at", "q=3/4"],
        ["--x", "r", "--at", "q=.5"],
        ["--at", "q"],
        ["--at", "s=1/2"],
        ["--at", "r=2"],
        ["--at", "r=1/0"],
        ["--at", "r=-1"],
        ["--at", "r=9/10", "--at", "r=9/10"],
        ["--at", "r=1e99"],
        ["--at", "r=1/2"],
        ["--at", "r=3/4"],
        ["--x="],
        ["--"],
        ["--", "p"],
        ["--summary", "--follow"],
        ["-x"],
    ]

    def reports(self) -> List[bytes]:
        """The examples, trees over one to three parameters, and reports that aren't sound."""
        found = [path.read_bytes() for path in sorted((TOP / "examples").glob("*.report"))]
        asked = [
            ("coin.drn", "heads", "1/10<=p<=9/10", "6"),
            ("links.drn", "lost", "1/10<=p<=1/2,1/10<=q<=1/2", "6"),
            ("links.drn", "lost", f"1/10<=p<=1/2,1/10<=q<={NARROW}", "2"),
            ("links.drn", "lost", f"1/10<=p<={NARROW},1/10<=q<={NARROW}", "2"),
            ("chain.drn", "lost", "1/2<=p<=1,1/2<=q<=1,1/2<=r<=1", "9"),
        ]
        for model, goal, region, depth in asked:
            line = [str(PLIFT), "verify", "--goal", goal, "--bound", "1/4", "--region", region, "--depth", depth]
            done = subprocess.run(line, input=(TOP / "examples" / model).read_bytes(), capture_output=True, check=True)
            found.append(done.stdout)
        return [*found, found[0][:-1], found[0].replace(b"accept", b"reject", 1), b"", b"plift 3\n"]

    def test_it_is_told_once_that_ticks_are_rounded(self) -> None:
        if not os.access(VIEW, os.X_OK) or not os.access(PLIFT, os.X_OK):
            self.skipTest("the quick programs aren't built")
        for p, q, due in (("1/2", "1/2", 1), ("1/2", NARROW, 1), (NARROW, "1/2", 1), (NARROW, NARROW, 0)):
            line = [str(PLIFT), "verify", "--goal", "lost", "--bound", "1/4"]
            region = ["--region", f"1/10<=p<={p},1/10<=q<={q}", "--depth", "2"]
            model = (TOP / "examples/links.drn").read_bytes()
            report = subprocess.run([*line, *region], input=model, capture_output=True, check=True).stdout
            self.assertEqual(ask([str(VIEW)], [], report).out.count("ticks are rounded"), due, (p, q))

    def test_same_bytes(self) -> None:
        if not os.access(VIEW, os.X_OK) or not os.access(PLIFT, os.X_OK):
            self.skipTest("the quick programs aren't built")
        for number, report in enumerate(self.reports()):
            for words in self.WORDS:
                with self.subTest(report=number, words=words):
                    self.assertEqual(draw(words, report), ask([str(VIEW)], words, report))


if __name__ == "__main__":
    unittest.main()
