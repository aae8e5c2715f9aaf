"""Texts and refusals of `cost` that were worked out by hand."""

import unittest
from typing import List

import priced  # noqa: F401 (finds the modules of tests/property)
from asking import TOP, Answer, ask, checked, has_program, line_of

LOOP = (TOP / "examples" / "loop.drn").read_bytes()
PRICED = LOOP.replace(b"@model", b"@reward_models\nsteps\n@model").replace(b"state 0 init", b"state 0 [1] init")
EXPORT = (TOP / "examples" / "export.drn").read_bytes()
SENDS = (TOP / "examples" / "sends.drn").read_bytes()
ENDS, RATES = "1/5<=p<=2/5", "1/10<=p<=3/10,1/20<=q<=1/5"


def groups(*values: str) -> bytes:
    """The loop with these groups behind the numbers of its states."""
    text = LOOP.replace(b"@model", b"@reward_models\nsteps hops\n@model")
    for s, value in enumerate(values):
        text = text.replace(b"state %d" % s, b"state %d %s" % (s, value.encode()))
    return text


def words(
    reward: str, budget: str, cap: str, region: str = ENDS, goal: str = "heads", depth: str = "0", precision: str = "4"
) -> List[str]:
    """A line of `cost`."""
    return line_of(
        "cost", goal=goal, reward=reward, budget=budget, cap=cap, region=region, depth=depth, precision=precision
    )


# A text, the words, and what stands behind the rows, but for precision, depth, grid and box.
TEXTS = [
    (PRICED, words("steps", "2", "4"), "cost 1/1 0/1 0/1;cap 4;budget 2/1;accept 8 0 0"),
    (PRICED, words("steps", "1", "4"), "cost 1/1 0/1 0/1;cap 4;budget 1/1;unknown"),
    (PRICED, words("steps", "2.0", "0000000004"), "cost 1/1 0/1 0/1;cap 4;budget 2/1;accept 8 0 0"),
    (PRICED, words("steps", "18/9", "2"), "cost 1/1 0/1 0/1;cap 2;budget 2/1;accept 16 0 0"),
    (PRICED, words("steps", "1", "1"), "cost 1/1 0/1 0/1;cap 1;budget 1/1;unknown"),
    (
        PRICED,
        words("steps", "4294967295", "4294967295"),
        "cost 1/1 0/1 0/1;cap 4294967295;budget 4294967295/1;accept 2 0 0",
    ),
    (PRICED, words("steps", "536870911", "4294967295"), "cost 1/1 0/1 0/1;cap 4294967295;budget 536870911/1;unknown"),
    (PRICED.replace(b"steps", b'"steps"'), words("steps", "2", "4"), "cost 1/1 0/1 0/1;cap 4;budget 2/1;accept 8 0 0"),
    (PRICED.replace(b"steps", b"[a]"), words("[a]", "2", "4"), "cost 1/1 0/1 0/1;cap 4;budget 2/1;accept 8 0 0"),
    (
        PRICED.replace(b"steps", b"no steps steps").replace(b"[1]", b"[0,1,7]"),
        words("steps", "2", "4"),
        "cost 1/1 0/1 0/1;cap 4;budget 2/1;accept 8 0 0",
    ),
    (EXPORT, words("steps", "2", "4"), "cost 1/1 0/1 0/1;cap 4;budget 2/1;unknown"),
    # The goal's own cost counts for nothing; that of a state that is never left is paid for ever, reached or not.
    (groups("[1,0]", "[9,0]", "[0,0]"), words("steps", "2", "4"), "cost 1/1 9/1 0/1;cap 4;budget 2/1;accept 8 0 0"),
    (groups("[1,0]", "[9,0]", "[0,0]"), words("hops", "0", "4"), "cost 0/1 0/1 0/1;cap 4;budget 0/1;accept 0 0 0"),
    (groups("[0,0]", "", "[0,1/1000]"), words("hops", "4", "4"), "cost 0/1 0/1 1/1000;cap 4;budget 4/1;unknown"),
    (groups("[0,1.5]"), words("hops", "7/2", "4"), "cost 3/2 0/1 0/1;cap 4;budget 7/2;accept 12 0 0"),
    (groups("[ 0\t,\t10/6 ]"), words("hops", "7/2", "4"), "cost 5/3 0/1 0/1;cap 4;budget 7/2;accept 14 0 0"),
    (
        groups("[0,1e-18]"),
        words("hops", "1/2", "4"),
        "cost 1/1000000000000000000 0/1 0/1;cap 4;budget 1/2;accept 2 0 0",
    ),
    (
        SENDS,
        words("sends", "7/5", "3", RATES, "done", precision="10"),
        "cost 1/1 1/1 1/1 0/1 0/1;cap 3;budget 7/5;accept 476 445 342 0 0",
    ),
    (
        SENDS,
        words("seconds", "2", "4", RATES, "done", precision="10"),
        "cost 1/1 2/1 4/1 0/1 0/1;cap 4;budget 2/1;accept 502 820 1024 0 0",
    ),
    (
        SENDS,
        words("sends", "13/10", "3", RATES, "done", "1", "10"),
        "cost 1/1 1/1 1/1 0/1 0/1;cap 3;budget 13/10;split 0;accept 425 411 342 0 0;unknown",
    ),
]

ASKED = words("steps", "2", "4")
USAGE = [
    (["cost"], "words"),
    (ASKED[:1] + ASKED[3:], "words"),
    (ASKED[:3] + ASKED[5:], "words"),
    (ASKED[:5] + ASKED[7:], "words"),
    (ASKED[:7] + ASKED[9:], "words"),
    ([*ASKED, "--bound", "1/2"], "words"),
    ([*ASKED, "--formula", 'P<=1/2 [F "heads"]'], "words"),
    ([*ASKED, "--steps", "3"], "words"),
    ([*ASKED, "--from", "1"], "words"),
    ([*ASKED, "--cap", "4"], "words"),
    (["verify", "--goal", "heads", "--bound", "1/2", "--reward", "steps"], "words"),
    (["bounded", "--goal", "heads", "--bound", "1/2", "--steps", "1", "--budget", "1"], "words"),
    (["lumped", "--goal", "heads", "--bound", "1/2", "--cap", "1"], "words"),
    (["property", "--formula", 'P<=1/2 [F "heads"]', "--cap", "1"], "words"),
    (words("my steps", "9", "0", depth="21", precision="0", goal="\t"), "--goal"),
    (words("my steps", "9", "0", depth="21", precision="0"), "--depth"),
    (words("my steps", "9", "0", precision="0"), "--precision"),
    (words("my steps", "9", "0"), "--reward"),
    (words("", "9", "0"), "--reward"),
    (words("st\u00e9ps", "9", "0"), "--reward"),
    (words("steps", "9", "0"), "--cap"),
    (words("steps", "9", "4294967296"), "--cap"),
    (words("steps", "9", "00000000004"), "--cap"),
    (words("steps", "9", "4/1"), "--cap"),
    (words("steps", "9", "4"), "--budget"),
    (words("steps", "4.000000001", "4"), "--budget"),
    (words("steps", "1/4294967296", "4"), "--budget"),
    (words("steps", "1/0", "4"), "--budget"),
    (words("steps", "1 / 2", "4"), "--budget"),
    (words("steps", "1e-19", "4"), "--budget"),
]
MODELS = [
    (PRICED, words("time", "2", "4"), "line 14: UnknownReward"),
    (PRICED, words("Steps", "2", "4"), "line 14: UnknownReward"),
    (LOOP, ASKED, "line 12: UnknownReward"),
    (PRICED, words("time", "2", "4", goal="tails"), "line 14: UnknownLabel"),
    (
        PRICED.replace(b"1 : 1\n", b"1 : 1/4000000007\n").replace(b"2 : 1\n", b"2 : 1/4000000009\n"),
        words("time", "2", "4"),
        "line 14: UnknownReward",
    ),
    (
        PRICED.replace(b"1 : 1\n", b"1 : 1/4000000007\n").replace(b"2 : 1\n", b"2 : 1/4000000009\n"),
        ASKED,
        "line 14: CommonDenominator",
    ),
    (PRICED.replace(b"[1]", b"[1,2]"), ASKED, "line 7: RewardSyntax"),
    (PRICED.replace(b"[1]", b"[]"), ASKED, "line 7: RewardSyntax"),
    (PRICED.replace(b"[1]", b"[-1]"), ASKED, "line 7: RewardSyntax"),
    (PRICED.replace(b"[1]", b"[p]"), ASKED, "line 7: RewardSyntax"),
    (PRICED.replace(b"[1]", b"[1/0]"), ASKED, "line 7: RewardSyntax"),
    (PRICED.replace(b"[1]", b"[1 2]"), ASKED, "line 7: RewardSyntax"),
    (PRICED.replace(b"steps\n", b"\n"), ASKED, "line 7: RewardSyntax"),
    (PRICED.replace(b"steps\n", b"\n").replace(b"[1]", b"[ ]"), ASKED, "line 14: UnknownReward"),
    (PRICED.replace(b"[1]", b"[1e19]"), ASKED, "line 7: RewardWide"),
    (PRICED.replace(b"[1]", b"[1e18/1e-18]"), ASKED, "line 7: RewardWide"),
    (PRICED.replace(b"0 : 1/2", b"action [1]\n0 : 1/2"), ASKED, "line 8: ActionReward"),
    (PRICED.replace(b"0 : 1/2", b"action go [0,0]\n0 : 1/2"), ASKED, "line 8: RewardSyntax"),
    (PRICED.replace(b"0 : 1/2", b"action go [1e19]\n0 : 1/2"), ASKED, "line 8: RewardWide"),
    # A reward of an action that isn't asked for isn't taken either.
    (groups("[1,0]").replace(b"0 : 1/2", b"action go [0,1]\n0 : 1/2"), ASKED, "line 8: ActionReward"),
    (PRICED.replace(b"steps", b'"steps'), ASKED, "line 5: OpenQuote"),
]
OTHERS = [
    (PRICED, words("steps", "2", "4", "x"), 2, "usage: --region Syntax"),
    (PRICED, words("time", "2", "4", "x"), 3, "model: line 14: UnknownReward"),
    (PRICED, words("steps", "2", "4", "0<=p<=2"), 4, "rows: state 0 choice 0: target 2 at corner 1 has weight -1"),
]


class Table(unittest.TestCase):
    """The program's answers."""

    def setUp(self) -> None:
        if not has_program():
            self.skipTest("no program is built")

    def test_texts(self) -> None:
        for model, line, told in TEXTS:
            with self.subTest(words=line):
                answer = ask(line, model)
                self.assertEqual((answer.status, answer.note), (0, b""))
                head, behind = answer.out.decode().split("\ncost ")
                self.assertTrue(head.startswith("plift-cost 1\nkind "))
                lines = f"cost {behind}".splitlines()
                self.assertEqual(lines[:3] + lines[7:], told.split(";"))
                accepting = told.count("accept")
                self.assertEqual(checked(answer.out), f"sound accept {accepting} unknown {told.count('unknown')}")

    def test_usage(self) -> None:
        for line, note in USAGE:
            with self.subTest(words=line):
                self.assertEqual(ask(line, PRICED), Answer(2, b"", f"usage: {note}\n".encode()))

    def test_models(self) -> None:
        for model, line, note in MODELS:
            with self.subTest(note=note, model=model):
                self.assertEqual(ask(line, model), Answer(3, b"", f"model: {note}\n".encode()))

    def test_other_refusals(self) -> None:
        for model, line, status, note in OTHERS:
            with self.subTest(note=note):
                self.assertEqual(ask(line, model), Answer(status, b"", f"{note}\n".encode()))

    def test_the_model_is_the_one_that_is_verified(self) -> None:
        """Up to the costs the lines are those of a report, whose version they tell otherwise."""
        for model, line, _ in TEXTS:
            goal, region = line[line.index("--goal") + 1], line[line.index("--region") + 1]
            report = ask(["verify", "--goal", goal, "--bound", "1", "--region", region], model).out.decode()
            text = ask(line, model).out.decode()
            self.assertEqual(
                text.split("\ncost ")[0], report.split("\nbound ")[0].replace("plift 1", "plift-cost 1", 1)
            )


if __name__ == "__main__":
    unittest.main()
