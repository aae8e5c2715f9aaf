"""Texts and refusals of `property` that were worked out by hand, and what it says of the examples, beside `verify`."""

import re
import unittest

from asking import Answer, TOP, ask, checked, has_program, line_of

COIN = (TOP / "examples" / "coin.drn").read_bytes()
# Either of two choices shows heads with p, or with the rest.
TWIN = b"""@type: MDP
@parameters
p
@model
state 0 init
action a
1 : p
2 : 1-p
action b
1 : 1-p
2 : p
state 1 heads
1 : 1
state 2 tails
2 : 1
"""
# From 0 to 1 and on to 2, or to 3; the row of 1 is no distribution, and that of 3 is only one where q is small.
ROAD = b"""@type: MDP
@parameters
p q
@model
state 0 init road
1 : p
3 : 1-p
state 1 ditch
1 : 1/2
2 : p
state 2 home
2 : 1
state 3 road
2 : 1/2+q
3 : 1/2-q
"""
ENDS = "3/5<=p<=9/10"

# A formula of the coin or the twin, the region, depth and precision, and the nodes.
NODES = [
    (COIN, 'P>=1/2 [ F "heads" ]', ENDS, "0", "4", "holds;lower e 1 k 1 m 1 b 9/16;y 9 16 0;rank 1 0 -"),
    (TWIN, 'P>=1/2 [ F "heads" ]', ENDS, "0", "4", "fails;x 7 16 0;choice 1 - 0"),
    (COIN, 'P<=1/2 [ "heads" U "heads" ]', ENDS, "0", "4", "holds;x 0 16 0"),
    (COIN, 'P<1 [ F "heads" ]', ENDS, "0", "4", "holds;x 15 16 0"),
    (COIN, 'P<=15/16 [F "heads"]', ENDS, "0", "4", "holds;x 15 16 0"),
    (COIN, 'P<15/16 [F "heads"]', ENDS, "0", "4", "unknown"),
    (COIN, 'P<=1/2[F"heads"]', ENDS, "0", "4", "fails;lower e 1 k 1 m 1 b 9/16;y 9 16 0;choice 0 - -;rank 1 0 -"),
    (COIN, 'P<9/16 [F "heads"]', ENDS, "0", "4", "fails;lower e 1 k 1 m 1 b 9/16;y 9 16 0;choice 0 - -;rank 1 0 -"),
    (COIN, 'P<=9/16 [F "heads"]', ENDS, "0", "4", "unknown"),
    (COIN, 'P>=9/16 [F "heads"]', ENDS, "0", "4", "holds;lower e 1 k 1 m 1 b 9/16;y 9 16 0;rank 1 0 -"),
    (COIN, 'P>9/16 [F "heads"]', ENDS, "0", "4", "unknown"),
    (COIN, 'P>15/16 [F "heads"]', ENDS, "0", "4", "fails;x 15 16 0;choice 0 - 0"),
    (COIN, 'P>=15/16 [F "heads"]', ENDS, "0", "4", "unknown"),
    (COIN, 'P\t>= 0  ["heads" U  "heads" ]', ENDS, "0", "4", "holds;lower e 0 k 1 m 0 b 0/16;y 0 16 0;rank - 0 -"),
    (COIN, 'P<0 [F "heads"]', ENDS, "0", "1", "fails;lower e 1 k 1 m 1 b 1/2;y 1 2 0;choice 0 - -;rank 1 0 -"),
    (COIN, 'P>0.5 [F "heads"]', "0<=p<=1", "1", "2", "split 0;fails;x 2 4 0;choice 0 - 0;unknown"),
    (
        TWIN,
        'P<=1/2 [F "heads"]',
        "0<=p<=1",
        "2",
        "3",
        "split 0;split 0;fails;lower e 1 k 1 m 1 b 6/8;y 6 8 0;choice 1 - -;rank 1 0 -;unknown;"
        "split 0;unknown;fails;lower e 1 k 1 m 1 b 6/8;y 6 8 0;choice 0 - -;rank 1 0 -",
    ),
    # The initial state is a goal state.
    (
        TWIN.replace(b"0 init", b"0 init heads"),
        'P>=1 [ "tails" U "heads" ]',
        ENDS,
        "0",
        "4",
        "holds;lower e 0 k 1 m 0 b 16/16;y 16 16 0;rank 0 0 -",
    ),
]

FORMULA = 'P<=1/2 [F "heads"]'
REFUSED = [
    (["property"], COIN, 2, "usage: words"),
    (["property", "--formula"], COIN, 2, "usage: words"),
    (["property", "--formula="], COIN, 2, "usage: words"),
    (["property", "--formula", FORMULA, "--formula", FORMULA], COIN, 2, "usage: words"),
    (["property", "--formula", FORMULA, "--goal", "heads"], COIN, 2, "usage: words"),
    (["property", "--formula", FORMULA, "--bound", "1/2"], COIN, 2, "usage: words"),
    (["property", "--formula", FORMULA, "--from", "1", "--from", "2"], COIN, 2, "usage: words"),
    (["property", "--formula", FORMULA, "--from", "0"], COIN, 2, "usage: --from"),
    (["property", "--from", "25", "--formula", FORMULA], COIN, 2, "usage: --from"),
    (["property", "--from", "5", "--formula", FORMULA, "--precision", "4"], COIN, 2, "usage: --from"),
    (["property", "--from", "0", "--formula", FORMULA, "--precision", "41"], COIN, 2, "usage: --precision"),
    (["property", "--from", "0", "--formula", "P<=1/2"], COIN, 2, "usage: --formula Syntax"),
    (["property", "--formula", FORMULA, "--steps", "1"], COIN, 2, "usage: words"),
    (["property", "--goal", "heads", "--bound", "1/2"], COIN, 2, "usage: words"),
    (["verify", "--formula", FORMULA], COIN, 2, "usage: words"),
    (["property", "--formula", 'P<=1/2 F "heads"'], COIN, 2, "usage: --formula Syntax"),
    (["property", "--formula", ' P<=1/2 [F "heads"]'], COIN, 2, "usage: --formula Syntax"),
    (["property", "--formula", 'P<=1/2 [F "heads"] '], COIN, 2, "usage: --formula Syntax"),
    (["property", "--formula", 'P<= 1 / 2 [F "heads"]'], COIN, 2, "usage: --formula Syntax"),
    (["property", "--formula", 'P< =1/2 [F "heads"]'], COIN, 2, "usage: --formula Syntax"),
    (["property", "--formula", 'P=1/2 [F "heads"]'], COIN, 2, "usage: --formula Syntax"),
    (["property", "--formula", 'P<=1/2 [F heads]'], COIN, 2, "usage: --formula Syntax"),
    (["property", "--formula", 'P<=1/2 [F ""]'], COIN, 2, "usage: --formula Syntax"),
    (["property", "--formula", 'P<=1/2 [U "heads"]'], COIN, 2, "usage: --formula Syntax"),
    (["property", "--formula", 'P<=1/2 ["heads" "heads"]'], COIN, 2, "usage: --formula Syntax"),
    (["property", "--formula", 'P<=1/2 [F "heads"'], COIN, 2, "usage: --formula Syntax"),
    (["property", "--formula", 'P<=2 F'], COIN, 2, "usage: --formula Syntax"),
    (["property", "--formula", 'P<=1/0 [F "heads"]'], COIN, 2, "usage: --formula Bound"),
    (["property", "--formula", 'P<=2 [F "heads"]'], COIN, 2, "usage: --formula Bound"),
    (["property", "--formula", 'P>1/4294967296 [F "heads"]'], COIN, 2, "usage: --formula Bound"),
    (["property", "--formula", 'P>1e-40 [F "heads"]'], COIN, 2, "usage: --formula Bound"),
    (
        ["property", "--depth", "21", "--precision", "0", "--formula", 'P<=1/0 [F "heads"]'],
        COIN,
        2,
        "usage: --formula Bound",
    ),
    (["property", "--precision", "0", "--depth", "21", "--formula", FORMULA], COIN, 2, "usage: --depth"),
    (["property", "--precision", "0", "--formula", FORMULA], COIN, 2, "usage: --precision"),
    (["property", "--region", ENDS, "--formula", 'P<=1/2 [F "tails"]'], COIN, 3, "model: line {LAST}: UnknownLabel"),
    (
        ["property", "--region", ENDS, "--formula", 'P<=1/2 ["tails" U "heads"]'],
        COIN,
        3,
        "model: line {LAST}: UnknownLabel",
    ),
    (
        ["property", "--region", ENDS, "--formula", 'P<=1/2 ["heads" U "tails"]'],
        COIN,
        3,
        "model: line {LAST}: UnknownLabel",
    ),
    (
        ["property", "--region", "x", "--formula", 'P<=1/2 ["tails" U "heads"]'],
        COIN,
        3,
        "model: line {LAST}: UnknownLabel",
    ),
    (["property", "--region", "x", "--formula", FORMULA], COIN, 2, "usage: --region Syntax"),
    (["property", "--formula", FORMULA], COIN, 2, "usage: --region Missing"),
    (
        ["property", "--region", "0<=p<=2", "--formula", FORMULA],
        COIN,
        4,
        "rows: state 0 choice 0: target 2 at corner 1 has weight -1",
    ),
    (
        ["property", "--region", "0<=p<=1,0<=q<=1/2", "--formula", 'P<=1/2 [F "home"]'],
        ROAD,
        4,
        "rows: state 1 choice 0: set 0 sums to 1",
    ),
    (
        ["property", "--region", "0<=p<=1,0<=q<=1", "--formula", 'P<=1/2 ["road" U "home"]'],
        ROAD,
        4,
        "rows: state 3 choice 0: target 3 at corner 1 has weight -1",
    ),
    # A row without entries stays, and is none.
    (
        ["property", "--region", "0<=p<=1,0<=q<=1/2", "--formula", 'P<=1/2 ["road" U "home"]'],
        ROAD.replace(b"state 2", b"action none\nstate 2"),
        4,
        "rows: state 1 choice 1: set 0 sums to 0",
    ),
]


class Table(unittest.TestCase):
    """The program's answers."""

    def setUp(self) -> None:
        if not has_program():
            self.skipTest("no program is built")

    def test_nodes(self) -> None:
        for model, formula, region, depth, precision, nodes in NODES:
            with self.subTest(formula=formula, region=region):
                words = line_of("property", formula=formula, region=region, depth=depth, precision=precision)
                answer = ask(words, model)
                self.assertEqual((answer.status, answer.note), (0, b""))
                self.assertEqual(answer.out.decode().split("\nbox ")[1].splitlines()[1:], nodes.split(";"))

    def test_refusals(self) -> None:
        for words, model, status, note in REFUSED:
            with self.subTest(words=words):
                last = len(model.splitlines())
                self.assertEqual(
                    ask(words, model), Answer(status, b"", f"{note}\n".replace("{LAST}", str(last)).encode())
                )

    def test_rows_are_those_after_the_cut(self) -> None:
        """The row of state 1, which is no distribution, is cut: there each choice stays."""
        words = [
            "property",
            "--formula",
            'P<=1/2 ["road" U "home"]',
            "--region",
            "0<=p<=1,0<=q<=1/2",
            "--precision",
            "3",
        ]
        answer = ask(words, ROAD)
        self.assertEqual((answer.status, answer.note), (0, b""))
        model = answer.out.decode().split("\nproperty ")[0]
        self.assertTrue(
            model.endswith("row 1 0 1\nto 1 0:2\nrow 2 0 1\nto 2 0:2\nrow 3 0 2\nto 2 0:1 2:2\nto 3 0:1 2:-2"), model
        )
        self.assertTrue(
            model.startswith("plift-property 1\nkind mdp\nparameters 2 p q\ncommon 2\nstates 4\ninit 0\ngoal 1 2\n"),
            model,
        )

    def test_each_text_is_sound(self) -> None:
        for model, formula, region, depth, precision, nodes in NODES:
            words = ["property", "--formula", formula, "--region", region, "--depth", depth, "--precision", precision]
            counts = " ".join(f"{kind} {nodes.split(';').count(kind)}" for kind in ("holds", "fails", "unknown"))
            self.assertEqual(checked(ask(words, model).out), f"sound {counts}")

    def test_at_most_is_what_verify_asks(self) -> None:
        """With `<=` and `F` the tree and its numbers are those of `verify`, in other words, for a range of precisions
        too."""
        for path in sorted((TOP / "examples").glob("*.drn")):
            model = path.read_bytes()
            names = re.findall(rb"^@parameters\n(.*)$", model, re.M)
            region = ",".join(f"1/10<={name}<=2/5" for name in (names[0].decode().split() if names else []))
            for goal in sorted(
                set(re.findall(r"[a-z]+", " ".join(re.findall(r"^state \d+ (.*)$", model.decode(), re.M))))
            ):
                for bound, depth, *range_words in ASKED:
                    options = ["--depth", depth, *range_words] + (["--region", region] if region else [])
                    report = ask(["verify", "--goal", goal, "--bound", bound, *options], model)
                    text = ask(["property", "--formula", f'P<={bound} [F "{goal}"]', *options], model)
                    with self.subTest(model=path.name, goal=goal, bound=bound):
                        self.assertEqual((text.status, text.note), (report.status, report.note))
                        self.assertEqual(in_words_of_property(report.out), text.out)


# Of `verify` and `property`: a bound, a depth, and the words for precisions.
ASKED = (
    ("1/2", "0", "--precision", "24"),
    ("1/5", "4", "--precision", "10"),
    ("1/50", "5", "--precision", "7"),
    ("1/5", "4", "--precision", "10", "--from", "1"),
    ("1/50", "5", "--from", "6", "--precision", "7"),
)


def in_words_of_property(report: bytes) -> bytes:
    """A report in the words of a property with `<=`."""
    changes = [
        (rb"plift ([12])$", rb"plift-property \1"),
        (b"bound ", b"property <= "),
        (b"accept ", b"holds\nx "),
        (b"reject ", b"fails\nlower "),
    ]
    for old, new in changes:
        report = re.sub(rb"^" + old, new, report, flags=re.M)
    return report


if __name__ == "__main__":
    unittest.main()
