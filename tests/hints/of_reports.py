"""Mistakes with reports: what `check` and plift-view are given, and the command line of plift-view."""

import gzip

from table import REPORT, RETRY, Mistake, changed, example

TREE = example("retry-tree.report")
COIN_REPORT = example("coin.report")
THIRD = changed(changed(REPORT, "parameters 2 p q", "parameters 3 p q r"), "box 2 6 1 4", "box 2 6 1 4 0 20")
SVG = b'<svg xmlns="http://www.w3.org/2000/svg"></svg>\n'
SECOND = changed(COIN_REPORT[: COIN_REPORT.index(b"precision")], "plift 1", "plift 2") + (
    b"precision 4\nfrom 1\ndepth 2\ngrid 40\nbox 4 36\nsplit 0\nat 1\naccept 1 2 0\nsplit 0\nunknown\n"
    b"at 4\nreject e 1 k 1 m 1 b 11/16\ny 11 16 0\nchoice 0 - -\nrank 1 0 -\n"
)


def check(text: bytes, fault: str, *told: str) -> Mistake:
    return Mistake("check", text, 1, f"not sound: {fault}", told)


def migrate(text: bytes, fault: str, *told: str) -> Mistake:
    return Mistake("migrate", text, 1, f"not sound: {fault}", told)


def refine(text: bytes, fault: str, *told: str) -> Mistake:
    return Mistake("refine --depth 20", text, 1, f"not sound: {fault}", told)


def retry(old: str, new: str, fault: str, *told: str) -> Mistake:
    """A change of the example retry.report."""
    return check(changed(REPORT, old, new), fault, *told)


def coin(old: str, new: str, fault: str, *told: str) -> Mistake:
    """A change of the example coin.report."""
    return check(changed(COIN_REPORT, old, new), fault, *told)


def second(old: str, new: str, fault: str, *told: str) -> Mistake:
    """A change of a report of version 2."""
    return check(changed(SECOND, old, new), fault, *told)


def view(words: str, usage: str, *told: str, text: bytes = REPORT) -> Mistake:
    return Mistake(words, text, 2, f"usage: {usage}", told, "plift-view")


CHECKED = [
    check(RETRY, "line 1: Syntax", "that is a model text", "verify reads models"),
    check(b"", "line 1: Truncated", "there is no text", "status"),
    check(gzip.compress(REPORT, mtime=0), "line 1: Truncated", "gzip"),
    check(b"\xef\xbb\xbf" + REPORT, "line 1: Syntax", "byte order mark"),
    check(REPORT.decode().encode("utf-16"), "line 1: Syntax", "UTF-16"),
    check(SVG, "line 1: Syntax", "a picture"),
    check(b"sound accept 1 reject 0 unknown 0\n", "line 1: Syntax", "the line that plift check writes"),
    check(REPORT.replace(b"\n", b"\r\n"), "line 1: Syntax", "carriage return", "tr -d"),
    check(changed(REPORT, "plift 1", "plift 3"), "line 1: Version", '"plift 3"', "versions 1 and 2"),
    check(b"plift 1", "line 1: Truncated", "cut off"),
    check(REPORT[: len(REPORT) // 2], "line 19: Truncated", "within line 19", "cut off"),
    check(REPORT[:-1], "line 35: Truncated", "within line 35, without a line feed"),
    check(TREE[: TREE.index(b"unknown")], "line 40: Truncated", "ends behind line 39", "5 nodes"),
    check(REPORT + REPORT, "rest", "a second report begins at line 36", "head -n 35"),
    check(REPORT + b"\n", "rest", "the tree ends with line 35", "a blank line"),
    check(REPORT + b"# checked\n", "rest", "line 36 follows", "# checked"),
    retry("common 1", "common 01", "line 4: Syntax", "no leading zeros"),
    retry("kind mdp", "kind MDP", "line 2: Syntax", "kind dtmc or kind mdp"),
    retry("states 5", "states 5 ", "line 5: Syntax", "one blank"),
    retry("init 0\n", "\ninit 0\n", "line 6: Syntax", "line 6 is blank"),
    retry("bound 3/100", "bound 6/200", "line 30: Syntax", "bound n/d in lowest terms"),
    retry("precision 10\n", "", "line 31: Syntax", "precision and a number"),
    retry("precision 10", "precision 41", "line 31: Limit", "from 1 to 40", "above a limit"),
    retry(
        "to 3 0:1 1:-1",
        "to 3 0:1 1:-2",
        "state 0 choice 0: set 1 sums to -1",
        "the coefficients of p sum to -1",
        "the report was changed",
    ),
    retry("to 3 0:1 1:-1", "to 3 0:2 1:-1", "state 0 choice 0: set 0 sums to 2", "sum to 2, not to 1"),
    retry("box 2 6 1 4", "box 2 60 1 4", "state 0 choice 0: target 3 at corner 1 has weight -40", "1-p is -2 at p = 3"),
    retry("accept 28", "accept 27", "node 0 state 0 choice 0 corner 1: 558 > 540", "node 0 begins at line 35"),
    retry("1024\n", "1023\n", "node 0 goal state 4 value 1023", "node 0 begins at line 35"),
    retry("accept 28 93", "split 0\naccept 28 93", "node 0 depth", "node 0 begins at line 35"),
    retry("bound 3/100", "bound 1/50", "node 0 bound: 1400 > 1024", "node 0 begins at line 35"),
    check(changed(TREE, "split 1", "split 0"), "node 1 axis", "node 1 begins at line 36"),
    coin("rank 1 0 -", "rank 1 0 1", "line 20: Syntax", "rank 0 standing at goal states alone"),
    coin("b 9/16", "b 8/16", "line 20: Syntax"),
    check(b"// mine\n" + REPORT, "line 1: Syntax", '"// mine"', "plift 1"),
    check(REPORT.replace(b" ", b"\t"), "line 1: Syntax", "one blank"),
    retry("row 0 1 2", "row 0 2 2", "line 11: Syntax", "row S A N"),
    retry("row 0 0 2", "row 0 0 3", "line 11: Syntax", "transition 3 of 3"),
    retry("goal 1 4", "goal 0", "line 7: Syntax", "goal, the number of goal states"),
    retry("parameters 2 p q", "parameters 2 p p", "line 3: Syntax", "parameters"),
    retry("depth 0\n", "", "line 32: Syntax", "depth and a number"),
    retry("accept 28", "Accept 28", "line 35: Syntax", "a node: split, accept, reject or unknown"),
    retry("accept 28 93 308 0 1024\n", "", "line 35: Truncated", "0 nodes"),
    retry("accept 28 93", "accept -28 93", "line 35: Limit", "above a limit"),
    retry("goal 1 4", "goal 1 5", "line 7: Limit", "goal, the number of goal states"),
    retry("accept 28", "accept " + "9" * 2**20, "line 35: Limit", "1,048,5"),
    retry("accept 28 93", "accept 93", "line 35: Syntax"),
    coin("y 9 16 0", "y 9 16 1", "node 0 unranked state 2 value 1", "node 0 begins at line 20"),
    coin("b 9/16\ny 9 16 0", "b 16/16\ny 16 16 0", "node 0 state 0 choice 0 corner 0: 160 > 96"),
    coin(
        "reject e 1 k 1 m 1",
        "reject e 0 k 1 m 0",
        "node 0 state 0 choice 0 corner 0: weight 6 times 2^0 < 10",
        "node 0 begins at line 20",
    ),
    coin("bound 1/2", "bound 9/10", "node 0 bound: 90 <= 144"),
    Mistake("", RETRY, 1, "not sound: line 1: Syntax", ("that is a model text",), "plift-view"),
    Mistake("--summary", b"", 1, "not sound: line 1: Truncated", ("there is no text",), "plift-view"),
]

SECONDS = [
    second("from 1\n", "", "line 17: Syntax", "from and a number from 1 to that of the line precision"),
    second("from 1", "from 5", "line 17: Limit", "no precision of the report", "from and a number"),
    second("plift 2", "plift 1", "line 17: Syntax", "only a report of version 2"),
    coin("precision 4\n", "precision 4\nfrom 4\n", "line 17: Syntax", "only a report of version 2"),
    coin("reject", "at 4\nreject", "line 20: Syntax", "only a report of version 2"),
    second("at 1\n", "", "line 22: Syntax", "at U before accept or reject, U being one of 1 to 4"),
    second("at 4\n", "", "line 26: Syntax", "at U before accept or reject"),
    second("at 4", "at 5", "line 26: Limit", "no precision of the report", "one of 1 to 4"),
    second("from 1", "from 2", "line 22: Limit", "no precision of the report", "one of 2 to 4"),
    second("at 4\n", "at 4\nunknown\n", "line 27: Syntax", "accept or reject, whose numbers"),
    second("accept 1 2 0", "accept 1 3 0", "line 23: Limit", "from 0 to 2^U", "above a limit"),
    second("b 11/16", "b 11/32", "line 27: Syntax", "Z 2^U, U being that of the line at"),
    second("accept 1 2 0", "accept 0 2 0", "node 1 state 0 choice 0 corner 0: 8 > 0", "node 1 begins at line 22"),
    second("b 11/16\ny 11", "b 12/16\ny 12", "node 4 state 0 choice 0 corner 0: 480 > 448", "node 4 begins at line 26"),
    check(SECOND[: SECOND.index(b"reject")], "line 27: Truncated", "ends behind line 26", "4 nodes"),
    check(SECOND + SECOND, "rest", "a second report begins at line 31", "head -n 30"),
    check(SECOND + b"# checked\n", "rest", "the tree ends with line 30", "line 31 follows"),
]

STEPS = changed(COIN_REPORT, "plift 1", "plift-bounded 1")
MIGRATED = [
    migrate(SECOND, "line 1: Version", "of version 2 already", "keep it as it is"),
    migrate(SECOND[:-1], "line 1: Version", "of version 2 already"),
    migrate(changed(REPORT, "plift 1", "plift 3"), "line 1: Version", '"plift 3"', "versions 1 and 2"),
    migrate(STEPS, "line 1: Syntax", "a report of plift bounded", "recheck/recheck.py"),
    check(STEPS, "line 1: Syntax", "a report of plift bounded", "recheck/recheck.py"),
    check(
        changed(COIN_REPORT, "plift 1", "plift-property 1"),
        "line 1: Syntax",
        "a text of plift property",
        "recheck/recheck.py",
    ),
    check(b"sound holds 1 fails 0 unknown 0\n", "line 1: Syntax", "the line that plift check writes"),
    migrate(RETRY, "line 1: Syntax", "that is a model text"),
    migrate(b"", "line 1: Truncated", "there is no text"),
    migrate(
        changed(REPORT, "accept 28", "accept 27"),
        "node 0 state 0 choice 0 corner 1: 558 > 540",
        "node 0 begins at line 35",
    ),
    refine(RETRY, "line 1: Syntax", "that is a model text"),
    refine(STEPS, "line 1: Syntax", "a report of plift bounded", "recheck/recheck.py"),
    refine(REPORT + REPORT, "rest", "a second report begins at line 36"),
    Mistake("refine --depth 4", TREE, 2, "usage: --depth", ("goes to depth", "a greater one")),
    migrate(REPORT + REPORT, "rest", "a second report begins at line 36"),
]

VIEWED = [
    view("retry.report", "words", "a file is given by <", "plift-view < retry.report"),
    view("--help", "words", "plift-view --help"),
    view("summary", "words", "is --summary meant?"),
    view("-summary", "words", "is --summary meant?"),
    view("--sumary", "words", "is --summary meant?"),
    view("--summary --follow", "words", "--summary stands alone"),
    view("--summary --x p", "words", "--summary stands alone, without --x"),
    view("-o picture.svg", "words", "> picture.svg"),
    view("--x p --x q", "words", "--x stands 2 times"),
    view("--x", "words", "--x has no value"),
    view("--x --y q", "words", "--x has no value"),
    view("p=1/4", "words", "--at p=1/4"),
    view("--summary=yes", "words", "takes no value"),
    view("--png", "words", "is no option"),
    view("--x P", "--x UnknownName", "no such parameter", "p, q", "is p meant?"),
    view("--y r", "--y UnknownName", "p, q"),
    view("--x p --y p", "--y Repeated", "both"),
    view("--at q", "--at 1 Syntax", "NAME=VALUE", "--at q=1/4"),
    view("--at q=half", "--at 1 Syntax", '"half" is no number'),
    view("--at q=1e-30", "--at 1 Syntax", "too wide"),
    view("--x p --y q --at r=2", "--at 1 Outside", "r from 0 to 1", text=THIRD),
    view("--at r=1/2 --at r=1/3", "--at 2 Repeated", "r has a value already", text=THIRD),
    view("--x p --y q --at r=.5", "--at 1 Syntax", '".5" is no number', text=THIRD),
    view("--x ''", "--x UnknownName", "no such parameter"),
    view("--at =1/2", "--at 1 UnknownName", "no such parameter"),
    view("--x p -- q", "words", "is no option"),
    view("--X p", "words", "is --x meant?"),
    view("--at p = 1/2", "words", "all words of plift-view are options"),
    view("p q", "words", "all words of plift-view are options"),
    view("--follow=1", "words", "takes no value"),
    view("--follow --follow", "words", "stands 2 times"),
    view("--x p --at r=1/2", "--at 1 UnknownName", "no such parameter", "p, q"),
    view("--at q=1/10", "--at 1 Repeated", "lies on an axis", "--x"),
    view("--x p --at p=1/10", "--at 1 Repeated", "lies on the axis --x"),
    view("--x p --y q --at q=1/10", "--at 1 Repeated", "lies on the axis --y"),
]

MISTAKES = CHECKED + SECONDS + MIGRATED + VIEWED
