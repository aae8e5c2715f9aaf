"""Hints for `not sound: ..`: of which kind the fault is, and where it stands."""

from __future__ import annotations

import re
from typing import List, Optional

from hints.kinds import kind_of, told_of
from hints.refusal import Refusal
from hints.report import AT, HEAD, LEAF, NODES, Report, end_of_tree, key_at, line_of_node, read_report, report_row
from hints.rows import Around, fault_hints
from hints.told import counted, shown

MOST_LINE = 2**20
REJECT = (
    "reject e E k K m M b Y/Z, M being E times K, Y the initial state's number in the line y, Z 2^%s, and rank 0"
    " standing at goal states alone"
)
AGAIN = "the report was changed, or isn't plift's: don't use it, and run verify again"
FORMS = {
    b"plift": "plift 1 or plift 2",
    b"kind": "kind dtmc or kind mdp",
    b"parameters": "parameters, their number and their names",
    b"common": "common and a number from 1",
    b"states": "states and a number from 1",
    b"init": "init and a state",
    b"goal": "goal, the number of goal states, and the states in ascending order",
    b"bound": "bound n/d in lowest terms",
    b"precision": "precision and a number from 1 to 40",
    b"from": "from and a number from 1 to that of the line precision",
    b"depth": "depth and a number from 0 to 20",
    b"grid": "grid and a number from 1",
    b"box": "box and the low and the high end of each parameter",
}


def of_text(text: bytes) -> List[str]:
    """What the text is, where it isn't a report."""
    kind = kind_of(text)
    if kind == "model":
        return ["that is a model text", "verify reads models; check and plift-view read the report that verify writes"]
    if kind in ("prism", "jani"):
        return ["that looks like a model", "check and plift-view read the report that plift verify writes"]
    if kind == "empty":
        refused = "what should have written the report was refused or stopped"
        return ["there is no text", f"{refused}: look at its status, in a pipe with set -o pipefail"]
    return [] if kind == "report" else told_of(kind)


def due_at(report: Report, number: int) -> Optional[str]:
    """What a line has to be, by the line before it."""
    if number <= len(HEAD):
        return FORMS[HEAD[number - 1]]
    if number > len(report.lines) + 1:
        return None
    before, key, tail = key_at(report, number - 1), key_at(report, number), report.tail()
    if key == b"reject" and (before == AT or not report.is_second()):
        return REJECT % ("U, U being that of the line at" if report.is_second() else "precision")
    if before in tail[:-1]:
        return FORMS[tail[tail.index(before) + 1]]
    if before in LEAF[:-1]:
        return f"{LEAF[LEAF.index(before) + 1].decode()} and a word for each state"
    if before == AT and report.is_second():
        return "accept or reject, whose numbers are from 0 to 2^U"
    if before in (b"box", b"split", b"accept", b"unknown", b"rank"):
        return node_forms(report)
    return of_rows(report, number) if before in (b"row", b"to", b"goal") else None


def node_forms(report: Report) -> str:
    """What begins a node."""
    if not report.is_second():
        return "a node: split, accept, reject or unknown"
    least, most = report.number(b"from"), report.number(b"precision")
    precisions = f"{least} to {most}" if least and most else "those of the lines from and precision"
    return f"a node: split, unknown, or at U before accept or reject, U being one of {precisions}"


def of_rows(report: Report, number: int) -> Optional[str]:
    """What a line among the rows has to be, by the count of the row before it."""
    row = next((at for at in range(number - 1, 0, -1) if not report.lines[at - 1].startswith(b"to ")), 0)
    words = report.lines[row - 1].split(b" ")
    is_row = words[0] == b"row" and len(words) == 4 and re.fullmatch(rb"[0-9]{1,9}", words[3])
    if is_row and number - row <= int(words[3]):
        return f"transition {number - row} of {int(words[3])}: to T and its terms M:c"
    return "row S A N for the next state or choice, or bound n/d in lowest terms behind the last one"


def spelling(line: bytes) -> List[str]:
    """What is wrong with the spelling of a line, and what to do."""
    if line.endswith(b"\r"):
        return ["it ends with a carriage return", "tr -d '\\r' < FILE takes them out"]
    if b"\t" in line or b"  " in line or line != line.strip(b" "):
        return ["between words stands one blank, and none at the end", AGAIN]
    if re.search(rb"(?<![0-9A-Za-z_])[-+]?0[0-9]", line) or b"+" in line:
        return ["numbers have no leading zeros and no +", AGAIN]
    return []


def syntax_hints(text: bytes, number: int) -> List[str]:
    """What stands at a line, and what should."""
    told = of_text(text)
    if number == 1 and told:
        return told
    report = read_report(text)
    if number > len(report.lines):
        return []
    line = report.lines[number - 1]
    why, due = spelling(line), due_at(report, number)
    if why:
        return [f"line {number}: {shown(line)}: {why[0]}", why[1]]
    if not line:
        return [f"line {number} is blank, and a report has no blank lines", AGAIN]
    if key_at(report, number) in (b"from", AT) and not report.is_second():
        return [f"line {number}: {shown(line)}: only a report of version 2 (plift 2 in line 1) has such a line", AGAIN]
    return [f"line {number}: {shown(line)}" + (f"; what is due there: {due}" if due else ""), AGAIN]


def limit_hints(text: bytes, number: int) -> List[str]:
    """Which line is above a limit."""
    report = read_report(text)
    if not 0 < number <= len(report.lines) or kind_of(text) != "report":
        return of_text(text)
    line, due = report.lines[number - 1], due_at(report, number)
    if len(line) > MOST_LINE:
        return [f"line {number} has {len(line):,} bytes, and at most {MOST_LINE:,} are taken", AGAIN]
    is_precision = key_at(report, number) in (b"from", AT)
    why = "that is no precision of the report" if is_precision else "a number or a name is above a limit"
    what = f"line {number}: {shown(line)}: {why}"
    return [what + (f"; what is due there: {due}" if due else ""), AGAIN]


def truncated_hints(text: bytes, number: int) -> List[str]:
    """Where the text ends."""
    if kind_of(text) != "report":
        return of_text(text)
    report = read_report(text)
    if number != len(report.lines) + text.endswith(b"\n"):
        return []  # it isn't the text that was read
    if not text.endswith(b"\n"):
        what = f"the text ends within line {number}, without a line feed"
    else:
        what = f"the text ends behind line {number - 1}, and more lines are due"
    if report.first_node():
        nodes = sum(line.split(b" ", 1)[0] in NODES for line in report.lines[report.first_node() - 1 :])
        what += f"; it has {counted(nodes, 'node')} of its tree"
    return [what, "it was cut off: was verify stopped, or the disk full? run verify again, and look at its status"]


def rest_hints(text: bytes) -> List[str]:
    """What follows the last node."""
    report = read_report(text)
    second = next((i for i, line in enumerate(report.lines[1:], 2) if re.fullmatch(rb"plift [0-9]+\r?", line)), None)
    if second:
        return [f"a second report begins at line {second}", f"check one at a time, as by head -n {second - 1} FILE"]
    last = end_of_tree(report)
    if not last or last >= len(report.lines):
        return []
    line = report.lines[last]
    return [f"the tree ends with line {last}, and line {last + 1} follows: {shown(line) if line else 'a blank line'}"]


def version_hints(text: bytes, command: str) -> List[str]:
    """Which version it is."""
    line = text.split(b"\n", 1)[0]
    if command == "migrate" and line == b"plift 2":
        what = "line 1 is plift 2: the report is of version 2 already, and migrate takes version 1"
        return [what, "keep it as it is: check, plift-view and plift-lab read both versions"]
    what = f"line 1 is {shown(line)}, and this plift reads versions 1 and 2"
    return [what, "check it with a plift that reads that version"]


def row_hints(text: bytes, state: int, choice: int, fault: str) -> List[str]:
    """What is wrong with a row of the report."""
    report = read_report(text)
    row = report_row(report, state, choice)
    told = fault_hints(row, fault, Around(report.box(), lambda: None)) if row else []
    return told[:1] + [AGAIN] if told else []


def node_hints(text: bytes, node: int) -> List[str]:
    """Where the node stands."""
    line = line_of_node(read_report(text), node)
    return [f"node {node} begins at line {line}"] if line else []


def unsound_hints(refusal: Refusal, fault: str) -> List[str]:
    """What is wrong with a report."""
    if refusal.text is None:
        return []
    match = re.fullmatch(r"line ([0-9]{1,9}): ([A-Za-z]+)", fault)
    if match:
        number, cause = int(match[1]), match[2]
        told = of_text(refusal.text) if number == 1 else []
        if cause == "Syntax":
            return syntax_hints(refusal.text, number)
        if cause == "Truncated":
            return truncated_hints(refusal.text, number)
        if cause == "Version":
            return version_hints(refusal.text, refusal.command())
        return limit_hints(refusal.text, number) if cause == "Limit" else told
    match = re.fullmatch(r"state ([0-9]{1,6}) choice ([0-9]{1,6}): (.*)", fault)
    if match:
        return row_hints(refusal.text, int(match[1]), int(match[2]), match[3])
    match = re.match(r"node ([0-9]{1,9}) ", fault)
    if match:
        return node_hints(refusal.text, int(match[1]))
    return rest_hints(refusal.text) if fault == "rest" else []
