"""A report, read as far as a hint needs it."""

from __future__ import annotations

import re
from fractions import Fraction
from typing import Dict, List, NamedTuple, Optional, Tuple

from hints.rows import Entry, Row
from hints.value import Polynomial, written

HEAD = [b"plift", b"kind", b"parameters", b"common", b"states", b"init", b"goal"]
TAIL = [b"bound", b"precision", b"from", b"depth", b"grid", b"box"]  # `from` in version 2 alone
NODES = [b"split", b"accept", b"reject", b"unknown"]
LEAF = [b"reject", b"y", b"choice", b"rank"]
AT = b"at"  # in version 2: the line before a leaf that accepts or rejects


class Report(NamedTuple):
    """The lines of a report by the key of the head that begins them, and all lines."""

    lines: List[bytes]
    head: Dict[bytes, List[bytes]]
    numbers: Dict[bytes, int]

    def is_second(self) -> bool:
        """Whether it is of version 2."""
        return self.lines[:1] == [b"plift 2"]

    def tail(self) -> List[bytes]:
        """The keys of the head's lines behind the rows."""
        return [key for key in TAIL if key != b"from" or self.is_second()]

    def names(self) -> List[str]:
        """The parameters."""
        return [name.decode("latin-1") for name in self.head.get(b"parameters", [])[1:]]

    def number(self, key: bytes) -> Optional[int]:
        """The number that a line of the head tells."""
        words = self.head.get(key, [])
        return int(words[0]) if len(words) == 1 and re.fullmatch(rb"[0-9]{1,30}", words[0]) else None

    def box(self) -> Dict[str, Tuple[Fraction, Fraction]]:
        """The interval of each parameter."""
        grid, words = self.number(b"grid"), self.head.get(b"box", [])
        names = self.names()
        if not grid or len(words) != 2 * len(names) or not all(re.fullmatch(rb"-?[0-9]{1,30}", word) for word in words):
            return {}
        ends = [Fraction(int(word), grid) for word in words]
        return {name: (ends[2 * i], ends[2 * i + 1]) for i, name in enumerate(names)}

    def first_node(self) -> int:
        """The number of the line that the first node begins."""
        return self.numbers.get(b"box", 0) + 1 if b"box" in self.numbers else 0


def read_report(text: bytes) -> Report:
    """Reads the lines; of the head each key's first one is kept."""
    lines = text.split(b"\n")
    if lines and not lines[-1]:
        lines.pop()
    head: Dict[bytes, List[bytes]] = {}
    numbers: Dict[bytes, int] = {}
    for number, line in enumerate(lines, 1):
        if line.startswith((b"to ", b"row ")):
            continue
        words = line.split(b" ")
        if words[0] in HEAD + TAIL and words[0] not in head:
            head[words[0]], numbers[words[0]] = words[1:], number
        if words[0] == b"box":
            break
    return Report(lines, head, numbers)


def polynomial_of(words: List[bytes], names: List[str], common: int) -> Optional[Polynomial]:
    """What the terms of a transition come to."""
    poly: Polynomial = {}
    for word in words:
        match = re.fullmatch(rb"([0-9]{1,6}):(-?[0-9]{1,40})", word)
        if not match or int(match[1]) >= 2 ** len(names):
            return None
        product = frozenset(name for bit, name in enumerate(names) if int(match[1]) >> bit & 1)
        poly[product] = Fraction(int(match[2]), common)
    return poly


def report_row(report: Report, state: int, choice: int) -> Optional[Row]:
    """A row of a report."""
    names, common = report.names(), report.number(b"common")
    start = b"row %d %d " % (state, choice)
    place = next((i for i, line in enumerate(report.lines) if line.startswith(start)), None)
    if place is None or not common:
        return None
    entries = []
    for number, line in enumerate(report.lines[place + 1 :], place + 2):
        words = line.split(b" ")
        if words[0] != b"to":
            break
        poly = polynomial_of(words[2:], names, common) if re.fullmatch(rb"[0-9]{1,6}", words[1]) else None
        if poly is None:
            return None
        entries.append(Entry(number, int(words[1]), written(poly), poly))
    return Row(state, choice, entries, names)


def key_at(report: Report, number: int) -> bytes:
    """The first word of a line; nothing where there is none."""
    return report.lines[number - 1].split(b" ", 1)[0] if 0 < number <= len(report.lines) else b""


def node_key(report: Report, number: int) -> bytes:
    """The key of the node that begins at a line, behind its precision; nothing where none begins there."""
    key = key_at(report, number)
    if key == AT and report.is_second():
        key = key_at(report, number + 1)
        return key if key in (b"accept", b"reject") else b""
    return key if key in NODES else b""


def end_of_node(report: Report, number: int) -> int:
    """The number of the line behind the node that begins at a line; 0 where none begins there."""
    key = node_key(report, number)
    if not key:
        return 0
    return number + (key_at(report, number) == AT) + (4 if key == b"reject" else 1)


def line_of_node(report: Report, node: int) -> int:
    """The number of the line that a node begins, or 0."""
    at, found = report.first_node(), 0
    while 0 < at <= len(report.lines):
        behind = end_of_node(report, at)
        if not behind or found == node:
            return at if behind else 0
        at, found = behind, found + 1
    return 0


def end_of_tree(report: Report) -> int:
    """The number of the last line of the tree, or 0."""
    at, open_nodes = report.first_node(), 1
    while open_nodes and 0 < at <= len(report.lines):
        if not node_key(report, at):
            return 0
        open_nodes += 1 if node_key(report, at) == b"split" else -1
        at = end_of_node(report, at)
    return 0 if open_nodes else at - 1
