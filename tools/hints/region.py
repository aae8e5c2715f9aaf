"""A region as plift reads it, and the first fault of a text that is none, with its place."""

from __future__ import annotations

import re
from fractions import Fraction
from math import gcd
from typing import List, NamedTuple, Optional, Sequence, Tuple

from hints.numbers import LITERAL, SIZE, Wide, literal_value, narrowed

BLANKS = re.compile(r"[ \t]*")
NAME = re.compile(r"[A-Za-z_][A-Za-z0-9_]*")


class Clause(NamedTuple):
    """An interval of a parameter, and where its text stands."""

    name: str
    low: Fraction
    high: Fraction
    start: int
    end: int


class Fault(Exception):
    """Why a text is no region: the cause, the place in the text, what is wrong there, and the clause."""

    def __init__(self, cause: str, place: int, what: str, clause: Optional[Clause] = None):
        super().__init__(cause)
        self.cause, self.place, self.what, self.clause = cause, place, what, clause


class Reader:
    """Reads clauses from the left."""

    def __init__(self, text: str):
        self.text = text
        self.at = 0

    def skip(self) -> None:
        """Passes blanks."""
        match = BLANKS.match(self.text, self.at)
        self.at = match.end() if match else self.at

    def take(self, mark: str) -> bool:
        """Whether this stands next; if so, it is passed."""
        self.skip()
        found = self.text.startswith(mark, self.at)
        self.at += len(mark) if found else 0
        return found

    def need(self, mark: str) -> None:
        """Passes this, which has to stand next."""
        if not self.take(mark):
            raise Fault("Syntax", self.at, f"{mark} is wanted here")

    def literal(self) -> "re.Match[str]":
        """A literal's match."""
        self.skip()
        match = LITERAL.match(self.text, self.at)
        if not match:
            raise Fault("Syntax", self.at, "a number is wanted here, as 1/10 or 0.1")
        self.at = match.end()
        return match

    def end(self) -> Tuple[int, bool, "re.Match[str]", Optional["re.Match[str]"]]:
        """The parts of an end: its place, whether it has a minus, and its literals."""
        self.skip()
        place, negative, above = self.at, self.take("-"), self.literal()
        below = self.literal() if self.take("/") else None
        if below and not (below[1] + (below[2] or "")).strip("0"):
            raise Fault("Syntax", below.start(), "a divisor isn't 0")
        return place, negative, above, below

    def name(self) -> Tuple[int, str]:
        """A name, and where it stands."""
        self.skip()
        match = NAME.match(self.text, self.at)
        if not match:
            raise Fault("Syntax", self.at, "a parameter's name is wanted here")
        self.at = match.end()
        return match.start(), match[0]


def valued(end: Tuple[int, bool, "re.Match[str]", Optional["re.Match[str]"]]) -> Fraction:
    """The value of an end."""
    place, negative, above, below = end
    try:
        value = literal_value(*above.groups())
        value = narrowed(value / literal_value(*below.groups())) if below else value
    except Wide as why:
        raise Fault("Wide", place, f"this number is too wide: {why}")
    return -value if negative else value


def read_clause(reader: Reader, names: Optional[Sequence[str]], before: Sequence[Clause]) -> Clause:
    """The next clause."""
    reader.skip()
    start = reader.at
    low = reader.end()
    reader.need("<=")
    place, name = reader.name()
    reader.need("<=")
    high = reader.end()
    clause = Clause(name, valued(low), valued(high), start, reader.at)
    if names is not None and name not in names:
        raise Fault("UnknownName", place, "the model declares no parameter of this name", clause)
    if any(name == other.name for other in before):
        raise Fault("Repeated", place, f"{name} has a clause already", clause)
    if clause.low >= clause.high:
        raise Fault("EmptyInterval", start, "the low end isn't below the high end", clause)
    return clause


def read_region(text: str, names: Optional[Sequence[str]], depth: int = 0) -> List[Clause]:
    """The clauses of a region over parameters with these names, any names where they aren't known."""
    reader = Reader(text)
    clauses: List[Clause] = []
    reader.skip()
    while reader.at < len(text):
        clauses.append(read_clause(reader, names, clauses))
        reader.skip()
        if reader.at == len(text):
            break
        reader.need(",")
        reader.skip()
        if reader.at == len(text):
            raise Fault("Syntax", reader.at, "a clause is wanted behind the comma")
    missing = [name for name in names or [] if all(name != clause.name for clause in clauses)]
    if missing:
        raise Fault("Missing", len(text), ", ".join(missing))
    test_grid(clauses, depth)
    return clauses


def grid_of(clauses: Sequence[Clause]) -> int:
    """The least common denominator of all ends."""
    common = 1
    for clause in clauses:
        for end in (clause.low, clause.high):
            common = common * end.denominator // gcd(common, end.denominator)
    return common


def test_grid(clauses: Sequence[Clause], depth: int) -> None:
    """Tests that the ends' numbers over the grid are narrow, halved so often."""
    common = grid_of(clauses)
    greatest = max([Fraction(1)] + [abs(end) for clause in clauses for end in (clause.low, clause.high)])
    if common * 2**depth >= SIZE or greatest * common * 2**depth >= SIZE:
        fits = [h for h in range(depth) if greatest * common * 2**h < SIZE and common * 2**h < SIZE]
        what = f"the least common denominator of all ends is {common:,}, times 2^{depth} for the depth"
        remedy = f"; with --depth {fits[-1]} it fits" if fits else ""
        raise Fault("Wide", 0, what + remedy)
