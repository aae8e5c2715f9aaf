"""Hints for a row that is no distribution over the region, of a model text or of a report."""

from __future__ import annotations

import re
from fractions import Fraction
from math import gcd
from functools import partial
from typing import Callable, Dict, FrozenSet, List, NamedTuple, Optional, Sequence, Tuple

from hints.bounds import depth_of
from hints.drn import TRANSITION, Model, lines_of, read_model
from hints.refusal import Refusal
from hints.region import Clause, Fault as RegionFault, grid_of, read_region
from hints.told import cut, fraction, listed, printable
from hints.value import Fault, Polynomial, common_of, parameters_in, read_value, total, value_at

LIMIT = 2**126
MOST_WIDTH = 100  # of a line that is proposed


class Entry(NamedTuple):
    """A transition: its line, its target, how it is written, and what it comes to."""

    line: int
    target: int
    text: str
    value: Polynomial


class Row(NamedTuple):
    """A choice of a state, with the names of all parameters of its model."""

    state: int
    choice: int
    entries: List[Entry]
    names: Sequence[str]

    def where(self) -> str:
        """The row, and the lines on which it stands."""
        lines = [entry.line for entry in self.entries]
        place = f"lines {lines[0]} to {lines[-1]}" if len(lines) > 1 else f"line {lines[0]}" if lines else "no lines"
        return f"state {self.state} choice {self.choice} ({place})"

    def parameters(self) -> List[str]:
        """The parameters that occur in it, in the order of the model."""
        found = {name for entry in self.entries for name in parameters_in(entry.value)}
        return [name for name in self.names if name in found]


class Around(NamedTuple):
    """What surrounds a row: the region's ends, where they are known, and what would do where it is too wide."""

    ends: Dict[str, Tuple[Fraction, Fraction]]
    fits: Callable[[], Optional[str]]


def value_of(model: Model, text: bytes) -> Polynomial:
    """What a transition's value comes to."""
    value = text.decode("latin-1")
    if value.startswith("$"):
        value = model.placeholders[value[1:]][1].decode("latin-1")
    return read_value(value, model.parameters)


def row_of(text: bytes, state: int, choice: int) -> Optional[Row]:
    """A row of a model text."""
    model = read_model(text, state=state)
    if len(model.states) != state + 1 or len(model.choices) <= choice:
        return None
    entries = []
    for line, target, value in model.choices[choice].transitions():
        entries.append(Entry(line, target, printable(value), value_of(model, value)))
    return Row(state, choice, entries, model.parameters)


def sum_hints(row: Row, number: int, told: int) -> List[str]:
    """What the coefficients of a set of parameters sum to, and to what they should."""
    names = frozenset(name for bit, name in enumerate(row.names) if number >> bit & 1)
    sums: Polynomial = {}
    for entry in row.entries:
        sums = total(sums, entry.value, 1)
    found = sums.get(names, Fraction(0))
    if names:
        return product_hints(row, names, found) if found else []
    if found == 1 or (found and (told / found).denominator != 1):
        return []
    what = "its probabilities" if not row.parameters() else "its terms without parameters"
    lines = [f"{row.where()}: {what} sum to {fraction(found)}, not to 1"]
    if found and Fraction(told) != found:
        common = fraction(Fraction(told) / found)
        lines.append(f"the note tells it over the model's common denominator: {told} of {common}")
    return lines + [closing(row)]


def closing(row: Row) -> str:
    """What to do about a sum that isn't 1: where it may be, the last transition as 1 minus the others."""
    others = sum((entry.value.get(frozenset(), Fraction(0)) for entry in row.entries[:-1]), Fraction(0))
    if not row.parameters() and others >= 1 or len(row.entries) < 2:
        return "the probabilities of a choice sum to 1; percents and rates are divided by their sum first"
    last = row.entries[-1]
    texts = [entry.text for entry in row.entries[:-1]]
    rest = "".join(f"-({text})" if re.search("[-+]", text) else f"-{text}" for text in texts)
    line = f"{last.target} : 1{rest}"
    rounded = "; fractions as 1/3 aren't rounded" if any("." in entry.text for entry in row.entries) else ""
    if any(re.search(r"\.[0-9]{12}", entry.text) for entry in row.entries):
        rounded = "; plift-lab fit --round mends a whole file, and tells what it changes"
    if len(line) > MOST_WIDTH or "$" in line:
        return "the last transition may be written as 1 minus the others" + rounded
    return f"if the others are right, line {last.line} is {line}{rounded}"


def product_hints(row: Row, names: FrozenSet[str], found: Fraction) -> List[str]:
    """Which terms with these parameters don't cancel."""
    letters = "*".join(name for name in row.names if name in names)
    terms = [(entry, entry.value[names]) for entry in row.entries if names in entry.value]
    told = ", ".join(f"{fraction(c)} at line {entry.line} ({cut(entry.text, 24)})" for entry, c in terms[:4])
    opposite = f"where one transition has +{letters}, another one has -{letters}, as in 1-{letters}"
    return [
        f"{row.where()}: the coefficients of {letters} sum to {fraction(found)}, not to 0: {told}",
        f"{opposite}: is one missing, or is another name meant?",
    ]


def corner_of(row: Row, corner: int, ends: Dict[str, Tuple[Fraction, Fraction]]) -> Optional[Dict[str, Fraction]]:
    """The values of a row's parameters at a corner."""
    parameters = row.parameters()
    if any(name not in ends for name in parameters):
        return None
    return {name: ends[name][corner >> bit & 1] for bit, name in enumerate(parameters)}


def negative_hints(row: Row, target: int, corner: int, around: Around) -> List[str]:
    """Which probability is negative, and where."""
    entry = next((entry for entry in row.entries if entry.target == target), None)
    values = corner_of(row, corner, around.ends)
    if entry is None or values is None:
        return []
    value = value_at(entry.value, values)
    if value >= 0:
        return []
    own = [name for name in row.parameters() if name in parameters_in(entry.value)]
    at = " at " + ", ".join(f"{name} = {fraction(values[name])}" for name in own) if own else ""
    front = f"line {entry.line}: {entry.target} : {cut(entry.text, 40)}"
    return [f"{front} is {fraction(value)}{at}, and a probability isn't negative"] + crossing(entry)


def crossing(entry: Entry) -> List[str]:
    """Where a value with one parameter gets negative."""
    names = parameters_in(entry.value)
    if len(names) != 1:
        return ["narrow the region, or mend the value"]
    slope, start = entry.value[frozenset(names)], entry.value.get(frozenset(), Fraction(0))
    zero, way = -start / slope, "above" if slope < 0 else "below"
    return [f"it is negative where {names[0]} is {way} {fraction(zero)}: narrow the region, or mend the value"]


def count_hints(row: Row) -> List[str]:
    """Which parameters occur in the row."""
    names = row.parameters()
    if len(names) <= 4:
        return []
    return [f"{row.where()}: it has the {len(names)} parameters {listed(names, 16)}, and at most 4 are taken"]


def wide_hints(row: Row, around: Around) -> List[str]:
    """What would fit."""
    told = around.fits()
    return [f"{row.where()}: its exact numbers don't fit 128 bits"] + ([told] if told else [])


def fault_hints(row: Row, fault: str, around: Around) -> List[str]:
    """What is told of a row by the words of a note."""
    match = re.fullmatch(r"set ([0-9]+) sums to (-?[0-9]+)", fault)
    if match:
        return sum_hints(row, int(match[1]), int(match[2]))
    match = re.fullmatch(r"target ([0-9]+) at corner ([0-9]+) has weight -[0-9]+", fault)
    if match:
        return negative_hints(row, int(match[1]), int(match[2]), around)
    if re.fullmatch(r"[0-9]+ parameters", fault):
        return count_hints(row)
    return wide_hints(row, around) if fault == "too wide" else []


def common_in(text: bytes) -> Optional[int]:
    """The least common denominator of all values of a model text."""
    model, common, seen = read_model(text), 1, set()
    for _, content in lines_of(text):
        match = TRANSITION.fullmatch(content)
        if match and match[2] not in seen:
            seen.add(match[2])
            own = common_of(value_of(model, match[2]))
            common = common * own // gcd(common, own)
    return common


def greatest(row: Row, common: int, clauses: Sequence[Clause], depth: int) -> int:
    """The greatest precision at which a row isn't too wide; 0 or less where there is none."""
    size = sum(abs(c) * common for entry in row.entries for c in entry.value.values())
    grid = grid_of(clauses) * 2**depth
    ends = [abs(end) * grid for clause in clauses for end in (clause.low, clause.high)]
    numbers = size * max([Fraction(grid)] + ends) ** len(row.parameters())
    return next((w for w in range(40, 0, -1) if numbers * 2**w < LIMIT), 0)


def fits_for(row: Row, refusal: Refusal, clauses: Sequence[Clause]) -> Optional[str]:
    """A precision or a depth that would do."""
    common = common_in(refusal.text or b"")
    word = refusal.option("--precision") or "24"
    precision, depth = int(word), depth_of(refusal)
    if common is None or greatest(row, common, clauses, depth) >= precision:
        return None
    told = []
    if greatest(row, common, clauses, depth) > 0:
        told.append(f"--precision {greatest(row, common, clauses, depth)}")
    depths = [h for h in range(depth) if greatest(row, common, clauses, h) >= precision]
    if depths:
        told.append(f"--depth {depths[-1]}")
    if told:
        grid = f"smaller common denominator than {grid_of(clauses):,}"
        return f"this row fits with {' or '.join(told)}; ends with a {grid} help, too"
    return f"the ends' common denominator is {grid_of(clauses):,}, and that of the model {common:,}: take smaller ones"


def rows_hints(refusal: Refusal, state: int, choice: int, fault: str) -> List[str]:
    """What is wrong with a row of a model text."""
    if refusal.text is None:
        return []
    try:
        row = row_of(refusal.text, state, choice)
        clauses = read_region(refusal.option("--region") or "", row.names if row else [], depth_of(refusal))
    except (Fault, RegionFault, KeyError):
        return []
    if row is None:
        return []
    fits = partial(fits_for, row, refusal, clauses)
    around = Around({c.name: (c.low, c.high) for c in clauses}, fits)
    return fault_hints(row, fault, around)
