#!/usr/bin/env python3
"""Writes what is made from data into the documents, or tells what isn't as it is made:

    tools/tables.py            writes
    tools/tables.py --check    ends with 1 where a document isn't what would be written

tools/costs.tsv has what each crate's own proof takes, and how many functions it has; the table of docs/ARCHITECTURE.md
is made from it and from the wrong bodies that stand beside the crates. docs/PROMISES.md is made from the crates' source
and tools/promises.tsv, docs/WALKS.md from comments there and tools/walks.tsv. tools/words has the commands, options,
statuses, limits, notes and causes: tables of GUIDE, FORMATS and MESSAGES, the man pages of plift and plift-view, the
help and the completion are made from these.
"""

from __future__ import annotations

import re
import sys
from pathlib import Path
from typing import Callable, Dict, List, NamedTuple

import manual
import promises
import walks

TOP = Path(__file__).resolve().parent.parent
HEAD = "| Crate | Functions | Wrong bodies in the gate | Beside it | Own proof |\n|---|---|---|---|---|\n"
COSTS = re.compile(re.escape(HEAD) + r"(?:\|.*\n)*")


class Cost(NamedTuple):
    """A row of tools/costs.tsv: a crate, its functions with derived ones, and its own proof in processor-minutes."""

    crate: str
    functions: int
    minutes: float


def costs_of(text: str) -> List[Cost]:
    """The rows of a text in the form of tools/costs.tsv."""
    cells = [line.split("\t") for line in text.splitlines()[1:]]
    return [Cost(crate, int(functions), float(minutes)) for crate, functions, minutes in cells]


def cost_table(costs: List[Cost], bodies: Callable[[str], int]) -> str:
    """The table of ARCHITECTURE; `bodies` tells how many wrong bodies a pattern of files finds."""
    rows, inside, beside = [], 0, 0
    for cost in costs:
        own, other = bodies(f"crates/{cost.crate}/must-fail/*.edit"), bodies(f"tests/wrong-bodies/{cost.crate}/*.edit")
        inside, beside = inside + own, beside + other
        rows.append(f"| `{cost.crate}` | {cost.functions} | {own or ''} | {other or ''} | {cost.minutes} |\n")
    functions, minutes = sum(cost.functions for cost in costs), sum(cost.minutes for cost in costs)
    return HEAD + "".join(rows) + f"| all | {functions} | {inside} | {beside} | {minutes:.0f} |\n"


def architecture(text: str) -> str:
    """ARCHITECTURE with its table made anew."""
    costs = costs_of((TOP / "tools" / "costs.tsv").read_text(encoding="utf-8"))
    table = cost_table(costs, lambda pattern: len(list(TOP.glob(pattern))))
    text, count = COSTS.subn(lambda _: table, text)
    if count != 1:
        raise manual.Unmade(f"docs/ARCHITECTURE.md has {count} tables of what crates cost, and not one")
    return text


# What makes each file from what stands in it.
FILES: Dict[str, Callable[[str], str]] = {
    "docs/ARCHITECTURE.md": architecture,
    promises.PAGE: lambda _: promises.made(),
    walks.PAGE: lambda _: walks.made(),
    **manual.makers(),
}


def stale() -> Dict[str, str]:
    """The files that aren't as they are made, and how they are made."""
    texts = {name: (TOP / name).read_text(encoding="utf-8") for name in FILES}
    made = {name: FILES[name](text) for name, text in texts.items()}
    return {name: text for name, text in made.items() if text != texts[name]}


def main(words: List[str]) -> int:
    """Writes the files, or compares them."""
    if words not in ([], ["--check"]):
        print((__doc__ or "").strip(), file=sys.stderr)
        return 2
    try:
        wrong = stale()
    except (promises.Wrong, manual.Unmade) as why:
        raise SystemExit(f"tables.py: {why}") from None
    for name, text in wrong.items():
        if words:
            print(f"tables.py: {name} isn't what is made from the data: tools/tables.py writes it", file=sys.stderr)
        else:
            (TOP / name).write_text(text, encoding="utf-8")
            print(f"tables.py: {name} is written")
    return 1 if words and wrong else 0


if __name__ == "__main__":
    sys.exit(main(sys.argv[1:]))
