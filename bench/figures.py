#!/usr/bin/env python3
"""The tables of docs/PERFORMANCE.md, made of the data beside this script:

    bench/figures.py            writes them
    bench/figures.py --check    ends with 1 where the page isn't what would be written

figures.tsv is written by bench/run.py: what `verify` and `check` take on models of growing size, depth and precision.
beside.tsv has what one command took beside another on the same model, with the day; a job that took less than five
thousandths of a second stands there, but tells too little of a ratio.
"""

from __future__ import annotations

import csv
import math
import sys
from pathlib import Path
from typing import Iterator

HERE = Path(__file__).resolve().parent
PAGE = HERE.parent / "docs" / "PERFORMANCE.md"
BEGIN, END = "<!-- made by bench/figures.py: figures -->\n", "<!-- end -->\n"
Row = dict[str, str]
LEAST = 0.005  # seconds


def rows_of(name: str) -> list[Row]:
    """The rows of a table beside this script."""
    lines = (HERE / name).read_text(encoding="utf-8").splitlines()
    return list(csv.DictReader((line for line in lines if not line.startswith("#")), delimiter="\t"))


def machine() -> str:
    """What figures.tsv says of the machine."""
    lines = (HERE / "figures.tsv").read_text(encoding="utf-8").splitlines()
    return "\n".join(line[1:].strip() for line in lines if line.startswith("#"))


def greatest(rows: list[Row]) -> list[Row]:
    """The greatest model of each family among those of growing size."""
    by_family = {row["model"].split()[0]: row for row in rows if row["series"] == "states"}
    return list(by_family.values())


def figures() -> Iterator[str]:
    """The lines of the table of single answers."""
    yield "| Model | States | Rectangles | `verify`: seconds | MB | Bytes of report | `check`: seconds | MB |"
    yield "|---|---|---|---|---|---|---|---|"
    names = (
        "model",
        "states",
        "rectangles",
        "verify seconds",
        "verify MB",
        "report bytes",
        "check seconds",
        "check MB",
    )
    for row in greatest(rows_of("figures.tsv")):
        yield "| " + " | ".join(row[name] for name in names) + " |"


def ratio(row: Row) -> float:
    """How many times as much the one took; a node, where nodes are told."""
    share = float(row["of what"]) / float(row["of beside"])
    return share * float(row["nodes of beside"] or 1) / float(row["nodes of what"] or 1)


def tells(row: Row) -> bool:
    """Whether a row's ratio is more than the clock's own steps."""
    return row["by"] != "seconds" or min(float(row["of what"]), float(row["of beside"])) >= LEAST


def beside() -> Iterator[str]:
    """The lines of the table of commands beside others."""
    yield "| What | Beside | By | Models | Mean | Least | Greatest |"
    yield "|---|---|---|---|---|---|---|"
    groups: dict[tuple[str, str, str], list[float]] = {}
    for row in filter(tells, rows_of("beside.tsv")):
        groups.setdefault((row["what"], row["beside"], row["by"]), []).append(ratio(row))
    for names, found in groups.items():
        mean = math.exp(sum(map(math.log, found)) / len(found))
        yield f"| {' | '.join(names)} | {len(found)} | {mean:.2f} | {min(found):.2f} | {max(found):.2f} |"


def made(page: str) -> str:
    """A page with the tables between the two marks."""
    before, rest = page.split(BEGIN)
    after = rest.split(END)[1]
    parts = ["\n".join(figures()), machine(), "\n".join(beside())]
    return before + BEGIN + "\n" + "\n\n".join(parts) + "\n\n" + END + after


def main(words: list[str]) -> int:
    """Writes the tables, or compares them."""
    if words not in ([], ["--check"]):
        print((__doc__ or "").strip(), file=sys.stderr)
        return 2
    text = PAGE.read_text(encoding="utf-8")
    if not words:
        PAGE.write_text(made(text), encoding="utf-8")
    elif made(text) != text:
        print(
            "figures.py: docs/PERFORMANCE.md isn't what is made from the data: bench/figures.py writes it",
            file=sys.stderr,
        )
        return 1
    return 0


if __name__ == "__main__":
    sys.exit(main(sys.argv[1:]))
