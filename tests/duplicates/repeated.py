#!/usr/bin/env python3
"""Finds lines of code, definitions, proofs and scripts that stand in two places:

    tests/duplicates/repeated.py            lists the places that two files share, the longest first
    tests/duplicates/repeated.py --tighten  takes off the file `known` what is repeated no more
    tests/duplicates/repeated.py --write    writes it anew: what is repeated today

Lines are compared as they stand, without blanks around them; blank lines, comments, imports and lines of brackets alone
aren't counted. A run of so many such lines or more that stands twice is a repetition: LONG in the crates, LONG_PYTHON
in scripts. Lines of `known` that begin with `#` say why something stands twice.
"""

from __future__ import annotations

import re
import sys
from collections import defaultdict
from pathlib import Path
from typing import Dict, Iterator, List, Tuple

TOP = Path(__file__).resolve().parents[2]
KNOWN = Path(__file__).resolve().parent / "known"
LONG, LONG_PYTHON = 10, 6
PASSED_OVER = re.compile(r"\s*(//.*|--.*|(pub )?(ghost )?(use|import|open|mod)\b.*|[][(){};,>| ]*)$")
PASSED_OVER_IN_PYTHON = re.compile(r"\s*(#.*|(from|import)\b.*|\"\"\".*|[][(){}:;,> ]*)$")
SCRIPTS = ("bench", "lab", "recheck", "tests", "tiles", "tools")  # where Python stands

Place = Tuple[str, int]  # a file, and the number of a line that counts
Pair = Tuple[str, str]


def sources() -> Iterator[Path]:
    """The files of the crates in which proved code, definitions and proofs stand."""
    for pattern in ("src/*.rt", "specs/**/*.antt", "proofs/**/*.antt"):
        yield from sorted(TOP.glob(f"crates/*/{pattern}"))


def scripts() -> Iterator[Path]:
    """The files with Python."""
    for folder in SCRIPTS:
        yield from sorted((TOP / folder).rglob("*.py"))


def lines_of(path: Path) -> List[str]:
    """The lines of a file that count."""
    lines = path.read_text(encoding="utf-8").splitlines()
    passed_over = PASSED_OVER_IN_PYTHON if path.suffix == ".py" else PASSED_OVER
    return [line.strip() for line in lines if not passed_over.match(line)]


def repetitions(files: Dict[str, List[str]], long: int) -> Dict[Pair, int]:
    """For each two files (or a file with itself) how many lines begin a run of so many that stands in both."""
    places: Dict[Tuple[str, ...], List[Place]] = defaultdict(list)
    for name, lines in files.items():
        for at in range(len(lines) - long + 1):
            places[tuple(lines[at : at + long])].append((name, at))
    counts: Dict[Pair, int] = defaultdict(int)
    for found in places.values():
        for left, right in zip(found, found[1:]):
            counts[(left[0], right[0])] += 1
    return dict(counts)


def today() -> Dict[Pair, int]:
    """The repetitions of the repository."""
    found = repetitions({str(path.relative_to(TOP)): lines_of(path) for path in sources()}, LONG)
    return {**found, **repetitions({str(path.relative_to(TOP)): lines_of(path) for path in scripts()}, LONG_PYTHON)}


def known() -> Dict[Pair, int]:
    """Those that are known of."""
    rows = [line.split(" ") for line in KNOWN.read_text(encoding="utf-8").splitlines() if not line.startswith("#")]
    return {(left, right): int(count) for count, left, right in rows}


def reasons() -> str:
    """What the file says of why something stands twice."""
    lines = KNOWN.read_text(encoding="utf-8").splitlines(keepends=True)
    return "".join(line for line in lines if line.startswith("#"))


def listed(counts: Dict[Pair, int]) -> str:
    """A line for each two files."""
    rows = sorted((-count, pair) for pair, count in counts.items())
    return "".join(f"{-count} {left} {right}\n" for count, (left, right) in rows)


def main(words: List[str]) -> int:
    """Lists the repetitions, or writes them down."""
    if words not in ([], ["--write"], ["--tighten"]):
        print((__doc__ or "").strip(), file=sys.stderr)
        return 2
    found = today()
    if words == ["--tighten"]:
        found = {pair: min(count, found[pair]) for pair, count in known().items() if pair in found}
    if words:
        KNOWN.write_text(reasons() + listed(found), encoding="utf-8")
    else:
        print(listed(found), end="")
    return 0


if __name__ == "__main__":
    sys.exit(main(sys.argv[1:]))
