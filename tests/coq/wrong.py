#!/usr/bin/env python3
"""Wrong checkers, whose proofs must not compile:  tests/coq/wrong.py [NUMBER ..]

Each is one edit of coq/Checker.v that lets a text pass that proves nothing. The edited checker itself compiles; the
proof behind it has to fail, in the file that is named. Each takes up to half a minute of processor time; 1 is the
first.
"""

from __future__ import annotations

import shutil
import subprocess
import sys
import tempfile
from pathlib import Path
from typing import List, NamedTuple

COQ = Path(__file__).resolve().parents[2] / "coq"


class Wrong(NamedTuple):
    """A wrong checker: what is wrong, the edit, and the file whose proof fails."""

    name: str
    right: str
    wrong: str
    fails: str


WRONG = [
    Wrong(
        "a corner is left out",
        "corners D b' (map' (at_end D lo) ps) ++ corners D b' (map' (at_end D hi) ps)",
        "corners D b' (map' (at_end D lo) ps)",
        "Weights",
    ),
    Wrong(
        "ranks are passed over",
        "below_at l y z r && "
        "below_at l (fun t => let j := rank t in if j <? i then if j <? 0 then 0 else w else 0) 1 r.",
        "below_at l y z r.",
        "Tests",
    ),
    Wrong(
        "a leaf claims less: a rejecting one that only reaches the bound",
        "(AtMost | Above), false => right <? left",
        "(AtMost | Above), false => right <=? left",
        "Tests",
    ),
    Wrong(
        "another spelling is read: a number with zeros in front",
        "else if d =? 0 then Taken 0 v'",
        "else if d =? 0 then more_digits 0 v'",
        "Words",
    ),
    Wrong(
        "an unknown leaf counts as accepted",
        "Got (Tally (yes a) (no a) (open_ a + 1) (node_ a + 1)) rest",
        "Got (Tally (yes a + 1) (no a) (open_ a) (node_ a + 1)) rest",
        "Soundness",
    ),
    Wrong(
        "the printed choice isn't the one that is tested",
        "match nth_row p (choices c tt) with Some r => test r | None => false end.",
        "match nth_row 0 (choices c tt) with Some r => test r | None => false end.",
        "Tests",
    ),
    Wrong(
        "a cost is rounded down",
        "(n * one <=? price s * (d * cap)) && prices_hold",
        "(price s * (d * cap) <=? n * one) && prices_hold",
        "Leaves",
    ),
    Wrong(
        "rows are kept without a look at what is told again",
        "if same_rows (k tt) l then k else fun _ => l.",
        "k.",
        "States",
    ),
    Wrong(
        "a row takes what polynomials stand at its place",
        "if same_polys qs ps then Shared ts p else Own ts ps",
        "Shared ts p",
        "States",
    ),
    Wrong(
        "polynomials that a row doesn't share aren't tested over the region",
        "tall (test_polys S b greatest) (shared S) && "
        "forallb (fun c => forallb (test_own S b greatest) (choices c tt)) (cs S).",
        "tall (test_polys S b greatest) (shared S).",
        "Weights",
    ),
]


def failing(wrong: Wrong, folder: Path) -> str:
    """The file that fails first in a copy with the edit; nothing where all is proved."""
    for path in [*COQ.glob("*.v"), COQ / "Makefile"]:
        shutil.copy(path, folder)
    checker = folder / "Checker.v"
    text = checker.read_text()
    if text.count(wrong.right) != 1:
        raise SystemExit(f"{wrong.name}: its edit doesn't fit Checker.v any more")
    checker.write_text(text.replace(wrong.right, wrong.wrong))
    said = subprocess.run(
        ["make", "-C", str(folder), "Soundness.vo"], capture_output=True, text=True, check=False
    ).stderr
    return next((line.split('"')[1].split("/")[-1][:-2] for line in said.splitlines() if line.startswith('File "')), "")


def main(words: List[str]) -> int:
    """Tries them, and tells of each."""
    missed = 0
    for number in [int(word) for word in words] or range(1, len(WRONG) + 1):
        wrong = WRONG[number - 1]
        with tempfile.TemporaryDirectory(prefix="plift-wrong-coq.") as folder:
            found = failing(wrong, Path(folder))
        missed += found != wrong.fails
        print(f"{number}: {wrong.name}: " + (f"no proof in {found}.v" if found else "PROVED"), flush=True)
    return 1 if missed else 0


if __name__ == "__main__":
    sys.exit(main(sys.argv[1:]))
