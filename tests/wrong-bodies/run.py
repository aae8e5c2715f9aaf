#!/usr/bin/env python3
"""Tries the wrong bodies that stand beside the gate: the prover has to refuse each at a clause.

    tests/wrong-bodies/run.py [--anew | --untold] [--jobs N] [CRATE ..]

tests/wrong-bodies/CRATE/NAME.edit is in the form of crates/CRATE/must-fail/*.edit, which the gate tries each
time. Here are those that say less of a public clause. They are tried after a change of that crate's
contracts, and now and then as a whole (some two processor-hours): each crate is laid into a folder of its
own with what stands below it, its wrong bodies are put into must-fail/ there, and the kit's command
`rt must-fail` judges them. With no crate named, all are tried, N crates side by side (as many as there are
processors). Libraries that tools/build.py has built are used; others are built first in that folder.

A wrong body counts as refused where a clause, an invariant or a call's condition isn't proved of it: `clause`.
It shows little of the contract where it is refused because a proof file names what was taken away, or by an answer
that was stored: `stored`; or where the prover gave up: `limit`. Such a one gets a better body, or goes.

The file `refused` beside this one has a line for each that was refused: its name, a sum of it and of its crate's
text, and of which kind the refusal was. A line without a kind was noted while kinds weren't told apart: it says
that the prover took none of it, and no more; --untold tries these again, and --anew all. What is noted and hasn't
changed isn't tried. The last line tells how many there are of each kind; the status is 0 where none passed, and
each that was tried or noted with its kind was refused at a clause.
"""

import argparse
import hashlib
import os
import re
import shutil
import subprocess
import sys
import tempfile
from concurrent.futures import ThreadPoolExecutor
from pathlib import Path
from typing import Dict, List, NamedTuple, Optional

HERE = Path(__file__).resolve().parent
sys.path.insert(0, str(HERE.parent.parent / "tools"))
import build  # noqa: E402
from build import closure, dependencies, lay_out  # noqa: E402

TOP = build.TOP

# What the kit's command says of one that it refuses; where that shows less, the reason follows in parentheses.
REFUSED = re.compile(r"must-fail (\S+): refused, as it must be(?: \(only (\w+ \w+))?")
CLAUSE, STORED, LIMIT = KINDS = ("clause", "stored", "limit")
KIND_OF = {None: CLAUSE, "because a": STORED}
# The parts of a crate that a proof reads.
PARTS = ("src", "specs", "proofs")


class Trial(NamedTuple):
    """What became of the wrong bodies of a crate: those tried, of which kind each refusal was, and what was said."""

    crate: str
    tried: List[str]
    kinds: Dict[str, str]
    said: str

    def told(self) -> str:
        """How many there are of each kind."""
        counts = [f"{list(self.kinds.values()).count(kind)} {kind}" for kind in KINDS]
        return f"== {self.crate}: {', '.join(counts)}, {len(self.tried) - len(self.kinds)} passed"


class Note(NamedTuple):
    """What was refused: the sum at which it was, and of which kind that was, if that was noted."""

    sum: str
    kind: Optional[str]


def noted() -> Dict[str, Note]:
    """Returns what was refused before, by its name."""
    path = HERE / "refused"
    lines = path.read_text(encoding="utf-8").splitlines() if path.exists() else []
    words = [line.split(" ") for line in lines]
    return {name: Note(sum_, rest[0] if rest else None) for name, sum_, *rest in words}


def write_notes(notes: Dict[str, Note]) -> None:
    """Writes down what was refused, leaving out what stands here no more."""
    kept = [" ".join([name, *filter(None, notes[name])]) for name in sorted(notes) if (HERE / name).exists()]
    (HERE / "refused").write_text("".join(f"{line}\n" for line in kept), encoding="utf-8")


def crate_sum(crate: str) -> str:
    """Returns a sum of a crate's own text, which its wrong bodies change."""
    folder = TOP / "crates" / crate
    files = [it for part in PARTS for it in (folder / part).rglob("*") if it.is_file()]
    told = [(str(it.relative_to(folder)), it.read_bytes()) for it in sorted(files)]
    return hashlib.sha256(repr(told).encode()).hexdigest()


def sum_of(own: str, edit: Path) -> str:
    """Returns a sum of a wrong body and of its crate, of which `own` is that of the text."""
    return hashlib.sha256(own.encode() + edit.read_bytes()).hexdigest()[:16]


def crates_with_edits() -> List[str]:
    """Returns the crates that have wrong bodies here."""
    return sorted(it.name for it in HERE.iterdir() if any(it.glob("*.edit")))


def sums_of(crate: str) -> Dict[str, str]:
    """Returns the sum of each wrong body of a crate, by its name."""
    own = crate_sum(crate)
    return {f"{crate}/{edit.name}": sum_of(own, edit) for edit in sorted((HERE / crate).glob("*.edit"))}


def try_edits(crate: str, edits: List[str]) -> Trial:
    """Tries these wrong bodies of one crate in a folder of its own."""
    needs = dependencies((TOP / "crates.txt").read_text(encoding="utf-8"))
    with tempfile.TemporaryDirectory(prefix=f"wrong-bodies-{crate}-") as folder:
        room = Path(folder)
        lay_out(crate, closure(needs, crate)[:-1], room)
        (room / "crates" / crate / "must-fail").mkdir()
        for edit in edits:
            shutil.copy(HERE / edit, room / "crates" / crate / "must-fail")
        ran = subprocess.run(
            ["rt", "must-fail", crate],
            cwd=room,
            stdin=subprocess.DEVNULL,
            stdout=subprocess.PIPE,
            stderr=subprocess.STDOUT,
            encoding="utf-8",
            errors="replace",
            check=False,
        )
    kinds = kinds_in(ran.stdout, edits)
    lines = [line for line in ran.stdout.splitlines() if "must-fail " in line]
    return Trial(crate, edits, kinds, "\n".join(lines) if len(kinds) == len(edits) else ran.stdout)


def kinds_in(said: str, edits: List[str]) -> Dict[str, str]:
    """Returns of which kind the refusal of each wrong body was that the prover says it has refused."""
    return {found[1]: KIND_OF.get(found[2], LIMIT) for found in REFUSED.finditer(said) if found[1] in edits}


def is_noted(note: Optional[Note], sum_: str, untold: bool) -> bool:
    """Whether a wrong body was refused as it is today, and of a kind that is told where that is asked for."""
    return note is not None and note.sum == sum_ and not (untold and note.kind is None)


def try_all(crates: List[str], jobs: int, anew: bool, untold: bool = False) -> int:
    """Tries the wrong bodies of these crates that aren't noted as refused, and notes those that are."""
    notes = noted()
    sums = {name: sum_ for crate in crates for name, sum_ in sums_of(crate).items()}
    due = [name for name in sums if anew or not is_noted(notes.get(name), sums[name], untold)]
    before = [notes[name] for name in sums if name not in due]
    passed = 0
    with ThreadPoolExecutor(jobs) as pool:
        edits = {crate: [name for name in due if name.startswith(f"{crate}/")] for crate in crates}
        for trial in pool.map(lambda crate: try_edits(crate, edits[crate]), filter(edits.get, crates)):
            print(trial.said, flush=True)
            print(trial.told(), flush=True)
            for name in trial.tried:
                notes.pop(name, None)
            notes.update((name, Note(sums[name], kind)) for name, kind in trial.kinds.items())
            write_notes(notes)
            passed += len(trial.tried) - len(trial.kinds)
    now = [notes[name] for name in due if name in notes]
    print(f"refused now: {counted(now)}; noted before: {counted(before)}; {passed} passed")
    return 1 if passed or any(note.kind in (STORED, LIMIT) for note in [*now, *before]) else 0


def counted(notes: List[Note]) -> str:
    """Returns how many notes there are of each kind."""
    kinds = [note.kind for note in notes]
    untold = f", {kinds.count(None)} of a kind not told" if None in kinds else ""
    return f"{kinds.count(CLAUSE)} at a clause, {kinds.count(STORED)} stored, {kinds.count(LIMIT)} at a limit{untold}"


def main(words: List[str]) -> int:
    """Tries the crates that are named, or all, and says what was refused."""
    parser = argparse.ArgumentParser(description="Tries the wrong bodies that stand beside the gate.")
    parser.add_argument("--anew", action="store_true", help="try also what is noted as refused")
    parser.add_argument("--untold", action="store_true", help="try also what is noted without its kind")
    parser.add_argument("--jobs", type=int, default=len(os.sched_getaffinity(0)), help="how many crates side by side")
    parser.add_argument("crates", nargs="*", metavar="CRATE", help="the crates to try; all if none is named")
    asked = parser.parse_args(words)
    known = crates_with_edits()
    unknown = [name for name in asked.crates if name not in known]
    if unknown:
        parser.error(f"{unknown[0]} has no wrong bodies here")
    if asked.jobs < 1:
        parser.error("--jobs is at least 1")
    if shutil.which("rt") is None:
        print("the command rt of the Rattle kit is not on the PATH", file=sys.stderr)
        return 2
    return try_all(asked.crates or known, asked.jobs, asked.anew, asked.untold)


if __name__ == "__main__":
    sys.exit(main(sys.argv[1:]))
