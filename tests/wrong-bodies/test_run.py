"""Tests of what tries the wrong bodies: that each can be laid in, and that what the prover says is counted."""

import contextlib
import io
import os
import stat
import sys
import tempfile
import unittest
from pathlib import Path
from typing import Dict, List

HERE = Path(__file__).resolve().parent
sys.dont_write_bytecode = True
sys.path.insert(0, str(HERE))
import run  # noqa: E402

# Stands in for the kit's command: it refuses each wrong body but those whose name has `passes` in it, and some only by
# what is stored, or by giving up.
STAND_IN = """#!/bin/sh
for edit in crates/"$2"/must-fail/*.edit; do
    name=${edit##*/}
    case $name in
    *passes*) echo "rt: must-fail $2/$name: NOT REFUSED: the crate is still proved with this edit" ;;
    *stored*)
        echo "rt: must-fail $2/$name: refused, as it must be (only because a proof file names it): error" ;;
    *limit*) echo "rt: must-fail $2/$name: refused, as it must be (only by a limit of the prover): note" ;;
    *bare*) echo "rt: must-fail $2/$name: refused, as it must be" ;;
    *) echo "rt: must-fail $2/$name: refused, as it must be: note: src/lib.rt:1:1: it is not proved" ;;
    esac
done
"""

NONE = "0 at a clause, 0 stored, 0 at a limit"
TWO, THREE = "1 at a clause, 1 stored, 0 at a limit", "3 at a clause, 0 stored, 0 at a limit"


def faults_of(edit: Path, crate: Path) -> List[str]:
    """What keeps a wrong body from being laid into its crate: each old text has to stand there once."""
    texts: Dict[str, str] = {}
    path, old, faults = "", "", []
    for line in edit.read_text(encoding="utf-8").splitlines():
        word, _, rest = line.partition(": ")
        if word == "file":
            path = rest
        elif word == "old":
            old = rest
        elif word == "new" or line == "new:":
            text = texts.get(path) or (crate / path).read_text(encoding="utf-8")
            if text.count(old) != 1:
                faults.append(f"{edit}: its old text stands {text.count(old)} times in {path}")
            texts[path] = text.replace(old, rest)
    return faults if texts else [f"{edit}: it changes nothing"]


class WrongBodies(unittest.TestCase):
    def test_each_can_be_laid_in(self) -> None:
        edits = [*HERE.glob("*/*.edit"), *run.TOP.glob("crates/*/must-fail/*.edit")]
        self.assertGreater(len(edits), 200)
        for edit in edits:
            crate = edit.parent.parent if edit.parent.name == "must-fail" else run.TOP / "crates" / edit.parent.name
            self.assertEqual(faults_of(edit, crate), [])

    def test_few_stand_in_the_gate(self) -> None:
        folders = {it.parent for it in run.TOP.glob("crates/*/must-fail/*.edit")}
        self.assertLessEqual(len(folders), 15)
        self.assertLessEqual(max(len(list(it.glob("*.edit"))) for it in folders), 5)


class Counting(unittest.TestCase):
    def setUp(self) -> None:
        self.room = tempfile.TemporaryDirectory()
        self.addCleanup(self.room.cleanup)
        command = Path(self.room.name, "rt")
        command.write_text(STAND_IN)
        command.chmod(command.stat().st_mode | stat.S_IXUSR)
        path = os.environ["PATH"]
        os.environ["PATH"] = f"{self.room.name}:{path}"
        self.addCleanup(os.environ.__setitem__, "PATH", path)
        self.addCleanup(setattr, run, "HERE", run.HERE)
        run.HERE = Path(self.room.name, "edits")
        run.HERE.mkdir()

    def write(self, *edits: str, text: str = "") -> None:
        """Puts wrong bodies of `lift_bytes` there."""
        folder = run.HERE / "lift_bytes"
        folder.mkdir(exist_ok=True)
        for name in edits:
            (folder / f"{name}.edit").write_text(text)

    def tried(self, *words: str) -> List[str]:
        """The last lines of what is said of those that are there, with the status."""
        said = io.StringIO()
        with contextlib.redirect_stdout(said):
            status = run.main(["--jobs", "1", *words])
        told = [line for line in said.getvalue().splitlines() if line and not line.startswith("rt: ")]
        return [*told, str(status)]

    def notes(self) -> List[str]:
        """The lines of what is noted, without sums."""
        lines = (run.HERE / "refused").read_text().splitlines()
        return [" ".join(line.split(" ")[::2]).rpartition("/")[2] for line in lines]

    def test_all_are_refused(self) -> None:
        self.write("one", "two", "bare")
        told = ["== lift_bytes: 3 clause, 0 stored, 0 limit, 0 passed"]
        told += [f"refused now: {THREE}; noted before: {NONE}; 0 passed", "0"]
        self.assertEqual(self.tried(), told)
        self.assertEqual(self.tried(), [f"refused now: {NONE}; noted before: {THREE}; 0 passed", "0"])

    def test_one_passes(self) -> None:
        self.write("one", "it_passes")
        one = "1 at a clause, 0 stored, 0 at a limit"
        told = ["== lift_bytes: 1 clause, 0 stored, 0 limit, 1 passed"]
        self.assertEqual(self.tried(), [*told, f"refused now: {one}; noted before: {NONE}; 1 passed", "1"])
        told = ["== lift_bytes: 0 clause, 0 stored, 0 limit, 1 passed"]
        self.assertEqual(self.tried(), [*told, f"refused now: {NONE}; noted before: {one}; 1 passed", "1"])

    def test_kinds_are_told_apart(self) -> None:
        """What is refused only by what is stored or at a limit isn't refused at a clause, today or noted before."""
        self.write("one", "at_a_limit", "stored")
        each = "1 at a clause, 1 stored, 1 at a limit"
        told = ["== lift_bytes: 1 clause, 1 stored, 1 limit, 0 passed"]
        self.assertEqual(self.tried(), [*told, f"refused now: {each}; noted before: {NONE}; 0 passed", "1"])
        self.assertEqual(self.notes(), ["at_a_limit.edit limit", "one.edit clause", "stored.edit stored"])
        self.assertEqual(self.tried(), [f"refused now: {NONE}; noted before: {each}; 0 passed", "1"])
        (run.HERE / "lift_bytes" / "at_a_limit.edit").unlink()
        self.assertEqual(self.tried()[-1], "1")
        (run.HERE / "lift_bytes" / "stored.edit").unlink()
        self.assertEqual(self.tried()[-1], "0")

    def test_kinds_that_were_not_told(self) -> None:
        """A note of the time before has no kind, and is told so; it is tried again where that is asked for."""
        self.write("one", "stored")
        sums = run.sums_of("lift_bytes")
        (run.HERE / "refused").write_text("".join(f"{name} {sum_}\n" for name, sum_ in sums.items()))
        untold = f"{NONE}, 2 of a kind not told"
        self.assertEqual(self.tried(), [f"refused now: {NONE}; noted before: {untold}; 0 passed", "0"])
        self.assertEqual(self.tried("--untold")[-1], "1")
        self.assertEqual(self.notes(), ["one.edit clause", "stored.edit stored"])
        self.assertEqual(self.tried("--untold")[0], f"refused now: {NONE}; noted before: {TWO}; 0 passed")

    def test_what_was_refused_is_noted(self) -> None:
        self.write("one", "two")
        self.tried()
        self.assertEqual(self.tried()[-1], "0")
        self.assertEqual(self.tried("--anew")[0], "== lift_bytes: 2 clause, 0 stored, 0 limit, 0 passed")
        self.write("two", text="another one\n")
        self.assertEqual(self.tried()[0], "== lift_bytes: 1 clause, 0 stored, 0 limit, 0 passed")
        self.assertEqual(self.notes(), ["one.edit clause", "two.edit clause"])
        (run.HERE / "lift_bytes" / "one.edit").unlink()
        self.tried("--anew")
        self.assertEqual(self.notes(), ["two.edit clause"])

    def test_the_notes_that_are_kept(self) -> None:
        """Each has a sum and maybe a kind, in order, and is of a wrong body that is there."""
        lines = [line.split(" ") for line in (run.TOP / "tests/wrong-bodies/refused").read_text().splitlines()]
        self.assertEqual([line[0] for line in lines], sorted(line[0] for line in lines))
        for name, sum_, *kind in lines:
            self.assertTrue((run.TOP / "tests/wrong-bodies" / name).is_file(), name)
            self.assertRegex(sum_, "^[0-9a-f]{16}$")
            self.assertIn(kind, [[], *([it] for it in run.KINDS)])

    def test_a_changed_crate_is_tried_again(self) -> None:
        self.write("one")
        self.tried()
        self.addCleanup(setattr, run, "crate_sum", run.crate_sum)
        run.crate_sum = lambda crate: "another text"
        self.assertEqual(self.tried()[0], "== lift_bytes: 1 clause, 0 stored, 0 limit, 0 passed")

    def test_a_sum_reads_what_a_proof_reads(self) -> None:
        room = Path(self.room.name, "top")
        self.addCleanup(setattr, run, "TOP", run.TOP)
        run.TOP = room
        for part in ("src/lib.rt", "specs/Lib.antt", "proofs/Lib.antt", "must-fail/one.edit"):
            path = room / "crates/some" / part
            path.parent.mkdir(parents=True)
            path.write_text("text")
            sums = [run.crate_sum("some")]
            path.write_text("another")
            sums.append(run.crate_sum("some"))
            self.assertEqual(len(set(sums)), 1 if part.startswith("must-fail") else 2)

    def test_a_crate_that_has_none(self) -> None:
        with contextlib.redirect_stderr(io.StringIO()), self.assertRaises(SystemExit):
            run.main(["lift_bytes"])


if __name__ == "__main__":
    unittest.main()
