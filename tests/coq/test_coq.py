#!/usr/bin/env python3
"""What the checker proved in Coq says of a text is what recheck.py says of it, place and cause of a fault included.

    make -C coq && python3 -m unittest discover -s tests/coq
    tests/coq/test_coq.py [CHANGES [SEED]]

It is passed over where coq/coq-check isn't built. CHANGES texts are changed at random, 250 if left out (2,000 or more
when the checker was changed); SEED is 1. The examples, the worked refusals and the changes are those of
recheck/test.py.
"""

from __future__ import annotations

import importlib.util
import random
import subprocess
import sys
import tempfile
import unittest
from pathlib import Path
from typing import Any, Dict, Iterator, List, Set, Tuple

sys.dont_write_bytecode = True
TOP = Path(__file__).resolve().parents[2]
CHECKER = TOP / "coq" / "coq-check"
QUICK = TOP / "build" / "quick" / "plift"
CHANGES, SEED = 250, 1


def module(path: Path) -> Any:
    """A script as a module."""
    sys.path.insert(0, str(path.parent))
    spec = importlib.util.spec_from_file_location("tests_of_recheck", path)
    assert spec and spec.loader
    found = importlib.util.module_from_spec(spec)
    spec.loader.exec_module(found)
    return found


WORKED = module(TOP / "recheck" / "test.py")
TEXTS: Dict[str, bytes] = {**WORKED.REPORTS, **WORKED.STEPS, **WORKED.PROPERTIES, **WORKED.COSTS}
TABLES: Tuple[str, ...] = (WORKED.TABLE, WORKED.STEPS_TABLE, WORKED.PROPERTY_TABLE, WORKED.COST_TABLE)

# Each row: an example, and words that make a text of it.
MADE = """
retry.drn | verify --goal lost --bound 1/40 --region 1/10<=p<=1/2,1/10<=q<=1/2 --depth 8
retry.drn | verify --goal lost --bound 1/40 --region 1/10<=p<=1/2,1/10<=q<=1/2 --depth 8 --from 1
chain.drn | verify --goal lost --bound 1/2 --region 3/5<=p<=9/10,3/5<=q<=9/10,3/5<=r<=9/10 --depth 6 --precision 30
die.drn   | verify --goal one --bound 1/6 --region 1/10<=p<=9/10 --depth 12 --precision 30
plain.drn | verify --goal heads --bound 0 --precision 4
die.drn   | lumped --goal one --bound 1/3 --region 2/5<=p<=3/5 --depth 4
retry.drn | bounded --goal lost --bound 1/40 --steps 3 --region 1/10<=p<=1/2,1/10<=q<=1/2 --precision 10 --depth 6
loop.drn  | bounded --goal heads --bound 1/2 --steps 64 --region 1/5<=p<=2/5 --depth 4
retry.drn | property --formula P<=1/40[F"lost"] --region 1/10<=p<=1/2,1/10<=q<=1/2 --precision 10 --depth 8
retry.drn | property --formula P<1/40[F"lost"] --region 1/10<=p<=1/2,1/10<=q<=1/2 --precision 10 --depth 8
retry.drn | property --formula P>=9/10[F"delivered"] --region 1/10<=p<=1/2,1/10<=q<=1/2 --precision 10 --depth 8
retry.drn | property --formula P>9/10[F"delivered"] --region 1/10<=p<=1/2,1/10<=q<=1/2 --precision 10 --depth 8
retry.drn | property --formula P<=1/40[F"lost"] --region 1/10<=p<=1/2,1/10<=q<=1/2 --precision 10 --depth 8 --from 1
retry.drn | property --formula P>=9/10[F"delivered"] --region 1/10<=p<=1/2,1/10<=q<=1/2 --precision 9 --depth 8 --from 2
twin.drn  | property --formula P>=1/2[F"heads"] --region 3/5<=p<=9/10 --precision 4
sends.drn | cost --goal done --reward seconds --budget 2 --cap 4 --region 1/10<=p<=1/2,1/10<=q<=1/2 --depth 8
sends.drn | cost --goal done --reward sends --budget 7/5 --cap 3 --region 1/10<=p<=3/10,1/20<=q<=1/5 --precision 10
"""


def checked(text: bytes, words: Tuple[str, ...] = ()) -> Any:
    """How coq-check ends on a text."""
    return WORKED.asked([str(CHECKER), *words], text)


def peak(text: bytes) -> int:
    """The most memory that coq-check has at a time, in bytes, on a sound text; not less than a small Python needs."""
    script = "import resource, subprocess, sys; subprocess.run(sys.argv[1:], check=True, stdout=subprocess.DEVNULL)"
    script += "; print(resource.getrusage(resource.RUSAGE_CHILDREN).ru_maxrss)"
    with tempfile.NamedTemporaryFile(suffix=".report") as kept:
        kept.write(text)
        kept.flush()
        said = subprocess.run([sys.executable, "-c", script, str(CHECKER), kept.name], capture_output=True, check=True)
    return 1024 * int(said.stdout)


def made() -> Iterator[Tuple[str, bytes]]:
    """Texts that the quick program makes."""
    for row in filter(None, MADE.split("\n")):
        example, words = [cell.strip() for cell in row.split(" | ")]
        model = (TOP / "examples" / example).read_bytes()
        yield row, subprocess.run([str(QUICK), *words.split()], input=model, capture_output=True, check=True).stdout


def wide_row(targets: int) -> bytes:
    """A report whose first state leads to so many others, each with the same probability."""
    lines = [
        "plift 1",
        "kind dtmc",
        "parameters 0",
        f"common {targets}",
        f"states {targets + 1}",
        "init 0",
        f"goal 1 {targets}",
    ]
    lines += [f"row 0 0 {targets}"] + [f"to {t} 0:1" for t in range(1, targets + 1)]
    for state in range(1, targets + 1):
        lines += [f"row {state} 0 1", f"to {state} 0:{targets}"]
    lines += [
        "bound 1/2",
        "precision 20",
        "depth 0",
        "grid 1",
        "box",
        " ".join(["accept", "1048576"] + ["1"] * (targets - 1) + ["1048576"]),
    ]
    return ("\n".join(lines) + "\n").encode()


def unlike_rows(states: int, terms: int, digits: int) -> Tuple[bytes, int]:
    """A report in which no two rows are alike, and how many bytes its rows are: each leads to the goal and to one or
    two other states, with polynomials of so many terms and with numbers of so many digits.
    """
    dice, goal, common = random.Random(SEED), states - 1, 6 * terms * 10**digits
    rows: List[str] = []
    for state in range(goal):
        polys = [[dice.randrange(1, 10**digits) for _ in range(terms)] for _ in range(1 + state % 2)]
        sums = [sum(numbers) for numbers in zip(*polys)]
        polys.insert(0, [common - sums[0]] + [-number for number in sums[1:]])
        rows.append(f"row {state} 0 {len(polys)}")
        for target, poly in zip([goal, (state + 1) % goal, (state + 7) % goal], polys):
            rows.append(f"to {target} " + " ".join(f"{parameters}:{number}" for parameters, number in enumerate(poly)))
    head = [
        "plift 1",
        "kind dtmc",
        "parameters 3 p q r",
        f"common {common}",
        f"states {states}",
        f"init {goal}",
        f"goal 1 {goal}",
    ]
    region = ["bound 0/1", "precision 20", "depth 1", "grid 20", "box 2 18 2 18 2 18"]
    leaf = [
        "reject e 1 k 1 m 1 b 1048576/1048576",
        "y " + "0 " * goal + "1048576",
        "choice " + "0 " * goal + "-",
        "rank " + "1 " * goal + "0",
    ]
    last = [f"row {goal} 0 1", f"to {goal} 0:{common}"]
    return ("\n".join([*head, *rows, *last, *region, "split 0", *leaf, *leaf]) + "\n").encode(), len("\n".join(rows))


@unittest.skipUnless(CHECKER.is_file(), "coq/coq-check isn't built (make -C coq)")
class CoqCase(unittest.TestCase):
    """A test of coq/coq-check."""

    def alike(self, name: str, text: bytes) -> None:
        """Both say the same."""
        self.assertEqual(checked(text), WORKED.rechecked(text), name)


class Texts(CoqCase):
    """Texts of all kinds."""

    def test_examples_and_what_is_cut_off(self) -> None:
        for name, text in TEXTS.items():
            self.alike(name, text)
            for size in range(0, len(text), 29):
                self.alike(f"{size} bytes of {name}", text[:size])

    def test_worked_refusals(self) -> None:
        rows: List[str] = [row for table in TABLES for row in filter(None, table.split("\n"))]
        self.assertGreater(len(rows), 400)
        for row in rows:
            report, changes, said = [cell.strip(" ") if i != 1 else cell[1:-1] for i, cell in enumerate(row.split("|"))]
            self.assertEqual(checked(WORKED.changed(report, changes)), WORKED.answer(said), row)

    def test_changes(self) -> None:
        dice, texts = random.Random(SEED), list(TEXTS.values())
        if QUICK.is_file():
            texts += [text for _, text in made() if len(text) < 20000]
        for number in range(CHANGES):
            text = WORKED.mutant(dice.choice(texts), dice)
            if checked(text) != WORKED.rechecked(text):
                with tempfile.NamedTemporaryFile(prefix="coq-check-", suffix=".report", delete=False) as kept:
                    kept.write(text)
                self.fail(
                    f"change {number} of seed {SEED}, kept as {kept.name}: {checked(text)}, {WORKED.rechecked(text)}"
                )

    def test_rows_that_share_nothing(self) -> None:
        text, _ = unlike_rows(600, 2, 6)
        self.alike("no two rows alike", text)
        for row in (0, 1, 300, 598):
            self.alike(f"changed row {row}", text.replace(b"row %d 0 " % row, b"row %d 0 1" % row))
            begin = text.index(b"row %d 0 " % row)
            for old, new in ((b"0:", b"0:9"), (b" 1:-", b" 1:-9"), (b"to ", b"to 9"), (b"1:", b"4:")):
                self.alike(f"row {row} with {new!r}", text[:begin] + text[begin:].replace(old, new, 1))

    @unittest.skipUnless(QUICK.is_file(), "the quick program isn't built")
    def test_what_plift_makes_is_sound(self) -> None:
        for row, text in made():
            self.assertTrue(checked(text).out.startswith(b"sound "), row)
            self.alike(row, text)

    def test_lines_that_are_none(self) -> None:
        coin = TEXTS["COIN"]
        for text in (
            b"",
            b"\n",
            b"plift",
            b"a" * 2**20 + b"\n",
            b"a" * (2**20 + 1),
            b"a" * 2**21 + b"\n",
            b" " * 70000 + b"\n",
            coin + b"\n",
            coin + b"unknown",
            coin + b"a" * 2**21,
            coin.replace(b"\n", b"\r\n"),
            coin.replace(b"1", b"\0"),
            coin.replace(b"9 16 0", b"9 16 " + b"0" * 5000),
            coin.replace(b"9 16 0", b"9 16 " + b"1" * 100000),
            coin.replace(b"row 0", b"row x" + b" 1" * 2**20),
            coin.replace(b"row 0", b"row 0" + b" 1" * (2**19 - 3)),
            coin[: coin.index(b"row 0") + 5] + b" x 1",
            coin.replace(b"rank 1 0 -", b"rank 1 0 -1"),
            coin.replace(b"rank 1 0 -", b"rank 1 -20"),
            coin.replace(b"rank 1 0 -", b"rank -1 0 x"),
            coin.replace(b"rank 1 0 -", b"rank -1 0 - -"),
            coin.replace(b"choice 0 - -", b"choice -1 -2 -"),
            coin.replace(b"choice 0 - -", b"choice -1 -"),
        ):
            self.alike(repr(text[:60]), text)

    def test_text_that_comes_byte_by_byte(self) -> None:
        sound = {name: text for name, text in TEXTS.items() if checked(text).status == 0}
        self.assertGreater(len(sound), 3)
        for name, text in sound.items():
            with subprocess.Popen([str(CHECKER)], stdin=subprocess.PIPE, stdout=subprocess.PIPE, bufsize=0) as checker:
                assert checker.stdin and checker.stdout
                for byte in text:
                    checker.stdin.write(bytes([byte]))
                checker.stdin.close()
                self.assertEqual(checker.stdout.read(), checked(text).out, name)

    def test_words_where_a_piece_of_the_input_ends(self) -> None:
        for targets in range(9000, 9040):
            text = wide_row(targets).replace(b"accept 1048576", b"accept 1000")
            self.assertEqual(checked(text).status, 0, targets)


class Ends(CoqCase):
    """How the program ends, and what it needs."""

    def test_file_or_standard_input(self) -> None:
        sound = WORKED.Answer(0, b"sound accept 0 reject 1 unknown 0\n", b"")
        self.assertEqual(checked(b"", (str(TOP / "examples" / "coin.report"),)), sound)
        self.assertEqual(checked(TEXTS["COIN"]), sound)

    def test_statuses(self) -> None:
        self.assertEqual(checked(b"", ("a", "b")), WORKED.Answer(2, b"", b"usage: coq-check [FILE]\n"))
        self.assertEqual(checked(b"", ("-x",)), WORKED.Answer(2, b"", b"usage: coq-check [FILE]\n"))
        self.assertEqual(checked(b"", ("--help",)).status, 0)
        missing = checked(b"", (str(TOP / "no such file"),))
        self.assertEqual((missing.status, missing.notes[:10]), (5, b"read fault"))
        self.assertEqual(checked(b"", (str(TOP),)), WORKED.Answer(5, b"", b"read fault\n"))
        with open("/dev/full", "wb") as full:
            done = subprocess.run([str(CHECKER)], input=TEXTS["COIN"], stdout=full, stderr=subprocess.PIPE, check=False)
        self.assertEqual((done.returncode, done.stderr), (6, b"write fault\n"))

    @unittest.skipUnless(QUICK.is_file(), "the quick program isn't built")
    def test_memory_by_the_states_and_not_by_the_leaves(self) -> None:
        ladder = subprocess.run([str(QUICK), "generate", "32767"], capture_output=True, check=True).stdout
        words = ["verify", "--goal", "done", "--bound", "9/10", "--region", "99/100<=p<=1,98/100<=q<=1", "--depth", "2"]
        self.assertLess(
            peak(subprocess.run([str(QUICK), *words], input=ladder, capture_output=True, check=True).stdout),
            20 * 10**6,
        )
        retry = (TOP / "examples" / "retry.drn").read_bytes()
        words = ["verify", "--goal", "lost", "--bound", "1/40", "--region", "1/10<=p<=1/2,1/10<=q<=1/2", "--depth"]
        few, many = (
            subprocess.run([str(QUICK), *words, depth], input=retry, capture_output=True, check=True).stdout
            for depth in ("2", "16")
        )
        self.assertGreater(len(many), 20 * len(few))
        self.assertLess(peak(many), peak(few) + 2 * 10**6)

    def test_memory_where_no_two_rows_are_alike(self) -> None:
        text, _ = unlike_rows(60000, 2, 6)
        self.assertEqual(checked(text).out, b"sound accept 0 reject 2 unknown 0\n")
        self.assertLess(peak(text), 300 * 60000)
        text, size_of_rows = unlike_rows(15000, 8, 16)
        self.assertLess(peak(text), 5 * 10**6 + 300 * 15000 + size_of_rows)

    def test_want_of_memory(self) -> None:
        text = wide_row(20000)
        statuses: Set[int] = set()
        for room in range(10000, 30000, 2000):
            said = WORKED.asked(["sh", "-c", f"ulimit -v {room}; exec {CHECKER}"], text)
            statuses.add(said.status)
            if said.status == 8:
                self.assertEqual(said, WORKED.Answer(8, b"", b"out of memory\n"))
        self.assertTrue({8, 1} <= statuses <= {8, 1, 127}, statuses)

    def test_stack_does_not_grow_with_the_states(self) -> None:
        text = wide_row(40000)
        said = WORKED.asked(["sh", "-c", f"ulimit -s 200; exec {CHECKER}"], text)
        self.assertEqual(
            said,
            WORKED.Answer(
                1,
                b"",
                b"not sound: node 0 bound: 1048576 > 524288\n".replace(b"1048576 > 524288", b"2097152 > 1048576"),
            ),
        )
        again = text.replace(b"accept 1048576", b"accept 28")
        self.assertEqual(WORKED.asked(["sh", "-c", f"ulimit -s 200; exec {CHECKER}"], again).status, 0)


def main(words: List[str]) -> None:
    """Takes the numbers off the words."""
    global CHANGES, SEED
    numbers = [int(word) for word in words[1:] if word.isdigit()]
    CHANGES, SEED = (numbers + [CHANGES, SEED][len(numbers) :])[:2]
    unittest.main(argv=[words[0]] + [word for word in words[1:] if not word.isdigit()])


if __name__ == "__main__":
    main(sys.argv)
