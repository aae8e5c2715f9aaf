#!/usr/bin/env python3
"""What each command writes of random models with structure is what slow definitions say, byte for byte:

    tests/structure/test_structure.py [--count N] [--seed S] [--program PATH]

Models have copied states, sinks, rings and dead ends (structures.py).
"""

from __future__ import annotations

import random
import re
import resource
import subprocess
import unittest
from fractions import Fraction
from typing import Callable, List

from structures import Asked, Process, asked, structured

import asking
import cheapest
import reference
import slow
from asking import Answer, checked
from priced import priced_text, random_asked
from processes import model_text, random_question

COUNT = 25  # of questions to each command
SECONDS = 10  # that an answer may take
ROOM = 2**31  # and of memory
Fault = Callable[[random.Random], str]


def limit() -> None:
    """What a run may take."""
    resource.setrlimit(resource.RLIMIT_CPU, (SECONDS, SECONDS))
    resource.setrlimit(resource.RLIMIT_AS, (ROOM, ROOM))


def ask(words: List[str], given: bytes) -> Answer:
    """What the program answers, in time."""
    done = subprocess.run([asking.PROGRAM, *words], input=given, capture_output=True, preexec_fn=limit, check=False)
    return Answer(done.returncode, done.stdout, done.stderr)


def other(words: List[str], given: bytes, wanted: bytes) -> str:
    """How an answer is another one than is wanted; nothing where it is that one."""
    got = ask(words, given)
    if got == Answer(0, wanted, b""):
        return ""
    return f"{words}: {got.status} {got.note!r}\n{got.out.decode()}and not\n{wanted.decode()}of\n{given.decode()}"


def question(chance: random.Random, is_chain: bool = False) -> tuple[Process, Asked]:
    """A process, and what is asked of it."""
    process = structured(chance, is_chain or chance.random() < 0.3)
    return process, asked(chance, process)


def of_verify(chance: random.Random) -> str:
    """The report, which checkers find sound, also of version 2."""
    process, it = question(chance)
    model = model_text(process)
    report, tree = slow.report(process, it)
    second, other_tree = slow.report(process, it, it.least)
    said = f"{slow.sound(tree)}\n".encode()
    faults = [other(it.words("verify"), model, report), other(["check"], report, said)]
    faults += [other([*it.words("verify"), "--from", str(it.least)], model, second)]
    faults += [other(["check"], second, f"{slow.sound(other_tree)}\n".encode())]
    faults += [] if checked(second) == slow.sound(other_tree) else [f"recheck.py: {checked(second)} of {second!r}"]
    return "".join(faults)


def of_check(chance: random.Random) -> str:
    """A report with a changed number: both checkers say the same."""
    process, it = question(chance)
    report = slow.report(process, it, it.least if chance.random() < 0.5 else None)[0].decode()
    numbers = list(re.finditer(r"\d+", report))
    found = chance.choice(numbers[-40:])
    text = f"{report[:found.start()]}{max(0, int(found[0]) + chance.choice([-1, 1, 2]))}{report[found.end():]}".encode()
    got, said = ask(["check"], text), checked(text)
    right = Answer(0, f"{said}\n".encode(), b"") if said.startswith("sound ") else Answer(1, b"", f"{said}\n".encode())
    return "" if got == right else f"check says {got}, and recheck.py {said}, of\n{text.decode()}"


def of_migrate(chance: random.Random) -> str:
    """The report of version 2 whose leaves all have the one precision."""
    process, it = question(chance)
    return other(["migrate"], slow.report(process, it)[0], slow.report(process, it, it.precision)[0])


def of_refine(chance: random.Random) -> str:
    """The report at a greater depth, from one at a lower depth."""
    process, it = question(chance)
    least, deeper = chance.choice([None, it.least]), it._replace(depth=it.depth + chance.choice([1, 2]))
    words = ["refine", "--depth", str(deeper.depth)]
    return other(words, slow.report(process, it, least)[0], slow.report(process, deeper, least)[0])


def of_lumped(chance: random.Random) -> str:
    """The report of the quotient, whose numbers are over the chain's own denominator."""
    process, it = question(chance, is_chain=True)
    report, tree = slow.report(slow.quotient(process), it, common=process.common())
    faults = [other(it.words("lumped"), model_text(process), report)]
    return "".join(faults) + ("" if checked(report) == slow.sound(tree) else checked(report))


def of_bounded(chance: random.Random) -> str:
    """The text for a number of steps."""
    process, it = question(chance)
    steps = chance.choice([1, 2, 3, 5, 9])
    text, tree = slow.within(process, it, steps)
    fault = other([*it.words("bounded"), "--steps", str(steps)], model_text(process), text)
    return fault + ("" if checked(text) == slow.sound(tree) else checked(text))


def of_property(chance: random.Random) -> str:
    """The text of a formula, also of version 2."""
    process, _ = question(chance)
    formula = random_question(chance, process)
    formula = formula._replace(depth=min(formula.depth, 2))
    least = chance.randrange(1, formula.precision + 1)
    faults = []
    for words, (text, tree) in (
        (formula.words(), reference.answer(process, formula)),
        ([*formula.words(), "--from", str(least)], reference.answer(process, formula, least)),
    ):
        faults.append(other(words, model_text(process), text))
        faults += [] if checked(text) == slow.sound(tree, ("holds", "fails", "unknown")) else [checked(text)]
    return "".join(faults)


def of_cost(chance: random.Random) -> str:
    """The text for a budget."""
    process, _ = question(chance)
    it = random_asked(chance, process)._replace(budget=Fraction(1), cap=chance.choice([1, 2, 4, 8]), depth=1)
    text, tree = cheapest.answer(process, it)
    fault = other(it.words(), priced_text(chance, process, it), text)
    return fault + ("" if checked(text) == slow.sound(tree, ("accept", "unknown")) else checked(text))


def of_ladders(chance: random.Random) -> str:
    """The ladder's text, and what is said of its report."""
    count = chance.randrange(1, 40)
    text = slow.ladder(count)
    words = ["verify", "--goal", "done", "--bound", "1/2", "--region", "1/2<=p<=3/5,1/2<=q<=3/5", "--depth", "2"]
    leaves = checked(ask(words, text).out).replace("sound", f"selftest {count} states {2 * count + 2}")
    return other(["generate", str(count)], b"", text) + other(["selftest", str(count)], b"", f"{leaves}\n".encode())


@unittest.skipUnless(asking.has_program(), "no program is built")
class Commands(unittest.TestCase):
    """The commands."""

    def holds(self, fault_of: Fault) -> None:
        """Nothing is at fault with any question."""
        asking.each_question(self, fault_of, COUNT)

    def test_verify(self) -> None:
        """`verify`, with a range of precisions and without."""
        self.holds(of_verify)

    def test_check(self) -> None:
        """`check` of what isn't quite a report."""
        self.holds(of_check)

    def test_migrate(self) -> None:
        """`migrate`."""
        self.holds(of_migrate)

    def test_refine(self) -> None:
        """`refine` of reports of both versions."""
        self.holds(of_refine)

    def test_bounded(self) -> None:
        """`bounded`."""
        self.holds(of_bounded)

    def test_property(self) -> None:
        """`property`, with a range of precisions and without."""
        self.holds(of_property)

    def test_cost(self) -> None:
        """`cost`."""
        self.holds(of_cost)

    def test_ladders(self) -> None:
        """`generate` and `selftest`."""
        self.holds(of_ladders)

    def test_lumped(self) -> None:
        """`lumped`."""
        self.holds(of_lumped)


if __name__ == "__main__":
    asking.main("Random questions of models with structure.")
