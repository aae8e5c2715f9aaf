#!/usr/bin/env python3
"""What `property` says of small models made at random is true, and has the bytes of a text that is found in another
way:

    tests/property/test_property.py [--count N] [--seed S] [--program PATH]

Of so many questions of chains and decision processes, 120 if left out, with 0 to 2 parameters, all four comparisons,
`F` and `U`: the text is the one of reference.py, byte for byte; recheck.py finds it sound; and at sampled valuations of
each decided leaf the property holds or fails as the leaf says, and each number bounds what is reached, as all
memoryless schedulers reach it (exact.py). Where no program is built, the reference's own texts are tried.
"""

from __future__ import annotations

import random
import unittest
from fractions import Fraction
from typing import List, Optional, Set, Tuple

import asking
from asking import wrong_text
from exact import extremes, reached
from processes import Process, Question, model_text, random_process, random_question, samples, some_of
from reference import Leaf, Upper, answer, leaves_of

COUNT = 120
MOST_LEAVES = 6  # of a tree, that are sampled


def is_true(op: str, number: Fraction, bound: Fraction) -> bool:
    """Whether a number compares so with a bound."""
    return {"<=": number <= bound, "<": number < bound, ">=": number >= bound, ">": number > bound}[op]


def lie_of(process: Process, question: Question, leaf: Leaf, at: List[Fraction]) -> str:
    """What a decided leaf says that isn't so at a valuation, nothing where all is so."""
    least, greatest = extremes(process, at, question.is_until)
    number = (greatest if question.op in ("<=", "<") else least)[process.init]
    if is_true(question.op, number, question.bound) != (leaf.kind == "holds"):
        return f"{leaf.kind}, but {number} is reached"
    found, top = leaf.certificate, 2**question.precision
    if found.picks is None:
        bounded = greatest if isinstance(found, Upper) else least
    else:
        bounded = reached(process, found.picks, at, question.is_until)
    for s, (bound, number) in enumerate(zip(found.numbers, bounded)):
        if not (number * top <= bound if isinstance(found, Upper) else number * top >= bound):
            return f"state {s} reaches {number}, and has {bound}/{top}"
    return ""


def between(chance: random.Random, process: Process, question: Question) -> Optional[Fraction]:
    """A number between what is reached at two corners of the region; none where that is the same."""
    numbers = []
    for _ in range(2):
        sides = extremes(process, [chance.choice(span) for span in question.box], question.is_until)
        numbers.append(sides[question.op in ("<=", "<")][process.init])
    low, high = sorted(numbers)
    return low + (high - low) * Fraction(chance.randrange(11), 10) if low < high else None


def question_of(chance: random.Random) -> tuple[Process, Question]:
    """A process, and what is asked of it: mostly with a bound that is kept somewhere and broken somewhere."""
    for _ in range(chance.choice([1, 20, 20, 20])):
        process = random_process(chance)
        question = random_question(chance, process)
        bound = between(chance, process, question)
        if bound is not None:
            return process, question.bounded_by(bound.limit_denominator(1000))
    return process, question


def fault_of(chance: random.Random) -> str:
    """What is wrong with one question, nothing where nothing is."""
    process, question = question_of(chance)
    wanted, tree = answer(process, question)
    leaves = leaves_of(tree)
    counts = " ".join(f"{kind} {sum(leaf.kind == kind for leaf in leaves)}" for kind in ("holds", "fails", "unknown"))
    wrong = wrong_text(question.words(), model_text(process), wanted, f"sound {counts}")
    if wrong:
        return wrong
    decided = [leaf for leaf in leaves if leaf.certificate]
    for leaf in some_of(chance, decided, MOST_LEAVES):
        for at in samples(chance, leaf.box):
            lie = lie_of(process, question, leaf, at)
            if lie:
                return f"at {at}: {lie}\n{model_text(process).decode()}{question.words()}\n{wanted.decode()}"
    return ""


class Properties(unittest.TestCase):
    """Questions made at random."""

    def test_random_questions(self) -> None:
        asking.each_question(self, fault_of, COUNT)

    def test_lies_are_seen(self) -> None:
        """The other verdict, and numbers that bound nothing, are told of."""
        chance = random.Random(asking.SEED)
        seen: Set[Tuple[type, bool]] = set()
        while len(seen) < 4:
            process, question = question_of(chance)
            for leaf in leaves_of(answer(process, question)[1]):
                at, found = [low for low, _ in leaf.box], leaf.certificate
                if found is None:
                    continue
                other = leaf._replace(kind="fails" if leaf.kind == "holds" else "holds")
                self.assertIn("but", lie_of(process, question, other, at))
                top = 0 if isinstance(found, Upper) else 2**question.precision + 1
                wrong = leaf._replace(certificate=found._replace(numbers=[top] * len(found.numbers)))
                self.assertIn("and has", lie_of(process, question, wrong, at))
                seen.add((type(found), found.picks is None))


if __name__ == "__main__":
    asking.main("Random questions of property.")
