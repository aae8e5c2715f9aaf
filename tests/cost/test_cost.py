#!/usr/bin/env python3
"""What `cost` says of small models made at random is true, and has the bytes of a text that is found in another way:

    tests/cost/test_cost.py [--count N] [--seed S] [--program PATH]

Of so many questions of chains and decision processes, 150 if left out, with 0 to 2 parameters and with costs that are
fractions: the text is the one of cheapest.py, byte for byte; recheck.py finds it sound; and at sampled valuations of
each accepting leaf no plan is expected to spend more than the budget in the first steps, and none more at any state
than its number says (spent.py). Where no program is built, the reference's own texts are tried.
"""

from __future__ import annotations

import random
import re
import unittest
from fractions import Fraction
from typing import List, Optional, Sequence

from priced import Asked, Process, priced_text, random_pair
from spent import most_spent, rows_at, spent_by_some

import asking
from asking import checked, wrong_text
from cheapest import answer, least_numbers
from processes import samples, some_of
from reference import Leaf, leaves_of

COUNT = 150
MOST_LEAVES = 4  # of a tree, that are sampled
STEPS, PLANNED = 30, 4  # how many, of the plan that spends most and of plans made up on the way


def lie_of(chance: random.Random, process: Process, asked: Asked, leaf: Leaf, at: List[Fraction]) -> str:
    """What an accepting leaf says that isn't so at a valuation, nothing where all is so."""
    spent = most_spent(process, asked.costs, at, STEPS)
    if spent[process.init] > asked.budget:
        return f"{spent[process.init]} is spent, and the budget is {asked.budget}"
    for s, (most, number) in enumerate(zip(spent, leaf.certificate.numbers)):
        if most * 2**asked.precision > number * asked.cap:
            return f"state {s} spends {most}, and has {number}"
    some = spent_by_some(chance, process, asked.costs, rows_at(process, at), process.init, PLANNED)
    return f"a plan spends {some}" if some > asked.budget else ""


def needed(process: Process, asked: Asked, at: Sequence[Fraction]) -> Optional[Fraction]:
    """The budget that is needed at a valuation, if one under the cap is enough."""
    numbers = least_numbers(process, asked, [(end, end) for end in map(Fraction, at)])
    return None if numbers is None else Fraction(numbers[process.init] * asked.cap, 2**asked.precision)


def between(chance: random.Random, process: Process, asked: Asked) -> Optional[Fraction]:
    """A budget about what is needed at two corners of the region, less or more; none where the same is, or where either
    needs more than the cap."""
    needs = [needed(process, asked, [chance.choice(span) for span in asked.box]) for _ in range(2)]
    low, high = min(need or 0 for need in needs), max(need or 0 for need in needs)
    about = high + (high - low) * Fraction(chance.randrange(-9, 6), 10)
    return min(about.limit_denominator(1000), Fraction(asked.cap)) if None not in needs and low < high else None


def question_of(chance: random.Random) -> tuple[Process, Asked]:
    """A process, and what is asked of it: mostly with a budget that is kept in some part of the region only."""
    for _ in range(chance.choice([1, 80, 80, 80, 80])):
        process, asked = random_pair(chance)
        budget = between(chance, process, asked)
        if budget is not None:
            return process, asked._replace(budget=budget)
    need = needed(process, asked, [high for _, high in asked.box]) or Fraction(asked.cap, 2)
    return process, asked._replace(
        budget=chance.choice([Fraction(0), Fraction(asked.cap), min(need * 2, Fraction(asked.cap))])
    )


def fault_of(chance: random.Random) -> str:
    """What is wrong with one question, nothing where nothing is."""
    process, asked = question_of(chance)
    text = priced_text(chance, process, asked)
    wanted, tree = answer(process, asked)
    leaves = leaves_of(tree)
    accepting = [leaf for leaf in leaves if leaf.certificate]
    sound = f"sound accept {len(accepting)} unknown {len(leaves) - len(accepting)}"
    wrong = wrong_text(asked.words(), text, wanted, sound)
    if wrong:
        return wrong
    for leaf in some_of(chance, accepting, MOST_LEAVES):
        for at in samples(chance, leaf.box):
            lie = lie_of(chance, process, asked, leaf, at)
            if lie:
                return f"at {at}: {lie}\n{text.decode()}{asked.words()}\n{wanted.decode()}"
    return ""


class Costs(unittest.TestCase):
    """Questions made at random."""

    def test_random_questions(self) -> None:
        asking.each_question(self, fault_of, COUNT)

    def test_lies_are_seen(self) -> None:
        """A budget below what is spent, and numbers below it, are told of."""
        chance, seen = random.Random(asking.SEED), 0
        while seen < 10:
            process, asked = question_of(chance)
            leaf = next((leaf for leaf in leaves_of(answer(process, asked)[1]) if leaf.certificate), None)
            at = [high for _, high in leaf.box] if leaf else []
            if leaf is None or most_spent(process, asked.costs, at, STEPS)[process.init] == 0:
                continue
            self.assertIn("the budget is 0", lie_of(chance, process, asked._replace(budget=Fraction(0)), leaf, at))
            free = leaf._replace(certificate=leaf.certificate._replace(numbers=[0] * len(process.states)))
            self.assertIn("and has 0", lie_of(chance, process, asked, free, at))
            seen += 1

    def test_no_number_can_be_lower(self) -> None:
        """Where one number is one less, recheck.py refuses the text: so the numbers are the least."""
        chance, seen = random.Random(asking.SEED), 0
        while seen < 30:
            text = answer(*question_of(chance))[0].decode()
            for leaf in re.findall(r"^accept .*$", text, re.M)[:2]:
                numbers = [int(word) for word in leaf.split(" ")[1:]]
                for s, number in enumerate(numbers):
                    lower = " ".join(map(str, ["accept", *numbers[:s], number - 1, *numbers[s + 1 :]]))
                    if number > 0:
                        changed = text.replace(f"\n{leaf}\n", f"\n{lower}\n", 1).encode()
                        self.assertRegex(checked(changed), r"^not sound: node \d+ state ")
                        seen += 1


if __name__ == "__main__":
    asking.main("Random questions of cost.")
