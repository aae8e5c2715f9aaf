"""Bounds and thresholds of models made at random, beside what each point of a grid comes to by going back from the
end."""

import itertools
import random
import unittest
from dataclasses import dataclass, field
from fractions import Fraction
from typing import Dict, List, Tuple

import plift_lab
from plift_lab.api import Bounds

SEED, COUNT = 7, 6
FORMULAS = (
    'Pmax=? [F "g"]',
    'Pmin=? [F "g"]',
    'P=? ["up" U "g"]',
    'Pmin=? ["up" U "g"]',
    'P=? [F<=3 "g"]',
    'R{"c"}=? [F "g"]',
)
Point = Dict[str, Fraction]


@dataclass
class Tossed:
    """A model without cycles: in each state but the last two, of which the first is the goal, one or two choices, each
    of which goes on to the one of two later states with a part of a parameter, else to the other one."""

    random: random.Random
    is_chain: bool = True
    names: List[str] = field(default_factory=list)
    choices: List[List[Tuple[int, int, Fraction, str]]] = field(default_factory=list)
    costs: List[int] = field(default_factory=list)
    up: List[bool] = field(default_factory=list)

    def __post_init__(self) -> None:
        toss, size = self.random, self.random.randint(3, 7)
        self.names, self.is_chain = ['p', 'q', 'r'][: toss.randint(1, 3)], toss.random() < 0.5
        for state in range(size - 2):
            later = range(state + 1, size)
            count = 1 if self.is_chain else toss.randint(1, 2)
            self.choices.append([])
            for _ in range(count):
                one, other = toss.sample(later, 2)
                self.choices[-1].append((one, other, Fraction(1, toss.choice([1, 2, 4])), toss.choice(self.names)))
            self.costs.append(toss.randint(0, 2))
            self.up.append(state == 0 or toss.random() < 0.7)

    @property
    def goal(self) -> int:
        """The state that is to be reached."""
        return len(self.choices)

    @property
    def text(self) -> bytes:
        """As plift reads it."""
        lines = ['@type: DTMC' if self.is_chain else '@type: MDP', '@parameters', ' '.join(self.names)]
        lines += ['@reward_models', 'c', '@model']
        for state, choices in enumerate(self.choices):
            lines.append(
                'state %d [%d]%s%s' % (state, self.costs[state], ' init' * (state == 0), ' up' * self.up[state])
            )
            for one, other, part, name in choices:
                lines += [] if self.is_chain else ['action a']
                lines += ['%d : %s*%s' % (one, part, name), '%d : 1-%s*%s' % (other, part, name)]
        for state, label in ((self.goal, ' g'), (self.goal + 1, '')):
            lines += ['state %d [0]%s' % (state, label), *([] if self.is_chain else ['action a']), '%d : 1' % state]
        return ('\n'.join(lines) + '\n').encode()

    def value(self, formula: str, point: Point) -> Fraction:
        """What a formula comes to at a point."""
        if 'F<=3' in formula:
            values = [Fraction(state == self.goal) for state in range(self.goal + 2)]
            for _ in range(3):
                values = [max(self._means(state, values, point)) for state in range(self.goal)] + values[self.goal :]
            return values[0]
        is_cost = formula.startswith('R')
        values = [Fraction(0)] * self.goal + [Fraction(not is_cost), Fraction(0)]
        for state in reversed(range(self.goal)):
            means = self._means(state, values, point)
            values[state] = min(means) if 'min' in formula else max(means)
            values[state] *= int('up' not in formula or self.up[state])
            values[state] += self.costs[state] if is_cost else 0
        return values[0]

    def _means(self, state: int, values: List[Fraction], point: Point) -> List[Fraction]:
        """Of each choice the mean of what comes behind it."""
        weights = [(one, other, part * point[name]) for one, other, part, name in self.choices[state]]
        return [weight * values[one] + (1 - weight) * values[other] for one, other, weight in weights]


class Random(unittest.TestCase):
    def setUp(self) -> None:
        self.toss = random.Random(SEED)

    def made(self) -> Tuple[Tossed, Dict[str, Tuple[Fraction, Fraction]], List[Point]]:
        """A model, a region, whose sides are now and then of very different scale, and a grid of points in it."""
        model, region = Tossed(self.toss), {}
        for name in model.names:
            low = Fraction(self.toss.randint(1, 50), 100)
            scale = Fraction(1, 1000) if self.toss.random() < 0.2 else Fraction(1)
            region[name] = (low * scale, (low + Fraction(self.toss.randint(1, 40), 100)) * scale)
        sides = [[low + (high - low) * Fraction(part, 4) for part in range(5)] for low, high in region.values()]
        return model, region, [dict(zip(region, ends)) for ends in itertools.product(*sides)]

    def test_bounds(self) -> None:
        for number in range(COUNT):
            model, region, points = self.made()
            formula, width = FORMULAS[number % len(FORMULAS)], Fraction(1, 10 ** self.toss.randint(1, 3))
            found = plift_lab.bounds(model.text, formula=formula, region=region, width=width)
            with self.subTest(number=number, formula=formula, text=model.text):
                self.compare(found, model, formula, points)
                self.assertTrue(found.sup.is_short or found.sup.critical[1].value - found.sup.witness[1].value <= width)

    def compare(self, found: Bounds, model: Tossed, formula: str, points: List[Point]) -> None:
        """No point is beyond what is shown, and the witnesses are as told."""
        values = [model.value(formula, point) for point in points]
        self.assertLessEqual(max(values), found.sup.most)
        if formula.startswith('R'):
            return
        self.assertGreaterEqual(min(values), found.inf.least)
        for side in (found.sup, found.inf):
            where, end = side.witness
            fixed = dict(where.fixed)
            point = {name: fixed[name] if name in fixed else where[name][0] for name in model.names}
            reached = model.value(formula, point)
            self.assertTrue(reached >= end.value if side.name == 'sup' else reached <= end.value)

    def test_thresholds(self) -> None:
        for number in range(COUNT):
            model, region, points = self.made()
            formula = FORMULAS[number % 5]
            values = [model.value(formula, point) for point in points]
            bound = ((max(values) + min(values)) / 2).limit_denominator(1000)
            op = '>=' if 'min' in formula else '<='
            asked = formula.replace('=?', '%s%s' % (op, bound)).replace('max', '').replace('min', '')
            name, least = self.toss.choice(model.names), self.toss.random() < 0.5
            edge = plift_lab.threshold(
                model.text, formula=asked, parameter=name, region=region, width='1/50', least=least
            )
            with self.subTest(number=number, formula=asked, text=model.text):
                for point, value in zip(points, values):
                    if edge.inside and (point[name] >= edge.good if least else point[name] <= edge.good):
                        self.assertTrue(value >= bound if op == '>=' else value <= bound)
                if edge.limit is not None and edge.outside and name in edge.outside.origin.fixed:
                    fixed = edge.outside.origin.fixed
                    point = {one: fixed.get(one, region[one][0]) for one in model.names}
                    value = model.value(formula, point)
                    self.assertTrue(value < bound if op == '>=' else value > bound)


if __name__ == '__main__':
    unittest.main()
