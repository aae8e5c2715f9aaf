"""The text of `cost` by sweeps: the least numbers of each rectangle, rounded up, without any of plift's code. It is
slow, and made to be read: what docs/FORMATS.md says of a leaf's numbers, in its own words."""

from __future__ import annotations

from fractions import Fraction
from typing import List, Optional, Tuple, Union

from priced import Asked, Box, Process
from reference import Leaf, Rectangle, Split, Upper
from reference import box_lines, live_parameters, model_lines, node_lines, root_of, text_of, tree_of, words


def ratio(value: Fraction) -> str:
    """A fraction in lowest terms."""
    return f"{value.numerator}/{value.denominator}"


def least_numbers(process: Process, asked: Asked, box: Box) -> Optional[List[int]]:
    """The least numbers over 2 to the precision, which stands for the cap, that pay at each state for its own cost and
    then have the mean of each choice left, at each corner; none where a number would be above the cap's."""
    rectangle = Rectangle(process, box, asked.precision)
    prices = [-(-cost * rectangle.top // asked.cap) for cost in asked.costs]
    numbers, changed = [0] * rectangle.count, True
    while changed:
        changed = False
        for s in rectangle.others:
            mean = max(max(rectangle.means(corners, numbers)) for corners in rectangle.rows[s])
            number = prices[s] - (-mean // 1)
            if number > rectangle.top:
                return None
            changed, numbers[s] = changed or number != numbers[s], number
    return numbers


def decided(process: Process, asked: Asked, box: Box) -> Leaf:
    """What is said of a rectangle."""
    numbers = least_numbers(process, asked, box)
    if numbers is None or Fraction(numbers[process.init] * asked.cap, 2**asked.precision) > asked.budget:
        return Leaf("unknown", box, None)
    return Leaf("accept", box, Upper(numbers, None))


def leaf_lines(leaf: Leaf) -> List[str]:
    """A leaf's line."""
    return [words(leaf.kind, leaf.certificate.numbers) if leaf.certificate else leaf.kind]


def answer(process: Process, asked: Asked) -> Tuple[bytes, Union[Split, Leaf]]:
    """The text and its tree."""
    tree = tree_of(lambda box: decided(process, asked, box), root_of(asked.box), asked.depth, live_parameters(process))
    lines = ["plift-cost 1", *model_lines(process, process.common()), " ".join(["cost", *map(ratio, asked.costs)])]
    lines += [f"cap {asked.cap}", f"budget {ratio(asked.budget)}", *box_lines(asked.box, asked.depth, asked.precision)]
    return text_of([*lines, *node_lines(tree, leaf_lines)]), tree
