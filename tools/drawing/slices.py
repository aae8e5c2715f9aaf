"""The slice of a region that is looked at: which parameters lie on the axes, and the values of the others."""

from __future__ import annotations

from dataclasses import dataclass
from fractions import Fraction
from typing import Dict, Optional, Sequence

from hints.numbers import Wide, ratio

from .leaves import Leaf, Map


class Usage(Exception):
    """What is at fault with an option, as its note tells it."""


@dataclass(frozen=True)
class Wish:
    """What is asked for, as it is written: names on the axes, and texts NAME=VALUE."""

    x: Optional[str] = None
    y: Optional[str] = None
    at: Sequence[str] = ()


@dataclass(frozen=True)
class Slice:
    """The parameters from left to right and from below up, and a value for each of the others, in their order."""

    x: Optional[int]
    y: Optional[int]
    cuts: Dict[int, Fraction]


def value_of(word: str) -> Optional[Fraction]:
    """A fraction, maybe behind a minus."""
    try:
        if word.startswith("-"):
            value = ratio(word[1:])
            return None if value is None else -value
        return ratio(word)
    except Wide:
        return None


def axis_of(map_: Map, option: str, name: Optional[str]) -> Optional[int]:
    """The parameter that is asked for on an axis."""
    if name is None:
        return None
    if name not in map_.names:
        raise Usage(f"{option} UnknownName")
    return map_.names.index(name)


def first_live(map_: Map, other: Optional[int]) -> Optional[int]:
    """The first parameter that a row depends on and that doesn't lie on the other axis."""
    return next((parameter for parameter in map_.live if parameter != other), None)


def cut_of(map_: Map, taken: Sequence[Optional[int]], place: int, text: str) -> Dict[int, Fraction]:
    """The value that a text NAME=VALUE, the one at that place, gives to a parameter that has none."""

    def refuse(cause: str) -> Usage:
        return Usage(f"--at {place} {cause}")

    name, mark, word = text.partition("=")
    if not mark:
        raise refuse("Syntax")
    if name not in map_.names:
        raise refuse("UnknownName")
    value = value_of(word)
    if value is None:
        raise refuse("Syntax")
    value = map_.beside.own(name, value)
    parameter = map_.names.index(name)
    if parameter in taken:
        raise refuse("Repeated")
    low, high = map_.root[parameter]
    if not low <= value * map_.grid <= high:
        raise refuse("Outside")
    return {parameter: value}


def slice_for(map_: Map, wish: Wish) -> Slice:
    """The slice that is asked for, or the first option at fault."""
    x, y = axis_of(map_, "--x", wish.x), axis_of(map_, "--y", wish.y)
    if y is not None and x == y:
        raise Usage("--y Repeated")
    x = first_live(map_, y) if x is None else x
    y = first_live(map_, x) if y is None else y
    given: Dict[int, Fraction] = {}
    for place, text in enumerate(wish.at, 1):
        given.update(cut_of(map_, [x, y, *given], place, text))
    off = [parameter for parameter in range(len(map_.names)) if parameter not in (x, y)]
    middles = {parameter: Fraction(sum(map_.root[parameter]), 2 * map_.grid) for parameter in off}
    return Slice(x, y, {parameter: given.get(parameter, middles[parameter]) for parameter in off})


def meets(map_: Map, cuts: Dict[int, Fraction], leaf: Leaf) -> bool:
    """Whether a leaf has each of the values; on a side that two leaves share it belongs to the upper one."""
    for parameter, value in cuts.items():
        low, high = leaf.spans[parameter]
        scaled = value * map_.grid
        if not (low <= scaled and (scaled < high or high == map_.root[parameter][1])):
            return False
    return True
