"""Hints for the values of plift's line: label, bound, depth, precisions, numbers of steps and of blocks, costs."""

from __future__ import annotations

import re
from fractions import Fraction
from typing import List, NamedTuple, Optional

from hints.numbers import Wide, about, ratio
from hints.refusal import Refusal
from hints.told import fraction, shown

PART = 2**32  # the denominator of a bound is below it
USUAL_PRECISION = "24"


def goal_hints(refusal: Refusal) -> List[str]:
    """Why a label isn't one."""
    label = refusal.option("--goal")
    if label is None:
        return []
    if label == "":
        return ['--goal "": the label is empty']
    place = next((i for i, c in enumerate(label) if not " " <= c <= "~"), None)
    if place is None:
        return []
    front = odd_character("--goal", label, place)
    return [front if label[place] == "\t" else front + ", and no label of a model holds it"]


def odd_character(name: str, word: str, place: int) -> str:
    """Which character of a word isn't printable ASCII."""
    return f"{name} {shown(word)}: its character number {place + 1} (U+{ord(word[place]):04X}) isn't printable ASCII"


def reward_hints(refusal: Refusal) -> List[str]:
    """Why a text is no reward's name."""
    word = refusal.option("--reward")
    if word is None:
        return []
    if word == "":
        return ['--reward "": the name is empty']
    place = next((i for i, c in enumerate(word) if not "!" <= c <= "~"), None)
    if place is None:
        return []
    if word[place] == " ":
        return [f"--reward {shown(word)} holds a blank, and no reward's name does"]
    return [odd_character("--reward", word, place)]


def decimals_around(value: Fraction) -> str:
    """The two numbers with nine decimals around a bound."""
    low = int(value * 10**9)
    return f"{nine_decimals(low)} or {nine_decimals(low + 1)}"


def nine_decimals(billionths: int) -> str:
    """So many billionths."""
    whole, rest = divmod(billionths, 10**9)
    return f"{whole}.{rest:09d}" if rest else str(whole)


class Limit(NamedTuple):
    """An option whose value bounds what is asked about, what that is, and the most that the value may be."""

    option: str
    what: str
    most: int

    def front(self, word: str) -> str:
        """The option with its value."""
        return f"{self.option} {shown(word)}"


def above(limit: Limit, value: Fraction, word: str) -> str:
    """What is told of a value above the most."""
    if limit.option == "--budget":
        return f"{limit.front(word)}: {fraction(value)} is above the cap {limit.most}: raise --cap, or lower the budget"
    percent = f"; {word} percent are {fraction(value / 100)}" if value <= 100 else ""
    return f"{limit.front(word)}: {fraction(value)} is above 1, and a probability isn't{percent}"


def of_number(limit: Limit, value: Fraction, word: str) -> Optional[str]:
    """Why a number that plift can read is no such value."""
    if value > limit.most:
        return above(limit, value, word)
    if value.denominator >= PART:
        front = f"{limit.front(word)} has the denominator {value.denominator:,} in lowest terms, 2^32 or more"
        return f"{front}: take {decimals_around(value)}"
    return None


def of_text(limit: Limit, word: str) -> str:
    """Why a text is no number for plift, and what was meant."""
    match = re.match(r"\s*(?:[PRE](?:max|min)?\s*)?(<=|<|>=|>|==?|≤|≥)\s*(.*)", word, re.S)
    if match:
        value = about(match[2])
        told = f": {limit.option} {fraction(value)}" if value is not None and 0 <= value <= limit.most else ""
        return (
            f"{limit.front(word)}: the {limit.option[2:]} is a number alone, and the question is always 'at most'{told}"
        )
    if re.search(r"/\s*0+(\.0*)?\s*$", word):
        return f"{limit.front(word)} divides by 0"
    value = about(word)
    if value is not None and 0 <= value <= limit.most:
        form = "a number has digits on both sides of its point, no sign, no blank, no %"
        return f"{limit.front(word)}: write {fraction(value)}; {form}"
    if value is not None:
        return f"{limit.front(word)}: {fraction(value)} is no {limit.what}, which is from 0 to {limit.most}"
    return f"{limit.front(word)} is no number: write a fraction as 3/100, or a decimal as 0.03 or 3e-2"


def limit_hints(limit: Limit, word: Optional[str]) -> List[str]:
    """Why the value of an option isn't one."""
    if word is None:
        return []
    try:
        value = ratio(word)
    except Wide as why:
        return [f"{limit.front(word)} is too wide: {why}"]
    told = of_text(limit, word) if value is None else of_number(limit, value, word)
    return [told] if told else []


def bound_hints(refusal: Refusal) -> List[str]:
    """Why a bound isn't one."""
    return limit_hints(Limit("--bound", "probability", 1), refusal.option("--bound"))


def budget_hints(refusal: Refusal) -> List[str]:
    """Why a budget isn't one: the cap is known to be a number."""
    cap = refusal.option("--cap")
    return limit_hints(Limit("--budget", "budget under that cap", int(cap)), refusal.option("--budget")) if cap else []


def cap_hints(refusal: Refusal) -> List[str]:
    """Why a cap isn't one."""
    word = refusal.option("--cap")
    return [whole_hint("--cap", word, 1, PART - 1, 10)] if word is not None else []


def whole_hint(name: str, word: str, low: int, high: int, digits: int) -> str:
    """Why a word is no whole number in a range."""
    front = f"{name} {shown(word)}" if name else shown(word)
    if not re.fullmatch("[0-9]+", word):
        return f"{front} is no whole number, written with digits alone; it goes from {low} to {high}"
    if len(word) > digits:
        return f"{front} has more than {digits} digits; it goes from {low} to {high}"
    return f"{front}: it goes from {low} to {high}"


def depth_hints(refusal: Refusal) -> List[str]:
    """Why a depth isn't one."""
    word = refusal.option("--depth")
    if word is not None and refusal.command() == "refine":
        return deeper_hints(word, refusal.text)
    return [whole_hint("--depth", word, 0, 20, 3)] if word is not None else []


def deeper_hints(word: str, text: Optional[bytes]) -> List[str]:
    """Why a report can't be gone on from to a depth."""
    if not (re.fullmatch("[0-9]{1,3}", word) and 1 <= int(word) <= 20):
        return [whole_hint("--depth", word, 1, 20, 3)]
    told = re.search(rb"^depth ([0-9]{1,2})$", text or b"", re.M)
    if told and int(word) <= int(told[1]):
        return [f"--depth {word}: the report goes to depth {int(told[1])} already, and refine goes on to a greater one"]
    return [
        f"--depth {word}: the report's grid, made that much finer, has a number of 2^62 or more: take a smaller depth"
    ]


def bits_for(word: str) -> Optional[str]:
    """The precision for a tolerance such as 1e-6."""
    value = about(word)
    if value is None or not 0 < value < 1:
        return None
    bits = next((w for w in range(1, 41) if Fraction(1, 2**w) <= value), None)
    return f"1/2^{bits} is at most {word}: --precision {bits}" if bits else "1/2^40 is the finest: --precision 40"


def precision_hints(refusal: Refusal) -> List[str]:
    """Why a precision isn't one."""
    word = refusal.option("--precision")
    if word is None:
        return []
    bits = bits_for(word)
    return [whole_hint("--precision", word, 1, 40, 3)] + ([f"it counts bits: {bits}"] if bits else [])


def from_hints(refusal: Refusal) -> List[str]:
    """Why a least precision isn't one: it is at most the greatest, which is known to be a number."""
    word, most = refusal.option("--from"), refusal.option("--precision")
    if word is None:
        return []
    told = whole_hint("--from", word, 1, int(most or USUAL_PRECISION), 3)
    return [told + (", the number behind --precision" if most else ", the precision where --precision is left out")]


def steps_hints(refusal: Refusal) -> List[str]:
    """Why a number of steps isn't one."""
    word = refusal.option("--steps")
    return [whole_hint("--steps", word, 1, 64, 2)] if word is not None else []


def blocks_hints(refusal: Refusal) -> List[str]:
    """Why a number of blocks isn't one."""
    if len(refusal.words) != 2:
        return []
    return [whole_hint("", refusal.words[1], 1, 32767, 5)]
