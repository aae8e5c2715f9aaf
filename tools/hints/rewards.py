"""Hints for causes of `model: line L: CAUSE` that speak of rewards, which `cost` alone reads."""

from __future__ import annotations

from fractions import Fraction
from typing import List, NamedTuple, Optional

from hints.drn import group_of
from hints.numbers import RATIO, Wide, about, literal, ratio
from hints.place import Place
from hints.told import counted, fraction, listed, near, pointed, printable, shown

FORM = "a reward is a number or a fraction, as 1, 0.5 or 3/2, and 0 or more"


class Value(NamedTuple):
    """A value of a group: where its text begins on the line, and the text without blanks around it."""

    place: int
    text: str

    def fault(self) -> Optional[str]:
        """Why it isn't written as a value."""
        match = RATIO.fullmatch(self.text)
        if match:
            return "this divides by 0" if match["below"] and is_zero(match["below"]) else None
        value = about(self.text)
        if value is None or value < 0:
            return FORM
        return f"write {fraction(value)}: {FORM}"

    def why_wide(self) -> Optional[str]:
        """Why it is too large."""
        try:
            ratio(self.text)
        except Wide as why:
            return f"this is too wide: {why}"
        return None


def is_zero(text: str) -> bool:
    """Whether a literal is 0."""
    try:
        return literal(text) == Fraction(0)
    except Wide:
        return False


def values_of(place: Place) -> List[Value]:
    """The values of the group on a line, if it has one."""
    group = group_of(place.content)
    values, at = [], group[0] if group else 0
    for piece in group[1].decode("latin-1").split(",") if group else []:
        text = piece.strip(" \t")
        values.append(Value(at + len(piece) - len(piece.lstrip(" \t")), text))
        at += len(piece) + 1
    return values


def told_at(place: Place, value: Value, what: str) -> List[str]:
    """A value, and what is wrong with it."""
    return pointed(f"line {place.number}: ", place.content, value.place, what)


def declared(place: Place) -> str:
    """Which reward models the text declares."""
    model = place.model
    if not model.rewards:
        return (
            "no reward models are declared, so no line holds values of them:"
            " a line with names stands behind @reward_models"
        )
    names = listed(model.rewards)
    count = counted(len(model.rewards), "reward model")
    return f"line {model.rewards_line} declares {count}, {names}: a group has a value for each"


def reward_syntax(place: Place) -> List[str]:
    """Which value isn't one, or how many there are."""
    values, wanted = values_of(place), len(place.model.rewards)
    if not values:
        return []
    if len(values) != wanted:
        return [place.here(f"the group holds {counted(len(values), 'value')}"), declared(place)]
    bad = next((value for value in values if value.fault()), None)
    return told_at(place, bad, bad.fault() or "") if bad else []


def reward_wide(place: Place) -> List[str]:
    """Which value is too large."""
    bad = next((value for value in values_of(place) if value.why_wide()), None)
    return told_at(place, bad, bad.why_wide() or "") if bad else []


def action_reward(place: Place) -> List[str]:
    """Which value of an action isn't 0."""
    bad = next((value for value in values_of(place) if not is_zero(value.text)), None)
    if bad is None:
        return []
    return told_at(place, bad, "an action's value is 0: costs stand behind a state's number") + [
        "where each choice of the state costs as much, plift-lab fit moves it there;"
        " else let the choice lead to a state that costs it"
    ]


def unknown_reward(place: Place) -> List[str]:
    """Which name was asked for, and which there are."""
    asked, names = place.refusal.option("--reward"), place.model.rewards
    if asked is None or asked in names:
        return []
    if not names:
        return [
            "the text declares no reward models",
            f"write @reward_models and a line {printable(asked)} before @model,"
            " and a group such as [1] behind state and its number",
        ]
    close = near(asked.strip("\"'[]"), names)
    meant = f"; is {close} meant?" if close else ""
    return [
        f"no reward model has the name {shown(asked)}{meant}",
        f"the reward models of the text: {listed(names, 12)}",
    ]
