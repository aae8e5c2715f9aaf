"""Hints for causes of `model: line L: CAUSE` in a value: the place in it, and what may stand there."""

from __future__ import annotations

import re
from typing import List, NamedTuple, Optional

from hints.drn import PLACE, TRANSITION
from hints.place import Place
from hints.told import listed, meant, pointed, printable
from hints.value import Fault, fault_in


class Value(NamedTuple):
    """A value of a line: its text, and how many bytes of the line stand in front of it."""

    text: str
    start: int


def value_in(place: Place) -> Optional[Value]:
    """The value of a transition or of a placeholder."""
    form = PLACE if place.model.due == "@placeholders" else TRANSITION
    match = form.fullmatch(place.content)
    return Value(match[2].decode("latin-1"), match.start(2)) if match else None


def fault_at(place: Place, cause: str) -> Optional[Fault]:
    """The value's fault, where it is of this cause; its place is that in the line."""
    value = value_in(place)
    fault = fault_in(value.text, place.names()) if value else None
    if value is None or fault is None or fault.cause != cause:
        return None
    return Fault(cause, value.start + fault.place, fault.what)


def point(place: Place, fault: Fault, what: str) -> List[str]:
    """The line with a caret at the fault."""
    return pointed(f"line {place.number}: ", place.content, fault.place, what)


def power(place: Place) -> List[str]:
    """What a power was meant to be."""
    fault = fault_at(place, "Power")
    if not fault:
        return []
    line = place.content.decode("latin-1")
    base = re.search(r"([A-Za-z_0-9.]+|\))\s*$", line[: fault.place])
    exponent = re.match(r"\^\s*(\(?-?[0-9.]+\)?)", line[fault.place :])
    lines = point(place, fault, "powers aren't taken")
    name = base[1] if base else ""
    if name in place.names():
        return lines + [
            f"values are affine in each parameter: take the steps with {name} one after the other, a state in between",
            "plift-lab fit MODEL > fitted.drn does it for a whole file, exactly",
        ]
    if exponent and re.fullmatch("[0-9.]+", name):
        return lines + ["write the number out, as 1/8 for (1/2)^3, or as a literal such as 1e-6"]
    return lines + ["write numbers out; of parameters, values are affine in each: split the step by a state in between"]


def unknown_name(place: Place) -> List[str]:
    """Which name isn't declared, and which are."""
    fault = fault_at(place, "UnknownName")
    if not fault:
        return []
    names, name = place.names(), fault.what
    if place.content[fault.place + len(name) :].lstrip().startswith(b"("):
        what = f"{printable(name)} isn't declared"
        return point(place, fault, what) + ["functions aren't taken: write out what it comes to"]
    if not names:
        told = "no parameters are declared: write @parameters and behind it a line with their names, before @model"
        if place.model.due == "@placeholders":
            told = "no parameters are declared before this line: @parameters stands before @placeholders"
    else:
        told = f"the parameters are {listed(names, 16)}{meant(name, names)}"
    return point(place, fault, f"{printable(name)} isn't declared") + [told]


def shared_parameter(place: Place) -> List[str]:
    """Which parameter stands on both sides of a product."""
    fault = fault_at(place, "SharedParameter")
    if not fault:
        return []
    return point(place, fault, f"{fault.what} stands on both sides of this *") + [
        "values are affine in each parameter: take the two factors one after the other, with a new state in between",
        "the first factor leads to the new state, the second one from there on; plift-lab fit does it, exactly",
    ]


def parametric_divisor(place: Place) -> List[str]:
    """Which parameters stand in a divisor."""
    fault = fault_at(place, "ParametricDivisor")
    if not fault:
        return []
    what = f"this divides by {fault.what}"
    return point(place, fault, what) + ["a divisor is a number; values are affine in each parameter"]


def told_there(place: Place, cause: str) -> List[str]:
    """The fault as the reader of values tells it."""
    fault = fault_at(place, cause)
    return point(place, fault, fault.what) if fault else []


def limit_value_parameters(place: Place) -> List[str]:
    """How many parameters the value has."""
    fault = fault_at(place, "LimitValueParameters")
    return [place.here(f"{fault.what}; a value has at most 4")] if fault else []


BEHIND = {
    "//": "a comment stands on a line of its own, which begins with //",
    "#": "a comment begins with // and stands on a line of its own",
    ";": "a transition's line has no ; at its end",
    ",": "a number has a point, not a comma; and each transition has a line of its own",
    "%": "write 3/100 for 3%",
    ":": "each transition has a line of its own, TARGET : VALUE",
    "[": "intervals aren't taken: use a parameter, with an interval in --region",
    "'": "a name has letters, digits and _ alone",
    ".": "a number has digits on both sides of its point",
    "=": "a transition is TARGET : VALUE",
}


def syntax_in(place: Place) -> List[str]:
    """Where a value isn't in the grammar, and why."""
    value = value_in(place)
    fault = fault_in(value.text, place.names()) if value else None
    if value is None or fault is None or fault.cause != "Syntax":
        return []
    behind, before = value.text[fault.place :], value.text[: fault.place].rstrip()
    there = Fault("Syntax", value.start + fault.place, fault.what)
    lines = point(place, there, fault.what)
    return lines + [told for told in [reason(before, behind)] if told]


def reason(before: str, behind: str) -> Optional[str]:
    """What the text from a place on was most likely meant to be."""
    if behind.startswith("$") and re.fullmatch(r"\$[A-Za-z0-9_]+", behind) and not before:
        return None
    if "$" in behind[:1] or before.endswith("$"):
        return "a placeholder stands alone as a value: write what it stands for in parentheses in its place"
    for mark, told in BEHIND.items():
        if behind.startswith(mark) or mark == "//" and before.endswith("/") and behind.startswith("/"):
            return told
    if re.match(r"[A-Za-z_(0-9]", behind) and re.search(r"[A-Za-z_0-9)]$", before):
        left = re.search(r"[A-Za-z_0-9.]+$|\)$", before)
        right = re.match(r"[A-Za-z_0-9.]+|\(", behind)
        if left and right and left[0][0].isdigit() and right[0][0].isdigit():
            return None
        return f"a product has a *: {left[0] if left else ''}*{right[0] if right else ''}"
    if behind.startswith("*") and before.endswith("*"):
        return "powers aren't taken: values are affine in each parameter"
    if behind == "":
        return "the value ends too early" if before else "there is no value behind the colon"
    if behind.startswith("+"):
        return "a value has no + in front"
    if behind.startswith(")"):
        return "no ( belongs to this )"
    return None
