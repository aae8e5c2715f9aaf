"""Hints for `usage: --region CAUSE`: the place in the text, and what the region may have been meant to be."""

from __future__ import annotations

import re
import shlex
from typing import List, Optional, Sequence

from hints.drn import parameters_of
from hints.numbers import about
from hints.refusal import Refusal
from hints.region import Clause, Fault, read_region
from hints.told import fraction, listed, meant, pointed

NUMBER = r"[-+]?[0-9.]+(?:[eE][-+]?[0-9]+)?(?:\s*/\s*[0-9.]+)?\s*%?"
NAME = r"[A-Za-z_][A-Za-z0-9_]*"
LOW_TO_HIGH = [
    rf"(?P<low>{NUMBER})\s*(?:<=?|=<|≤|⩽)\s*(?P<name>{NAME})\s*(?:<=?|=<|≤|⩽)\s*(?P<high>{NUMBER})",
    rf"(?P<high>{NUMBER})\s*(?:>=?|=>|≥|⩾)\s*(?P<name>{NAME})\s*(?:>=?|=>|≥|⩾)\s*(?P<low>{NUMBER})",
    rf"(?P<name>{NAME})\s*(?:in|=|:|∈)\s*[\[(]\s*(?P<low>{NUMBER})\s*[,;:]\s*(?P<high>{NUMBER})\s*[\])]",
    rf"(?P<name>{NAME})\s*(?:in|=|:)\s*(?P<low>{NUMBER}?)\s*(?:\.\.+|:|-|to)\s*(?P<high>{NUMBER})",
    rf"(?P<low>{NUMBER})\s*:\s*(?P<name>{NAME})\s*:\s*(?P<high>{NUMBER})",
    rf"(?P<low>{NUMBER})\s*\.\.+\s*(?P<name>{NAME})\s*\.\.+\s*(?P<high>{NUMBER})",
]
BETWEEN = re.compile(r"\s*(?:&&?|\band\b|∧|;|\||\n)\s*|,(?![^\[(]*[\])])\s*")


def respelled(clause: str) -> Optional[str]:
    """A clause of another spelling as plift writes it."""
    for form in LOW_TO_HIGH:
        match = re.fullmatch(form, clause.strip())
        if match:
            low, high = about(match["low"]), about(match["high"])
            if low is None or high is None:
                return None
            return f"{fraction(low)}<={match['name']}<={fraction(high)}"
    return None


def repaired(text: str, names: Optional[Sequence[str]], depth: int) -> Optional[str]:
    """A region that the text was most likely meant to be; none unless plift would read it."""
    text = text.strip().strip("{}'\"")
    text = re.sub(r"(?<=[0-9]),(?=[0-9]+\s*(?:<=|$|[,;&]))", ".", text) if ";" in text or "&" in text else text
    clauses = [respelled(clause) for clause in BETWEEN.split(text) if clause.strip()]
    if not clauses or None in clauses:
        return None
    region = ",".join(clause or "" for clause in clauses)
    try:
        read_region(region, names, depth)
    except Fault:
        return None
    return region


def of_syntax(text: str, fault: Fault, names: Optional[Sequence[str]], depth: int) -> List[str]:
    """Where a text isn't in the grammar, and what was meant."""
    lines = pointed("", text, fault.place, fault.what)
    region = repaired(text, names, depth)
    if region:
        quoted = " " + region if region.startswith("-") else region
        return lines + [f"a clause is low<=name<=high; is this meant? --region {shlex.quote(quoted)}"]
    if re.fullmatch(rf"\s*{NAME}\s*(<=?|>=?)\s*{NUMBER}\s*|\s*{NUMBER}\s*(<=?|>=?)\s*{NAME}\s*", text):
        return lines + ["an interval has both ends: low<=name<=high, as 0<=p<=1/2"]
    return lines


def of_unknown(text: str, fault: Fault, names: Sequence[str]) -> List[str]:
    """Which name isn't declared, and which are."""
    name = fault.clause.name if fault.clause else ""
    if not names:
        return pointed("", text, fault.place, "the model declares no parameters") + ["leave --region out"]
    told = f"the model has no parameter {name}; it has {listed(names, 16)}{meant(name, names)}"
    return pointed("", text, fault.place, fault.what) + [told]


def of_empty(text: str, clause: Clause, place: int) -> List[str]:
    """Whether it is a point, or the ends are exchanged."""
    low, high, name = fraction(clause.low), fraction(clause.high), clause.name
    if clause.low == clause.high:
        return pointed("", text, place, f"{name} has the one value {low} here, and a point is no interval") + [
            f"either widen it, or write {low} for {name} in the model and take {name} out of @parameters"
        ]
    return pointed("", text, place, f"{low} is above {high}") + [f"the lower end stands first: {high}<={name}<={low}"]


def of_missing(text: str, missing: str, names: Sequence[str]) -> List[str]:
    """Which parameters have no clause."""
    lacking = missing.split(", ")
    added = ",".join(f"LOW<={name}<=HIGH" for name in lacking)
    if not text.strip():
        return [
            f"the model has the parameters {listed(names, 16)}, and there is no interval for them",
            f"add --region '{added}' with numbers for LOW and HIGH",
        ]
    return [
        f"no clause for {listed(lacking, 16)}; the model has the parameters {listed(names, 16)}",
        f"add ,{added} to the region, also where the parameter stands in no value",
    ]


def depth_of(refusal: Refusal) -> int:
    """The depth that was asked for."""
    word = refusal.option("--depth") or "0"
    return int(word) if re.fullmatch("[0-9]{1,3}", word) else 0


def region_hints(refusal: Refusal, cause: str) -> List[str]:
    """Where the region is at fault, and how. Nothing where the text gives another cause than the note."""
    text, depth = refusal.option("--region") or "", depth_of(refusal)
    names = parameters_of(refusal.text) if refusal.text is not None else None
    try:
        read_region(text, names, depth)
    except Fault as fault:
        if fault.cause == cause:
            return of_cause(text, fault, names, depth)
    return []


def of_cause(text: str, fault: Fault, names: Optional[Sequence[str]], depth: int) -> List[str]:
    """What is told of a fault."""
    if fault.cause == "Syntax":
        return of_syntax(text, fault, names, depth)
    if fault.cause == "UnknownName":
        return of_unknown(text, fault, names or [])
    if fault.cause == "EmptyInterval" and fault.clause:
        return of_empty(text, fault.clause, fault.place)
    if fault.cause == "Missing":
        return of_missing(text, fault.what, names or [])
    if fault.cause == "Wide" and fault.what.startswith("the least"):
        return [fault.what, "ends with a small common denominator have room for more halvings"]
    return pointed("", text, fault.place, fault.what)
