"""Hints for causes of `model: line L: CAUSE` that a line alone or the front of the text shows."""

from __future__ import annotations

import re
from typing import List

from hints.drn import SECTIONS
from hints.kinds import strange
from hints.place import Place
from hints.told import listed, meant, near, pointed, shown

MOST_LINE = 2**20
LOOKALIKES = {
    "\u2212": "a long minus sign; write -",
    "\u2013": "a long dash; write -",
    "\u2014": "a long dash; write -",
    "\u201c": 'a curly quote; write "',
    "\u201d": 'a curly quote; write "',
    "\u2018": "a curly quote",
    "\u2019": "a curly quote",
    "\u00a0": "a blank that doesn't break; write a plain one",
    "\u00d7": "a multiplication sign; write *",
    "\u00b7": "a dot; write *",
    "\u2264": "write <=",
    "\u2192": "an arrow; write :",
    "\r": "a carriage return within the line",
    "\0": "a byte 0",
    "\f": "a form feed",
}

OTHER_TYPES = {
    "CTMC": "continuous time isn't taken; plift-lab fit writes its embedded chain, which tells what is ever reached",
    "MARKOV AUTOMATON": "continuous time isn't taken",
    "MA": "continuous time isn't taken",
    "POMDP": "partial observation isn't taken",
    "SMG": "games aren't taken",
}


def letter_at(content: bytes, place: int) -> str:
    """What stands at a byte that isn't ASCII text."""
    front = content[place : place + 4]
    for length in range(1, len(front) + 1):
        try:
            letter = front[:length].decode("utf-8")
        except UnicodeDecodeError:
            continue
        name = LOOKALIKES.get(letter) or (shown(letter) if letter.isprintable() else f"U+{ord(letter):04X}")
        return f"the byte {content[place]:02X}: {name}"
    return f"the byte {content[place]:02X}, which isn't UTF-8 either"


def not_text(place: Place) -> List[str]:
    """Which byte isn't text."""
    kind = strange(place.text, "model")
    if kind and place.number <= 2:
        return kind
    at = next((i for i, byte in enumerate(place.content) if byte != 9 and not 32 <= byte <= 126), None)
    if at is None:
        return []
    lines = pointed(f"line {place.number}: ", place.content, at, letter_at(place.content, at))
    return lines + ["outside of comments a model text is ASCII: name labels and parameters without other letters"]


def long_line(place: Place) -> List[str]:
    """How long the line is."""
    length = len(place.text.split(b"\n", place.number)[place.number - 1])
    if length <= MOST_LINE:
        return []
    one = " (the text has no line feed at all)" if b"\n" not in place.text else ""
    return [f"line {place.number} has {length:,} bytes, and at most {MOST_LINE:,} are taken{one}"]


def open_quote(place: Place) -> List[str]:
    """Where the quote is that isn't closed."""
    if place.content.count(b'"') % 2 == 0:
        return []
    at = place.content.rindex(b'"')
    return pointed(f"line {place.number}: ", place.content, at, 'this quote has no " behind it on its line')


def unsupported_type(place: Place) -> List[str]:
    """Which type it is, and what can be done."""
    if not place.content.startswith(b"@type:"):
        return []
    kind = place.content[6:].strip(b" \t").decode("latin-1")
    plain = kind.strip("\"';").split("//")[0].strip()
    if plain.upper() in ("DTMC", "MDP"):
        return [place.here(f"write @type: {plain.upper()}, in capitals and with nothing behind it")]
    why = OTHER_TYPES.get(plain.upper(), "a model is a DTMC or an MDP")
    if plain.upper() in ("IDTMC", "IMDP", "PDTMC", "PMDP"):
        why = f"write @type: {plain.upper()[1:]}; parameters stand behind @parameters"
    return [place.here(why)]


def missing_section(place: Place) -> List[str]:
    """Which section is missing."""
    kind = strange(place.text, "model")
    if kind:
        return kind
    if place.content == b"@model":
        return [
            f"line {place.number} is @model, and no @type stands before it",
            "write @type: DTMC or @type: MDP (with choices) as the first line",
        ]
    return ["no line is @model: it stands before the first state, without anything behind it"]


def section_in(content: bytes) -> str:
    """The section that a line begins."""
    text = content.decode("latin-1")
    return next((name for name in SECTIONS if text == name or name[-1] == ":" and text.startswith(name)), "")


def repeated_section(place: Place) -> List[str]:
    """Where the section stood before."""
    name = section_in(place.content)
    if name not in place.model.sections:
        return []
    return [place.here(f"{name.rstrip(':')} stands at line {place.model.sections[name]} already: keep one of them")]


def unknown_section(place: Place) -> List[str]:
    """What the line was meant to be."""
    if not place.content.startswith(b"@"):
        return []
    if place.model.in_model():
        if place.content == b"@model":
            first = place.model.sections["@model"]
            return [place.here(f"@model stands at line {first} already: are these two texts in one file?")]
        what = "move it before that line" if section_in(place.content) else "take it out with its lines"
        return [place.here(f"behind @model no section stands: {what}")]
    text = place.content.decode("latin-1")
    name = "".join(re.findall(r"\A@[A-Za-z_]*", text))
    behind = text[len(name) :].strip(" \t:")
    if name in SECTIONS and behind:
        if name == "@model":
            return [place.here("@model stands alone on its line")]
        return [place.here(f"what follows {name} stands on the next line: {shown(behind)}")]
    if name.lower() in ("@type", "@value_type"):
        return [place.here(f"write {name.lower()}: {cut_kind(behind)}, with a colon right behind the name")]
    guess = near(name, [section.rstrip(":") for section in SECTIONS])
    if guess:
        return [place.here(f"no section is called so; is {guess} meant?")]
    return [
        place.here("no section is called so"),
        "where it says nothing of the question, plift-lab fit takes it out (docs/STORM.md)",
    ]


def cut_kind(kind: str) -> str:
    """A type as it is told."""
    return kind.upper() if kind.upper() in ("DTMC", "MDP") else kind[:20] or "DTMC"


def repeated_name(place: Place) -> List[str]:
    """Which name stands twice."""
    if place.model.due == "@placeholders":
        match = re.match(rb"\$([A-Za-z0-9_]+)", place.content)
        name = match[1].decode() if match else ""
        if name in place.model.placeholders:
            return [place.here(f"${name} is defined at line {place.model.placeholders[name][0]} already")]
        return []
    words = place.content.decode("latin-1").split()
    twice = next((word for i, word in enumerate(words) if word in words[:i]), None)
    return [place.here(f"{twice} stands twice")] if twice else []


def limit_name(place: Place) -> List[str]:
    """Which name is too long."""
    name = next((word for word in re.findall(rb"[A-Za-z0-9_]+", place.content) if len(word) > 64), None)
    if name is None:
        return []
    return [f"line {place.number}: the name {shown(name)} has {len(name)} bytes, and at most 64 are taken"]


def limit_parameters(place: Place) -> List[str]:
    """How many parameters there are."""
    count = len(place.content.split())
    return [f"line {place.number} declares {count} parameters, and at most 16 are taken"] if count > 16 else []


def unknown_place(place: Place) -> List[str]:
    """Which placeholder isn't defined."""
    match = re.search(rb"\$([A-Za-z0-9_]+)$", place.content)
    name = match[1].decode() if match else ""
    if not match or name in place.model.placeholders:
        return []
    known = list(place.model.placeholders)
    told = "the text has no @placeholders"
    if known:
        told = f"those that are: {listed(['$' + name for name in known])}{meant(name, known)}"
    return [place.here(f"${name} isn't defined; {told}")]
