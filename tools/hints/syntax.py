"""Hints for `model: line L: Syntax`: what the line was most likely meant to be."""

from __future__ import annotations

import re
from typing import List, Sequence

from hints.drn import TRANSITION
from hints.kinds import kind_of, strange
from hints.place import Place
from hints.told import pointed, printable
from hints.transitions import syntax_in
from hints.value import fault_in

COMMENTS = ("#", "--", "%", ";", "/*", "*", "'", "!")
NAME = re.compile(r"[A-Za-z_][A-Za-z0-9_]*")


def comment_like(content: bytes) -> bool:
    """Whether a line looks like another language's comment."""
    return content.decode("latin-1").startswith(COMMENTS)


def in_names(place: Place) -> List[str]:
    """A list of parameters."""
    text = place.content.decode("latin-1")
    for match in re.finditer(r"[^ \t]+", text):
        if not NAME.fullmatch(match[0]):
            front = NAME.match(match[0])
            at = match.start() + (front.end() if front else 0)
            what = "a name is a letter or _, then letters, digits and _"
            lines = pointed(f"line {place.number}: ", place.content, at, what)
            return lines + (["between names stand blanks, no commas"] if "," in text else [])
    return []


def in_front(place: Place) -> List[str]:
    """A line before the model."""
    due, content = place.model.due, place.content
    if due == "@parameters":
        return in_names(place)
    if due in ("@nr_states", "@nr_choices"):
        return [place.here(f"a number of 1 to 20 digits is wanted behind {due}")]
    if due == "@placeholders":
        return syntax_in(place) or [place.here("a placeholder is written $name : value")]
    names = place.model.parameters_line
    if names and place.number == names + 1 and NAME.fullmatch(content.decode("latin-1")):
        return [place.here(f"all parameters stand on one line, here line {names}")]
    if re.match(rb"(state|action)\b", content) or TRANSITION.fullmatch(content):
        return [place.here("a line @model stands before the first state")]
    return [place.here("before @model stand sections alone, which begin with @, and comments, which begin with //")]


def of_state(place: Place) -> List[str]:
    """A line that begins with `state`."""
    words = place.content.split()
    if len(words) < 2:
        return [place.here("a state has a number: state 0")]
    if not words[1].isdigit():
        plain = words[1].decode("latin-1").strip(":;,s")
        told = f": state {printable(plain)}" if plain.isdigit() else ""
        return [place.here(f"behind state stands its number, in digits alone{told}")]
    return open_group(place)


def open_group(place: Place) -> List[str]:
    """A bracket without its end."""
    at = place.content.rfind(b"[")
    if at < 0 or b"]" in place.content[at:]:
        return []
    return pointed(f"line {place.number}: ", place.content, at, "this [ has no ] behind it on its line")


def arrow_like(content: bytes, names: Sequence[str]) -> str:
    """A transition that is written in another way, as it should be; else nothing."""
    text = content.decode("latin-1")
    match = re.fullmatch(r"(?:->|goto)?\s*([0-9]+)\s*(?:->|=>|=|-|:|\s)\s*(.+?);?", text)
    if match and fault_in(match[2], names) is None:
        return f"{match[1]} : {match[2]}"
    match = re.fullmatch(r"(?:->\s*)?([^:]+?)\s*:\s*([0-9]+)\s*;?", text)
    return f"{match[2]} : {match[1]}" if match and fault_in(match[1], names) is None else ""


def in_model(place: Place) -> List[str]:
    """A line of the model."""
    content = place.content
    if content[:1].isdigit() and TRANSITION.fullmatch(content):
        if not place.model.states:
            return [place.here("a transition stands behind its state: a line state 0 comes first")]
        return syntax_in(place) or long_target(place)
    if re.match(rb"state([ \t]|$)", content):
        return of_state(place)
    if re.match(rb"action([ \t]|$)", content):
        if not place.model.states:
            return [place.here("an action stands behind its state: a line state 0 comes first")]
        stands = "behind action stand at most a name, in quotes where it has blanks, and a group [..]"
        return open_group(place) or [place.here(stands)]
    if content.isdigit():
        return [place.here(f"a transition is written {printable(content)} : VALUE; was the text cut off?")]
    if re.fullmatch(rb"[0-9]+( +[A-Za-z_]\w*)*", content) and not arrow_like(content, place.names()):
        return [place.here(f"a state's line begins with the word state; is state {printable(content)} meant?")]
    told = arrow_like(content, place.names())
    if told and len(told) < 60:
        return [place.here(f"a transition is written TARGET : VALUE; is {printable(told)} meant?")]
    first = re.match(rb"[A-Za-z]+", content)
    word = first[0].decode().lower() if first else ""
    if word in ("state", "action"):
        return [place.here(f"the word is {word}, in small letters, with a blank behind it")]
    return [
        place.here("no line of a model begins so"),
        "lines are state 0 init, action a, and TARGET : VALUE as 1 : 1-p; comments begin with //",
    ]


def long_target(place: Place) -> List[str]:
    """A target of too many digits."""
    match = TRANSITION.fullmatch(place.content)
    if match and len(match[1]) > 20:
        return [place.here("a target has at most 20 digits")]
    return []


def syntax(place: Place) -> List[str]:
    """Why a line doesn't fit."""
    kind = kind_of(place.text)
    if kind != "model" and not place.model.sections:
        told = strange(place.text, "model")
        if told:
            return [place.here("no line of a model text")] + told
    if comment_like(place.content) and not (place.model.in_model() and place.content[:1].isdigit()):
        return [place.here("comments begin with // and stand on lines of their own")]
    return in_model(place) if place.model.in_model() else in_front(place)
