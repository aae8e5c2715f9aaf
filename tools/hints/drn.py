"""A model text, read as far as a hint needs it: what stands in its front, and the rows of one state."""

from __future__ import annotations

import io
import re
from typing import Dict, Iterator, List, NamedTuple, Optional, Tuple

SECTIONS = ["@type:", "@value_type:", "@parameters", "@reward_models", "@nr_states", "@nr_choices", "@placeholders"]
SECTIONS += ["@model"]
WORD = re.compile(rb'"[^"]*"|\[[^\]]*\]|[^ \t"\[][^ \t]*|["\[].*')
TRANSITION = re.compile(rb"([0-9]+)[ \t]*:[ \t]*(.*)", re.S)
PLACE = re.compile(rb"\$([A-Za-z0-9_]+)[ \t]*:[ \t]*(.*)", re.S)


class Transition(NamedTuple):
    """A transition: its line, its target, and how its value is written."""

    line: int
    target: int
    value: bytes


class Choice(NamedTuple):
    """A choice of a state: the line that begins it, and its transitions' lines."""

    line: int
    lines: List[Tuple[int, bytes]]

    def transitions(self) -> List[Transition]:
        """The transitions, as far as they are written as such."""
        found = [(line, TRANSITION.fullmatch(content)) for line, content in self.lines]
        return [Transition(line, int(m[1][:21]), m[2]) for line, m in found if m]


class State(NamedTuple):
    """A state: its line, and what stands there."""

    line: int
    content: bytes


class Model:
    """What was read of a text: its sections, its states, and the choices of the last state."""

    def __init__(self) -> None:
        self.kind = ""
        self.sections: Dict[str, int] = {}  # the line of each
        self.parameters: List[str] = []
        self.parameters_line = 0
        self.rewards: List[str] = []
        self.rewards_line = 0
        self.placeholders: Dict[str, Tuple[int, bytes]] = {}  # the line and the value of each
        self.numbers: Dict[str, Tuple[int, bytes]] = {}  # the line and the text of what a section announces
        self.states: List[State] = []
        self.choices: List[Choice] = []
        self.choice_count = 0  # of all states
        self.due = ""  # the section whose lines may follow
        self.line: Optional[bytes] = None  # the one that was asked for

    def in_model(self) -> bool:
        """Whether `@model` was read."""
        return "@model" in self.sections


def content_of(line: bytes) -> bytes:
    """A line without its line feed, one carriage return at its end, and blanks around it."""
    line = line[:-1] if line.endswith(b"\n") else line
    return (line[:-1] if line.endswith(b"\r") else line).strip(b" \t")


def lines_of(text: bytes) -> Iterator[Tuple[int, bytes]]:
    """The contents of the lines with their numbers."""
    for number, line in enumerate(io.BytesIO(text), 1):
        yield number, content_of(line)


def words_of(content: bytes) -> List[bytes]:
    """The words of a line."""
    return WORD.findall(content)


def without_quotes(word: bytes) -> bytes:
    """What a word says, be it plain or quoted."""
    return word.strip(b'"') if word[:1] == b'"' else word


def group_of(content: bytes) -> Optional[Tuple[int, bytes]]:
    """What stands in the group on the line of a state, behind its number, or of an action, and where that begins."""
    words = list(WORD.finditer(content))
    behind = {b"state": words[2:3], b"action": words[1:3]}.get(words[0][0] if words else b"", [])
    group = next((word for word in behind if word[0].startswith(b"[")), None)
    return (group.start() + 1, group[0][1:].rstrip(b"]")) if group else None


def read_section(model: Model, number: int, content: bytes) -> None:
    """A line that begins with `@`."""
    text = content.decode("latin-1")
    name = next((known for known in SECTIONS if text == known or known[-1] == ":" and text.startswith(known)), None)
    model.due = ""
    if name is None:
        return
    model.sections.setdefault(name, number)
    if name == "@type:":
        model.kind = text[6:].strip(" \t")
    elif name in SECTIONS[2:7]:
        model.due = name


def read_front(model: Model, number: int, content: bytes) -> None:
    """A line before the model; it isn't blank unless a list is due."""
    if content.startswith(b"@"):
        read_section(model, number, content)
        return
    due = model.due
    if due == "@placeholders":
        match = PLACE.fullmatch(content)
        if match:
            model.placeholders.setdefault(match[1].decode(), (number, match[2]))
        return
    model.due = ""
    if due == "@parameters":
        model.parameters = [word.decode("latin-1") for word in content.split()]
        model.parameters_line = number
    elif due == "@reward_models":
        model.rewards = [without_quotes(word).decode("latin-1") for word in words_of(content)]
        model.rewards_line = number
    elif due in ("@nr_states", "@nr_choices"):
        model.numbers[due] = (number, content)


def begin_choice(model: Model, number: int) -> List[Tuple[int, bytes]]:
    """One more choice of the last state; its lines, none so far."""
    model.choices.append(Choice(number, []))
    model.choice_count += 1
    return model.choices[-1].lines


def read_states(model: Model, lines: Iterator[Tuple[int, bytes]], stop: int, state: int) -> None:
    """Reads the lines behind `@model`. A text may have many: this takes half a microsecond for each."""
    transitions: List[Tuple[int, bytes]] = []
    for number, line in lines:
        content = line.strip(b" \t\r\n")
        if number == stop:
            model.line = content_of(line)
            return
        if content[:1].isdigit():
            if not model.choices:
                transitions = begin_choice(model, number)
            transitions.append((number, content))
        elif content.startswith(b"state"):
            if len(model.states) == state + 1 and state >= 0:
                return
            model.states.append(State(number, content))
            model.choices = []
        elif content.startswith(b"action"):
            transitions = begin_choice(model, number)


def is_passed_over(content: bytes, due: str) -> bool:
    """Whether a line before the model says nothing: a comment, or a blank line where no list is due."""
    return content.startswith(b"//") or not content and due not in ("@parameters", "@reward_models")


def read_model(text: bytes, stop: int = 0, state: int = -1) -> Model:
    """Reads up to before the line `stop`, which is kept; or up to the end of a state's rows; else the whole."""
    model, lines = Model(), enumerate(io.BytesIO(text), 1)
    for number, line in lines:
        content = content_of(line)
        if number == stop:
            model.line = content
            return model
        if not is_passed_over(content, model.due):
            read_front(model, number, content)
        if model.in_model():
            read_states(model, lines, stop, state)
            break
    return model


def parameters_of(text: bytes) -> List[str]:
    """The names of a model's parameters."""
    model = Model()
    for number, content in lines_of(text):
        if not is_passed_over(content, model.due):
            read_front(model, number, content)
        if model.in_model():
            break
    return model.parameters


def labels_of(state: State) -> List[bytes]:
    """The labels of a state's line, without quotes."""
    return [without_quotes(word) for word in words_of(state.content)[2:] if word[:1] != b"["]
