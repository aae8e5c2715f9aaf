"""Hints for causes of `model: line L: CAUSE` that speak of states, their labels and their choices."""

from __future__ import annotations

from math import gcd
from typing import Dict, List, Tuple

from hints.drn import State, labels_of, lines_of, read_model, TRANSITION
from hints.formula import Fault as FormulaFault, read_formula
from hints.numbers import SIZE
from hints.place import Place
from hints.refusal import Refusal
from hints.told import counted, listed, near, printable, shown
from hints.value import Fault, common_of, read_value

MOST_STATES_TOLD = 4


def ids(states: List[int]) -> str:
    """The numbers of states."""
    return listed([str(state) for state in states], MOST_STATES_TOLD)


def state_order(place: Place) -> List[str]:
    """Which number was due."""
    words = place.content.split()
    if len(words) < 2 or not words[1].isdigit():
        return []
    due, found = len(place.model.states), int(words[1][:21])
    if due == found:
        return []
    why = ""
    if due == 0 and found == 1:
        why = "; states are numbered from 0"
    elif found < due:
        why = f"; state {found} stands at line {place.model.states[found].line} already"
    elif due > 0:
        why = f"; the state before, {due - 1}, stands at line {place.model.states[-1].line}"
    return [place.here(f"the next state is {due}{why}")]


def marked(place: Place, mark: bytes, what: str) -> List[str]:
    """The word behind a state's number that begins so."""
    word = next((word for word in place.content.split()[2:] if word.startswith(mark)), None)
    return [place.here(f"{shown(word)} is {what}")] if word else []


def exit_rate(place: Place) -> List[str]:
    """The exit rate."""
    return marked(place, b"!", "an exit rate: the model is in continuous time")


def observation(place: Place) -> List[str]:
    """The observation."""
    return marked(place, b"{", "an observation: the model is partially observable")


def extra_choice(place: Place) -> List[str]:
    """Which state has two choices."""
    if not place.model.choices or place.model.kind != "DTMC":
        return []
    first = place.model.choices[0].line
    line = place.model.sections["@type:"]
    return [
        place.here(f"a second choice of state {place.state()}, whose first begins at line {first}"),
        f"a DTMC's states have one choice each: write @type: MDP at line {line}, or join the choices",
    ]


def has_no_choice(place: Place) -> bool:
    """Whether the next line that says something begins a state, or there is none."""
    behind = (content for number, content in lines_of(place.text) if number > place.number)
    content = next((content for content in behind if content and not content.startswith(b"//")), b"state")
    return content.startswith(b"state")


def no_choice(place: Place) -> List[str]:
    """Which state has no transitions."""
    words = place.content.split()
    if len(words) < 2 or words[0] != b"state" or not has_no_choice(place):
        return []
    number = printable(words[1])
    return [
        place.here("no transition stands behind this line, before the next state or the end"),
        f"where a run stays in state {number} for ever, write a line {number} : 1 behind it",
    ]


def repeated_target(place: Place) -> List[str]:
    """Where the target stood before."""
    match = TRANSITION.fullmatch(place.content)
    if not match or not place.model.choices:
        return []
    target = int(match[1][:21])
    before = next((t for t in place.model.choices[-1].transitions() if t.target == target), None)
    if before is None:
        return []
    if before.value == match[2]:
        return [
            place.here(f"the same transition stands at line {before.line} already, in the same choice"),
            "take one of them out; or where both are meant, join them to one, with the sum of both values",
        ]
    both = f"{target} : {printable(before.value)}+{printable(match[2])}"
    return [
        place.here(f"a transition to {target} stands at line {before.line} already, in the same choice"),
        f"join them: {both}" if len(both) < 80 else "join them to one, with the sum of both values",
    ]


def no_state(place: Place) -> List[str]:
    """That no state stands there."""
    return ["no line behind @model begins with the word state", "there stand state 0 init, its transitions, and so on"]


def count_mismatch(place: Place) -> List[str]:
    """What was announced, and what is there."""
    model, told = place.model, []
    counts = (("@nr_states", "state", len(model.states)), ("@nr_choices", "choice", model.choice_count))
    for name, what, count in counts:
        line, number = model.numbers.get(name, (0, b""))
        if line and number.isdigit() and int(number) != count:
            told.append(f"line {line} announces {counted(int(number), what)}, and the text has {count:,}")
    if not told:
        return []
    return told[:1] + ["mend the number, or take out the section with its number; was the text cut off?"]


def target_range(place: Place) -> List[str]:
    """Which state doesn't exist."""
    match = TRANSITION.fullmatch(place.content)
    count = len(read_model(place.text).states)
    if not match or int(match[1][:21]) < count:
        return []
    return [place.here(f"there is no state {int(match[1][:21])}: the text has states 0 to {count - 1}")]


def init_count(place: Place) -> List[str]:
    """Which states are initial."""
    states = place.model.states
    initial = [(i, state) for i, state in enumerate(states) if b"init" in labels_of(state)]
    if len(initial) == 1:
        return []
    if initial:
        told = listed([f"{i} (line {state.line})" for i, state in initial], MOST_STATES_TOLD)
        return [f"{len(initial)} states carry init: {told}", "exactly one state is initial"]
    line = states[0].line if states else 0
    close = near("init", list(labels_in(states)))
    if close:
        what = f"no state carries the label init; is {shown(close)} meant?"
        return [what, "labels stand apart by blanks, without commas or other marks"]
    remedy = f"write init behind the initial state's number, as at line {line}: state 0 init"
    return ["no state carries the label init", remedy]


def labels_in(states: List[State]) -> Dict[bytes, List[int]]:
    """The labels of a text, with the states that carry them."""
    labels: Dict[bytes, List[int]] = {}
    for number, state in enumerate(states):
        for label in labels_of(state):
            labels.setdefault(label, []).append(number)
    return labels


def of_number(goal: str, labels: Dict[bytes, List[int]]) -> str:
    """What a goal that is a state's number was meant to be."""
    carried = [label for label, states in labels.items() if int(goal) in states]
    return f"; state {goal} carries {listed(carried)}" if carried else f"; state {goal} carries no label"


def asked_labels(refusal: Refusal) -> List[str]:
    """The labels that were asked for, in the order in which they are looked for."""
    if refusal.command() != "property":
        return [label for label in [refusal.option("--goal")] if label is not None]
    try:
        formula = read_formula(refusal.option("--formula") or "")
    except FormulaFault:
        return []
    return [formula.goal] + ([] if formula.safe is None else [formula.safe])


def unknown_label(place: Place) -> List[str]:
    """Which label was asked for, and which there are."""
    labels = labels_in(place.model.states)
    asked = asked_labels(place.refusal)
    goal = next((label for label in asked if label.encode("utf-8", "surrogateescape") not in labels), None)
    if goal is None:
        return []
    why = ""
    bare = goal.strip().strip("\"'")
    inner = bare[1:].strip(" []\"()") if bare[:1] == "F" else bare
    if goal.isdigit() and len(goal) < 7:
        why = of_number(goal, labels)
    elif inner != goal and inner.encode() in labels:
        why = f"; write --goal {inner} alone"
    else:
        close = near(goal, list(labels))
        why = f"; is {close} meant?" if close else ""
        if close and close.strip(",;:") == goal:
            why = f", but {shown(close)}: labels stand apart by blanks, without other marks"
    known = [label for label in labels if label != b"init"] or list(labels)
    what = f"no state carries the label {shown(goal)}{why}"
    if not known:
        return [what, "the text has no labels: write one behind state and its number, as state 4 lost"]
    return [what, f"the labels of the text: {listed(known, 12)}"]


def common_denominator(place: Place) -> List[str]:
    """At which line the common denominator gets too large."""
    model, names, common, seen = place.model, place.names(), 1, {}
    for number, content in lines_of(place.text):
        match = TRANSITION.fullmatch(content)
        if not match or match[2] in seen:
            continue
        seen[match[2]] = number
        value = match[2].decode("latin-1")
        if value.startswith("$"):
            value = model.placeholders.get(value[1:], (0, b"0"))[1].decode("latin-1")
        try:
            own = common_of(read_value(value, names))
        except Fault:
            return []
        common = common * own // gcd(common, own)
        if common >= SIZE:
            return [
                f"line {number}: {shown(content)}: with its denominator {own:,} the least common multiple reaches 2^62",
                "write probabilities as short fractions, or round them to a few decimals that add up to 1",
            ]
    return []


def limit_of(what_and_most: Tuple[str, int], place: Place) -> List[str]:
    """That there is one too many."""
    what, most = what_and_most
    return [place.here(f"the {what} number {most + 1:,}, and at most {most:,} are taken")]


LIMITS: Dict[str, Tuple[str, int]] = {
    "LimitStates": ("state", 65_536),
    "LimitChoices": ("choice", 131_072),
    "LimitTransitions": ("transition", 262_144),
    "LimitPlaces": ("placeholder", 65_536),
}
