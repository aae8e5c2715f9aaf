"""States and choices: their numbers, what is missing, and what is never reached."""

from __future__ import annotations

from typing import Dict, Iterable, List, Optional, Set

from .labels import Formula
from .polynomials import ONE, Polynomial, total
from .refusal import Unfit, shown
from .source import Source, State
from .told import Told, counted, ranges
from .wants import Wants

INIT = b'init'
MOST_TOLD = 1000


def number(source: Source, told: Told) -> None:
    """Lets each transition lead to a place in the list of states, which are in the order of their numbers."""
    states = source.states
    if not states:
        raise Unfit(source.last_line, 'NoState', 'behind @model stand lines such as `state 0 init`')
    numbers = [state.number for state in states]
    if numbers != list(range(len(states))):
        states.sort(key=lambda state: state.number)
        for before, state in zip(states, states[1:]):
            if before.number == state.number:
                raise Unfit(max(before.line, state.line), 'StateOrder', 'state %d stands twice' % state.number)
        told.change(
            'states are sorted, and numbered without gaps',
            'a number is a name, and transitions lead to the same states as before',
        )
    for place, state in enumerate(states):
        state.place = place
    if states[-1].place < states[-1].number or _last_target(source) > states[-1].number:
        _lead_to_places(source)


def _last_target(source: Source) -> int:
    """The greatest number of a target."""
    return max((max(choice.targets) for choice in source.choices if choice.targets), default=0)


def _lead_to_places(source: Source) -> None:
    """Writes places for the numbers of targets."""
    places = {state.number: state.place for state in source.states}
    for choice in source.choices:
        try:
            choice.targets = [places[target] for target in choice.targets]
        except KeyError as missing:
            about = 'a transition leads to state %s, which isn\'t there' % missing
            raise Unfit(choice.line, 'TargetRange', about) from None


def count(source: Source, wants: Wants, told: Told) -> None:
    """Compares the counts that the text tells with what is there."""
    found = {'nr_states': len(source.states), 'nr_choices': sum(len(state.choices) for state in source.states)}
    for name, (due, line) in source.counts.items():
        if due == found[name]:
            continue
        if not wants.is_recounted:
            about = '@%s says %d, and there are %d: is the text cut off? --recount writes the count anew'
            raise Unfit(line, 'CountMismatch', about % (name, due, found[name]))
        told.change('a count is written anew', 'you said so by --recount', '@%s: %d for %d' % (name, found[name], due))


def begin(source: Source) -> int:
    """The place of the one initial state."""
    found = [place for place, state in enumerate(source.states) if INIT in state.labels]
    if len(found) != 1:
        names = shown(ranges([source.states[place].number for place in found[:MOST_TOLD]]))
        about = (
            'the states %s have the label init: a new first state that goes to each of them is another model, and only '
            'you can say with which probabilities' % names
            if found
            else 'no state has the label init: write it behind the number of the first state of a run'
        )
        raise Unfit(source.last_line, 'InitCount', about)
    return found[0]


def check_choices(source: Source, wants: Wants, goal: Optional[Formula], told: Told) -> None:
    """Sees to it that each state has a choice that leads somewhere, and of a chain one alone."""
    one = source.pool.add(ONE)
    for place, state in enumerate(source.states):
        if source.kind == 'DTMC' and len(state.choices) > 1:
            about = 'state %d of a DTMC has more than one choice: is it an MDP?' % state.number
            raise Unfit(state.choices[1].line, 'ExtraChoice', about)
        if _leads(state):
            continue
        is_goal = goal is not None and goal.holds(state.labels)
        if not (is_goal or wants.is_looped or source.is_timed):
            about = 'state %d has no transitions: --loops lets runs stay there, if that is meant' % state.number
            raise Unfit(state.line, 'NoChoice', about)
        state.loop(place, one)
        why = 'you said by --loops that runs stay there' if wants.is_looped else 'runs stay there: no rate leads on'
        why = 'a run that is there has reached the goal' if is_goal else why
        told.change('states without transitions get a loop', why, 'state %d' % state.number)


def _leads(state: State) -> bool:
    """Whether some choice leads somewhere."""
    for choice in state.choices:
        if choice.targets:
            return True
    return False


def join_targets(source: Source, told: Told) -> None:
    """Lets each choice lead to a state once, and nowhere with probability 0."""
    pool = source.pool
    empty = {place for place, value in enumerate(pool.polynomials) if value.above == 0}
    for choice in source.choices:
        is_joined = len(set(choice.targets)) < len(choice.targets)
        if is_joined:
            parts: Dict[int, List[Polynomial]] = {}
            for target, value in zip(choice.targets, choice.values):
                parts.setdefault(target, []).append(pool[value])
            choice.lead([(target, pool.add(total(values))) for target, values in parts.items()])
            told.change('transitions of a choice to the same state are joined', 'their values add up', choice.where)
        if is_joined or (empty and not empty.isdisjoint(choice.values)):
            entries = list(zip(choice.targets, choice.values))
            kept = [(target, value) for target, value in entries if pool[value].above != 0]
            choice.lead(kept)
            if len(kept) < len(entries):
                told.change('transitions of probability 0 are left out', 'they are never taken', choice.where)


def reached(states: List[State], start: int) -> Set[int]:
    """The places that some run may come to."""
    found, open_places = {start}, [start]
    while open_places:
        for choice in states[open_places.pop()].choices:
            for target in choice.targets:
                if target not in found:
                    found.add(target)
                    open_places.append(target)
    return found


def drop_unreached(source: Source, start: int, told: Told) -> Set[int]:
    """Leaves out states that no run comes to, but one for each label that no other state has. Returns the places of
    those that runs come to, as they were."""
    states = source.states
    found = reached(states, start)
    if len(found) == len(states):
        return found
    runs = set(found)
    kept = _keepers(states, found)
    one = source.pool.add(ONE)
    for place, labels in kept.items():
        states[place].loop(place, one)
        told.change(
            'a state that no run comes to stays, with a loop, for a label that no other state has',
            'the label can be asked for, and is reached with probability 0',
            'state %d' % states[place].number,
        )
    found.update(kept)
    lost = [state.number for place, state in enumerate(states) if place not in found]
    if lost:
        told.change(
            'states that no run comes to are left out',
            'they play no part in what is reached from the initial state',
            '%s: %s' % (counted(len(lost), 'state'), ranges(lost)),
        )
        _keep(source, found)
    return runs


def _keepers(states: List[State], found: Set[int]) -> Dict[int, Set[bytes]]:
    """For each label that only states have which no run comes to the first of them."""
    known = {label for place in found for label in states[place].labels}
    kept: Dict[int, Set[bytes]] = {}
    for place, state in enumerate(states):
        new = set(state.labels) - known
        if place not in found and new:
            kept[place] = new
            known |= new
    return kept


def _keep(source: Source, places: Iterable[int]) -> None:
    """Leaves these states alone, in their order."""
    order = sorted(places)
    new = {place: index for index, place in enumerate(order)}
    source.states = [source.states[place] for place in order]
    for state in source.states:
        for choice in state.choices:
            choice.targets = [new[target] for target in choice.targets]
