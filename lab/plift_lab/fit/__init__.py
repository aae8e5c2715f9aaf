"""Makes a model fit the texts that the program reads: exactly, or it is told why not.

Nothing in it is believed. What the program proves is proved of the fitted text; that this text asks the same question
as the one that was given is argued change by change in a second text, and tested by computing reach of both.
"""

from __future__ import annotations

from fractions import Fraction
from typing import Dict, List, NamedTuple, Optional, Sequence, Set

from ..faults import Fault
from ..models import Model
from ..plain import plain
from ..regions import Region
from . import costs, decimals, labels, rates, states
from .labels import Formula
from .polynomials import Box
from .refusal import Unfit, shown
from .source import Source
from .spread import Spreader, steps_of_each, tell_steps
from .text import read
from .told import Told, ranges
from .trial import MOST_FITTED, MOST_STATES, TOO_LARGE, Asked, Pair, Plain, as_read, compare
from .wants import Wants
from .write import Writer, check_numbers, kept_parameters, written_names

__all__ = ['Fitted', 'Wants', 'fit']
RENAMED = 'labels and names are written in plain ASCII'
MOST_COMPARED = 3
"""Labels that are compared where no goal is asked for."""


class Fitted(NamedTuple):
    """The fitted text, and what was changed."""

    text: bytes
    told: Told


class Marked(NamedTuple):
    """A formula that was asked for, and the label that stands for it."""

    formula: Formula
    label: bytes


def fit(data: bytes, wants: Wants) -> Fitted:
    """Fits a text."""
    told = Told()
    source = read(data, wants, told)
    _check_defined(source, wants, told)
    names = written_names(source, told)
    states.number(source, told)
    states.count(source, wants, told)
    start = states.begin(source)
    goal, safe = _formula(source, wants.goal, '--goal'), _formula(source, wants.safe, '--safe')
    states.check_choices(source, wants, goal, told)
    rates.embed(source, told)
    decimals.settle(source, wants.is_rounded, told)
    before = as_read(source) if len(source.states) <= MOST_STATES else None
    states.join_targets(source, told)
    costs.settle(source, told)
    made = _Making(source, told, names, kept_parameters(source, names, told))
    made.each = Model(data).steps_of_each
    asked = Question(made.marked(goal, 'goal'), made.marked(safe, 'safe'))
    return Fitted(made.text(before, asked, start, wants), told)


class Question(NamedTuple):
    """The goal and an until's safe states, as far as they were asked for."""

    goal: Optional[Marked]
    safe: Optional[Marked]

    def is_goal(self, names: Sequence[bytes]) -> bool:
        """Whether a state with these labels is a goal."""
        return self.goal is not None and self.goal.label in names


class _Making:
    """The fitted text in the making: what is left of the model, and the names of its parameters."""

    def __init__(self, source: Source, told: Told, names: Sequence[str], kept: Sequence[int]) -> None:
        self.source, self.told, self.names, self.kept = source, told, names, kept
        self.each: Optional[int] = 1
        """How many steps a step of the text is that was fitted once before."""

    def marked(self, formula: Optional[Formula], name: str) -> Optional[Marked]:
        """The label of a formula, a new one unless it is a label by itself."""
        if formula is None:
            return None
        if not any(formula.holds(state.labels) for state in self.source.states):
            about = '--%s holds in no state' % name
            raise Unfit(self.source.last_line, 'UnknownLabel', about)
        if formula.is_label:
            return Marked(formula, formula.labels[0])
        return Marked(formula, labels.mark(self.source, formula, name, self.told))

    def text(self, before: Optional[Plain], asked: Question, start: int, wants: Wants) -> bytes:
        """The whole text, compared with the model as it was."""
        source, told = self.source, self.told
        box = self._box(wants.region)
        runs = states.drop_unreached(source, start, told)
        spreader = Spreader(source, box, wants.is_relative, self.names)
        spreader.run(told)
        between = spreader.between.rows
        safe = asked.safe
        if safe and between:
            # Steps in between keep to the way; they are entered from states alone, of which the label says as before.
            label = labels.mark(source, safe.formula, 'safe', told) if safe.formula.is_label else safe.label
            asked = asked._replace(safe=Marked(safe.formula, label))
            told.notes.append('steps in between carry `%s`, too: they are entered from states alone' % shown(label))
        check_numbers(
            source,
            [(choice.line, choice.values) for choice in source.choices]
            + [(source.last_line, [value for _, value in row]) for row in between],
        )
        self._warn(box)
        writer = Writer(source, self.names, self.kept)
        each = steps_of_each(spreader, [asked.is_goal(state.labels) for state in source.states]) if between else 1
        each = None if each is None or self.each is None else each * self.each
        text = writer.text(between, [asked.safe.label] if asked.safe and between else [], each)
        for name in sorted(writer.renamed):
            told.change(RENAMED, 'they mark the same states; ask for them as they are written here', shown(name))
        self._tell(spreader, each)
        is_small = before is not None and len(source.states) + len(between) <= MOST_FITTED
        told.notes.append(
            self._tested(before, text, asked, runs, box) if before and is_small else TOO_LARGE % MOST_STATES
        )
        return text

    def _box(self, region: Optional[Region]) -> Optional[Box]:
        """The region, by the parameters' numbers."""
        if region is None:
            return None
        Region(region.intervals).fit(self.names[place] for place in self.kept)
        return {place: region[self.names[place]] for place in self.kept}

    def _warn(self, box: Optional[Box]) -> None:
        """Tells of a choice that is no distribution over the region: the program will refuse it."""
        least: Dict[int, Fraction] = {}
        for choice in self.source.choices if box else ():
            for value in choice.values:
                if value not in least:
                    least[value] = self.source.pool[value].least(box or {})
                if least[value] < 0:
                    about = '%s has a probability of %s at a corner of the region: plift will refuse it'
                    self.told.notes.append(about % (choice.where, shown(str(least[value]))))
                    return

    def _tell(self, spreader: Spreader, each: Optional[int]) -> None:
        """What to know of the fitted text."""
        moved = [place for place, state in enumerate(self.source.states) if state.number != place]
        if moved:
            parts = ranges(moved)
            self.told.notes.append(
                'states have other numbers than in the file: %s were %s'
                % (shown(parts, 200), shown(ranges([self.source.states[place].number for place in moved]), 200))
            )
        tell_steps(spreader, each, self.told)

    def _tested(self, before: Plain, text: bytes, asked: Question, runs: Set[int], box: Optional[Box]) -> str:
        """What the comparison of both models says."""
        after = as_read(read(text, Wants(), Told()))
        places = {place: state.place for place, state in enumerate(self.source.states) if state.place in runs}
        pair = Pair(before, after, places, self.kept)
        return compare(pair, self._compared(pair, asked), box)

    def _compared(self, pair: Pair, asked: Question) -> List[Asked]:
        """What is compared: what was asked for, or else how the first labels are reached."""
        if asked.goal:
            holds = asked.goal.formula.holds
            goals = {place for place, names in enumerate(pair.before.labels) if holds(names)}
            safe = None
            if asked.safe:
                on = asked.safe.formula.holds
                safe = (
                    {place for place, names in enumerate(pair.before.labels) if on(names)},
                    _having(pair.after, plain(asked.safe.label).encode()),
                )
            return [
                Asked(shown(asked.goal.label), (goals, _having(pair.after, plain(asked.goal.label).encode())), safe)
            ]
        names = list(
            dict.fromkeys(name for state in self.source.states for name in state.labels if name != states.INIT)
        )
        return [
            Asked(shown(name), (_having(pair.before, name), _having(pair.after, plain(name).encode())))
            for name in names[:MOST_COMPARED]
        ]


def _having(model: Plain, label: bytes) -> Set[int]:
    """The states with a label."""
    return {place for place, names in enumerate(model.labels) if label in names}


def _check_defined(source: Source, wants: Wants, told: Told) -> None:
    """Refuses a definition of what stands nowhere."""
    known = source.names.used | set(source.names.parameters)
    for name, value in wants.defined.items():
        if name.encode() not in known:
            raise Fault('--define %s: the model has no parameter and no constant of that name' % name)
        told.change('names stand for the numbers that you gave', 'you said so', '%s is %s' % (name, shown(str(value))))


def _formula(source: Source, text: Optional[str], word: str) -> Optional[Formula]:
    return None if text is None else labels.read_formula(source, text, word)
