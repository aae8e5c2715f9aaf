"""What a model's text calls the states and the choices of a report, which has numbers alone."""

from __future__ import annotations

from dataclasses import replace

from .evidence import read_file
from .faults import Fault
from .models import Model
from .origin import Origin
from .report import Report


class Names:
    """The names of a model's text, which the report has to fit."""

    def __init__(self, model: Model, name: str, report: Report) -> None:
        self.name, self.states = name, model.states()
        choices = [max(1, len(state.actions)) for state in self.states]
        if choices != report.choices:
            raise Fault('%s isn\'t the model of the report: it has other states, or others of their choices' % name)
        goals = set(report.goals)
        labels = {label for state in goals for label in self.states[state].labels}
        marked = {label: {n for n, one in enumerate(self.states) if label in one.labels} for label in labels}
        self.goal = next((label for label in sorted(labels) if marked[label] == goals), None)
        """A label that the goal states carry and no others."""

    @classmethod
    def read(cls, path: str, report: Report) -> 'Names':
        """Those of a file."""
        return cls(Model(read_file(path)), path, report)

    def name_goal(self, report: Report) -> None:
        """Tells a report the label of its goal, unless it knows one."""
        if self.goal is not None and report.origin.goal == Origin().goal:
            report.origin = replace(report.origin, goal=self.goal)
