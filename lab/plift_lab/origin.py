"""How a report came to be, as far as it is known: a report doesn't hold it."""

from __future__ import annotations

from dataclasses import dataclass, field
from fractions import Fraction
from typing import Any, Dict, List, Optional

from .models import Scale
from .regions import NAME
from .values import exact, read_number


@dataclass(frozen=True)
class Origin:
    """What was asked, in the user's own terms."""

    goal: str = 'goal'
    """The label of the states to be reached."""
    scale: Scale = field(default_factory=dict)
    """For each parameter that was rescaled, the user's own ends."""
    fixed: Dict[str, Fraction] = field(default_factory=dict)
    """Values that were written into the model."""
    words: List[str] = field(default_factory=list)
    """The program's command line."""
    model: str = ''
    """The name of the file with the model that it was given."""
    safe: Optional[str] = None
    """The label of states by way of which the goal is to be reached."""
    reward: Optional[str] = None
    """The reward model whose cost is asked for."""

    @property
    def told(self) -> Dict[str, Any]:
        """For a file."""
        told: Dict[str, Any] = {
            'goal': self.goal,
            'words': self.words,
            'model': self.model,
            'scale': {name: [exact(low), exact(high)] for name, (low, high) in self.scale.items()},
            'fixed': {name: exact(value) for name, value in self.fixed.items()},
        }
        more = {'safe': self.safe, 'reward': self.reward}
        return dict(told, **{name: label for name, label in more.items() if label is not None})

    @classmethod
    def read(cls, told: Dict[str, Any]) -> 'Origin':
        """From a file, which anybody may have written."""
        scale = {str(name): (read_number(low), read_number(high)) for name, (low, high) in told['scale'].items()}
        fixed = {str(name): read_number(value) for name, value in told['fixed'].items()}
        if any(low >= high for low, high in scale.values()):
            raise ValueError('an interval is empty')
        if not all(map(NAME.fullmatch, [*scale, *fixed])):
            raise ValueError('a parameter has no name')
        words = [str(word) for word in told['words']]
        labels = (None if told.get(name) is None else str(told[name]) for name in ('safe', 'reward'))
        return cls(str(told['goal']), scale, fixed, words, str(told['model']), *labels)
