"""What a user asks of a fit, besides the text."""

from __future__ import annotations

from dataclasses import dataclass, field
from fractions import Fraction
from typing import Dict, List, Optional

from ..regions import Region


@dataclass(frozen=True)
class Wants:
    """The words of the command, read."""

    defined: Dict[str, Fraction] = field(default_factory=dict)
    """Names that stand for numbers."""
    goal: Optional[str] = None
    safe: Optional[str] = None
    """Formulas of labels."""
    region: Optional[Region] = None
    is_relative: bool = False
    """Whether parameters may be tossed on the scale of the region's interval."""
    is_rounded: bool = False
    is_looped: bool = False
    """Whether states without transitions get a loop."""
    is_recounted: bool = False
    """Whether counts that don't fit are written anew."""
    dropped: List[str] = field(default_factory=list)
    """Sections that are left out besides those that are known to say nothing of the question."""
