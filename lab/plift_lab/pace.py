"""How long a model takes: to start, in which the program reads it, and for each rectangle."""

from __future__ import annotations

from typing import List, Optional, Tuple


class Pace:
    """What was measured of one model. It only says what is asked together, never what comes out."""

    def __init__(self) -> None:
        self._noted: List[Tuple[int, int, float]] = []

    def note(self, starts: int, rectangles: int, seconds: float) -> None:
        """So many starts and rectangles took so long."""
        self._noted.append((starts, rectangles, seconds))

    @property
    def costs(self) -> Optional[Tuple[float, float]]:
        """Seconds for a start, and for a rectangle: by the question with the fewest rectangles for a start and the one
        with the most of all. None before two that differ were asked."""
        if not self._noted:
            return None
        few = min(self._noted, key=lambda one: one[1] / one[0])
        many = max(self._noted, key=lambda one: one[1])
        rectangles = many[1] - few[1] * many[0] / few[0]
        if rectangles <= 0:
            return None
        rectangle = max(0.0, (many[2] - few[2] * many[0] / few[0]) / rectangles)
        return max(0.0, (few[2] - few[1] * rectangle) / few[0]), rectangle
