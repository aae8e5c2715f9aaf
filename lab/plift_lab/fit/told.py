"""The second text: what was changed, and why the question is the same."""

from __future__ import annotations

from typing import Dict, List, NamedTuple, Optional


class Change(NamedTuple):
    """Changes of one kind: what was done, why the question is the same, and to what."""

    what: str
    why: str
    places: List[str]


class Told:
    """The changes, kind by kind in the order in which they were first made."""

    def __init__(self) -> None:
        self.changes: Dict[str, Change] = {}
        self.notes: List[str] = []
        """What to know besides, a line each."""

    def change(self, what: str, why: str, place: str = '') -> None:
        """Tells of a change; one of a kind that was told before is another place of it."""
        known = self.changes.setdefault(what, Change(what, why, []))
        if place:
            known.places.append(place)

    def lines(self, most: Optional[int] = None) -> List[str]:
        """All of it, with at most so many places of each kind."""
        told = []
        for what, why, places in self.changes.values():
            told.append('%s%s' % (what, ' (%d)' % len(places) if len(places) > 1 else ''))
            told += ['    ' + place for place in places[:most]]
            if most is not None and len(places) > most:
                told.append('    and %d more; --log FILE lists all' % (len(places) - most))
            told.append('  why: ' + why)
        return (told or ['nothing had to be changed but the way in which it is written']) + self.notes


def ranges(numbers: List[int]) -> str:
    """Numbers in order, neighbours as ranges."""
    parts: List[List[int]] = []
    for number in numbers:
        if parts and number == parts[-1][1] + 1:
            parts[-1][1] = number
        else:
            parts.append([number, number])
    return ', '.join('%d' % low if low == high else '%d-%d' % (low, high) for low, high in parts)


def counted(number: int, one: str) -> str:
    """So many of them."""
    return '%d %s%s' % (number, one, '' if number == 1 else 's')
