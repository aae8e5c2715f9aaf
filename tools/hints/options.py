"""The options of a command line, as the programs read them."""

from __future__ import annotations

from typing import Callable, List, Optional, Sequence, Tuple

from hints import data

Setting = Tuple[str, Optional[str]]

VALUED = data.names_of("lumped")  # of all that have a goal and a bound
RANGED = data.names_of("verify")
STEPPED = data.names_of("bounded")
FORMULATED = data.names_of("property")
COSTED = data.names_of("cost")
NAMED = list(dict.fromkeys([*RANGED, *STEPPED, *FORMULATED, *COSTED]))  # of all commands
VIEWED = data.names_of("plift-view")
FLAGS = [row["option"] for row in data.options_of("plift-view") if not row["value"]]


def settings_of(words: Sequence[str], takes_value: Callable[[str], bool], takes_empty: bool) -> List[Setting]:
    """The words as options: one with `=` has its value, which may be empty where that is taken; any other takes the
    next word where it takes a value."""
    settings: List[Setting] = []
    rest = list(words)
    while rest:
        name, mark, value = rest.pop(0).partition("=")
        if mark:
            settings.append((name, value if value or takes_empty else None))
        else:
            settings.append((name, rest.pop(0) if rest and takes_value(name) else None))
    return settings


def options_of(words: Sequence[str]) -> List[Setting]:
    """The options behind a command, which all take a value."""
    return settings_of(words, lambda _: True, False)


def view_options_of(words: Sequence[str]) -> List[Setting]:
    """The options of plift-view, where flags take no value."""
    return settings_of(words, VIEWED.__contains__, True)
