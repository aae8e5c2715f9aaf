"""How texts, numbers and places are told to a person: printable, in one line, of a readable length."""

from __future__ import annotations

import difflib
from fractions import Fraction
from typing import Iterable, List, Optional, Sequence, Union

Text = Union[str, bytes]

WIDTH = 60  # of a text over a caret
MOST_NEAR = 2000  # names that a near one is looked for among
MOST_NAME = 64  # characters of a name that are compared
MOST_DIGITS = 40  # of a number that is told in full


def characters(text: Text) -> str:
    """The text, with one character for each byte where it is bytes."""
    return text.decode("latin-1") if isinstance(text, bytes) else text


def printable(text: Text) -> str:
    """The text without control characters; each of its characters is one here, too."""
    as_bytes = isinstance(text, bytes)
    return "".join(
        " " if c == "\t" else c if c.isprintable() and not (as_bytes and c > "~") else "?" for c in characters(text)
    )


def cut(text: str, most: int) -> str:
    """The text, or its front and its end where it is longer than that."""
    if len(text) <= most:
        return text
    return text[: most * 2 // 3 - 2] + ".." + text[len(text) - most // 3 :]


def shown(text: Text, most: int = 48) -> str:
    """The text in quotes."""
    line = cut(printable(text), most)
    return f"'{line}'" if '"' in line else f'"{line}"'


def pointed(front: str, text: Text, place: int, message: str) -> List[str]:
    """The text behind its front, and below it a caret at the place with a message."""
    line, start = printable(text), 0
    if len(line) > WIDTH:
        start = max(0, min(place - WIDTH // 2, len(line) - WIDTH))
        line = (".." if start else "") + line[start : start + WIDTH] + (".." if start + WIDTH < len(line) else "")
        start -= 2 if start else 0
    return [front + line, " " * (len(front) + place - start) + "^ " + message]


def listed(names: Iterable[Text], most: int = 8) -> str:
    """The names with commas between them; of many the first ones and how many more there are."""
    names = list(names)
    told = ", ".join(cut(printable(name), 40) for name in names[:most])
    return told + (f" and {len(names) - most} more" if len(names) > most else "")


def near(word: Text, names: Sequence[Text]) -> Optional[str]:
    """The name that the word most likely stands for."""
    wanted = characters(word)[:MOST_NAME]
    known = [characters(name) for name in names[:MOST_NEAR] if len(name) <= MOST_NAME]
    for name in known:
        if name.lower() == wanted.lower():
            return printable(name)
    found = difflib.get_close_matches(wanted.lower(), [name.lower() for name in known], 1, 0.6)
    return next((printable(name) for name in known if found and name.lower() == found[0]), None)


def meant(word: Text, names: Sequence[Text]) -> str:
    """A question for the near name, or nothing."""
    name = near(word, names)
    return f"; is {name} meant?" if name else ""


def fraction(value: Fraction) -> str:
    """The fraction in lowest terms, or about its size where it has very many digits."""
    text = str(value)
    return text if len(text) <= MOST_DIGITS else decimal(value)


def decimal(value: Fraction) -> str:
    """About how large the fraction is."""
    return f"about {float(value):.6g}" if abs(value) < 10**300 else "a very large number"


def counted(number: int, one: str, many: str = "") -> str:
    """So many of them."""
    return f"{number:,} {one if number == 1 else many or one + 's'}"
