"""What tools/words/notes.tsv, of which docs/MESSAGES.md is made, says of a note: what it means, and what to do."""

from __future__ import annotations

import re
from typing import Dict, List, NamedTuple, Optional

from hints import data

SECTION = {"2 view": "2 of plift-view"}  # how the page calls it; any other table is of the status that it begins with


class Advice(NamedTuple):
    """What is said of a note."""

    meaning: str
    remedy: str


class Row(NamedTuple):
    """Some notes of a section, and what is said of them."""

    notes: List[str]
    advice: Advice


def rows() -> Dict[str, List[Row]]:
    """All notes, by their status."""
    found: Dict[str, List[Row]] = {}
    for row in data.table("notes"):
        notes = re.findall(r"`([^`]+)`(?=,|$)", row["notes"])
        section = SECTION.get(row["table"], row["table"].split()[0])
        found.setdefault(section, []).append(Row(notes, Advice(row["meaning"], row["remedy"])))
    return found


def matches(told: str, note: str) -> bool:
    """Whether a note is one that the page tells: a single capital letter is any word, unless it is the whole note."""
    if " " not in told:
        return told == note
    return bool(re.fullmatch(re.sub(r"(?<![A-Za-z])[A-Z](?![A-Za-z])", r"[^ :]+", re.escape(told)), note))


def advice_on(section: str, note: str) -> Optional[Advice]:
    """The row for a note, without the front that all notes of the section share."""
    for row in rows().get(section, []):
        if any(matches(told, note) for told in row.notes):
            return row.advice
    return None
