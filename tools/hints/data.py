"""The tables of tools/words: commands, options, statuses, limits, notes and causes, each said once."""

from __future__ import annotations

from functools import lru_cache
from pathlib import Path
from typing import Dict, List

WORDS = Path(__file__).resolve().parent.parent / "words"
ASKING = ("verify", "bounded", "property", "cost", "lumped")  # the commands that read a model

Row = Dict[str, str]


def rows_of(text: str) -> List[Row]:
    """The rows of a table whose first line has the names of its columns, with tabs between them."""
    head, *lines = [line.split("\t") for line in text.splitlines()]
    return [dict(zip(head, line)) for line in lines]


@lru_cache(maxsize=None)
def table(name: str) -> List[Row]:
    """A table; without a row where it isn't there."""
    try:
        return rows_of((WORDS / f"{name}.tsv").read_text(encoding="utf-8"))
    except OSError:
        return []


def commands() -> List[str]:
    """The commands of plift, in the order in which they are told."""
    return [row["command"] for row in table("commands")]


def options_of(command: str) -> List[Row]:
    """The options of a command, or the one value that it takes."""
    return [row for row in table("options") if command in row["commands"].split()]


def names_of(command: str) -> List[str]:
    """The names of the options of a command that take a value."""
    return [row["option"] for row in options_of(command) if row["value"] and row["option"].startswith("--")]


def needed_by(command: str) -> List[str]:
    """The names of those that have to stand there."""
    return [row["option"] for row in options_of(command) if row["needed"]]
