#!/usr/bin/env python3
"""Refuses a command line that needs no program to be refused, so that nothing is built for it:

    tools/line.py plift WORDS..
    tools/line.py plift-view WORDS..

Writes the note that the program writes (docs/FORMATS.md has the grammar), at a terminal or with PLIFT_HINTS=1
with hints behind it, and ends with 2; or writes nothing and ends with 0: whatever else may be at fault, the
program tells.
"""

import contextlib
import os
import subprocess
import sys
from pathlib import Path
from typing import Dict, List, NamedTuple, Optional, Sequence, Tuple

sys.dont_write_bytecode = True

from hints import data  # noqa: E402
from hints.formula import cause_of, is_bound  # noqa: E402
from hints.options import FLAGS, VIEWED  # noqa: E402

TOOLS = Path(__file__).resolve().parent
USAGE = 2

Setting = Tuple[str, str]


class Grammar(NamedTuple):
    """The options of a command: those that take a value, flags, those that may stand twice and those that must stand,
    and whether any text behind `--name=` is a value, be it empty or with a dash in front, and a dash alone is one, too.
    """

    valued: Sequence[str]
    flags: Sequence[str] = ()
    often: Sequence[str] = ()
    needed: Sequence[str] = ()
    takes_any: bool = False


def grammar_of(command: str) -> Grammar:
    """The options of a command that reads a model or a report."""
    return Grammar(data.names_of(command), needed=data.needed_by(command))


def range_of(option: data.Row) -> Tuple[int, int, int]:
    """The most digits of a number, and its range."""
    digits, low, high = (int(option[key]) for key in ("digits", "low", "high"))
    return digits, low, high


GRAMMARS = {command: grammar_of(command) for command in (*data.ASKING, "refine")}
VERIFY, BOUNDED, PROPERTY, COST, LUMPED, REFINE = GRAMMARS.values()
VIEW = Grammar(VIEWED, flags=FLAGS, often=("--at",), takes_any=True)
# How many words stand behind a command that has no options.
COUNTS = {name: len(data.needed_by(name)) for name in data.commands() if name not in GRAMMARS}
# Numbers: the most digits, and the range. That of `--from` also ends at the precision.
RANGES = {
    row["option"]: range_of(row) for row in data.table("options") if row["digits"] and row["commands"] != "refine"
}
FIRST = ("--depth", "--precision", "--from", "--steps")  # the order of their tests, which come before those of a cost
# The depth that a report is gone on to.
RANGES["H"] = range_of(data.options_of("refine")[0])
USUAL_PRECISION = int(next(row["left"] for row in data.options_of("verify") if row["option"] == "--precision"))


def settings_of(grammar: Grammar, words: Sequence[str]) -> Optional[List[Setting]]:
    """Returns the options and their values in order; none where a word doesn't fit."""
    settings: List[Setting] = []
    rest = list(words)
    while rest:
        name, mark, value = rest.pop(0).partition("=")
        if name in grammar.flags and not mark:
            settings.append((name, ""))
            continue
        if name not in grammar.valued or not mark and not rest:
            return None
        is_empty = mark and not value and not grammar.takes_any
        value = value if mark else rest.pop(0)
        is_taken = grammar.takes_any and (mark or value == "-")
        if is_empty or value.startswith("-") and not is_taken:
            return None
        settings.append((name, value))
    return settings


def are_counts_right(grammar: Grammar, settings: Sequence[Setting]) -> bool:
    """Whether each option stands as often as it may, and a flag alone."""
    names = [name for name, _ in settings]
    once = [name for name in names if name not in grammar.often]
    has_flag = any(name in grammar.flags for name in names)
    return len(set(once)) == len(once) and set(grammar.needed) <= set(names) and (not has_flag or len(names) == 1)


def is_number(value: str, name: str) -> bool:
    """Whether a value is a number in the range of its name."""
    most, low, high = RANGES[name]
    return value.isascii() and value.isdigit() and len(value) <= most and low <= int(value) <= high


def bad_question(values: Dict[str, str]) -> Optional[str]:
    """Returns what is at fault with the formula, or else with the goal or the bound."""
    if "--formula" in values:
        cause = cause_of(values["--formula"])
        return f"--formula {cause}" if cause else None
    if not is_printed(values["--goal"], " "):
        return "--goal"
    return None if is_bound(values.get("--bound", "0")) else "--bound"


def is_printed(text: str, least: str) -> bool:
    """Whether a text isn't empty, and of printable ASCII from that character on."""
    return text != "" and all(least <= letter <= "~" for letter in text)


def bad_cost(values: Dict[str, str]) -> Optional[str]:
    """Returns what is at fault with the name of a reward, a cap or a budget."""
    if not is_printed(values["--reward"], "!"):
        return "--reward"
    if not is_number(values["--cap"], "--cap"):
        return "--cap"
    return None if is_bound(values["--budget"], int(values["--cap"])) else "--budget"


def first_bad_value(values: Dict[str, str]) -> Optional[str]:
    """Returns the first option of a command that reads a model whose value is at fault, but for the region, which takes
    that model."""
    question = bad_question(values)
    if question:
        return question
    bad = next((name for name in FIRST if name in values and not is_number(values[name], name)), None)
    if bad is None and int(values.get("--from", 1)) > int(values.get("--precision", USUAL_PRECISION)):
        return "--from"
    return bad or (bad_cost(values) if "--budget" in values else None)


def plift_note(words: Sequence[str]) -> Optional[str]:
    """Returns the note of plift for a line that is at fault, as far as the line shows it."""
    command, behind = (words[0], words[1:]) if words else ("", [])
    if command in COUNTS:
        if len(behind) != COUNTS[command] or any(word.startswith("-") for word in behind):
            return "usage: words"
        return "usage: N" if behind and not is_number(behind[0], "N") else None
    grammar = GRAMMARS.get(command)
    settings = settings_of(grammar, behind) if grammar else None
    if grammar is None or settings is None or not are_counts_right(grammar, settings):
        return "usage: words"
    values = dict(settings)
    if command == "refine":
        return None if is_number(values["--depth"], "H") else "usage: --depth"
    bad = first_bad_value(values)
    return f"usage: {bad}" if bad else None


def view_note(words: Sequence[str]) -> Optional[str]:
    """Returns the note of plift-view for a line that is at fault; what `--` alone means there, the program knows."""
    if "--" in words:
        return None
    settings = settings_of(VIEW, words)
    return None if settings is not None and are_counts_right(VIEW, settings) else "usage: words"


def wants_hints() -> bool:
    """Whether hints are wanted: at a terminal, unless PLIFT_HINTS is 0, and elsewhere where it is 1."""
    setting = os.environ.get("PLIFT_HINTS")
    return setting == "1" or setting != "0" and os.isatty(2)


def tell(text: str) -> None:
    """Writes to standard error, which may be closed: Python has no stream for it then."""
    with contextlib.suppress(OSError):
        os.write(2, text.encode(errors="backslashreplace"))


def hints_for(program: str, note: str, words: Sequence[str]) -> str:
    """Returns the lines that tools/hints.py has for this note, or where help is found."""
    told = subprocess.run(
        [sys.executable, str(TOOLS / "hints.py"), str(USAGE), "--", *words],
        env={**os.environ, "PLIFT_PROGRAM": program, "PLIFT_NOTE": note},
        stdin=subprocess.DEVNULL,
        stdout=subprocess.DEVNULL,
        stderr=subprocess.PIPE,
    )
    text = told.stderr.decode(errors="replace")
    is_hint = told.returncode == 0 and text.startswith("hint: ")
    return text if is_hint else f"hint: ./{program} --help shows what may stand on the line\n"


def is_text(word: str) -> bool:
    """Whether a word is UTF-8 text. The program ends without a note where one isn't."""
    try:
        os.fsencode(word).decode("utf-8")
    except UnicodeDecodeError:
        return False
    return True


def main(program: str, words: Sequence[str]) -> int:
    """Tells the fault of a line, if it has one that shows."""
    if not all(map(is_text, words)):
        if wants_hints():
            tell("hint: a word of the line isn't UTF-8 text\n")
        return USAGE
    note = (plift_note if program == "plift" else view_note)(words)
    if note is None:
        return 0
    hints = hints_for(program, note, words) if wants_hints() else ""
    tell(f"{note}\n{hints}")
    return USAGE


if __name__ == "__main__":
    sys.exit(main(sys.argv[1], sys.argv[2:]))
