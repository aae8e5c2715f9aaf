"""What single words of a command line have the looks of."""

from __future__ import annotations

import re
from typing import Optional

from hints.told import shown

HELP = ("--help", "-h", "-help", "help", "-?", "--usage")
VERSION = ("--version", "-V", "-version", "version")
LONG_DASHES = "–—−"
PROPERTY = re.compile(r"P(?:max|min)?\s*(?:<=|<|>=|>|=\?)|\[\s*F\b|^\s*F\s")
FILE = re.compile(r"[/\\]|\.(?:drn|report|prism|pm|nm|jani|txt|gz|svg|out|log|json|tra)$|^\.{1,2}$")
SEVERAL = re.compile(r"(verify|bounded|property|cost|lumped|check|migrate|refine|generate|selftest|--[a-z]+)\s+\S")


def is_file(word: str) -> bool:
    """Whether a word has the looks of a file's name."""
    return bool(FILE.search(word)) and not re.search(r"^[0-9./]+$|[<>=]", word)


def is_dashed(word: str) -> bool:
    """Whether a word begins like an option."""
    return word[:1] == "-" or word[:1] in LONG_DASHES and word != ""


def asks_for_help(word: str) -> bool:
    """Whether a word asks for help or for the version, which the scripts tell."""
    return word.split("=")[0] in HELP + VERSION


def about_help(word: str, program: str, command: str = "") -> str:
    """How help is asked for."""
    if word.split("=")[0] in VERSION:
        return f"{word}: it stands alone, as {program} --version"
    more = f" or {program} --help {command}" if command else ""
    return f"{word}: help stands alone, as {program} --help{more}"


def about_odd(word: str) -> Optional[str]:
    """What is wrong with a word that the shell made from blanks or quotes."""
    if word == "":
        return "an empty word stands there: is a variable in quotes unset?"
    if not word.strip():
        return "a word of blanks stands there: does a blank stand behind a \\ at the end of a line?"
    if "\u00a0" in word:
        return f"{shown(word)} holds a blank that doesn't break (U+00A0), as pages of the web have it: type it anew"
    if SEVERAL.match(word):
        return f"{shown(word)} is one word: leave out the quotes that hold several words together"
    return None
