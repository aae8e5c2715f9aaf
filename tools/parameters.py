#!/usr/bin/env python3
"""Counts how many functions take many parameters, over the code of the crates that aren't tests (`self` counts):

    parameters.py              tells how many take six or more, and how many eight or more
    parameters.py --most N     lists before that those that take N or more, with file and line, most parameters first
"""

from __future__ import annotations

import argparse
import re
import subprocess
from collections.abc import Iterator
from pathlib import Path
from typing import NamedTuple

TOP = Path(__file__).resolve().parent.parent
NAMED = re.compile(r"\bfn\s+(\w+)\s*")
# Comments and texts, in which what looks like code isn't any.
PASSED_OVER = re.compile(r'//[^\n]*|/\*.*?\*/|"(?:\\.|[^"\\])*"', re.DOTALL)
OPENING = "([{<"
CLOSING = ")]}>"


class Function(NamedTuple):
    """A function, where it stands, and how many parameters it takes."""

    file: str
    line: int
    name: str
    parameters: int


def without_comments(text: str) -> str:
    """The code with blanks in place of comments and texts, each line where it was."""
    return PASSED_OVER.sub(lambda it: re.sub(r"[^\n]", " ", it.group()), text)


def parts(code: str, at: int) -> tuple[list[str], int]:
    """What stands between the commas of the brackets that open there, without an empty last part, and where they
    end."""
    found: list[str] = []
    depth, begin = 0, at + 1
    for place in range(at, len(code)):
        symbol = code[place]
        if symbol in OPENING:
            depth += 1
        elif symbol in CLOSING and code[place - 1 : place + 1] not in ("->", "=>"):
            depth -= 1
        if depth == 0 or (depth == 1 and symbol == ","):
            found.append(code[begin:place].strip())
            begin = place + 1
        if depth == 0:
            return found if found[-1] else found[:-1], place + 1
    return [], len(code)


def functions(text: str, file: str = "") -> Iterator[Function]:
    """The functions of a file, in their order."""
    code = without_comments(text)
    for named in NAMED.finditer(code):
        at = named.end()
        if code.startswith("<", at):
            _, at = parts(code, at)
        if code.startswith("(", at):
            taken, _ = parts(code, at)
            yield Function(file, code.count("\n", 0, named.start()) + 1, named.group(1), len(taken))


def sources() -> list[str]:
    """The paths of the code that isn't in a crate of tests."""
    listed = subprocess.run(
        ["git", "ls-files", "crates/*/src/*.rt"], cwd=TOP, check=True, capture_output=True, text=True
    )
    return [path for path in listed.stdout.splitlines() if not path.split("/")[1].endswith("_tests")]


def all_functions() -> list[Function]:
    """The functions of all crates that aren't tests."""
    return [it for path in sources() for it in functions((TOP / path).read_text(encoding="utf-8"), path)]


def summary(found: list[Function]) -> str:
    """How many functions take many parameters, in one line."""
    six, eight = (sum(1 for it in found if it.parameters >= least) for least in (6, 8))
    return f"functions with 6 or more: {six}, with 8 or more: {eight}"


def main() -> None:
    """Prints the functions that are asked for, if any, and how many take many parameters."""
    parser = argparse.ArgumentParser(description=__doc__, formatter_class=argparse.RawDescriptionHelpFormatter)
    parser.add_argument("--most", type=int, metavar="N", help="list the functions that take N parameters or more")
    asked = parser.parse_args()
    found = all_functions()
    if asked.most is not None:
        for it in sorted(found, key=lambda it: (-it.parameters, it.file, it.line)):
            if it.parameters >= asked.most:
                print(f"{it.file}:{it.line}: {it.name} {it.parameters}")
    print(summary(found))


if __name__ == "__main__":
    main()
