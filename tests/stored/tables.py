"""Reads the tables of the tests: each is a text in the source of a test, a row in each line and its cells between
bars."""

import re
from pathlib import Path

TOP = Path(__file__).resolve().parent.parent.parent
CONSTANT = re.compile(r'^const (\w+): &str =\s*"((?:[^"\\]|\\.)*)";', re.M | re.S)
ESCAPE = re.compile(r"\\(?:\n\s*|x([0-9a-f]{2})|(.))", re.S)
SINGLE = {"n": "\n", "r": "\r", "t": "\t", "\\": "\\", '"': '"'}


def unescaped(literal: str) -> str:
    """The text that a literal of the source stands for."""

    def meant(escape: re.Match[str]) -> str:
        if escape[1]:
            return chr(int(escape[1], 16))
        return SINGLE[escape[2]] if escape[2] else ""

    return ESCAPE.sub(meant, literal)


def constants(crate: str, module: str) -> dict[str, str]:
    """The texts of a module of tests, by their names."""
    source = (TOP / "crates" / crate / "src" / f"{module}.rt").read_text()
    found = {name: unescaped(literal) for name, literal in CONSTANT.findall(source)}
    if not found:
        raise ValueError(f"{crate}/src/{module}.rt has no table")
    return found


def rows(table: str) -> list[str]:
    return [row for row in table.split("\n") if row]


def named(table: str) -> dict[str, bytes]:
    """The texts of a table of rows NAME = TEXT."""
    return {name: lines_of(text) for name, text in (row.split(" = ", 1) for row in rows(table))}


def lines_of(cell: str) -> bytes:
    """The bytes of a cell, in which a semicolon ends a line. A dash alone is nothing."""
    return b"" if cell == "-" else cell.replace(";", "\n").encode()
