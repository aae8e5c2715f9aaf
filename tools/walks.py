"""Makes docs/WALKS.md: what each command does, function by function, from bytes to bytes. Which functions, and in which
order, stands in tools/walks.tsv; what is said of each are the first two sentences of its comment in the source."""

from __future__ import annotations

import re
from pathlib import Path
from typing import List, NamedTuple, Tuple

import manual

TOP = Path(__file__).resolve().parent.parent
PAGE = "docs/WALKS.md"
TABLE = "tools/walks.tsv"
HEAD = """# From bytes to bytes

What happens to a line of words and to the text of a model: the functions of a command in the order in which they are \
called, each with its crate and file. Each command is told whole. Made by `tools/walks.py` from `tools/walks.tsv` and \
from the functions' comments.
"""
SENTENCE = re.compile(r"\S.*?\.(?=\s|$)")
OWNER = re.compile(r"impl\b.*?(\w+)(?:<[^{]*>)? *\{")


class Step(NamedTuple):
    """A function on the way: its file, its name behind that of its type, if it has one, and what is said of it."""

    file: str
    name: str
    said: str


def comment_above(lines: List[str]) -> str:
    """The first two sentences of the comment that ends these lines, attributes standing behind it or not."""
    above: List[str] = []
    for line in map(str.strip, reversed(lines)):
        if line.startswith("//"):
            above.insert(0, line.lstrip("/").strip())
        elif not line.startswith("#["):
            break
    paragraph = " ".join(above[: above.index("")] if "" in above else above)
    return " ".join(SENTENCE.findall(paragraph)[:2])


def comment_of(text: str, name: str) -> str:
    """What the source says of a function: of one of a type's where the type stands in front of its name."""
    owner, _, function = name.rpartition("::")
    lines, inside = text.splitlines(), ""
    found = []
    for at, line in enumerate(lines):
        if line.startswith("impl"):
            told = OWNER.search(line)
            inside = told[1] if told else ""
        elif line.startswith("}"):
            inside = ""
        if re.search(rf"\bfn {function}\b", line) and inside == owner:
            found.append(comment_above(lines[:at]))
    if len(found) != 1 or not found[0]:
        raise manual.Unmade(f"tools/walks.tsv: {name}: the source has {len(found)} of it, or no comment")
    return found[0]


def step_of(row: str) -> Step:
    """A row of tools/walks.tsv."""
    file, name, *said = row.split("\t")
    path = TOP / "crates" / file
    if not path.is_file():
        raise manual.Unmade(f"tools/walks.tsv: there is no {file}")
    told = comment_of(path.read_text(encoding="utf-8"), name)
    return Step(file, name, said[0] if said else told)


def commands(text: str) -> List[Tuple[str, str, List[Step]]]:
    """The commands of a text in the form of tools/walks.tsv: name, what is asked, and the steps."""
    walks: List[Tuple[str, str, List[Step]]] = []
    for row in text.splitlines():
        if row.startswith("#"):
            continue
        if "/" in row.partition("\t")[0]:
            walks[-1][2].append(step_of(row))
        else:
            command, _, asked = row.partition("\t")
            walks.append((command, asked, []))
    return walks


def told(step: Step) -> str:
    """A step as the page has it."""
    crate, _, file = step.file.partition("/")
    return f"`{step.name}` ({crate}, {file}): {step.said}"


def made() -> str:
    """The page."""
    parts = [HEAD]
    for command, asked, steps in commands((TOP / TABLE).read_text(encoding="utf-8")):
        lines = "".join(f"{number}. {told(step)}\n" for number, step in enumerate(steps, 1))
        parts.append(f"\n## `{command}`\n\n{asked}\n\n{lines}")
    return "".join(parts)
