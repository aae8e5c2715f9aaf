"""docs/PROMISES.md, made from the source and from the sentences in tools/promises.tsv.

Each line of tools/promises.tsv has the crates of its section, the clauses that carry a sentence, the definitions that
these speak of, and the sentence, between tabs. A clause is `function.clause`, or `function` alone for all of them; one
of another crate than the section's first has `crate/` before it. In place of clauses stand `=head`, whose text stands
above all, `=part`, which begins a part of the page, `=title`, which begins a section, and `=before` and `=after`, whose
text stands before and behind its table.

What the table names has to stand in the source. A public clause that no sentence speaks of is listed with what the
source says of its function.
"""

from __future__ import annotations

import re
from functools import lru_cache
from typing import Dict, FrozenSet, Iterable, Iterator, List, NamedTuple, Set, Tuple

from clauses import TOP, Function, by_path, crates, exported, functions

DATA = TOP / "tools" / "promises.tsv"
PAGE = "docs/PROMISES.md"
WORD = re.compile(r"[A-Za-z_][A-Za-z0-9_]*")
DEFINED = re.compile(r"^(?:abbrev pub|unfoldable pub|pub record|pub data) (\w+)")
HEAD = (
    "# Promises\n\n<!-- Made by tools/tables.py from the crates' source and from tools/promises.tsv: change these. -->"
)


class Wrong(Exception):
    """What isn't as the page needs it."""


class Row(NamedTuple):
    """A line of tools/promises.tsv."""

    section: Tuple[str, ...]
    clauses: Tuple[str, ...]
    definitions: Tuple[str, ...]
    sentence: str


class Carried(NamedTuple):
    """A function that a row names, or a type without a clause, and which of its clauses: all where none is named."""

    crate: str
    path: str
    found: Tuple[Function, ...]
    clause: str


def rows_of(text: str) -> List[Row]:
    """The lines of a text in the form of tools/promises.tsv."""
    cells = [line.split("\t") for line in text.splitlines()[1:]]
    wrong = [str(number) for number, line in enumerate(cells, 2) if len(line) != 4 or not line[3]]
    if wrong:
        raise Wrong(f"promises.tsv: line {wrong[0]} isn't four parts with a sentence in the last")
    return [Row(tuple(a.split()), tuple(b.split()), tuple(c.split()), sentence) for a, b, c, sentence in cells]


def is_kind(row: Row, kind: str) -> bool:
    """Whether a line is of a kind, as `title`."""
    return row.clauses == (f"={kind}",)


@lru_cache(maxsize=None)
def needs() -> Dict[str, List[str]]:
    """What each crate stands on, of those that are here."""
    listed = (TOP / "crates.txt").read_text(encoding="utf-8").splitlines()
    lines = [line.split("#")[0].partition(":") for line in listed]
    named = {head.split()[0]: rest.split() for head, colon, rest in lines if colon}
    return {crate: [name for name in names if name in named] for crate, names in named.items()}


def closure(names: Iterable[str]) -> Set[str]:
    """These crates and all that they stand on."""
    found: Set[str] = set()
    due = list(names)
    while due:
        crate = due.pop()
        if crate not in found:
            found.add(crate)
            due += needs().get(crate, [])
    return found


@lru_cache(maxsize=None)
def words_in(crate: str) -> FrozenSet[str]:
    """All words of a crate's code and definitions."""
    folder = TOP / "crates" / crate
    files = [*(folder / "src").rglob("*.rt"), *(folder / "specs").rglob("*.antt")]
    return frozenset(word for file in files for word in WORD.findall(file.read_text(encoding="utf-8")))


@lru_cache(maxsize=None)
def definitions(crate: str) -> Dict[str, Tuple[str, str]]:
    """The definitions of a crate: the file of each, and what the comment above it says."""
    found: Dict[str, Tuple[str, str]] = {}
    for file in sorted((TOP / "crates" / crate / "specs").rglob("*.antt")):
        above: List[str] = []
        for line in file.read_text(encoding="utf-8").splitlines():
            match = DEFINED.match(line)
            if match:
                found[match[1]] = (str(file.relative_to(TOP / "crates")), " ".join(above))
            above = [*above, line[2:].strip()] if line.startswith("--") else []
    return found


def carried(key: str, section: Tuple[str, ...]) -> Carried:
    """What a key names; refused where it doesn't stand in the source."""
    crate, slash, name = key.rpartition("/")
    crate = crate if slash else section[0]
    path, _, clause = name.partition(".")
    if not (TOP / "crates" / crate / "src" / "lib.rt").is_file():
        raise Wrong(f"promises.tsv: there is no crate {crate}, which {key} names")
    found = [it for it in by_path(crate).get(path, []) if not clause or clause in [each.name for each in it.clauses]]
    is_type = not clause and path in exported((TOP / "crates" / crate / "src" / "lib.rt").read_text(encoding="utf-8"))
    if not found and not is_type:
        raise Wrong(f"promises.tsv: {key} of section {section[0]} doesn't stand in the source")
    return Carried(crate, path, tuple(found), clause)


def is_law(of: Carried) -> bool:
    """Whether a function does nothing: its clauses are laws."""
    return bool(of.found) and of.found[0].is_law


def grouped(keys: Tuple[str, ...], section: Tuple[str, ...]) -> List[str]:
    """The clauses of a row in words, those of one function together."""
    groups: Dict[Tuple[str, str], List[Carried]] = {}
    for key in keys:
        one = carried(key, section)
        groups.setdefault((one.crate, one.path), []).append(one)
    told = []
    for (crate, path), all_of in groups.items():
        law = "law " if is_law(all_of[0]) else ""
        place = f" of `{crate}`" if crate != section[0] else ""
        is_inner = all_of[0].found and not any(it.is_public for it in all_of[0].found)
        inner = ", inside the crate" if is_inner and "::" not in path else ""
        names = ", ".join(f"`{one.clause}`" for one in all_of if one.clause)
        told.append(f"{law}`{path}`{place}{inner}" + (f": {names}" if names else ""))
    return told


def known_words(section: Tuple[str, ...]) -> FrozenSet[str]:
    """What may be named in a section."""
    return frozenset[str]().union(*(words_in(crate) for crate in closure(section)))


def row_line(row: Row) -> str:
    """A line of a section's table."""
    lost = [name for name in row.definitions if not set(name.split(".")) <= known_words(row.section)]
    if lost:
        raise Wrong(f"promises.tsv: {lost[0]} of section {row.section[0]} doesn't stand in the source")
    by = "; ".join(grouped(row.clauses, row.section))
    cited = ", ".join(f"`{name}`" for name in row.definitions)
    return f"| {row.sentence} | {by}{f' ({cited})' if cited else ''} |"


def told_clauses(rows: Iterable[Row]) -> Set[Tuple[str, str, str]]:
    """The clauses that sentences speak of: crate, function and name."""
    told = set()
    for row in rows:
        if not row.clauses[0].startswith("="):
            for key in row.clauses:
                one = carried(key, row.section)
                for it in one.found:
                    told |= {(it.crate, it.path, each.name) for each in it.clauses if one.clause in ("", each.name)}
    return told


def public(crate: str) -> List[Function]:
    """The functions of a crate that others can call, and that promise something."""
    return [it for it in functions(crate) if it.is_public]


def cell(text: str) -> str:
    """A text in a cell of a table."""
    return text.replace("|", "\\|")


def first_sentence(text: str) -> str:
    """The front of a comment, up to its first full stop, in one cell of a table."""
    return cell(re.split(r"(?<=[.?!]) (?=[A-Z`])", text, maxsplit=1)[0])


def left(crate: str, told: Set[Tuple[str, str, str]]) -> List[Tuple[Function, List[str]]]:
    """The public functions of a crate with clauses that no sentence speaks of, and these."""
    rest = [(it, [each.name for each in it.clauses if (crate, it.path, each.name) not in told]) for it in public(crate)]
    return [(it, names) for it, names in rest if names]


def left_lines(crate: str, told: Set[Tuple[str, str, str]]) -> Iterator[str]:
    """What a section says of the other public clauses of a crate."""
    rest = left(crate, told)
    count, all_of = sum(len(names) for _, names in rest), sum(len(it.clauses) for it in public(crate))
    if all_of:
        yield from ("", f"Of the {all_of} public clauses of `{crate}`, {count or 'none'} without a sentence above.")
    if rest:
        yield from ("", "| Function | What the source says of it | Clauses |", "|---|---|---|")
    for it, names in rest:
        kept = ", ".join(f"`{name}`" if name else "without a name" for name in names)
        yield f"| `{it.path}` ({it.file}) | {first_sentence(it.comment)} | {kept} |"


def section_lines(rows: List[Row], told: Set[Tuple[str, str, str]]) -> Iterator[str]:
    """A section: its title, what stands before its table, the table, what stands behind it, and what is left."""
    crate_names = rows[0].section
    unknown = [name for name in crate_names if name not in needs()]
    if unknown:
        raise Wrong(f"promises.tsv: there is no crate {unknown[0]}")
    names = ", ".join(crate_names[:-1]) + " and " + crate_names[-1] if len(crate_names) > 1 else crate_names[0]
    yield f"\n### {names}: {rows[0].sentence}"
    for kind in ("before", "", "after"):
        for row in rows[1:]:
            if is_kind(row, kind):
                yield from ("", row.sentence)
        if not kind:
            yield from ("", "| Promise | Clauses (and definitions) |", "|---|---|")
            yield from (row_line(row) for row in rows if not row.clauses[0].startswith("="))
    for crate in crate_names:
        yield from left_lines(crate, told)


def sections(rows: List[Row]) -> List[List[Row]]:
    """The rows of each section; a part's row is a section of its own."""
    found: List[List[Row]] = []
    for row in rows:
        if is_kind(row, "part") or is_kind(row, "title"):
            found.append([])
        if not found or found[-1] and found[-1][0].section != row.section:
            raise Wrong(f"promises.tsv: a row of {' '.join(row.section)} stands outside its section")
        found[-1].append(row)
    return found


def counts(names: List[str], told: Set[Tuple[str, str, str]]) -> Iterator[str]:
    """How many public clauses of each crate have no sentence."""
    yield from ("\n## What has no sentence", "", "| Crate | Public clauses | Without a sentence |", "|---|---|---|")
    all_of = [sum(len(it.clauses) for it in public(crate)) for crate in names]
    rest = [sum(len(clauses) for _, clauses in left(crate, told)) for crate in names]
    yield from (f"| `{crate}` | {many} | {few or ''} |" for crate, many, few in zip(names, all_of, rest))
    yield f"| all | {sum(all_of)} | {sum(rest)} |"


def definition_lines(rows: List[Row]) -> Iterator[str]:
    """Where the definitions stand that rows name, and what their comments say."""
    found: Set[Tuple[str, str, str]] = set()
    for row in rows:
        for name in row.definitions:
            for crate in closure(row.section):
                if name.split(".")[0] in definitions(crate):
                    found.add((name.split(".")[0], *definitions(crate)[name.split(".")[0]]))
    yield from ("\n## Definitions", "", "| Name | Where, below `crates/` | What it says |", "|---|---|---|")
    in_order = sorted(found, key=lambda it: (it[0].lower(), it))
    yield from (f"| `{name}` | {file} | {cell(said)} |" for name, file, said in in_order)


def anchor(title: str) -> str:
    """The mark of a heading that a link leads to."""
    return re.sub(r"[^\w\- ]", "", title.lower()).replace(" ", "-")


def contents(lines: List[str]) -> Iterator[str]:
    """A list of the headings."""
    for line in lines:
        match = re.match(r"\n(##+) (.*)", line)
        if match:
            yield f"{'  ' * (len(match[1]) - 2)}- [{match[2]}](#{anchor(match[2])})"


def page(text: str) -> str:
    """The page that is made from a text in the form of tools/promises.tsv, and from the source."""
    rows = rows_of(text)
    told = told_clauses(rows)
    seen: List[str] = []
    heads = [f"\n{row.sentence}" for row in rows if is_kind(row, "head")]
    lines: List[str] = []
    for section in sections([row for row in rows if not is_kind(row, "head")]):
        if is_kind(section[0], "part"):
            lines.append(f"\n## {section[0].sentence}")
        else:
            lines += section_lines(section, told)
            seen += section[0].section
    forgotten = [crate for crate in crates() if functions(crate) and crate not in seen]
    if forgotten:
        raise Wrong(f"promises.tsv: {forgotten[0]} has no section")
    lines += [*counts(seen, told), *definition_lines(rows)]
    return "\n".join([HEAD, *heads, "", *contents(lines), *lines]) + "\n"


def made() -> str:
    """The page of today."""
    return page(DATA.read_text(encoding="utf-8"))
