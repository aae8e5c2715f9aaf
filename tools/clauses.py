"""What the functions of a crate promise, as the source has it: each function with its clauses and comments."""

from __future__ import annotations

import re
from functools import lru_cache
from pathlib import Path
from typing import Dict, Iterator, List, NamedTuple, Tuple

TOP = Path(__file__).resolve().parent.parent

LINE = re.compile(
    r"^(?P<indent> *)(?:"
    r"(?:pub )?trait (?P<trait>\w+)"
    r"|impl(?:<.*?>)? (?:(?P<of>[\w:]+)(?:<[^{]*?>)? for )?&?(?:mut )?(?P<type>\w+)"
    r"|(?:(?P<public>pub )|pub\(\w+\) )?(?:const |unsafe )*fn (?P<fn>\w+)"
    r"|ensures (?:(?P<clause>\w+) )?\{"
    r"|(?P<comment>//+!?)(?: (?P<text>.*))?$"
    r"|(?P<closing>\})"
    r"|(?P<attribute>#\[)"
    r")"
)
LAW = re.compile(r"\bfn \w+(?:<.*>)?\(\)$")
EXPORTED = re.compile(r"^pub use ([^;]+);", re.M)


class Clause(NamedTuple):
    """A clause of a function: its name, empty where it has none, and the comment above it."""

    name: str
    comment: str


class Function(NamedTuple):
    """A function with what stands above it: its path is `Type::name` or `name`; a law takes and gives nothing."""

    crate: str
    file: str
    path: str
    is_public: bool
    is_law: bool
    comment: str
    clauses: Tuple[Clause, ...]


def exported(root: str) -> List[str]:
    """The names that a crate's first file gives to others."""
    return [word for found in EXPORTED.findall(root) for word in re.findall(r"\w+", found)]


class Reader:
    """Goes through a file, line by line."""

    def __init__(self, crate: str, file: Path, names: List[str]) -> None:
        self.crate, self.file, self.names = crate, file.name, names
        self.around: Tuple[str, str] = ("", "")  # a trait or the type of an `impl`, and the trait that it is of
        self.comment: List[str] = []
        self.head: Tuple[str, bool, bool, str] = ("", False, False, "")
        self.clauses: List[Clause] = []

    def done(self) -> Iterator[Function]:
        """The function that was read, if it has a contract."""
        path, is_public, is_law, comment = self.head
        if path and self.clauses:
            yield Function(self.crate, self.file, path, is_public, is_law, comment, tuple(self.clauses))
        self.head, self.clauses = ("", False, False, ""), []

    def named(self, name: str, is_pub: bool) -> Tuple[str, bool]:
        """The path of a function, and whether others can call it by that: what stands for a trait's isn't counted."""
        owner, of = self.around
        path = f"{owner}::{name}" if owner else name
        return path, (owner or name) in self.names and (is_pub or of == "trait")

    def read(self, text: str) -> Iterator[Function]:
        """The functions of a file."""
        for line in text.splitlines():
            found = LINE.match(line)
            kind = found.lastgroup if found else None
            if found and found["comment"]:
                self.comment.append(found["text"] or "")
                continue
            if found and (found["trait"] or found["type"]) and not found["indent"]:
                yield from self.done()
                self.around = (found["trait"], "trait") if found["trait"] else (found["type"], found["of"] or "")
            elif found and found["closing"] and not found["indent"]:
                yield from self.done()
                self.around = ("", "")
            elif found and found["fn"]:
                yield from self.done()
                if not found["indent"]:
                    self.around = ("", "")
                said = " ".join(self.comment)
                is_law = bool(LAW.search(line)) or "does nothing" in said
                self.head = (*self.named(found["fn"], bool(found["public"])), is_law, said)
            elif line.lstrip().startswith("ensures"):
                self.clauses.append(Clause((found and found["clause"]) or "", " ".join(self.comment)))
            elif kind == "attribute":
                continue
            self.comment = []
        yield from self.done()


@lru_cache(maxsize=None)
def functions(crate: str) -> Tuple[Function, ...]:
    """The functions of a crate that have a contract."""
    source = TOP / "crates" / crate / "src"
    names = exported((source / "lib.rt").read_text(encoding="utf-8")) if (source / "lib.rt").is_file() else []
    found: List[Function] = []
    for file in sorted(source.rglob("*.rt")):
        found += Reader(crate, file, names).read(file.read_text(encoding="utf-8"))
    return tuple(found)


def crates() -> List[str]:
    """The crates that others may stand on, in the order of crates.txt reversed: the program's first."""
    listed = (TOP / "crates.txt").read_text(encoding="utf-8").splitlines()
    heads = [line.split("#")[0].partition(":")[0].split() for line in listed]
    names = [head[0] for head in heads if head and (TOP / "crates" / head[0] / "src" / "lib.rt").is_file()]
    return [name for name in reversed(names) if not name.startswith("test_") and not name.endswith("_tests")]


def by_path(crate: str) -> Dict[str, List[Function]]:
    """The functions of a crate by path."""
    found: Dict[str, List[Function]] = {}
    for function in functions(crate):
        found.setdefault(function.path, []).append(function)
    return found
