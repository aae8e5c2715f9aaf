"""The cases that the stored tests tell of a whole program: its words, its input, and what it answers."""

import re
from collections.abc import Iterator
from dataclasses import dataclass
from enum import Enum, auto

from tables import TOP, constants, lines_of, named, rows

STATUSES = "Done NotSound Usage ModelRefused RowsRefused ReadFault WriteFault TooLong Memory".split()
DONE = 0
# A folder can be opened, and no read of it succeeds.
UNREADABLE = None

# Tables that standard streams can't give, each by its place, and why.
LEFT_OUT = {
    ("plift_tests", "faults", "FAULTS"): "one call fails among many, or the output holds only so many bytes",
    ("plift_tests", "each_fault", "FAULTS"): "one call fails among many",
    ("view_tests", "views", "FAULTS"): "one call fails among many, or the output holds only so many bytes",
}


class Written(Enum):
    """What a row tells of the output."""

    WHOLE = auto()
    END = auto()
    PART = auto()


@dataclass(frozen=True)
class Answer:
    """What a program answers."""

    status: int
    output: bytes
    notes: bytes


@dataclass(frozen=True)
class Case:
    """A run of a program, and what is known of its answer; `want` is none where another program is to say."""

    name: str
    program: str
    words: list[str]
    given: bytes | None
    want: Answer | None = None
    written: Written = Written.WHOLE

    def is_met(self, got: Answer) -> bool:
        """Whether this is the answer that is wanted."""
        if self.want is None:
            return True
        output, part = got.output, self.want.output
        if self.written is Written.END:
            is_there = output.endswith(part) and bool(output) == bool(part)
        elif self.written is Written.PART:
            is_there = part in output
        else:
            is_there = output == part
        return is_there and got.status == self.want.status and got.notes == self.want.notes


@dataclass(frozen=True)
class StoredRun(Case):
    """A stored run, whose notes are known by their form alone."""

    notes: re.Pattern[bytes] = re.compile(b"")

    def is_met(self, got: Answer) -> bool:
        is_noted = self.notes.fullmatch(got.notes) is not None
        assert self.want is not None
        return is_noted and (got.status, got.output) == (self.want.status, self.want.output)


def answer(status: str, output: str, notes: str) -> Answer:
    return Answer(STATUSES.index(status), lines_of(output), lines_of(notes))


def words_of(line: str, separator: str = " ") -> list[str]:
    return line.split(separator) if line else []


def runs() -> Iterator[Case]:
    """Models with the words that they are verified by."""
    models = named(constants("plift_tests", "models")["MODELS"])
    for module in (
        "costs",
        "decided",
        "lumped",
        "properties",
        "ranges",
        "refused",
        "regions",
        "rows",
        "trees",
        "within",
    ):
        for name, table in constants("plift_tests", module).items():
            for row in rows(table) if name not in ("REGION", "REPORT", "TEXT") else []:
                words, model, status, end, notes = row.split(" | ")
                yield Case(
                    f"{module}: {row}", "plift", words_of(words), models[model], answer(status, end, notes), Written.END
                )


def lines() -> Iterator[Case]:
    """Lines of words, with an input that can't be read."""
    found = constants("plift_tests", "words")
    for row in rows(found["LINES"]):
        line, notes = row.split(" | ", 1)
        status = "ReadFault" if notes == "read fault;" else "Usage"
        yield Case(f"words: {row}", "plift", words_of(line, "|"), UNREADABLE, answer(status, "-", notes))
    for row in rows(found["TESTED"]):
        blocks, output = row.split(" | ")
        yield Case(f"words: {row}", "plift", ["selftest", blocks], UNREADABLE, answer("Done", output, "-"))
    ladder = Answer(DONE, found["LADDER"].encode(), b"")
    yield Case("words: the ladder of one block", "plift", ["generate", "1"], UNREADABLE, ladder)


def checked() -> Iterator[Case]:
    """Reports that are checked, those that are migrated, and those that are gone on from."""
    found = constants("plift_tests", "checked")
    heads = named(found["HEADS"])
    for command, table in (("check", "FILES"), ("migrate", "MIGRATED"), ("refine --depth 2", "REFINED")):
        for row in rows(found[table]):
            head, rest, *cells = row.split(" | ")
            yield Case(f"{command}: {row}", "plift", command.split(), heads[head] + lines_of(rest), answer(*cells))


def changed(text: str, changes: str) -> bytes:
    """A text with other lines in the place of some."""
    lines = {number: line.encode() + b"\n" for number, line in enumerate(text.split(";"), 1)}
    for change in changes.split(" & "):
        number, line = change.split("=", 1)
        lines[int(number)] = lines_of(line).replace(b"?", b"\xc8")
    return b"".join(lines.values())


def malformed() -> Iterator[Case]:
    """A model and a report with a few lines changed."""
    found = constants("plift_tests", "malformed")
    for words, text, table in (("VERIFY", "COIN", "MODELS"), (None, "REPORT", "REPORTS")):
        line = words_of(found[words]) if words else ["check"]
        for row in rows(found[table]):
            changes, *cells = row.split(" | ")
            yield Case(f"malformed: {row}", "plift", line, changed(found[text], changes), answer(*cells))


def limits() -> Iterator[Case]:
    """Texts of as many bytes as may be, and of one more."""
    for row in rows(constants("plift_tests", "limits")["LIMITS"]):
        words, count, status, notes = row.split(" | ")
        yield Case(f"limits: {row}", "plift", words_of(words), b"\n" * int(count), answer(status, "-", notes))


def views() -> Iterator[Case]:
    """Reports that are shown."""
    found = constants("view_tests", "pictures")
    reports = named(found["REPORTS"])
    for row in rows(found["PICTURES"]):
        name, part = row.split(" | ")
        yield Case(f"pictures: {row}", "plift-view", [], reports[name], Answer(DONE, part.encode(), b""), Written.PART)
    for row in rows(constants("view_tests", "views")["VIEWS"]):
        words, name, status, *cells = row.split(" | ")
        written = Written.PART if status == "Done" else Written.WHOLE
        want = answer(status, *cells)
        yield Case(f"views: {row}", "plift-view", words.split(), reports[name], want, written)


def stored_runs() -> Iterator[Case]:
    """The runs that stand beside a program's source. What it notes isn't stored."""
    for folder in sorted((TOP / "crates").glob("plift*")):
        if not (folder / "src" / "main.rt").exists():
            continue
        parts = {
            name: (folder / name).read_bytes() if (folder / name).exists() else b""
            for name in ("args", "stdin", "stdout", "status")
        }
        words = parts["args"].decode().splitlines()
        program = "plift-view" if folder.name == "plift_view" else "plift"
        notes = re.compile(b"" if not parts["status"] else b"[^\n]+\n")
        yield StoredRun(
            folder.name,
            program,
            words,
            parts["stdin"],
            Answer(int(parts["status"] or 0), parts["stdout"], b""),
            notes=notes,
        )


def stored() -> list[Case]:
    """All cases that the stored tests tell."""
    return [case for part in (runs, lines, checked, malformed, limits, views, stored_runs) for case in part()]


def left_out() -> Iterator[str]:
    """The rows that aren't among them, and why."""
    for (crate, module, name), why in LEFT_OUT.items():
        yield f"{len(rows(constants(crate, module)[name]))} rows of {name} in {crate}/src/{module}.rt: {why}"
    yield "reports_are_cut_off_anywhere and reports_lack_what_failed in plift_tests/src/trees.rt: an output that holds only so many bytes"
    yield "reports_with_ranges_are_cut_off_anywhere in plift_tests/src/ranges.rt: an output that holds only so many bytes"
    yield "texts_for_steps_are_cut_off_anywhere in plift_tests/src/within.rt: an output that holds only so many bytes"
    yield "texts_for_properties_are_cut_off_anywhere in plift_tests/src/properties.rt: an output that holds only so many bytes"
    yield "texts_for_costs_are_cut_off_anywhere in plift_tests/src/costs.rt: an output that holds only so many bytes"
    yield "unsound_reports_have_no_map in view_tests/src/pictures.rt, and the other crates of tests: they call parts of the programs"
