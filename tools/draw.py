#!/usr/bin/env python3
"""Shows a text of `bounded`, `property` or `cost` as plift-view shows a report, once recheck.py has judged it, and so a
report that plift-lab has rescaled, in the user's own numbers:

    tools/draw.py [--x NAME] [--y NAME] [--at NAME=VALUE].. < text > picture.svg
    tools/draw.py --summary < text

Words, notes and statuses are those of plift-view (docs/FORMATS.md, docs/MESSAGES.md). Nothing here is proved.
"""

from __future__ import annotations

import io
import sys
from dataclasses import replace
from pathlib import Path
from typing import Dict, Optional, Sequence

sys.dont_write_bytecode = True
TOP = Path(__file__).resolve().parents[1]
sys.path[:0] = [str(TOP / "tools"), str(TOP / "recheck")]

import line  # noqa: E402
import recheck  # noqa: E402
from drawing.beside import NOTHING, Beside, Interval, Unfit, file_beside, read_beside, unborne  # noqa: E402
from drawing.leaves import Map, read_map  # noqa: E402
from drawing.picture import svg_text  # noqa: E402
from drawing.slices import Usage, Wish, slice_for  # noqa: E402
from drawing.table import summary_text  # noqa: E402

MOST_BYTES = 2**26  # of a text, as plift-view takes
DONE, NOT_SOUND, USAGE, READ_FAULT, WRITE_FAULT, TOO_LONG, NO_MEMORY = 0, 1, 2, 5, 6, 7, 8


class Refused(Exception):
    """Why nothing is shown: a status and its note."""

    def __init__(self, status: int, note: str) -> None:
        super().__init__(note)
        self.status = status


def map_of(data: bytes, path: Optional[Path]) -> Map:
    """The leaves of a sound text, with what a file beside it tells."""
    if len(data) > MOST_BYTES:
        raise Refused(TOO_LONG, "too long")
    text = recheck.Text(io.BytesIO(data))
    try:
        map_ = read_map(text)
    except recheck.Fault as fault:
        raise Refused(NOT_SOUND, f"not sound: {text.place}{fault}") from None
    return replace(map_, beside=beside_of(map_, data, path)) if path else map_


def beside_of(map_: Map, data: bytes, path: Path) -> Beside:
    """What a file tells of a report, as far as its region bears it out."""
    name = ascii(path.name)[1:-1]
    try:
        beside = read_beside(path, data)
        if beside is None:
            line.tell(f"plift-view: {name} is of another report, and isn't read\n")
            return NOTHING
        spans: Dict[str, Interval] = {
            one: map_.interval(parameter, map_.root[parameter]) for parameter, one in enumerate(map_.names)
        }
        wrong = unborne(beside, map_.names, spans)
        if wrong is not None:
            raise Unfit(f"tells of {ascii(wrong)[1:-1]} what the report's region doesn't bear out")
        return beside
    except Unfit as fault:
        raise Refused(USAGE, f"{name} {fault}: without it the report is shown by itself") from None


def answer(words: Sequence[str], data: bytes, path: Optional[Path] = None) -> str:
    """The picture or the table of a text, with what a file beside it tells, if there is one."""
    if words[-1:] == ["--"]:
        words = words[:-1]
    settings = None if "--" in words else line.settings_of(line.VIEW, words)
    if settings is None or not line.are_counts_right(line.VIEW, settings) or ("--follow", "") in settings:
        raise Refused(USAGE, "usage: words")
    map_ = map_of(data, path)
    if ("--summary", "") in settings:
        return summary_text(map_)
    values = dict(settings)
    wish = Wish(values.get("--x"), values.get("--y"), [value for name, value in settings if name == "--at"])
    try:
        return svg_text(map_, slice_for(map_, wish))
    except Usage as fault:
        raise Refused(USAGE, f"usage: {fault}") from None


def read_text() -> bytes:
    """The text, and no more than shows that it is too long."""
    try:
        with open(0, "rb", closefd=False) as source:
            return source.read(MOST_BYTES + 1)
    except OSError:
        raise Refused(READ_FAULT, "read fault") from None


def refuse(note: object, status: int) -> int:
    """Tells why nothing is shown, where anyone listens."""
    line.tell(f"{note}\n")
    return status


def main(words: Sequence[str]) -> int:
    """Shows the text on standard input; a refusal is one line on standard error."""
    try:
        shown = answer(words, read_text(), file_beside(0))
        # Standard output may be closed, and Python has no stream for it then.
        with open(1, "w", encoding="ascii", closefd=False) as out:
            out.write(shown)
    except Refused as refusal:
        return refuse(refusal, refusal.status)
    except MemoryError:
        return refuse("out of memory", NO_MEMORY)
    except OSError:
        return refuse("write fault", WRITE_FAULT)
    return DONE


if __name__ == "__main__":
    sys.exit(main(sys.argv[1:]))
