"""What a person may want to know of a refusal: which word or line is at fault, what is wanted, what to do.

    hints(status, note, words, text, program) -> lines

`note` is what plift (or plift-view, by `program`) wrote on standard error, `words` its words, and `text` the bytes that
it read, or None where they aren't there. `status` counts where there is no note. At most four lines come back; a
refusal that isn't known has none. What can't be seen in the words and the text is told by the rule that stands in
tools/words/notes.tsv. Nothing is proved of a hint: the note is the answer.
"""

from __future__ import annotations

import re
from typing import List, Optional, Sequence

from hints import advice, amounts, bounds, formula, line, model, outside, rows, unsound, view
from hints.refusal import Refusal
from hints.told import cut, printable, shown

MOST_LINES = 4
MOST_LENGTH = 300  # characters of a line
MOST_TEXT_LINES = 2_500_000  # a text of more lines isn't looked into
STATUSES = {
    "not sound: ": 1,
    "usage: ": 2,
    "model: ": 3,
    "lump: not a chain": 3,
    "rows: ": 4,
    "lump: too wide": 4,
    "read fault": 5,
    "write fault": 6,
    "too long": 7,
    "out of memory": 8,
}
FRONTS = tuple(STATUSES)
MENDED = ("usage: --bound", "usage: --depth", "usage: --budget")  # notes whose details tell what to do, too
VALUES = {
    "--goal": amounts.goal_hints,
    "--bound": amounts.bound_hints,
    "--depth": amounts.depth_hints,
    "--precision": amounts.precision_hints,
    "--from": amounts.from_hints,
    "--steps": amounts.steps_hints,
    "--reward": amounts.reward_hints,
    "--cap": amounts.cap_hints,
    "--budget": amounts.budget_hints,
    "N": amounts.blocks_hints,
    "words": line.words_hints,
}


def note_in(told: str) -> str:
    """The note among the lines that a program wrote on standard error."""
    lines = [told_line.strip() for told_line in told.replace("\r", "\n").split("\n")]
    return next((told_line for told_line in reversed(lines) if told_line.startswith(FRONTS)), "")


def usage_hints(refusal: Refusal, usage: str) -> List[str]:
    """What is wrong with the command line."""
    if refusal.program != "plift":
        return view.view_hints(refusal, usage)
    if usage.startswith("--region "):
        return bounds.region_hints(refusal, usage[9:])
    if usage.startswith("--formula "):
        return formula.formula_hints(refusal, usage[10:])
    return VALUES[usage](refusal) if usage in VALUES else []


def model_hints(refusal: Refusal, note: str) -> List[str]:
    """What is wrong with the model text."""
    match = model.cause_of(note)
    return model.model_hints(refusal, int(match[1]), match[2]) if match else []


def rows_hints(refusal: Refusal, note: str) -> List[str]:
    """What is wrong with a row."""
    if refusal.command() == "refine":
        return ["a row of the report is too wide over the grid of that depth: go on to a smaller one"]
    match = re.fullmatch(r"state ([0-9]{1,6}) choice ([0-9]{1,6}): (.*)", note)
    return rows.rows_hints(refusal, int(match[1]), int(match[2]), match[3]) if match else []


def found(refusal: Refusal) -> List[str]:
    """What the words and the text show of the fault."""
    if refusal.note.startswith("usage: "):
        return usage_hints(refusal, refusal.note[7:])
    if refusal.note.startswith("model: "):
        return model_hints(refusal, refusal.note[7:])
    if refusal.note.startswith("rows: "):
        return rows_hints(refusal, refusal.note[6:])
    if refusal.note.startswith("not sound: "):
        return unsound.unsound_hints(refusal, refusal.note[11:])
    return outside.outside_hints(refusal, STATUSES.get(refusal.note, 0))


def rule(refusal: Refusal) -> Optional[advice.Advice]:
    """What tools/words/notes.tsv says of the note."""
    front = next((front for front in FRONTS if refusal.note.startswith(front)), "")
    rest = refusal.note[len(front) :] if front.endswith(" ") else refusal.note
    if front == "usage: " and refusal.program != "plift":
        return advice.advice_on("2 of plift-view", rest)
    if front in ("model: ", "rows: "):
        rest = rest.split(": ", 1)[-1]
    return advice.advice_on(str(STATUSES[front]), rest) if front else None


def without_note(refusal: Refusal) -> List[str]:
    """What is told of an ending that has no note."""
    odd = next((word for word in refusal.words if any("\ud800" <= c <= "\udfff" for c in word)), None)
    if refusal.status == 2 and odd is not None:
        return [f"the word {shown(odd)} isn't UTF-8 text: is it a label or a name in another encoding?"]
    if refusal.status == 8:
        return ["no memory was found even for the list of words"]
    return []


def lacks_remedy(note: str, lines: Sequence[str]) -> bool:
    """Whether lines tell what is wrong and not what to do."""
    if lines and (note in MENDED or note.startswith("model: ") and note.endswith(model.MENDED)):
        return False
    return len(lines) < 2 or len(lines) == 2 and lines[1].lstrip().startswith("^")


def explained(refusal: Refusal) -> List[str]:
    """The hints for a refusal: what is found, and what the page adds to that."""
    if not refusal.note:
        return without_note(refusal)
    lines = found(refusal)
    told = rule(refusal) if lacks_remedy(refusal.note, lines) else None
    if told and not lines:
        lines = [told.meaning]
    return lines + ([told.remedy] if told else [])


def hints(
    status: int, note: str, words: Sequence[str], text: Optional[bytes] = None, program: str = "plift"
) -> List[str]:
    """At most four lines, without `hint: ` in front; none for what isn't known."""
    if text is not None and text.count(b"\n") > MOST_TEXT_LINES:
        text = None
    refusal = Refusal(status, note_in(note), list(words), text, program)
    try:
        lines = explained(refusal)
    except (ArithmeticError, LookupError, RecursionError, TypeError, ValueError):
        lines = explained(refusal._replace(text=None, words=[]))  # the rule alone: it looks into nothing
    return finished(lines)


def finished(lines: Sequence[str]) -> List[str]:
    """The first of the lines, each printable and of a readable length."""
    return [cut(printable(told), MOST_LENGTH) for told in lines[:MOST_LINES]]
