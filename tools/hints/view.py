"""Hints for the command line of plift-view."""

from __future__ import annotations

import re
import shlex
from typing import Dict, List, Optional, Sequence

from hints.kinds import kind_of
from hints.numbers import Wide, ratio
from hints.options import FLAGS, VIEWED, Setting, view_options_of
from hints.refusal import Refusal
from hints.report import Report, read_report
from hints.told import fraction, listed, meant, near, shown
from hints.words import about_help, about_odd, asks_for_help, is_dashed, is_file

KNOWN = VIEWED + FLAGS
FORM = "plift-view [--x NAME] [--y NAME] [--at NAME=VALUE] < report > picture.svg, or --summary, or --follow"
OUTPUTS = ("-o", "--output", "--out", "--svg", "--file")


def about_option(word: str) -> str:
    """What is wrong with a word that begins like an option and is none."""
    name = word.split("=")[0]
    if asks_for_help(word):
        return about_help(word, "plift-view")
    if name in OUTPUTS:
        return f"{shown(word)}: the picture is written to standard output: plift-view .. > picture.svg"
    guess = "-" + name if "-" + name in KNOWN else near(name, KNOWN) if name.strip("-") else None
    return f"{shown(word)} is no option" + (f"; is {guess} meant?" if guess else f"; they are {listed(KNOWN)}")


def about_word(word: str) -> str:
    """What is wrong with a word that is no option."""
    odd = about_odd(word)
    if odd:
        return odd
    if is_file(word):
        return f"{shown(word)}: a file is given by <, as in plift-view < {shlex.quote(word)}"
    if re.fullmatch(r"[A-Za-z_]\w*=.*", word):
        return f"{shown(word)}: a value is given by --at {word}"
    guess = next((known for known in FLAGS if known == "--" + word), None)
    told = f"is {guess} meant?" if guess else "all words of plift-view are options"
    return f"{shown(word)} is no option; {told}"


def walk(words: Sequence[str]) -> List[str]:
    """What is wrong with each word, and with all of them."""
    faults: List[str] = []
    seen: Dict[str, int] = {}
    at = 0
    while at < len(words):
        name, mark, value = words[at].partition("=")
        word, at = words[at], at + 1
        if name not in KNOWN:
            faults.append(about_option(word) if is_dashed(word) else about_word(word))
            at += 1 if word in OUTPUTS and at < len(words) and not is_dashed(words[at]) else 0
            continue
        seen[name] = seen.get(name, 0) + 1
        if name in FLAGS:
            faults.extend([f"{name} takes no value"] if mark else [])
            continue
        if not mark:
            value = words[at] if at < len(words) else ""
            if at == len(words) or value.split("=")[0] in KNOWN:
                faults.append(f"{name} has no value behind it")
            else:
                at += 1
        elif not value:
            faults.append(f"{name}= has no value")
    twice = {name: count for name, count in seen.items() if count > 1 and name != "--at"}
    faults.extend(f"{name} stands {count} times: once is enough" for name, count in twice.items())
    return faults + of_flags(seen)


def of_flags(seen: Dict[str, int]) -> List[str]:
    """What is wrong with flags beside other options."""
    flag = next((flag for flag in FLAGS if flag in seen), None)
    return [f"{flag} stands alone, without {listed(sorted(set(seen) - {flag}))}"] if flag and len(seen) > 1 else []


def words_hints(refusal: Refusal) -> List[str]:
    """What is wrong with the words as a whole."""
    return walk(refusal.words)[:3] + [FORM]


def report_of(refusal: Refusal) -> Optional[Report]:
    """The report, where its head can be read."""
    if refusal.text is None or kind_of(refusal.text) != "report":
        return None
    report = read_report(refusal.text)
    return report if b"parameters" in report.head else None


def names_hint(name: str, report: Report) -> str:
    """Which names there are."""
    names = report.names()
    return f"its parameters are {listed(names, 16)}{meant(name, names)}" if names else "it has no parameters"


def axis_hints(refusal: Refusal, option: str, cause: str) -> List[str]:
    """What is wrong with an axis."""
    from_words = [value for name, value in settings(refusal) if name == option]
    name, report = (from_words[-1] if from_words else None), report_of(refusal)
    if name is None:
        return []
    if cause == "Repeated":
        if dict(settings(refusal)).get("--x") != name:
            return []
        return [f"--x and --y are both {shown(name)}", "name two parameters, or one alone"]
    if report is None or name in report.names():
        return []
    return [f"{option} {shown(name)}: the report has no such parameter", names_hint(name, report)]


def settings(refusal: Refusal) -> List[Setting]:
    """The options in their order."""
    return view_options_of(refusal.words)


def at_hints(refusal: Refusal, number: int, cause: str) -> List[str]:
    """What is wrong with the value of a parameter."""
    given = [value or "" for name, value in settings(refusal) if name == "--at"]
    if not 0 < number <= len(given):
        return []
    text, report = given[number - 1], report_of(refusal)
    name, mark, value = text.partition("=")
    front = f"--at {shown(text)}: "
    if cause == "Syntax":
        return [front + at_syntax(name, mark, value)]
    if report is None:
        return []
    if cause == "UnknownName" and name not in report.names():
        return [front + "the report has no such parameter", names_hint(name, report)]
    if cause == "Repeated":
        return [front + repeated(refusal, name, given[: number - 1])]
    if cause == "Outside" and name in report.box():
        low, high = report.box()[name]
        return [front + f"the region has {name} from {fraction(low)} to {fraction(high)}"]
    return []


def at_syntax(name: str, mark: str, value: str) -> str:
    """Why a text isn't NAME=VALUE."""
    if not mark:
        return f"it is written NAME=VALUE, as --at {name or 'q'}=1/4"
    try:
        number = ratio(value[1:] if value.startswith("-") else value)
    except Wide as why:
        return f"the number is too wide: {why}"
    return "the name is missing" if number is not None else f"{shown(value)} is no number: write 1/4 or 0.25"


def repeated(refusal: Refusal, name: str, before: Sequence[str]) -> str:
    """Why a parameter has no room for a value."""
    if any(text.split("=")[0] == name for text in before):
        return f"{name} has a value already"
    axes = dict(settings(refusal))
    axis = next((option for option in ("--x", "--y") if axes.get(option) == name), None)
    if axis:
        return f"{name} lies on the axis {axis}"
    return f"{name} lies on an axis, which was chosen since --x or --y isn't named: name both, other ones"


def view_hints(refusal: Refusal, usage: str) -> List[str]:
    """What is wrong with the line, by the words behind `usage: `."""
    words = usage.split()
    if usage == "words":
        return words_hints(refusal)
    if words[0] in ("--x", "--y") and len(words) == 2:
        return axis_hints(refusal, words[0], words[1])
    if words[0] == "--at" and len(words) == 3 and words[1].isdigit():
        return at_hints(refusal, int(words[1][:9]), words[2])
    return []
