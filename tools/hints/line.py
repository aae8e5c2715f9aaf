"""Hints for `usage: words`: which words of plift's line are at fault, and what is wanted."""

from __future__ import annotations

import re
import shlex
from typing import Dict, List, Optional, Sequence, Set

from hints.formula import A_FORMULA, cause_of
from hints.options import COSTED, FORMULATED, NAMED, RANGED, STEPPED, VALUED
from hints.refusal import Refusal
from hints.told import listed, near, shown
from hints.words import HELP, LONG_DASHES, PROPERTY, VERSION
from hints.words import about_help, about_odd, asks_for_help, is_dashed, is_file

COMMANDS = ["verify", "bounded", "property", "cost", "lumped", "check", "migrate", "refine", "generate", "selftest"]
ASKING = {"verify": RANGED, "bounded": STEPPED, "property": FORMULATED, "cost": COSTED, "lumped": VALUED}
FORMS = {
    "verify": "plift verify --goal LABEL --bound B [--region R] [--depth H] [--precision W] [--from V] < model.drn",
    "bounded": "plift bounded --goal LABEL --bound B --steps S [--region R] [--depth H] [--precision W] < model.drn",
    "property": "plift property --formula 'P<=B [F \"LABEL\"]' [--region R] [--depth H] [--precision W] [--from V]"
    " < model.drn",
    "cost": "plift cost --goal LABEL --reward NAME --budget B --cap C [--region R] [--depth H] [--precision W]"
    " < model.drn",
    "lumped": "plift lumped --goal LABEL --bound B [--region R] [--depth H] [--precision W] < model.drn",
    "check": "plift check < report",
    "migrate": "plift migrate < report > new.report",
    "refine": "plift refine --depth H < report > deeper.report",
    "generate": "plift generate N > model.drn",
    "selftest": "plift selftest N",
}
OTHER_NAMES = {
    "--target": "--goal",
    "--label": "--goal",
    "--reach": "--goal",
    "--threshold": "--bound",
    "--lambda": "--bound",
    "--probability": "--bound",
    "--parameters": "--region",
    "--interval": "--region",
    "--box": "--region",
    "--splits": "--depth",
    "--bits": "--precision",
    "--least": "--from",
    "--min-precision": "--from",
    "--least-precision": "--from",
    "--within": "--steps",
    "--horizon": "--steps",
    "--prop": "--formula",
    "--property": "--formula",
    "--spec": "--formula",
    "--cost": "--reward",
    "--reward-model": "--reward",
    "--maximum": "--cap",
    "--ceiling": "--cap",
    "-f": "--formula",
    "-g": "--goal",
    "-b": "--bound",
    "-r": "--region",
    "-d": "--depth",
    "-p": "--precision",
    "-w": "--precision",
}
MOST_FAULTS = 3
# Of options that have to stand: what they are for.
MISSING = {
    "--goal": "--goal LABEL is missing: the label of the states to be reached",
    "--bound": "--bound B is missing: the greatest probability that is allowed, as 1/2 or 0.5",
    "--steps": "--steps S is missing: within how many steps, from 1 to 64; plift verify asks for any number",
    "--formula": f"--formula T is missing: what is asked, as '{A_FORMULA}'",
    "--reward": "--reward NAME is missing: one of the names behind @reward_models, whose numbers are the costs of"
    " states",
    "--budget": "--budget B is missing: the greatest expected cost that is allowed, from 0 to the cap",
    "--cap": "--cap C is missing: a whole number that no state's expected cost is above, as ten times the budget",
}
# Of options of one command: which command takes them.
ELSEWHERE = {
    "--steps": "--steps stands for a number of steps: that is asked by plift bounded",
    "--from": "--from begins a range of precisions: that is asked by plift verify and plift property alone",
    "--formula": "--formula holds label and bound: it is taken by plift property alone",
    "--reward": "--reward names what states cost: that is asked by plift cost, with --budget and --cap",
    "--budget": "--budget bounds an expected cost: that is asked by plift cost, with --reward and --cap",
    "--cap": "--cap is of costs: that is asked by plift cost, with --reward and --budget",
}
CLAUSE = re.compile(r"[^<>=,]+<=[^<>=,]+<=[^<>=,]+")
REGION = re.compile(r"<=|>=|<|>|\.\.|≤")


def guessed(command: str, name: str) -> Optional[str]:
    """The option of the command that a name most likely stands for."""
    options = ASKING[command]
    if name[0] in LONG_DASHES or "-" + name in NAMED:
        name = "--" + name.lstrip("-" + LONG_DASHES)
    guess = OTHER_NAMES.get(name) or (near(name.split(":")[0], options) if name.strip("-") else None)
    if guess is None and len(name) > 3:
        guess = next((known for known in options if known.startswith(name)), None)
    return guess if guess in options else None


def why_not(name: str, guess: Optional[str]) -> str:
    """Why a name isn't that of the option that it is near to."""
    if name[0] in LONG_DASHES:
        return " (a long dash stands there, not two hyphens)"
    if "-" + name in NAMED:
        return " (two dashes stand before a name)"
    return " (names aren't abbreviated)" if guess and guess.startswith(name) else ""


def about_property(command: str, word: str) -> str:
    """What to do about a formula that stands where none is due."""
    if command == "property":
        return f"{shown(word)}: a formula is given by --formula, in single quotes: --formula {shlex.quote(word)}"
    asks = f"{command} asks whether --goal LABEL is reached with at most --bound B"
    if command == "cost":
        asks = "cost asks whether --reward NAME before --goal LABEL is expected to be at most --budget B"
    return f"{shown(word)}: a formula is taken by plift property --formula alone; {asks}"


def about_option(command: str, word: str, value: str) -> str:
    """What is wrong with a word that begins like an option and is none."""
    name = word.split("=")[0]
    if asks_for_help(word):
        return about_help(word, "plift", command)
    if PROPERTY.search(value) and command != "property":
        return about_property(command, value)
    if name.split(":")[0] in NAMED:
        return f"{shown(word)}: a value stands behind =, or is the next word: write {word.replace(':', '=', 1)}"
    guess = guessed(command, name)
    if guess is None:
        return f"{shown(word)} is no option of {command}{why_not(name, guess)}; they are {listed(ASKING[command])}"
    return f"{shown(word)} is no option{why_not(name, guess)}; is {guess} meant?"


def about_value(name: str, value: str) -> Optional[str]:
    """What is wrong with the word that is the value of an option."""
    if not value.startswith("-"):
        return None
    if value.split("=")[0] in NAMED or value in HELP or value.startswith("--"):
        return f"{name} has no value: the next word is {shown(value)}"
    if name == "--region":
        return f"a value doesn't begin with -: write a blank before it, as in --region {shlex.quote(' ' + value)}"
    if name == "--bound":
        return f"--bound {shown(value)}: a probability isn't negative"
    return f"{name} {shown(value)}: a value doesn't begin with -"


def about_word(command: str, word: str, name: str, value: str) -> str:
    """What is wrong with a word that stands where an option is due, behind another option with its value."""
    if is_file(word):
        return f"{shown(word)}: a file is given by <, as in plift {command} .. < {shlex.quote(word)}"
    if PROPERTY.search(word):
        return about_property(command, word)
    if value == "=":
        return f"no blanks stand around =: write {name}={word} or {name} {word}"
    if REGION.search(word):
        return f"{shown(word)}: a region is given by --region '..'"
    return f"{shown(word)} stands where an option is due; they are {listed(ASKING[command])}"


def about_stray(words: Sequence[str], name: str, value: str) -> str:
    """What is wrong with words that most likely belong to the value before them."""
    told = listed([f'"{word}"' for word in words], 4) + (" stands" if len(words) == 1 else " stand")
    whole, clauses = " ".join([value, *words]), [word.strip(", ") for word in [value, *words]]
    if name == "--region" and all(map(CLAUSE.fullmatch, clauses)):
        whole = ",".join(clauses)
    needs = f"a value with blanks needs quotes, as in {name} {shlex.quote(whole)}"
    if name == "--formula":
        needs = f"a formula stands in single quotes, since the shell reads < > [ \" by itself: {name} '{A_FORMULA}'"
    return f"{told} alone behind the value of {name}: {needs}"


def about_twice(name: str, values: Sequence[str]) -> str:
    """What to do about an option that stands more than once."""
    if name == "--region":
        return f"--region stands {len(values)} times: one takes all clauses, --region {shlex.quote(','.join(values))}"
    return f"{name} stands {len(values)} times, with {listed(values)}: keep one"


class Walk:
    """Goes through the words behind a command that reads a model, and finds their faults, the values of options, and
    the options that other words most likely stand for."""

    def __init__(self, command: str, words: Sequence[str]):
        self.command, self.words, self.at = command, words, 0
        self.faults: List[str] = []
        self.values: Dict[str, List[str]] = {}
        self.meant: Set[str] = set()
        self.name = self.value = ""  # the option that was read last
        while self.at < len(words):
            self.step(words[self.at])

    def next(self) -> Optional[str]:
        """The word behind the one that is read, if there is one."""
        return self.words[self.at] if self.at < len(self.words) else None

    def step(self, word: str) -> None:
        """Reads a word, and those that belong to it."""
        self.at += 1
        if word.split("=")[0] in NAMED:
            self.option(word)
        elif about_odd(word):
            self.faults.append(about_odd(word) or "")
            self.meant.update(known for known in NAMED if known in word)
        elif is_dashed(word):
            self.unknown(word)
        elif self.is_stray(word):
            self.stray()
        else:
            self.faults.append(about_word(self.command, word, self.name, self.value))

    def option(self, word: str) -> None:
        """An option with its value."""
        name, mark, value = word.partition("=")
        fault = None
        if mark and not value:
            fault = self.without_value(name)
        elif not mark and self.next() is None:
            fault = f"{name} has no value behind it: it is the last word"
        else:
            value = value if mark else self.words[self.at]
            self.at += 0 if mark or value.split("=")[0] in NAMED else 1
            fault = about_value(name, value)
        self.faults.extend([fault] if fault else [])
        self.values.setdefault(name, []).append(value)
        self.name, self.value = name, value

    def without_value(self, name: str) -> str:
        """An option in one word that ends with its `=`."""
        following = self.next()
        if following is None or is_dashed(following):
            return f"{name}= has no value"
        self.at += 1
        return f"{name}= has no value: no blank stands behind ="

    def unknown(self, word: str) -> None:
        """A word that begins like an option, with what looks like its value."""
        name, mark, value = word.partition("=")
        value = value if mark else self.next() or ""
        self.faults.append(about_option(self.command, word, value))
        self.meant.update({name.split(":")[0], guessed(self.command, name) or ""} & set(NAMED))
        self.at += 0 if mark or self.next() is None or is_dashed(value) or is_file(value) else 1
        self.name = self.value = ""

    def is_stray(self, word: str) -> bool:
        """Whether a word most likely belongs to the value before it."""
        if self.name == "--formula":
            return not is_file(word) and cause_of(self.value) is not None
        has_value = self.name in ("--goal", "--region") and self.value != "="
        return has_value and not is_file(word) and not PROPERTY.search(word)

    def stray(self) -> None:
        """Such a word, with those behind it."""
        first = self.at - 1
        while self.at < len(self.words) and not is_dashed(self.words[self.at]) and not is_file(self.words[self.at]):
            self.at += 1
        self.faults.append(about_stray(self.words[first : self.at], self.name, self.value))
        self.name = ""


def is_about_formula(command: str, words: Sequence[str]) -> bool:
    """Whether words of a command are about a formula, which another one takes."""
    return command not in ("property", "cost") and any(
        word.startswith("--formula") or PROPERTY.search(word) for word in words
    )


def about_asking(command: str, words: Sequence[str]) -> List[str]:
    """What is wrong with a line of a command that reads a model."""
    helps = [about_help(word, "plift", command) for word in words if asks_for_help(word) and word.startswith("-")]
    if helps:
        return helps[:1]
    walk = Walk(command, words)
    faults = walk.faults + [about_twice(name, values) for name, values in walk.values.items() if len(values) > 1]
    others = [told for name, told in ELSEWHERE.items() if name in walk.values and name not in ASKING[command]]
    if command == "property" and {"--goal", "--bound"} & set(walk.values):
        others.append(f"label and bound stand in the formula: --formula '{A_FORMULA}'")
    if command == "cost" and "--bound" in walk.values:
        others.append("--bound is of a probability: an expected cost is bounded by --budget B, from 0 to --cap C")
    named = walk.meant | set(walk.values) | ({"--goal", "--bound"} if is_about_formula(command, words) else set())
    missing = [told for name, told in MISSING.items() if name in ASKING[command] and name not in named]
    return faults + missing[:2] + others + missing[2:]


def about_reading(command: str, words: Sequence[str]) -> List[str]:
    """What is wrong with a line of `check` or `migrate`."""
    word = words[0]
    if asks_for_help(word):
        return [about_help(word, "plift", command)]
    if word.startswith("-") or not is_file(word) and "=" in word:
        return [f"{shown(word)}: {command} takes no options; a report holds its model, region and bound"]
    return [f"{shown(word)}: {command} reads a report from standard input: plift {command} < {shlex.quote(word)}"]


def about_refining(words: Sequence[str]) -> List[str]:
    """What is wrong with a line of `refine`."""
    asks = [word for word in words if asks_for_help(word)]
    if asks:
        return [about_help(asks[0], "plift", "refine")]
    names = [word.split("=")[0] for word in words if is_dashed(word)]
    files = [word for word in words if is_file(word)]
    faults = [
        f"{shown(name)}: refine takes --depth alone; a report holds its model, region and bound"
        for name in names
        if name != "--depth"
    ]
    faults += [f"{shown(word)}: refine reads a report from standard input, by < {shlex.quote(word)}" for word in files]
    if names.count("--depth") > 1:
        faults.append(f"--depth stands {names.count('--depth')} times: keep one")
    if "--depth" not in names:
        faults.append("--depth H is missing: how often the region may be halved in all, from 1 to 20")
    return faults or ["refine takes --depth and one number, from 1 to 20, and nothing else"]


def about_blocks(command: str, words: Sequence[str]) -> List[str]:
    """What is wrong with a line of `generate` or `selftest`."""
    if not words:
        return [f"{command} needs a number of blocks, from 1 to 32767: plift {command} 3"]
    if asks_for_help(words[0]):
        return [about_help(words[0], "plift", command)]
    if len(words) > 1:
        return [f"{command} takes one word, the number of blocks; {shown(words[1])} is one too many"]
    return [f"{shown(words[0])}: the number of blocks is from 1 to 32767, without a sign"]


def about_command(word: str) -> str:
    """What is wrong with the first word."""
    guess = near(word, COMMANDS)
    commands = f"the first word is one of {listed(COMMANDS, len(COMMANDS))}"
    if about_odd(word):
        return about_odd(word) or ""
    if word in HELP:
        return "help: plift --help, or plift --help verify for a command's options"
    if word in VERSION:
        return "version: plift --version"
    if word.split("=")[0] in NAMED:
        return f"the command stands first: plift verify {word} .."
    if re.fullmatch(r"(.*/)?plift", word):
        return f"{shown(word)}: the program's own name stands once; then {commands}"
    if re.fullmatch(r"(.*/)?(plift[-_])?(view|summary|follow|picture)", word):
        return f"{shown(word)} is no command; pictures and tables of a report are made by plift-view"
    if is_file(word):
        stands = f"a command stands first, and the file behind <: plift verify .. < {shlex.quote(word)}"
        return f"{shown(word)}: a model's name isn't a word; {stands}"
    if guess and not word.startswith("-"):
        return f"{shown(word)} is no command; is {guess} meant?"
    return f"{shown(word)} is no command; {commands}"


def words_hints(refusal: Refusal) -> List[str]:
    """What is wrong with the words as a whole."""
    words = refusal.words
    if not words:
        return [
            "there is no word: a command stands first, one of " + listed(COMMANDS, len(COMMANDS)),
            "plift --help shows them",
        ]
    command, behind = words[0], words[1:]
    if command not in COMMANDS:
        return [about_command(command), FORMS[near(command, COMMANDS) or "verify"]]
    if command in ASKING:
        faults = about_asking(command, behind)
    elif command in ("check", "migrate"):
        faults = about_reading(command, behind) if behind else []
    elif command == "refine":
        faults = about_refining(behind)
    else:
        faults = about_blocks(command, behind)
    is_formula = command in ASKING and is_about_formula(command, behind)
    return faults[:MOST_FAULTS] + [FORMS["property" if is_formula else command]]
