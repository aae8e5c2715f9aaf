"""A formula as plift reads it, and hints for `usage: --formula CAUSE`: the place in the text, and what was meant."""

from __future__ import annotations

import re
import shlex
from typing import List, NamedTuple, Optional

from hints.numbers import RATIO, Wide, about, ratio
from hints.refusal import Refusal
from hints.told import fraction, pointed

BLANKS = re.compile(r"[ \t]*")
OP = re.compile("<=|<|>=|>")
BOUND = re.compile(r"[^ \t\[]*")
LABEL = re.compile(r'"([ !#-~]+)"')
PART = 2**32  # the denominator of a bound is below it
A_FORMULA = 'P<=1/2 [F "done"]'


def behind_blanks(text: str, at: int) -> int:
    """The first place from there on at which no blank stands."""
    match = BLANKS.match(text, at)
    return match.end() if match else at


class Formula(NamedTuple):
    """What a formula writes: its comparison, the text of its bound, and its labels."""

    op: str
    bound: str
    safe: Optional[str]
    goal: str


class Fault(Exception):
    """Why a text is no formula: the cause, the place in the text, and what is wrong there."""

    def __init__(self, cause: str, place: int, what: str):
        super().__init__(cause)
        self.cause, self.place, self.what = cause, place, what


class Reader:
    """Reads the parts of a formula from the left, with any blanks between two of them."""

    def __init__(self, text: str):
        self.text, self.at = text, 0

    def match(self, form: "re.Pattern[str]") -> Optional["re.Match[str]"]:
        """What stands next and is of this form, which is passed."""
        self.at = behind_blanks(self.text, self.at)
        match = form.match(self.text, self.at)
        self.at = match.end() if match else self.at
        return match

    def need(self, form: str, what: str) -> "re.Match[str]":
        """The same, where it has to stand."""
        match = self.match(re.compile(form))
        if not match:
            raise Fault("Syntax", self.at, what)
        return match

    def bound(self) -> str:
        """The text of a bound."""
        match = self.match(BOUND)
        if not match or not RATIO.fullmatch(match[0]):
            place = match.start() if match else self.at
            raise Fault("Syntax", place, "a bound is wanted here, as 1/2 or 0.5, without blanks")
        return match[0]

    def label(self) -> str:
        """A label."""
        return self.need(LABEL.pattern, 'a label is wanted here, of printable ASCII between two "')[1]


def read_formula(text: str) -> Formula:
    """What a text writes."""
    reader = Reader(text)
    if text[:1] != "P":
        raise Fault("Syntax", 0, "a formula begins with P")
    reader.at = 1
    op = reader.need(OP.pattern, "<=, <, >= or > is wanted here")[0]
    start = reader.at
    bound = reader.bound()
    reader.need(r"\[", "[ is wanted here")
    if reader.match(re.compile("F")):
        safe, goal = None, reader.label()
    else:
        safe = reader.need(LABEL.pattern, 'F or a label is wanted here, as F "done" or "safe" U "done"')[1]
        reader.need("U", "U is wanted here")
        goal = reader.label()
    reader.need(r"\]", "] is wanted here")
    if reader.at < len(text):
        raise Fault("Syntax", reader.at, "nothing stands behind the ]")
    if not is_bound(bound):
        raise Fault("Bound", behind_blanks(text, start), "this isn't from 0 to 1, divides by 0, or has too many digits")
    return Formula(op, bound, safe, goal)


def is_bound(text: str, most: int = 1) -> bool:
    """Whether the text of a number or a fraction may be a bound on what is from 0 to the most."""
    try:
        value = ratio(text)
    except Wide:
        return False
    return value is not None and 0 <= value <= most and value.denominator < PART


def cause_of(text: str) -> Optional[str]:
    """The cause for which plift refuses a text; none where it is a formula."""
    try:
        read_formula(text)
    except Fault as fault:
        return fault.cause
    return None


# What people write in the place of a formula: comparisons, bounds and labels in other spellings, brackets left out.
OPS = {"=<": "<=", "≤": "<=", "⩽": "<=", "=>": ">=", "≥": ">=", "⩾": ">="}
WORD = r"""(?:"[^"]*"|'[^']*'|[^\s"'\[\]()!&|=<>]+)"""
LIKE = re.compile(
    rf"""\s*(?:P|Pr|Prob)\s*(?P<side>max|min)?\s*(?P<op><=|>=|=<|=>|<|>|≤|≥|⩽|⩾)\s*(?P<bound>[0-9.,/\seE%+-]*[0-9.%])\s*
    [\[(]?\s*(?:(?:F|<>|◇|(?P<safe>{WORD})\s+U)\s*)(?P<goal>{WORD})\s*[\])]?\s*[;.]?\s*""",
    re.X,
)


def plain(label: str) -> str:
    """A label without quotes of any kind."""
    return label.strip("\"'").strip() if label[:1] in "\"'" else label


def repaired(text: str) -> Optional[str]:
    """The formula that a text was most likely meant to be; none unless plift would read it. Of Pmax and Pmin those that
    a comparison stands for by itself."""
    match = LIKE.fullmatch(text)
    value = about(match["bound"]) if match else None
    if match is None or value is None:
        return None
    op = OPS.get(match["op"], match["op"])
    if match["side"] and (match["side"] == "max") != (op[0] == "<"):
        return None
    safe = plain(match["safe"]) if match["safe"] else "true"
    path = f'F "{plain(match["goal"])}"' if safe == "true" else f'"{safe}" U "{plain(match["goal"])}"'
    formula = f"P{op}{fraction(value)} [{path}]"
    return formula if cause_of(formula) is None else None


# Forms of other languages that plift doesn't take: what to do in their place.
FOREIGN = [
    (
        r"P(max|min)?\s*=\s*\?",
        "P=? asks for a number, and a formula compares with a bound; ./plift-lab bounds looks for numbers",
    ),
    (r"Pmax\s*(>|=>|≥)", "whether some scheduler reaches so much: ask P<B [..], which fails exactly where one does"),
    (r"Pmin\s*(<|=<|≤)", "whether some scheduler reaches so little: ask P>B [..], which fails exactly where one does"),
    (
        r"(\[|\(|\s)(F|U)\s*(<=|<|\[|\{)\s*[0-9]",
        "steps aren't counted here: plift bounded --steps S asks what is reached within S steps",
    ),
    (r"(\[|\(|\s)X\b", "there is no X: plift bounded --steps 1 asks what is reached within one step"),
    (
        r"(\[|\(|\s)G\b",
        "there is no G: ask how likely the opposite is reached, as P<=B [F \"bad\"], with a label on those states",
    ),
    (r"(\[|\(|\s|\")(W|R)(\s|\")", "there is no W and no R: of until there is U, and F alone"),
    (
        r"^\s*(R|E)\s*(max|min|\{|<|>|=|\[)",
        "an expected cost is asked for by plift cost --goal LABEL --reward NAME --budget B --cap C",
    ),
    (r"^\s*(R|S|E|A|T|filter|multi)\b", "a formula is about a probability: it begins with P"),
    (r"[!&|∧∨¬]|\b(and|or|not)\b", "a label stands alone: put another label on the states that are meant"),
]
TWO_SIDES = (
    "<= and < speak of the scheduler that reaches the most, >= and > of the one that reaches the least: write P alone"
)
FORM = f"a formula is written {A_FORMULA} or P>=1/2 [\"safe\" U \"done\"], with labels of the model, in single quotes"


def remedy(text: str) -> str:
    """What to write in the place of a text that is no formula."""
    formula = repaired(text)
    if formula:
        return f"write --formula {shlex.quote(formula)}"
    told = next((told for form, told in FOREIGN if re.search(form, text)), None)
    return told or (TWO_SIDES if re.match(r"\s*P(max|min)", text) else FORM)


def of_bound(text: str, fault: Fault) -> List[str]:
    """Why a bound isn't one."""
    found = BOUND.match(text, fault.place)
    word = found[0] if found else ""
    try:
        value = ratio(word)
    except Wide as why:
        return pointed("", text, fault.place, f"this bound is too wide: {why}")
    if value is None:
        return pointed("", text, fault.place, "this divides by 0")
    if value > 1:
        percent = f"; {word} percent are {fraction(value / 100)}" if value <= 100 else ""
        return pointed("", text, fault.place, f"{fraction(value)} is above 1, and a probability isn't{percent}")
    return pointed("", text, fault.place, f"the denominator {value.denominator:,} in lowest terms is 2^32 or more")


def formula_hints(refusal: Refusal, cause: str) -> List[str]:
    """Where a formula is at fault, and what to write. Nothing where the text gives another cause than the note."""
    text = refusal.option("--formula")
    try:
        read_formula(text or "")
    except Fault as fault:
        if text is None or fault.cause != cause:
            return []
        if cause == "Bound":
            return of_bound(text, fault)
        return pointed("", text, fault.place, fault.what) + [remedy(text)]
    return []
