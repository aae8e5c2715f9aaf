"""Mistakes on the line of `property`, in its formula, and labels of it that no state has."""

import shlex

from table import REGION, RETRY, Mistake, words

FORMULA = "--formula 'P<=3/100 [F \"lost\"]'"
ASKED = f"property {FORMULA} {REGION}"


def formula(text: str, *told: str, cause: str = "Syntax") -> Mistake:
    return Mistake(f"property --formula {shlex.quote(text)} {REGION}", RETRY, 2, f"usage: --formula {cause}", told)


def meant(text: str, told: str) -> Mistake:
    return formula(text, "write --formula " + shlex.quote(told))


def bound(text: str, *told: str) -> Mistake:
    return formula(f'P>={text} [F "lost"]', *told, cause="Bound")


def label(text: str, *told: str) -> Mistake:
    line = f"property --formula {shlex.quote(text)} {REGION}"
    return Mistake(line, RETRY, 3, "model: line 31: UnknownLabel", told)


WORDS = [
    words("property", "--formula T is missing", "plift property --formula"),
    words("property --formula", "--formula has no value"),
    # What a shell makes of P>=0.5 [F "lost"] without quotes: the comparison is taken for a file.
    words(
        "property --formula P [F lost] " + REGION,
        '"[F", "lost]" stand alone',
        "single quotes",
        "--formula 'P<=1/2 [F \"done\"]'",
    ),
    words("property --formula P '>=' 1/2 '[F \"lost\"]'", "single quotes"),
    words(
        "property 'P<=3/100 [F \"lost\"]' " + REGION,
        "a formula is given by --formula",
        "--formula 'P<=3/100 [F \"lost\"]'",
    ),
    words("property --prop 'P<=3/100 [F \"lost\"]' " + REGION, "is --formula meant?"),
    words("property --formulas 'P<=3/100 [F \"lost\"]' " + REGION, "is --formula meant?"),
    words(ASKED + " --goal lost", "label and bound stand in the formula"),
    words(
        "property --goal lost --bound 3/100 " + REGION, "--formula T is missing", "label and bound stand in the formula"
    ),
    words(ASKED + " --steps 3", "plift bounded"),
    words(ASKED + " --from 1 --from 8", "--from stands 2 times, with 1, 8"),
    words(ASKED + " --least 1", "is --from meant?"),
    words("cost --goal lost --from 1 " + REGION, "a range of precisions", "plift verify and plift property alone"),
    words(ASKED + " --threads 4", "is no option of property", "--formula, --region, --depth, --precision, --from"),
    words(ASKED + " " + FORMULA, "--formula stands 2 times"),
    words(ASKED + " retry.drn", "a file is given by <", "< retry.drn"),
    words("property --help", "plift --help property"),
    words("propertys " + FORMULA, "is property meant?"),
    words("'property --formula x'", "is one word", "quotes"),
    words(f"verify {FORMULA} {REGION}", "it is taken by plift property alone", "plift property --formula 'P<=B"),
    words(f"bounded --goal lost --bound 3/100 --steps 3 {FORMULA}", "it is taken by plift property alone"),
]

FORMULAS = [
    meant('P<=3/100 F "lost"', 'P<=3/100 [F "lost"]'),
    meant('P<=3/100 (F "lost")', 'P<=3/100 [F "lost"]'),
    meant('P<=0.03 [F lost]', 'P<=3/100 [F "lost"]'),
    meant("P<=3/100 [F 'lost']", 'P<=3/100 [F "lost"]'),
    meant('P<=3/100 [F "lost"', 'P<=3/100 [F "lost"]'),
    meant('P<=3/100 [F "lost"];', 'P<=3/100 [F "lost"]'),
    meant(' P<=3/100 [F "lost"]', 'P<=3/100 [F "lost"]'),
    meant('P<=3 / 100 [F "lost"]', 'P<=3/100 [F "lost"]'),
    meant('P<=3% [F "lost"]', 'P<=3/100 [F "lost"]'),
    meant('P=<.03 [F "lost"]', 'P<=3/100 [F "lost"]'),
    meant('P≤0,03 [F "lost"]', 'P<=3/100 [F "lost"]'),
    meant('Pmax<=3/100 [F "lost"]', 'P<=3/100 [F "lost"]'),
    meant('Pmin>3/100 [F "lost"]', 'P>3/100 [F "lost"]'),
    meant('P<=3/100 [true U "lost"]', 'P<=3/100 [F "lost"]'),
    meant('P<=3/100 [lost U lost]', 'P<=3/100 ["lost" U "lost"]'),
    formula("lost", "begins with P", 'P<=1/2 [F "done"]'),
    formula('F "lost"', "begins with P"),
    formula('P [F "lost"]', "<=, <, >= or > is wanted here"),
    formula('P<= [F "lost"]', "a bound is wanted here"),
    formula('P<=half [F "lost"]', "a bound is wanted here"),
    formula('P=? [F "lost"]', "asks for a number", "./plift-lab bounds"),
    formula('Pmax=? [F "lost"]', "asks for a number"),
    formula('Pmax>=3/100 [F "lost"]', "P<B [..]"),
    formula('Pmin<3/100 [F "lost"]', "P>B [..]"),
    formula('P>=1/2 [G "lost"]', "there is no G", 'P<=B [F "bad"]'),
    formula('P>=1/2 [X "lost"]', "there is no X", "--steps 1"),
    formula('P>=1/2 [F<=10 "lost"]', "plift bounded --steps S"),
    formula('P>=1/2 ["lost" U<=10 "lost"]', "plift bounded --steps S"),
    formula('P>=1/2 ["lost" W "lost"]', "U is wanted here", "there is no W"),
    formula('P<=1/2 [!"lost" U "lost"]', "a label stands alone"),
    formula('P<=1/2 [F "lost" | "init"]', "] is wanted here", "a label stands alone"),
    formula('R<=5 [F "lost"]', "an expected cost", "plift cost"),
    formula('S<=1/2 ["lost"]', "about a probability"),
    formula('P<=1/2 [F ""]', "a label is wanted here"),
    formula('P<=1/2 [F "größe"]', "printable ASCII"),
    bound("3", "3 is above 1", "3 percent are 3/100"),
    bound("1/0", "divides by 0"),
    bound("0.12345678901", "2^32 or more"),
    bound("1e-40", "too wide", "10^-40"),
]

LABELS = [
    label('P<=1/2 [F "lots"]', "is lost meant?"),
    label('P<=1/2 ["safe" U "lost"]', 'no state carries the label "safe"', "lost"),
    label('P<=1/2 ["safe" U "done"]', 'no state carries the label "done"'),
]

MISTAKES = WORDS + FORMULAS + LABELS
