"""What newcomers get wrong, each with what is told of it. Nothing is written in answer to any of these."""

import gzip
from collections.abc import Iterator

from cases import DONE, STATUSES, Answer, Case, Written
from tables import TOP

GOAL, BOUND = "lost", "3/100"
REGION = "1/10<=p<=3/10,1/20<=q<=1/5"
# The commands that read a report.
READING = ["check", "migrate"]

# Each row: an option of `verify`, a value, and what is told; `Done` where it is no mistake.
VALUES = """
--region | 1/10<p<3/10,1/20<q<1/5 | usage: --region Syntax
--region | p in [1/10,3/10],q in [1/20,1/5] | usage: --region Syntax
--region | 1/10<=p<=3/10&1/20<=q<=1/5 | usage: --region Syntax
--region | 3/10>=p>=1/10,1/20<=q<=1/5 | usage: --region Syntax
--region | 10%<=p<=30%,1/20<=q<=1/5 | usage: --region Syntax
--region | .1<=p<=.3,1/20<=q<=1/5 | usage: --region Syntax
--region | 1/10<=p<=3/10,1/20<=q<=1/5, | usage: --region Syntax
--region |  1/10 <= p <= 3/10 , 1/20 <= q <= 1/5 | Done
--region | 0.1<=p<=0.3,5e-2<=q<=0.2 | Done
--region | 1/10<=p<=1/10,1/20<=q<=1/5 | usage: --region EmptyInterval
--region | 3/10<=p<=1/10,1/20<=q<=1/5 | usage: --region EmptyInterval
--region | 1/10<=P<=3/10,1/20<=q<=1/5 | usage: --region UnknownName
--region | 1/10<=p<=3/10 | usage: --region Missing
--region | -1/10<=p<=3/10,1/20<=q<=1/5 | usage: words
--region | 1/10<=p<=11,1/20<=q<=1/5 | rows: state 0 choice 0: target 3 at corner 1 has weight -200
--bound | 3% | usage: --bound
--bound | 3 | usage: --bound
--bound | .03 | usage: --bound
--bound | <=0.03 | usage: --bound
--bound | 1/99999999999 | usage: --bound
--goal | init | Done
--goal | lots | model: line 31: UnknownLabel
--goal | F lost | model: line 31: UnknownLabel
--goal | "lost" | model: line 31: UnknownLabel
--goal | 4 | model: line 31: UnknownLabel
--goal | verlör | usage: --goal
--depth | 21 | usage: --depth
--depth | 1000 | usage: --depth
--precision | 53 | usage: --precision
--precision | 0.001 | usage: --precision
--from | 10 | Done
--from | 001 | Done
--from | 11 | usage: --from
--from | 0 | usage: --from
--from | 0001 | usage: --from
--from | 1..10 | usage: --from
"""

# Each row: the words between bars, and what is told. The model is on standard input.
LINES = f"""
verify|--goal|{GOAL}|--bound|{BOUND} | usage: --region Missing
verify|--goal|{GOAL}|--bound|{BOUND}|--region|1/10<=p<=3/10|--region|1/20<=q<=1/5 | usage: words
verify|--goal|message|lost|--bound|{BOUND} | usage: words
verify|--prop|P<=0.03 [F "lost"]|--region|{REGION} | usage: words
verify|examples/retry.drn|--goal|{GOAL}|--bound|{BOUND}|--region|{REGION} | usage: words
verify|-h | usage: words
-h | usage: words
--help | usage: words
--version | usage: words
 | usage: words
verify|-goal|{GOAL}|--bound|{BOUND}|--region|{REGION} | usage: words
verify|--goal|{GOAL}|--bound|{BOUND}|--region|{REGION}|--Depth|2 | usage: words
verfy|--goal|{GOAL}|--bound|{BOUND}|--region|{REGION} | usage: words
verify|--goal|{GOAL}|--bound|{BOUND}|--region|{REGION}|--steps|3 | usage: words
lumped|--goal|{GOAL}|--bound|{BOUND}|--region|{REGION} | lump: not a chain
lumped|--goal|{GOAL}|--bound|{BOUND} | lump: not a chain
lumped|--goal|{GOAL}|--bound|{BOUND}|--region|{REGION}|--steps|3 | usage: words
lumped|--goal|{GOAL}|--bound|{BOUND}|--region|{REGION}|--from|1 | usage: words
lumped|--goal|lots|--bound|{BOUND}|--region|{REGION} | model: line 31: UnknownLabel
bounded|--goal|{GOAL}|--bound|{BOUND}|--region|{REGION} | usage: words
bounded|--goal|{GOAL}|--bound|{BOUND}|--region|{REGION}|--steps|100 | usage: --steps
bounded|--goal|{GOAL}|--bound|{BOUND}|--region|{REGION}|--steps|three | usage: --steps
bounded|--goal|{GOAL}|--bound|{BOUND}|--steps|3 | usage: --region Missing
bounded|--goal|{GOAL}|--bound|{BOUND}|--region|{REGION}|--steps|3|--from|1 | usage: words
bounded|--goal|lots|--bound|{BOUND}|--region|{REGION}|--steps|3 | model: line 31: UnknownLabel
property|--region|{REGION} | usage: words
property|--goal|{GOAL}|--bound|{BOUND}|--region|{REGION} | usage: words
property|--formula|P<=1/2 [F "lost"]|--goal|{GOAL}|--region|{REGION} | usage: words
property|--formula|P<=1/2 [F "lost"]|--region|{REGION}|--from|25 | usage: --from
property|--formula|P|[F|lost]|--region|{REGION} | usage: words
property|--formula|P<=1/2 [F lost]|--region|{REGION} | usage: --formula Syntax
property|--formula|P<=1/2 F "lost"|--region|{REGION} | usage: --formula Syntax
property|--formula|Pmax<=1/2 [F "lost"]|--region|{REGION} | usage: --formula Syntax
property|--formula|P<=50 [F "lost"]|--region|{REGION} | usage: --formula Bound
property|--formula|P<=1/2 [F "lost"] | usage: --region Missing
property|--formula|P<=1/2 [F "lots"]|--region|{REGION} | model: line 31: UnknownLabel
property|--formula|P<=1/2 ["lots" U "lost"]|--region|{REGION} | model: line 31: UnknownLabel
cost|--goal|{GOAL}|--region|{REGION} | usage: words
cost|--goal|{GOAL}|--reward|sends|--budget|2|--region|{REGION} | usage: words
cost|--goal|{GOAL}|--reward|sends|--bound|1/2|--cap|4|--region|{REGION} | usage: words
cost|--goal|{GOAL}|--reward|sends|--budget|2|--cap|4|--region|{REGION}|--steps|3 | usage: words
cost|R<=2 [F "lost"]|--reward|sends|--budget|2|--cap|4|--region|{REGION} | usage: words
cost|--goal|{GOAL}|--reward|my sends|--budget|2|--cap|4|--region|{REGION} | usage: --reward
cost|--goal|{GOAL}|--reward|sends|--budget|2|--cap|2.5|--region|{REGION} | usage: --cap
cost|--goal|{GOAL}|--reward|sends|--budget|2|--cap|99999999999|--region|{REGION} | usage: --cap
cost|--goal|{GOAL}|--reward|sends|--budget|5|--cap|4|--region|{REGION} | usage: --budget
cost|--goal|{GOAL}|--reward|sends|--budget|<=2|--cap|4|--region|{REGION} | usage: --budget
cost|--goal|{GOAL}|--reward|sends|--budget|2|--cap|4|--region|{REGION} | model: line 31: UnknownReward
cost|--goal|lots|--reward|sends|--budget|2|--cap|4|--region|{REGION} | model: line 31: UnknownLabel
verify|--goal|{GOAL}|--bound|{BOUND}|--region|{REGION}|--reward|sends | usage: words
property|--formula|R<=2 [F "lost"]|--region|{REGION} | usage: --formula Syntax
verify|--goal|{GOAL}|--bound|{BOUND}|--region|{REGION}|--from|25 | usage: --from
verify|--goal|{GOAL}|--bound|{BOUND}|--region|{REGION}|--from|1|--from|2 | usage: words
verify|--goal|lots|--bound|{BOUND}|--region|{REGION}|--from|1 | model: line 31: UnknownLabel
check|examples/retry.report | usage: words
check | not sound: line 1: Syntax
migrate|examples/retry.report | usage: words
migrate|--from|1 | usage: words
migrate | not sound: line 1: Syntax
refine|examples/retry.report | usage: words
refine | usage: words
refine|--depth|3|--depth|4 | usage: words
refine|--depth|3|--precision|4 | usage: words
refine|--depth|0 | usage: --depth
refine|--depth|21 | usage: --depth
refine|--depth|3 | not sound: line 1: Syntax
"""

# Each row: a part of the model's text, what stands in its place (`;` ends a line), and what is told.
TEXTS = """
@type | # a comment;@type | model: line 3: Syntax
1 : p | 1 : 2p | model: line 9: Syntax
1 : p | 1 -> p | model: line 9: Syntax
1 : p | p : 1 | model: line 9: Syntax
p q | p, q | model: line 5: Syntax
1 : p;3 : 1-p | 1 : 0.3333;3 : 0.6666 | rows: state 0 choice 0: set 0 sums to 9999
1 : p | 1 : p*p | model: line 9: SharedParameter
1 : p | 1 : p^2 | model: line 9: Power
1 : p;3 : 1-p | 1 : p;3 : 1-q | rows: state 0 choice 0: set 1 sums to 1
@parameters;p q; |  | model: line 7: UnknownName
@type: MDP; |  | model: line 5: MissingSection
state 0 init | state 0 | model: line 31: InitCount
MDP | DTMC | model: line 11: ExtraChoice
state 3 | state 5 | model: line 28: StateOrder
lost;4 : 1; | lost; | model: line 30: NoChoice
state 0 init | state 0 "init | model: line 7: OpenQuote
 lost | lost "verlör" | model: line 30: NotText
// A | // Ä | Done
"""

# The same of a text with rewards, by `cost`.
REWARDS = """
sends seconds | seconds,sends | model: line 10: RewardSyntax
sends seconds | seconds sends | Done
@reward_models;sends seconds; |  | model: line 8: RewardSyntax
[1,1] init | init [1,1] | model: line 10: Syntax
[1,2] | 1,2 | Done
[1,2] | [1] | model: line 17: RewardSyntax
[1,2] | [1 2] | model: line 17: RewardSyntax
[1,2] | [-1,2] | model: line 17: RewardSyntax
[1,2] | [1,p] | model: line 17: RewardSyntax
[1,2] | [1,2 | model: line 17: Syntax
[1,2] | [1e30,2] | model: line 17: RewardWide
action radio;1 | action radio [1,0];1 | model: line 11: ActionReward
"""

# Each row: a part of the report's text, what stands in its place, and what is told by `check` and by `migrate`.
REPORTS = """
28 93 308 0 1024 | 27 93 308 0 1024 | not sound: node 0 state 0 choice 0 corner 1: 558 > 540
1024; | 1024;plift 1; | not sound: rest
plift 1 | plift 3 | not sound: line 1: Version
plift 1 | plift-bounded 1 | not sound: line 1: Syntax
plift 1 | plift-property 1 | not sound: line 1: Syntax
plift 1 | plift-cost 1 | not sound: line 1: Syntax
precision 10; | precision 10;from 10; | not sound: line 32: Syntax
accept 28 | at 10;accept 28 | not sound: line 35: Syntax
"""

# Each row: parts of the report's text and what stands in their places, and what is told by `check` and by `migrate`.
SECONDS = """
precision 10; | precision 10;from 10; | accept 28 | at 10;accept 28 | Done | not sound: line 1: Version
precision 10; | precision 10;from 11; | accept 28 | at 10;accept 28 | not sound: line 32: Limit | not sound: line 1: Version
precision 10; | precision 10;from 10; | accept 28 | at 9;accept 28 | not sound: line 36: Limit | not sound: line 1: Version
precision 10; | precision 10;from 1; | accept 28 | accept 28 | not sound: line 36: Syntax | not sound: line 1: Version
precision 10; | precision 10; | accept 28 | at 10;accept 28 | not sound: line 32: Syntax | not sound: line 1: Version
"""


def told(note: str) -> Answer:
    """The answer of which this is told."""
    names = {
        "usage": "Usage",
        "model": "ModelRefused",
        "lump": "ModelRefused",
        "rows": "RowsRefused",
        "not sound": "NotSound",
    }
    return Answer(STATUSES.index(names[note.partition(":")[0]]), b"", note.encode() + b"\n")


def case(name: str, words: list[str], given: bytes, note: str) -> Case:
    if note == "Done":
        return Case(name, "plift", words, given, Answer(DONE, b"", b""), Written.PART)
    return Case(name, "plift", words, given, told(note))


def verify(**changes: str) -> list[str]:
    """The words of the example, with other values."""
    values = {"--goal": GOAL, "--bound": BOUND, "--region": REGION, "--precision": "10", **changes}
    return ["verify", *(word for option in values.items() for word in option)]


def cost() -> list[str]:
    """The words that ask about the example with rewards."""
    return [
        "cost",
        "--goal",
        "done",
        "--reward",
        "sends",
        "--budget",
        "7/5",
        "--cap",
        "3",
        "--region",
        REGION,
        "--precision",
        "10",
    ]


def rows(table: str) -> list[str]:
    return [row for row in table.split("\n") if row]


def replaced(text: bytes, old: str, new: str) -> bytes:
    """The text with other lines in the place of its first such part."""
    found, stands = (part.replace(";", "\n").encode() for part in (old, new))
    if found not in text:
        raise ValueError(f"{old!r} doesn't stand in the example")
    return text.replace(found, stands, 1)


def texts(model: bytes, report: bytes) -> Iterator[tuple[str, list[str], bytes, str]]:
    """What isn't the text that it should be: what it is, the words, the text, and what is told."""
    yield "empty", verify(), b"", "model: line 0: MissingSection"
    yield "a report as a model", verify(), report, "model: line 1: Syntax"
    yield "carriage returns", verify(), model.replace(b"\n", b"\r\n"), "Done"
    yield "compressed", verify(), gzip.compress(model, mtime=0), "model: line 1: NotText"
    yield "byte order mark", verify(), b"\xef\xbb\xbf" + model, "model: line 1: NotText"
    yield "UTF-16", verify(), model.decode().encode("utf-16"), "model: line 1: NotText"
    yield "a PRISM file", verify(), b"mdp\n\nconst double p;\n", "model: line 1: Syntax"
    for command in READING:
        cut = b"".join(report.splitlines(True)[:10])
        yield f"{command}: a report with carriage returns", [command], report.replace(
            b"\n", b"\r\n"
        ), "not sound: line 1: Syntax"
        yield f"{command}: a report that is cut", [command], cut, "not sound: line 11: Truncated"
        yield f"{command}: empty", [command], b"", "not sound: line 1: Truncated"
        yield f"{command}: compressed", [command], gzip.compress(report, mtime=0), "not sound: line 1: Truncated"


def cases() -> Iterator[Case]:
    """All mistakes."""
    model = (TOP / "examples" / "retry.drn").read_bytes()
    report = (TOP / "examples" / "retry.report").read_bytes()
    for row in rows(VALUES):
        option, value, note = row.split(" | ")
        yield case(row, verify(**{option: value}), model, note)
    for row in rows(LINES):
        line, note = row.split(" | ")
        yield case(row, line.split("|") if line else [], model, note)
    for row in rows(TEXTS):
        old, new, note = row.split(" | ")
        yield case(row, verify(), replaced(model, old, new), note)
    sends = (TOP / "examples" / "sends.drn").read_bytes()
    for row in rows(REWARDS):
        old, new, note = row.split(" | ")
        yield case(row, cost(), replaced(sends, old, new), note)
    for row in rows(REPORTS):
        old, new, note = row.split(" | ")
        for command in READING:
            yield case(f"{command}: {row}", [command], replaced(report, old, new), note)
    for row in rows(SECONDS):
        old, new, other, instead, *notes = row.split(" | ")
        text = replaced(replaced(replaced(report, "plift 1", "plift 2"), old, new), other, instead)
        for command, note in zip(READING, notes):
            yield case(f"{command}: {row}", [command], text, note)
    for what, words, text, note in texts(model, report):
        yield case(what, words, text, note)
