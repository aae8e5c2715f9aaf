"""Mistakes on the line of `cost`, in its values, and in the rewards of a text."""

import shlex

from table import REGION, RETRY, Mistake, changed, example, words

SENDS = example("sends.drn")
COSTS = "--reward sends --budget 7/5 --cap 3"
ASKED = f"cost --goal done {COSTS} {REGION}"


def value(option: str, text: str, *told: str) -> Mistake:
    """Another value for an option of the line."""
    line = {"--reward": "sends", "--budget": "7/5", "--cap": "3", option: text}
    asked = " ".join(f"{name} {shlex.quote(word)}" for name, word in line.items())
    return Mistake(f"cost --goal done {asked} {REGION}", SENDS, 2, f"usage: {option}", told)


def sends(old: str, new: str, line: int, cause: str, *told: str) -> Mistake:
    """A change of the example sends.drn."""
    return Mistake(ASKED, changed(SENDS, old, new), 3, f"model: line {line}: {cause}", told)


def reward(name: str, *told: str, text: bytes = SENDS, line: int = 34) -> Mistake:
    """Another reward."""
    asked = f"cost --goal done --reward {shlex.quote(name)} --budget 7/5 --cap 3 {REGION}"
    return Mistake(asked, text, 3, f"model: line {line}: UnknownReward", told)


WORDS = [
    words(
        "cost",
        "--goal LABEL is missing",
        "--reward NAME is missing",
        "plift cost --goal LABEL --reward NAME --budget B --cap C",
    ),
    words(f"cost --goal done --budget 7/5 --cap 3 {REGION}", "--reward NAME is missing", "behind @reward_models"),
    words(f"cost --goal done --reward sends --cap 3 {REGION}", "--budget B is missing", "from 0 to the cap"),
    words(f"cost --goal done --reward sends --budget 7/5 {REGION}", "--cap C is missing", "ten times the budget"),
    words(
        f"cost --goal done --reward sends --bound 7/5 --cap 3 {REGION}",
        "--budget B is missing",
        "--bound is of a probability",
    ),
    words(ASKED + " --bound 1/2", "an expected cost is bounded by --budget B"),
    words(ASKED + " --budget", "--budget has no value"),
    words(f"cost --goal done --reward sends --budget -1 --cap 3 {REGION}", "--budget", "doesn't begin with -"),
    words(ASKED + " --cap 4", "--cap stands 2 times, with 3, 4"),
    words(ASKED + " --steps 3", "plift bounded"),
    words(ASKED + " --from 1", "plift verify and plift property alone"),
    words(ASKED + " --formula 'P<=1/2 [F \"done\"]'", "taken by plift property alone"),
    words(f"cost 'R<=7/5 [F \"done\"]' {COSTS} {REGION}", "--goal LABEL is missing", "--budget B"),
    words(
        ASKED + " --jobs 4", "is no option of cost", "--goal, --reward, --budget, --cap, --region, --depth, --precision"
    ),
    words(f"cost --goal done --rewards sends --budget 7/5 --cap 3 {REGION}", "is --reward meant?"),
    words(f"cost --goal done --cost sends --budget 7/5 --cap 3 {REGION}", "is --reward meant?"),
    words(f"cost --goal done --reward sends --budget 7/5 --maximum 3 {REGION}", "is --cap meant?"),
    words(f"cost --goal done --reward sends --bud 7/5 --cap 3 {REGION}", "is --budget meant?", "abbreviated"),
    words(ASKED + " sends.drn", "a file is given by <", "< sends.drn"),
    words("cost --help", "plift --help cost"),
    words("costs " + ASKED[5:], "is cost meant?"),
    words("'cost --goal done'", "is one word", "quotes"),
    words(f"verify --goal done --bound 1/2 --reward sends {REGION}", "asked by plift cost", "--budget and --cap"),
    words(
        f"bounded --goal done --bound 1/2 --steps 3 --budget 2 {REGION}", "asked by plift cost", "--reward and --cap"
    ),
    words(f"lumped --goal done --bound 1/2 --cap 2 {REGION}", "asked by plift cost", "--reward and --budget"),
]

VALUES = [
    value("--reward", "", "the name is empty"),
    value("--reward", "my sends", "holds a blank"),
    value("--reward", "größe", "character number 3", "U+00F6"),
    value("--cap", "0", "from 1 to 4294967295"),
    value("--cap", "4294967296", "from 1 to 4294967295"),
    value("--cap", "00000000003", "more than 10 digits"),
    value("--cap", "2.5", "digits alone"),
    value("--cap", "three", "digits alone"),
    value("--budget", "4", "4 is above the cap 3", "raise --cap"),
    value("--budget", "31/10", "above the cap"),
    value("--budget", "two", "is no number"),
    value("--budget", "1/0", "divides by 0"),
    value("--budget", "1.", "write 1"),
    value("--budget", "1,4", "write 7/5"),
    value("--budget", "7 / 5", "write 7/5"),
    value("--budget", "+1.4", "write 7/5"),
    value("--budget", "<=1.4", "a number alone", "--budget 7/5"),
    value("--budget", "R<=7/5", "--budget 7/5"),
    value("--budget", "1,4%", "write 7/500"),
    value("--budget", "1.3999999999", "10,000,000,000", "1.399999999 or 1.400000000"),
    value("--budget", "2.12345678901234567890123", "too wide", "digits"),
    value("--budget", "=9", "a number alone"),
    Mistake(f"cost --goal '' {COSTS}", SENDS, 2, "usage: --goal", ("the label is empty",)),
    Mistake(ASKED + " --depth 21", SENDS, 2, "usage: --depth", ("from 0 to 20",)),
    Mistake(ASKED + " --precision 41", SENDS, 2, "usage: --precision", ("from 1 to 40",)),
    Mistake(
        f"property --formula 'R<=7/5 [F \"done\"]' {REGION}",
        SENDS,
        2,
        "usage: --formula Syntax",
        ("begins with P", "plift cost --goal LABEL"),
    ),
]

REWARDS = [
    reward("Sends", "no reward model has the name", "is sends meant?", "sends, seconds"),
    reward("time", "no reward model has the name", "sends, seconds"),
    reward('"sends"', "is sends meant?"),
    reward("sends,seconds", "no reward model has the name"),
    reward(
        "sends",
        "declares no reward models",
        "write @reward_models and a line sends",
        text=RETRY.replace(b"lost", b"done"),
        line=31,
    ),
    sends(
        "sends seconds\n",
        "sends\n",
        10,
        "RewardSyntax",
        "the group holds 2 values",
        "line 8 declares 1 reward model, sends",
    ),
    sends("sends seconds\n", "\n", 10, "RewardSyntax", "no reward models are declared"),
    sends("@reward_models\nsends seconds\n", "", 8, "RewardSyntax", "no reward models are declared"),
    sends(
        "[1,2]", "[1]", 17, "RewardSyntax", "the group holds 1 value", "line 8 declares 2 reward models, sends, seconds"
    ),
    sends("[1,2]", "[1 2]", 17, "RewardSyntax", "the group holds 1 value", "a group has a value for each"),
    sends("[1,2]", "[]", 17, "RewardSyntax", "the group holds 1 value"),
    sends("[1,2]", "[1,-2]", 17, "RewardSyntax", "^", "0 or more"),
    sends("[1,2]", "[1,p]", 17, "RewardSyntax", "^", "a number or a fraction"),
    sends("[1,2]", "[1,.5]", 17, "RewardSyntax", "write 1/2"),
    sends("[1,2]", "[1,1 / 2]", 17, "RewardSyntax", "write 1/2"),
    sends("[1,2]", "[1,2/0]", 17, "RewardSyntax", "this divides by 0"),
    sends("[1,2]", "[1,1e30]", 17, "RewardWide", "this is too wide", "10^30"),
    sends("[1,2]", "[1e-40,1]", 17, "RewardWide", "this is too wide"),
    sends(
        "action radio\n1",
        "action radio [0,1]\n1",
        11,
        "ActionReward",
        "an action's value is 0",
        "behind a state's number",
        "where each choice of the state costs as much, plift-lab fit moves it there",
    ),
    sends("action radio\n1", "action [1,0]\n1", 11, "ActionReward", "an action's value is 0"),
    sends("action radio\n1", "action \"radio\"[0]\n1", 11, "RewardSyntax", "the group holds 1 value"),
]

MISTAKES = WORDS + VALUES + REWARDS
