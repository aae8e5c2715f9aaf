"""Hints for `model: line L: CAUSE`."""

from __future__ import annotations

import re
from functools import partial
from typing import Callable, Dict, List, Optional

from hints import causes, rewards, states, transitions
from hints.drn import read_model
from hints.place import Place
from hints.refusal import Refusal
from hints.syntax import syntax

Told = Callable[[Place], List[str]]

CAUSES: Dict[str, Told] = {
    "NotText": causes.not_text,
    "LongLine": causes.long_line,
    "OpenQuote": causes.open_quote,
    "Syntax": syntax,
    "UnknownName": transitions.unknown_name,
    "Power": transitions.power,
    "SharedParameter": transitions.shared_parameter,
    "ParametricDivisor": transitions.parametric_divisor,
    "DivisionByZero": lambda place: transitions.told_there(place, "DivisionByZero"),
    "Wide": lambda place: transitions.told_there(place, "Wide"),
    "Deep": lambda place: transitions.told_there(place, "Deep"),
    "Long": lambda place: transitions.told_there(place, "Long"),
    "UnsupportedType": causes.unsupported_type,
    "MissingSection": causes.missing_section,
    "RepeatedSection": causes.repeated_section,
    "UnknownSection": causes.unknown_section,
    "RepeatedName": causes.repeated_name,
    "UnknownPlace": causes.unknown_place,
    "StateOrder": states.state_order,
    "ExitRate": states.exit_rate,
    "Observation": states.observation,
    "ExtraChoice": states.extra_choice,
    "NoChoice": states.no_choice,
    "RepeatedTarget": states.repeated_target,
    **{cause: partial(states.limit_of, most) for cause, most in states.LIMITS.items()},
    "LimitParameters": causes.limit_parameters,
    "LimitName": causes.limit_name,
    "LimitValueParameters": transitions.limit_value_parameters,
    "NoState": states.no_state,
    "CountMismatch": states.count_mismatch,
    "TargetRange": states.target_range,
    "InitCount": states.init_count,
    "UnknownLabel": states.unknown_label,
    "UnknownReward": rewards.unknown_reward,
    "RewardSyntax": rewards.reward_syntax,
    "RewardWide": rewards.reward_wide,
    "ActionReward": rewards.action_reward,
    "CommonDenominator": states.common_denominator,
}

# Causes that speak of the whole text.
WHOLE = ("NoState", "CountMismatch", "InitCount", "UnknownLabel", "UnknownReward", "CommonDenominator")

# Causes whose details tell what to do, too.
MENDED = ("Syntax", "UnsupportedType", "UnknownSection", "RepeatedSection")


def model_hints(refusal: Refusal, number: int, cause: str) -> List[str]:
    """What a line is at fault with, where it can be seen in the text."""
    if refusal.text is None or cause not in CAUSES:
        return []
    model = read_model(refusal.text, stop=0 if cause in WHOLE else number)
    place = Place(number, model.line or b"", model, refusal)
    if model.line is None and number > 0 and cause not in WHOLE:
        return []  # the text has no such line: it isn't the text that was read
    return CAUSES[cause](place)


def cause_of(note: str) -> Optional["re.Match[str]"]:
    """The line and the cause of a note behind `model: `."""
    return re.fullmatch(r"line ([0-9]{1,10}): ([A-Za-z]+)", note)
