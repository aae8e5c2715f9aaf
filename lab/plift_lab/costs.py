"""The cost that certificates count up to, where the user named none: the least that is needed rounds the least."""

from __future__ import annotations

from dataclasses import replace
from fractions import Fraction
from math import ceil
from typing import Optional

from .brackets import no_cost
from .forms import MOST_CAP
from .report import ACCEPT, Report
from .session import Question, Session

CAPS = (2**4, 2**10, 2**20, MOST_CAP)


def with_cap(session: Session, question: Question) -> Question:
    """The question with a cap that suffices for its region."""
    if question.form.cap is not None:
        return question
    for cap in CAPS:
        greatest = _greatest(_ask(session, question, cap))
        if greatest is not None:
            least = max(1, ceil(greatest * Fraction(9, 8)))
            is_enough = least < cap and _greatest(_ask(session, question, least)) is not None
            return _capped(question, least if is_enough else cap)
    raise no_cost(MOST_CAP)


def _capped(question: Question, cap: int) -> Question:
    return replace(question, form=replace(question.form, cap=cap), bound=Fraction(cap))


def _ask(session: Session, question: Question, cap: int) -> Report:
    return session.ask(_capped(question, cap))


def _greatest(report: Report) -> Optional[Fraction]:
    """The greatest number of any state, where the whole region is accepted."""
    if report.nodes != [ACCEPT]:
        return None
    numbers = map(int, report.data[report.tree_begin :].split()[1:])
    return Fraction(max(numbers) * report.form.unit, 2**report.precision)
