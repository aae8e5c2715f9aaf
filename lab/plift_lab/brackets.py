"""Between which numbers a probability lies all over a region, as two certificates say."""

from __future__ import annotations

from dataclasses import dataclass
from fractions import Fraction
from typing import Callable

from .faults import SHORT, Fault
from .regions import Region
from .report import ACCEPT, REJECT, UNKNOWN, Report

Ask = Callable[[Region, Fraction], Report]
"""Asks of a region with a bound, without a halving."""


@dataclass(frozen=True)
class End:
    """One end of a bracket, and the report that shows it."""

    value: Fraction
    path: str
    soundness: str


def high(ask: Ask, region: Region) -> End:
    """More is reached at no valuation inside: by no scheduler, or where the question is of what is reached at least by
    the scheduler that the report prints. With bound 1 a certificate with the least number is written."""
    report = ask(region, Fraction(1))
    return _end(report, REJECT if report.form.is_of_least else ACCEPT, Fraction(1))


def low(ask: Ask, region: Region) -> End:
    """As much is reached at each valuation inside: by some scheduler, or where the question is of what is reached at
    least by each. With bound 0 a certificate with the greatest number is written; where none is above 0 nothing better
    than 0 is said."""
    report = ask(region, Fraction(0))
    return _end(report, ACCEPT if report.form.is_of_least else REJECT, Fraction(0))


def _end(report: Report, kind: str, other: Fraction) -> End:
    leaf = next(report.leaves())
    if leaf.kind == UNKNOWN and report.command == 'cost':
        raise no_cost(report.form.unit)
    shown = leaf.value if leaf.kind == kind and leaf.value is not None else other
    return End(shown, report.path, report.soundness)


def no_cost(cap: int) -> Fault:
    """Why a cost has no number."""
    return Fault(
        'no cost is shown: some state may be expected to cost more than %d, as one does that has a cost and may '
        'never be left' % cap,
        SHORT,
    )
