"""Goes on until so much of a region is decided."""

from __future__ import annotations

from dataclasses import replace
from fractions import Fraction
from typing import Callable, Optional

from .faults import Refused
from .report import UNKNOWN, Report
from .session import MOST_DEPTH, Question, Session

LEVELS, MOST_LEVELS = 2, 6
"""By how many levels depth grows, and by how many at once."""


def cover(session: Session, question: Question, share: Fraction, tell: Callable[[Report], None]) -> Report:
    """The report of the least depth at which so much is decided, of every second one; else the deepest that could be
    had.

    Each goes on from the one before it, as far as so much is likely to be decided. Where that was too far the report is
    cut. One report of the whole question stands behind the answer.
    """
    report = session.ask(question)
    while _open(report, report.depth) > 1 - share and report.live and report.depth < MOST_DEPTH:
        tell(report)
        deeper = _deepened(session, question, report, share)
        if deeper is None:
            return report
        session.evidence.forget(report.path)
        depth = next(
            (
                depth
                for depth in range(report.depth + LEVELS, deeper.depth, LEVELS)
                if _open(deeper, depth) <= 1 - share
            ),
            None,
        )
        report = deeper
        if depth is not None:
            report = session.shorten(replace(question, depth=depth), deeper)
            session.evidence.forget(deeper.path)
    return report


def _deepened(session: Session, question: Question, report: Report, share: Fraction) -> Optional[Report]:
    """The report some levels deeper, else the next one, none where that can't be had."""
    for levels in dict.fromkeys((levels_due(report, share), LEVELS)):
        try:
            return session.deepen(replace(question, depth=min(report.depth + levels, MOST_DEPTH)), report)
        except Refused as refusal:  # a report that is too long to be checked, or a grid that is too fine
            if refusal.plift_status not in (2, 4, 7):
                raise
    return None


def levels_due(report: Report, share: Fraction) -> int:
    """In how many levels so much is likely to be decided, or fewer: what is unknown lies around a limit, and with k
    parameters a k-th root of 2 is what each level makes it smaller by."""
    count, levels = len(report.live), LEVELS
    shrinks = (_open(report, report.depth) / (1 - share)) ** count if share < 1 else None
    while levels + LEVELS <= MOST_LEVELS and (shrinks is None or shrinks >= 2 ** (levels + LEVELS)):
        levels += LEVELS
    return levels


def _open(report: Report, depth: int) -> Fraction:
    """The share of the region that is unknown in the question's report at a depth, of this report's own or a smaller
    one."""
    if depth == report.depth:
        return report.shares[UNKNOWN]
    halved = sum(below == depth and isinstance(node, int) for node, (below, _) in zip(report.nodes, report.walk()))
    return Fraction(halved, 2**depth)
