"""How answers show themselves in a notebook: a table, and a picture where there is one."""

from __future__ import annotations

from html import escape
from typing import TYPE_CHECKING, Iterable, Sequence

from .report import KINDS, PAST, Report
from .values import above, below, exact, percent

if TYPE_CHECKING:
    from .api import Bounds
    from .edge import Edge

MOST_DRAWN = 20_000
"""Leaves of a report that is drawn in a notebook; `plift-lab view` draws more."""


def table(head: Sequence[str], rows: Iterable[Sequence[str]], caption: str) -> str:
    """A table of HTML, whose cells are texts."""
    lines = ['<table>', '<caption>%s</caption>' % escape(caption)]
    for kind, cells in [('th', head), *(('td', row) for row in rows)]:
        lines.append('<tr>%s</tr>' % ''.join('<%s>%s</%s>' % (kind, escape(cell), kind) for cell in cells))
    return '\n'.join([*lines, '</table>'])


def report_html(report: Report) -> str:
    """The verdict, the shares and the picture."""
    counts = {kind: sum(count for (one, _), count in report.counts.items() if one == kind) for kind in KINDS}
    rows = [(PAST[kind], str(counts[kind]), percent(report.shares[kind])) for kind in KINDS]
    told = table(('', 'leaves', 'of the region'), rows, report.verdict_line)
    behind = '<p><small>%s, judged by %s</small></p>' % (
        escape(report.soundness),
        escape(report.judge or 'nobody here'),
    )
    return told + behind + (report._repr_svg_() or '')


def bounds_html(found: 'Bounds') -> str:
    """Both sides, and where they are reached."""
    rows = []
    for side in (found.sup, found.inf):
        (where, end), (further, other) = side.witness, side.critical
        shown = end if side.name == 'sup' else other
        rows.append((side.name, below(side.least, 9), above(side.most, 9), where.told, further.told, shown.soundness))
    told = table(
        ('', 'at least', 'at most', 'as much is reached in', 'no further goes', 'check'),
        rows,
        found.form.measured(found.goal, found.is_process),
    )
    short = ''.join(
        '<p>%s: stopped short (%s)</p>' % (side.name, side.short) for side in (found.sup, found.inf) if side.short
    )
    return (
        told
        + short
        + '<p><small>%d bits, judged by %s</small></p>' % (found.precision, escape(', '.join(found.judges)))
    )


def edge_html(edge: 'Edge') -> str:
    """What is accepted, and where that ends."""
    sign = '<=' if edge.is_greatest else '>='
    rows = []
    if edge.inside:
        rows.append(('accepted', '%s %s %s' % (edge.parameter, sign, exact(edge.good)), edge.inside.soundness))
    if edge.limit is not None and edge.outside:
        rows.append(('rejected in part', '%s = %s' % (edge.parameter, exact(edge.limit)), edge.outside.soundness))
    return table(('', 'where', 'check'), rows, 'threshold of %s' % edge.parameter)
