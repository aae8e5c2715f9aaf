"""A report as a picture, in the user's own numbers: SVG, for notebooks and papers. `view` makes a page to explore."""

from __future__ import annotations

from fractions import Fraction
from html import escape
from typing import Dict, List, Optional, Tuple

from .faults import Fault
from .report import ACCEPT, KINDS, PAST, REJECT, UNKNOWN, Leaf, Report, shares_text
from .values import exact, near, read_number

WIDTH, LEFT, TOP, SIDE, BAR = 720, 110, 118, 560, 90
CANVAS, BORDERED = 2**20, 2**14
"""Units along a side of the field, and how long both sides of a leaf with a border are at least."""
LOOKS = {
    ACCEPT: ('#8fb8ea', ''),
    REJECT: (
        '#f3b98a',
        '<path d="M0 20000L20000 0M-5000 5000L5000 -5000M15000 25000L25000 15000" stroke="#b5550f" '
        'stroke-width="3000"/>',
    ),
    UNKNOWN: ('#ffffff', '<circle cx="10000" cy="10000" r="2500" fill="#555"/>'),
}
"""Of a kind the colour, and what is drawn over it, so that kinds are told apart in grey, too."""
MOST_DIGITS = 12
"""Of a number at a mark."""
Axes = Tuple[Optional[int], Optional[int]]
Mark = Tuple[Fraction, Fraction, str]
"""Where it stands, in parts of the axis; its number, and how that is shown."""


def axes_of(report: Report, x: Optional[str] = None, y: Optional[str] = None) -> Axes:
    """The places of the parameters from left to right and from below up: those that are named, else the first ones that
    a row depends on."""
    for name in (x, y):
        if name is not None and name not in report.parameters:
            raise Fault('the report has no parameter %s; it has %s' % (name, ', '.join(report.parameters) or 'none'))
    if x is not None and x == y:
        raise Fault('both axes are to be %s' % x)
    free = [name for name in report.live if name not in (x, y)]
    first = x or (free.pop(0) if free else None)
    second = y or (free.pop(0) if free else None)
    places: Dict[Optional[str], int] = {name: place for place, name in enumerate(report.parameters)}
    return places.get(first), places.get(second)


def svg(report: Report, x: Optional[str] = None, y: Optional[str] = None) -> str:
    """The picture over two parameters; others are at the middles of their intervals."""
    axes = axes_of(report, x, y)
    cuts = _cuts(report, axes)
    side = BAR if axes[1] is None else SIDE
    title, shares = escape(report.verdict_line), escape(shares_text(report))
    marks = [_marks(report, axis) for axis in axes]
    below = TOP + side + 62
    lines = [
        '<svg xmlns="http://www.w3.org/2000/svg" viewBox="0 0 %d %d" role="img" font-family="sans-serif" '
        'font-size="14">' % (WIDTH, below + 20 * len(cuts)),
        '<title>%s</title>' % title,
        '<desc>%s</desc>' % shares,
        '<defs>%s</defs>' % ''.join(map(_pattern, KINDS)),
        '<rect width="100%" height="100%" fill="#fff"/>',
        '<text x="20" y="28" font-size="16" font-weight="bold">%s</text>' % escape(report.question),
        '<text x="20" y="50">%s</text>' % escape('%s: %s' % (report.verdict, shares)),
        *_legend(),
        *_field(report, axes, cuts, side),
        *_axis_across(report, axes[0], marks[0], TOP + side),
        *_axis_up(report, axes[1], marks[1], side),
    ]
    if any(read_number(text) != value for _, value, text in marks[0] + marks[1]):
        lines.append('<text x="20" y="%d" font-size="11">ticks are rounded</text>' % (TOP + side + 42))
    for place, (parameter, end) in enumerate(cuts.items()):
        name, value = report.parameters[parameter], report.user_value(parameter, end)
        lines.append('<text x="20" y="%d">at %s = %s</text>' % (below + 10 + 20 * place, name, exact(value)))
    return '\n'.join([*lines, '</svg>', ''])


def _cuts(report: Report, axes: Axes) -> Dict[int, Fraction]:
    """The middles of the parameters on no axis that a row depends on, over the report's grid."""
    places = [report.parameters.index(name) for name in report.live]
    return {each: Fraction(sum(report.box[2 * each : 2 * each + 2]), 2) for each in places if each not in axes}


def _pattern(kind: str) -> str:
    colour, mark = LOOKS[kind]
    return (
        '<pattern id="%s" width="20000" height="20000" patternUnits="userSpaceOnUse">'
        '<path d="M0 0h20000v20000H0z" fill="%s"/>%s</pattern>' % (PAST[kind], colour, mark)
    )


def _legend() -> List[str]:
    lines = []
    for place, kind in enumerate(KINDS):
        across = 20 + 140 * place
        lines.append(
            '<svg x="%d" y="70" width="26" height="18" viewBox="0 0 52429 36298"><path d="M0 0h52429v36298H0z" '
            'fill="url(#%s)" stroke="#000" stroke-width="1500"/></svg>' % (across, PAST[kind])
        )
        lines.append('<text x="%d" y="84">%s</text>' % (across + 34, PAST[kind]))
    return lines


def _band(report: Report, axis: Optional[int], leaf: Leaf, whole: int) -> Tuple[int, int]:
    """From where to where a leaf reaches on an axis; all over the field where the axis has no parameter."""
    if axis is None:
        return 0, whole
    low, high = report.box[2 * axis : 2 * axis + 2]
    return tuple((end - low) * CANVAS // (high - low) for end in leaf.ends[2 * axis : 2 * axis + 2])  # type: ignore


def _field(report: Report, axes: Axes, cuts: Dict[int, Fraction], side: int) -> List[str]:
    paths: Dict[str, List[str]] = {kind: [] for kind in KINDS}
    borders, tall = [], CANVAS * side // SIDE
    for leaf in report.leaves():
        if not all(_meets(report, leaf, parameter, end) for parameter, end in cuts.items()):
            continue
        (left, right), (low, high) = _band(report, axes[0], leaf, CANVAS), _band(report, axes[1], leaf, tall)
        outline = 'M%d %dH%dV%dH%dz' % (left, tall - low, right, tall - high, left)
        paths[leaf.kind].append(outline)
        if min(right - left, high - low) >= BORDERED:
            borders.append(outline)
    lines = [
        '<svg x="%d" y="%d" width="%d" height="%d" viewBox="0 0 %d %d" preserveAspectRatio="none">'
        % (LEFT, TOP, SIDE, side, CANVAS, tall)
    ]
    lines += ['<path fill="url(#%s)" d="%s"/>' % (PAST[kind], ''.join(path)) for kind, path in paths.items() if path]
    lines.append(
        '<path fill="none" stroke="#14202d" stroke-opacity=".4" stroke-width="1500" d="%s"/>' % ''.join(borders)
    )
    frame = '<rect x="%d" y="%d" width="%d" height="%d" fill="none" stroke="#000"/>' % (LEFT, TOP, SIDE, side)
    return [*lines, '</svg>', frame]


def _meets(report: Report, leaf: Leaf, parameter: int, end: Fraction) -> bool:
    """Whether a leaf has a parameter's value; on a side that two leaves share it belongs to the upper one."""
    low, high = leaf.ends[2 * parameter : 2 * parameter + 2]
    return low <= end and (end < high or high == report.box[2 * parameter + 1])


def _marks(report: Report, axis: Optional[int]) -> List[Mark]:
    """Where marks stand, in parts of the axis, and their numbers: exact ones, rounded where they are long; none where
    more digits tell them apart than have room."""
    if axis is None:
        return []
    low, high = (Fraction(end) for end in report.box[2 * axis : 2 * axis + 2])
    quarters = [Fraction(quarter, 4) for quarter in range(5)]
    values = [report.user_value(axis, low + (high - low) * part) for part in quarters]
    for digits in range(5, MOST_DIGITS + 1):
        texts = [near(value, digits) for value in values]
        if len(set(texts)) == len(texts):
            return list(zip(quarters, values, texts))
    return []


def _name(report: Report, axis: int, marks: List[Mark]) -> str:
    """What an axis is called: its parameter, which has its exact interval where there are no marks."""
    low, high = (exact(report.user_value(axis, Fraction(end))) for end in report.box[2 * axis : 2 * axis + 2])
    return report.parameters[axis] if marks else '%s from %s to %s' % (report.parameters[axis], low, high)


def _axis_across(report: Report, axis: Optional[int], marks: List[Mark], bottom: int) -> List[str]:
    if axis is None:
        return []
    lines = ['<g font-size="12" text-anchor="middle">']
    for part, _, text in marks:
        across = LEFT + float(part) * SIDE
        lines.append(
            '<path d="M%g %dv6" stroke="#000"/><text x="%g" y="%d">%s</text>'
            % (across, bottom, across, bottom + 20, text)
        )
    name = '<text x="%d" y="%d" text-anchor="middle">%s</text>' % (
        LEFT + SIDE // 2,
        bottom + 42,
        _name(report, axis, marks),
    )
    return [*lines, '</g>', name]


def _axis_up(report: Report, axis: Optional[int], marks: List[Mark], side: int) -> List[str]:
    if axis is None:
        return []
    lines = ['<g font-size="12" text-anchor="end">']
    for part, _, text in marks:
        down = TOP + side - float(part) * side
        lines.append(
            '<path d="M%d %gh-6" stroke="#000"/><text x="%d" y="%g">%s</text>' % (LEFT, down, LEFT - 10, down + 4, text)
        )
    name = '<text x="20" y="%d">%s</text>' % (TOP - 6, _name(report, axis, marks))
    return [*lines, '</g>', name]
