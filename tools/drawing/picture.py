"""The picture of a slice, as SVG, with the look of plift-view's (docs/FORMATS.md)."""

from __future__ import annotations

from fractions import Fraction
from html import escape
from typing import List, Optional, Tuple

from .leaves import ACCEPT, FAILS, HOLDS, REJECT, UNKNOWN, Leaf, Map, Span
from .slices import Slice, meets

CANVAS = 2**20
BORDERED = 2**14  # a side of a leaf with a border is at least so long
LONGEST = 24  # bytes of a name that is shown whole
WORDS = {ACCEPT: "accepted", REJECT: "rejected", HOLDS: HOLDS, FAILS: FAILS, UNKNOWN: UNKNOWN}
SIDES = {"<=": "at most", "<": "below", ">=": "at least", ">": "above"}
# Of what says yes, of what says no, and of what tells nothing: the colour, and what is drawn over it.
YES = ("#56b4e9", "")
NO = (
    "#b04a00",
    '<path d="M0 20000L20000 0M-5000 5000L5000 -5000M15000 25000L25000 15000" stroke="#fff" stroke-width="3000"/>',
)
OPEN = ("#fff", '<circle cx="10000" cy="10000" r="2500" fill="#555"/>')
LOOKS = {ACCEPT: YES, HOLDS: YES, REJECT: NO, FAILS: NO, UNKNOWN: OPEN}
PLACES = (20, 160, 300)  # in the legend
RESCALED = "; parameters from 0 to 1 in the report, here in your own numbers"
ACROSS, UPRIGHT = 0, 1
NAME = ('<text x="400" y="42" text-anchor="middle">', '<text x="20" y="126">')
ENDS = ('<text x="400" y="60" font-size="11" text-anchor="middle">', '<text x="20" y="144" font-size="11">')
TICKS = (
    '<path d="M140 0v6M270 0v6M400 0v6M530 0v6M660 0v6" stroke="#000"/>\n<g font-size="12" text-anchor="middle">',
    '<path d="M140 156h-6M140 286h-6M140 416h-6M140 546h-6M140 676h-6" stroke="#000"/>\n'
    '<g font-size="12" text-anchor="end">',
)
ROUNDED = '<text x="20" y="42" font-size="11">ticks are rounded</text>'


def percent(share: Fraction) -> str:
    """In percent with four digits, rounded down."""
    millionths = int(share * 1000000)
    return f"{millionths // 10000}.{millionths % 10000:04} %"


def asked(map_: Map) -> str:
    """What was asked."""
    within = "" if map_.steps is None else f" within {map_.steps} step{'s' * (map_.steps > 1)}"
    precisions = f"2^{map_.precision}" if map_.least == map_.precision else f"2^{map_.least} to 2^{map_.precision}"
    label = map_.beside.label
    reach = "" if label is None else f"P( reach {escape(label)} ) "
    what, cap = (reach, "") if map_.cap is None else ("expected cost ", f", cap {map_.cap}")
    bound = f"{SIDES[map_.op]} {map_.bound[0]}/{map_.bound[1]}{within}{cap}"
    return f"{what}{bound}, numbers over {precisions}, depth {map_.depth}"


def word(map_: Map, kind: str) -> str:
    """What is said of a kind."""
    return "within budget" if map_.cap is not None and kind == ACCEPT else WORDS[kind]


def shares(map_: Map) -> str:
    """The share of each kind."""
    return (
        ", ".join(f"{word(map_, kind)} {percent(map_.share(kind))}" for kind in map_.kinds)
        + " of the volume, rounded down"
    )


def height(slice_: Slice) -> int:
    """Of the whole picture: a bar is low, and each value of a parameter has a line."""
    return (268 if slice_.y is None else 748) + 20 * len(slice_.cuts)


def start(map_: Map, slice_: Slice) -> List[str]:
    """What names and describes the picture, and the patterns of the kinds."""
    lines = [
        f'<svg xmlns="http://www.w3.org/2000/svg" viewBox="0 0 720 {height(slice_)}" role="img"'
        ' font-family="sans-serif" font-size="14">',
        f"<title>{asked(map_)}</title>",
        f"<desc>{shares(map_)}</desc>",
        "<defs>",
    ]
    for kind in map_.kinds:
        colour, mark = LOOKS[kind]
        lines.append(
            f'<pattern id="{WORDS[kind]}" width="20000" height="20000" patternUnits="userSpaceOnUse">'
            f'<path d="M0 0h20000v20000H0z" fill="{colour}"/>{mark}</pattern>'
        )
    return [*lines, "</defs>", '<rect width="720" height="100%" fill="#fff"/>']


def legend(map_: Map) -> List[str]:
    """A box and a word for each kind."""
    lines = ['<g stroke="#000" stroke-width="1500">']
    for kind, place in zip(map_.kinds, PLACES):
        lines.append(
            f'<svg x="{place}" y="84" width="26" height="18" viewBox="0 0 52429 36298">'
            f'<path d="M0 0h52429v36298H0z" fill="url(#{WORDS[kind]})"/></svg>'
        )
    lines.append("</g>")
    return lines + [
        f'<text x="{place + 34}" y="98">{word(map_, kind)}</text>' for kind, place in zip(map_.kinds, PLACES)
    ]


def title(map_: Map) -> List[str]:
    """What was asked, of which model, and the shares of the kinds."""
    kind = "Markov chain" if map_.is_chain else "Markov decision process"
    scaled = RESCALED if map_.beside.scale else ""
    return [
        f'<text x="20" y="26" font-size="15" font-weight="bold">{asked(map_)}</text>',
        f'<text x="20" y="48">{kind}, states: {map_.states}{scaled}</text>',
        f'<text x="20" y="70">{shares(map_)}</text>',
    ]


def canvas_place(root: Span, end: int) -> int:
    """Where an end of a span stands on the canvas."""
    return min(abs(end - root[0]) * CANVAS // max(abs(root[1] - root[0]), 1), CANVAS)


def band(map_: Map, axis: Optional[int], leaf: Leaf) -> Tuple[int, int]:
    """From where to where a leaf reaches along an axis: all along where no parameter lies on it."""
    if axis is None:
        return 0, CANVAS
    low, high = leaf.spans[axis]
    return canvas_place(map_.root[axis], low), canvas_place(map_.root[axis], high)


def outline(map_: Map, slice_: Slice, leaf: Leaf) -> str:
    """A leaf's rectangle; the canvas counts from above down."""
    (left, right), (low, high) = band(map_, slice_.x, leaf), band(map_, slice_.y, leaf)
    return f"M{left} {CANVAS - low}H{right}V{CANVAS - high}H{left}z"


def has_border(map_: Map, slice_: Slice, leaf: Leaf) -> bool:
    """Whether a leaf is so large that a border leaves its colour to be seen."""
    return all(to - of >= BORDERED for of, to in (band(map_, slice_.x, leaf), band(map_, slice_.y, leaf)))


def field(map_: Map, slice_: Slice) -> List[str]:
    """The rectangles that meet the slice, a path for each kind: a bar, or a square where there is an upright axis."""
    top, size = (116, 80) if slice_.y is None else (156, 520)
    lines = [
        f'<svg x="140" y="{top}" width="520" height="{size}" viewBox="0 0 {CANVAS} {CANVAS}"'
        ' preserveAspectRatio="xMinYMin slice">'
    ]
    shown = [leaf for leaf in map_.leaves if meets(map_, slice_.cuts, leaf)]
    for kind in map_.kinds:
        rectangles = "".join(outline(map_, slice_, leaf) for leaf in shown if leaf.kind == kind)
        lines.append(f'<path fill="url(#{WORDS[kind]})" d="{rectangles}"/>')
    borders = "".join(outline(map_, slice_, leaf) for leaf in shown if has_border(map_, slice_, leaf))
    lines.append(f'<path fill="none" stroke="#000" stroke-width="1000" d="{borders}"/>')
    frame = f'<rect x="140" y="{top}" width="520" height="{size}" fill="none" stroke="#000"/>'
    return [*lines, "</svg>", frame, f'<g transform="translate(0 {top + size})">']


def label(name: str) -> str:
    """A name, shortened in its middle where it is long, and whole for who points at it."""
    short = name if len(name) <= LONGEST else f"{name[:11]}&#8230;{name[-12:]}"
    return f"<title>{name}</title>{short}"


def places(low: Fraction, high: Fraction) -> Optional[int]:
    """How many decimal places the ticks have, three, six or nine: the fewest in which a quarter of the interval is ten
    units or more. None where nine are too few, or an end has more than four digits before them."""
    if max(abs(low), abs(high)) >= 10000:
        return None
    return next((count for count in (3, 6, 9) if 40 <= (high - low) * 10**count), None)


def rounded(value: Fraction, count: int) -> str:
    """A number with so many decimal places."""
    units = (2 * abs(value.numerator) * 10**count + value.denominator) // (2 * value.denominator)
    return f"{'-' * (value < 0)}{units // 10**count}.{units % 10**count:0{count}}"


def ticks(map_: Map, side: int, axis: int) -> List[str]:
    """Five marks with their numbers."""
    low, high = map_.interval(axis, map_.root[axis])
    count = places(low, high)
    if count is None:
        return []
    lines = [TICKS[side]]
    for quarter in range(5):
        at = f'x="{140 + 130 * quarter}" y="20"' if side == ACROSS else f'x="130" y="{680 - 130 * quarter}"'
        value = (low * (4 - quarter) + high * quarter) / 4
        lines.append(f"<text {at}>{rounded(value, count)}</text>")
    return [*lines, "</g>"]


def note(map_: Map, slice_: Slice) -> List[str]:
    """That ticks are rounded, once for both axes, where there are some."""
    shown = (axis for axis in (slice_.x, slice_.y) if axis is not None)
    return [ROUNDED] if any(places(*map_.interval(axis, map_.root[axis])) for axis in shown) else []


def axis_lines(map_: Map, side: int, axis: Optional[int]) -> List[str]:
    """An axis' name, its exact ends and its ticks."""
    if axis is None:
        return []
    low, high = map_.interval(axis, map_.root[axis])
    return [
        f"{NAME[side]}{label(map_.names[axis])}</text>",
        f"{ENDS[side]}from {low} to {high}</text>",
        *ticks(map_, side, axis),
    ]


def cuts(map_: Map, slice_: Slice) -> List[str]:
    """The values of the other parameters, each on its line."""
    told = [
        f"{label(map_.names[parameter])} = {map_.user(parameter, value)}" for parameter, value in slice_.cuts.items()
    ]
    return [f'<text x="20" y="{84 + 20 * place}" font-size="13">{one}</text>' for place, one in enumerate(told)]


def svg_text(map_: Map, slice_: Slice) -> str:
    """The picture: title, legend, field and axes."""
    lines = [
        *start(map_, slice_),
        *title(map_),
        *legend(map_),
        *axis_lines(map_, UPRIGHT, slice_.y),
        *field(map_, slice_),
    ]
    lines += [*axis_lines(map_, ACROSS, slice_.x), *note(map_, slice_), *cuts(map_, slice_), "</g>", "</svg>"]
    return "".join(f"{line}\n" for line in lines)
