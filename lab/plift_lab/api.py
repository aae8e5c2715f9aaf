"""The library: what the commands do, for notebooks and scripts.

    from plift_lab import verify, bounds, threshold, read, Report
"""

from __future__ import annotations

from dataclasses import dataclass, field, replace
from fractions import Fraction
from pathlib import Path
from typing import Any, List, Mapping, Optional, Sequence, Union

from .costs import with_cap
from .cover import cover
from .edge import Edge, find_edge
from .evidence import read_file
from .faults import Fault
from .forms import Asked, Form, read_formula
from .models import Model
from .regions import Region
from .report import UNKNOWN, Report
from .points import Points
from .search import Desk, Search, Side
from .session import Question, Session
from .values import exact, near, percent, read_bound, read_part, read_share

Number = Union[str, int, Fraction]
Source = Union[str, Path, bytes]
Place = Union[str, Region, Mapping[str, Union[Number, Sequence[Number]]]]


@dataclass(frozen=True, repr=False)
class Bounds:
    """Supremum and infimum of a probability over a region (or the supremum of a cost).

    `sup` and `inf` each have `least` and `most`, fractions between which they lie; `witness`, the point (or region) and
    the number that shows one of the two; `cover`, regions with their numbers that show the other; `short`, why a width
    wasn't reached, and `rounding`, what the bits leave. In a notebook it shows a table.
    """

    sup: Side
    inf: Side
    goal: str
    form: Form
    precision: int
    calls: int
    is_process: bool
    """Whether the model is a decision process: then both are of what the best choices reach (or those that reach
    least)."""
    judges: List[str]
    """Who judged the reports."""
    holder: Any = field(default=None, repr=False, compare=False)
    """Keeps a folder that nobody named, as long as this is there."""

    def __repr__(self) -> str:
        sides = ('%s from %s to %s' % (one.name, near(one.least), near(one.most)) for one in (self.sup, self.inf))
        return 'Bounds(%s: %s)' % (self.form.measured(self.goal, self.is_process), ', '.join(sides))

    def _repr_html_(self) -> str:
        from .shown import bounds_html

        return bounds_html(self)


def _is_rounded_off(least: Fraction, most: Fraction) -> bool:
    """Whether one end says nothing and the other one little, so that rounding may be all that is between."""
    return 0 < most - least < Fraction(1, 1000) and (least == 0 or most == 1)


def find_bounds(session: Session, question: Question, width: Optional[Fraction], calls: int) -> Bounds:
    """Asks for numbers until both sides are known to the width, or so many questions were asked."""
    question.region.fit(question.model.parameters)

    def tell(name: str, side: Side) -> None:
        session.progress.say(
            '%s between %s and %s after %d questions' % (name, near(side.least), near(side.most), session.asked)
        )

    session.allow(calls)
    is_cost, whole = question.form.reward is not None, question.region
    if is_cost:
        question = with_cap(session, question)
    desk = Desk(session, question, tell)
    first = session.ask(replace(desk.question, bound=Fraction(question.form.unit)))
    upper = desk.high(whole)
    lower = replace(upper, value=Fraction(0)) if is_cost else desk.low(whole)
    sup = Side('sup', (whole, lower), [(whole, upper)], is_shown=not is_cost)
    inf = Side('inf', (whole, upper), [(whole, lower)])
    points = Points(whole, [name for name in whole.names if name in first.live], desk.high)
    if width is None and _is_rounded_off(lower.value, upper.value) and session.asked + 2 <= calls:
        rounding = desk.rounding(points.at(points.middle_of(whole)))
        sup, inf = replace(sup, rounding=rounding), replace(inf, rounding=rounding)
    if width is not None:
        session.allow((calls - session.asked) // 2)
        sup = Search(desk, points, sup).run(width)
        session.allow(calls - session.asked)
        inf = inf if is_cost else Search(desk, points, inf).run(width)
        for end in points.known.values():
            if end not in (sup.witness[1], inf.witness[1]):
                desk.forget(end)
    is_process = first.kind == 'mdp'
    return Bounds(sup, inf, question.goal, question.form, first.precision, session.asked, is_process, [first.judge])


def find_threshold(
    session: Session, question: Question, parameter: str, width: Optional[Fraction], is_greatest: bool
) -> Edge:
    """The edge of what is accepted, along one parameter."""
    question.region.fit(question.model.parameters)
    low, high = question.region[parameter]

    def tell(good: Fraction, bad: Fraction) -> None:
        session.progress.say('%s between %s and %s' % (parameter, near(good), near(bad)))

    return find_edge(session, question, parameter, width or (high - low) / 1000, is_greatest, tell)


def find_verdict(session: Session, question: Question, share: Optional[Fraction]) -> Report:
    """The report of a question, or of one as deep as it takes to decide a share."""

    def tell(report: Report) -> None:
        decided = percent(1 - report.shares[UNKNOWN])
        session.progress.say(
            '%s of %s is decided, at depth %d' % (decided, percent(share or Fraction(1)), report.depth)
        )

    return session.ask(question) if share is None else cover(session, question, share, tell)


def _model(source: Source) -> Model:
    if isinstance(source, bytes):
        return Model(source)
    text = str(source)
    is_text = isinstance(source, str) and ('\n' in text or text.lstrip().startswith(('@', '//')))
    return Model(text.encode('utf-8', 'surrogateescape') if is_text else read_file(text))


def _number(value: Number) -> Fraction:
    if isinstance(value, float):
        raise Fault('%r is a float, which isn\'t exact: write it as a text, as 0.1 or 1/10' % value)
    return read_part(value) if isinstance(value, str) else Fraction(value)


def _optional(value: Optional[Number]) -> Optional[Fraction]:
    return None if value is None else _number(value)


def _region(region: Place) -> Region:
    """A region from a text, or from a dictionary of parameters."""
    if isinstance(region, (str, Region)):
        return Region.read(region) if isinstance(region, str) else region
    clauses = []
    for name, value in region.items():
        ends = value if isinstance(value, (tuple, list)) else (value,)
        if isinstance(value, str) and '..' in value:
            clauses.append('%s=%s' % (name, value))
        elif 1 <= len(ends) <= 2:
            clauses.append('%s=%s' % (name, '..'.join(exact(_number(end)) for end in ends)))
        else:
            raise Fault('the interval of %s is a pair of numbers, and not %r' % (name, value))
    return Region.read(','.join(clauses))


def _asked(goal: Optional[str], bound: Optional[Number], formula: Optional[str], cap: Optional[int]) -> Asked:
    """What is asked: a goal with a bound, or a formula."""
    if (goal is None) == (formula is None):
        raise Fault('name a goal, or ask a formula, but not both')
    told = None if bound is None else read_bound(exact(_number(bound)))
    if formula is None:
        return Asked(goal or '', told, Form())
    asked = read_formula(formula, cap)
    if told is not None and asked.bound is not None:
        raise Fault('the formula has a bound, and so bound is left out')
    return asked if told is None else asked._replace(bound=told)


def _bound(asked: Asked) -> Fraction:
    if asked.bound is None:
        raise Fault('a bound is due; bounds() tells numbers')
    if asked.form.reward is not None and asked.form.cap is None:
        raise Fault('cap is due, the cost that certificates count up to, above the budget')
    return asked.bound


def verify(
    model: Source,
    goal: Optional[str] = None,
    bound: Optional[Number] = None,
    region: Place = '',
    depth: int = 0,
    precision: Optional[int] = None,
    relative: bool = False,
    coverage: Optional[Number] = None,
    keep: Optional[str] = None,
    least_precision: Optional[int] = None,
    formula: Optional[str] = None,
    cap: Optional[int] = None,
) -> Report:
    """The report that answers whether a bound holds all over a region.

    model: the name of a file with a model text, a `Path`, or the text itself (`str` or `bytes`).
    goal, bound: whether the states labelled so are reached with probability at most the bound, whatever is chosen.
    formula: in their place any other question, as `'P>=0.9 [F "done"]'`; costs take a `cap` besides.
    region: `'p=1/10..3/10,q=1/20'`, or `{'p': ('1/10', '3/10'), 'q': '1/20'}`; a single value is written into the
    model. depth: how often a rectangle is halved where it is neither accepted nor rejected, 0 to 20.
    precision: bits of the numbers in certificates, 1 to 40; as many as there is room for if left out.
    relative: compares sides by what they are of their intervals; where these differ much in scale it is what helps.
    coverage: goes deeper until so much of the region is decided, as `'95%'`.
    keep: a folder for the reports; without it they are kept as long as the answer is.

    Numbers are texts, whole numbers or fractions: a float isn't exact, and is refused. What is asked wrongly raises
    `Fault`, and what plift refuses `Refused`, whose `hints` say what to do.

    >>> from plift_lab import verify
    >>> report = verify('examples/retry.drn', 'lost', '1/40', {'p': ('1/10', '1/2'), 'q': ('1/10', '1/2')}, depth=4)
    >>> report.verdict, report.shares['reject']
    ('mixed', Fraction(3, 4))
    """
    asked = _asked(goal, bound, formula, cap)
    question = Question(
        _model(model),
        asked.goal,
        _bound(asked),
        _region(region),
        depth,
        precision,
        relative,
        least_precision,
        asked.form,
    )
    share = (
        None if coverage is None else read_share(coverage if isinstance(coverage, str) else exact(_number(coverage)))
    )
    with Session(keep, is_lasting=True) as session:
        report = find_verdict(session, question, share)
        report.holder = session.evidence.holder
        return report


def bounds(
    model: Source,
    goal: Optional[str] = None,
    region: Place = '',
    width: Optional[Number] = None,
    precision: Optional[int] = None,
    calls: int = 1000,
    keep: Optional[str] = None,
    formula: Optional[str] = None,
    cap: Optional[int] = None,
) -> Bounds:
    """How much is reached (or spent) at most and at least over a region: numbers, and the reports that show them.

    model, goal, region, precision, keep: as for `verify`.
    formula: `'Pmin=? [F "done"]'`, `'P=? ["up" U "done"]'`, `'P=? [F<=10 "lost"]'`, `'R{"sends"}=? [F "done"]'`.
    width: goes on until supremum and infimum are known so closely, as `'1/1000'` or `'0.1%'`; if left out `sup.most`
    and `inf.least` hold, and nothing more is sought. A width below what rounding leaves isn't reached: `sup.short`
    tells why. calls: starts plift at most so often.

    >>> from plift_lab import bounds
    >>> found = bounds('examples/retry.drn', 'lost', 'p=1/10..3/10,q=1/20..1/5', width='1/1000')
    >>> found.sup.least <= 0.027 <= found.sup.most, found.sup.witness[0].told
    (True, 'p=3/10,q=1/8')
    """
    asked = _asked(goal, None, formula, cap)
    with Session(keep, is_lasting=True) as session:
        question = Question(_model(model), asked.goal, Fraction(1), _region(region), 0, precision, form=asked.form)
        found = find_bounds(session, question, _optional(width), calls)
        return replace(found, holder=session.evidence.holder)


def threshold(
    model: Source,
    goal: Optional[str] = None,
    bound: Optional[Number] = None,
    parameter: str = '',
    region: Place = '',
    width: Optional[Number] = None,
    least: bool = False,
    depth: int = 8,
    precision: Optional[int] = None,
    relative: bool = False,
    keep: Optional[str] = None,
    formula: Optional[str] = None,
    cap: Optional[int] = None,
) -> Edge:
    """Up to which value of a parameter the rest of the region is accepted (with `least`, from which value on).

    width: how closely, a thousandth of the interval if left out. All else is as for `verify`.

    >>> from plift_lab import threshold
    >>> edge = threshold('examples/links.drn', 'lost', '1/20', 'p', 'p=1/10..1/2,q=1/10..1/5')
    >>> edge.good < edge.limit < edge.good + 1
    True
    """
    asked = _asked(goal, bound, formula, cap)
    question = Question(
        _model(model), asked.goal, _bound(asked), _region(region), depth, precision, relative, form=asked.form
    )
    with Session(keep, is_lasting=True) as session:
        edge = find_threshold(session, question, parameter, _optional(width), not least)
        return replace(edge, holder=session.evidence.holder)


def read(report: Union[str, Path]) -> Report:
    """A report from a file, or a text of `bounded`, `property` or `cost`, once its judge has called it sound.

    >>> from plift_lab import read
    >>> read('examples/retry-tree.report')
    Report(mixed: P( reach goal ) <= 1/40 (accepted 6.25 %, rejected 75 %, unknown 18.75 %))
    """
    with Session() as session:
        return session.read(str(report))
