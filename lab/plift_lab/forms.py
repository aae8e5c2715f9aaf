"""What is asked of a goal: a probability or a cost, of which choices, on which way, within how many steps.

    P<=1/40 [F "lost"]           P>=0.9 ["up" U "done"]           P<=5% [F<=10 "lost"]
    Pmin=? [F "done"]            R{"sends"}<=7/5 [F "done"]
"""

from __future__ import annotations

import re
from dataclasses import dataclass, replace
from fractions import Fraction
from typing import List, NamedTuple, Optional

from .faults import Fault
from .values import exact, read_bound, read_number

MOST_STEPS, MOST_CAP = 64, 2**32 - 1
NEGATED = {'<=': '>', '<': '>=', '>=': '<', '>': '<='}
LABEL = r'(?:"([^"]+)"|([A-Za-z_][A-Za-z0-9_]*))'
PATH = re.compile(r'(?:%s\s*U|F)\s*(?:<=\s*([0-9]+))?\s*%s' % (LABEL, LABEL))
FORMULA = re.compile(
    r'(?:P|R\s*\{\s*"([^"]+)"\s*\})\s*(max|min)?\s*(<=|>=|<|>|=\s*\?)\s*([^\[\]]*?)\s*\[\s*(.*?)\s*\]', re.S
)
LIKELY = (
    (
        r'\[\s*G',
        'what is to hold always is asked by what is never to be reached: in place of P>=0.9 [G "up"] write '
        'P<=0.1 [F "down"], with the label down on all states that aren\'t up',
    ),
    (r'\[\s*X', 'the next step is asked for as P<=b [F<=1 "goal"]'),
    (r'^\s*R\s*(min|max)?\s*(<|>|=|\[)', 'name the reward model, as in R{"sends"}<=7/5 [F "done"]'),
    (r'[&|!]', 'a label stands by itself: give the states that are meant a label of their own in the model\'s text'),
    (r'\b(C|S)\s*(<=|\])', 'costs are counted up to a goal, as in R{"sends"}<=7/5 [F "done"]'),
)
"""Signs of what is known from other tools, and what comes near."""
SHAPES = 'write P<=1/40 [F "lost"], P>=0.9 ["up" U "done"], P<=0.1 [F<=10 "lost"] or R{"sends"}<=7/5 [F "done"]'
NUMBERS = 'for a number =? in the place of the bound, as Pmax=? [F "lost"], Pmin=? [F "done"]'


@dataclass(frozen=True)
class Form:
    """All of a question but its model, its goal and its bound."""

    op: str = '<='
    """Which side of the bound is asked for: `>=` and `>` speak of the choices that reach least."""
    safe: Optional[str] = None
    """The label of states by way of which the goal is to be reached."""
    steps: Optional[int] = None
    """Within how many steps."""
    reward: Optional[str] = None
    """The reward model whose cost before the goal is asked for; none for a probability."""
    cap: Optional[int] = None
    """The cost that the greatest number of a certificate stands for."""

    @property
    def command(self) -> str:
        """Of plift, which decides it."""
        if self.reward is not None:
            return 'cost'
        if self.steps is not None:
            return 'bounded'
        return 'verify' if self.op == '<=' and self.safe is None else 'property'

    @property
    def is_of_least(self) -> bool:
        """Whether it speaks of the choices that reach least."""
        return self.op in ('>=', '>')

    @property
    def unit(self) -> int:
        """What a certificate's greatest number stands for."""
        return self.cap or 1

    def of(self, op: str) -> 'Form':
        """The same with another comparison."""
        return replace(self, op=op)

    def path(self, goal: str) -> str:
        """The way to the goal, as a formula has it."""
        way = 'F' if self.safe is None else '"%s" U' % self.safe
        return '%s%s "%s"' % (way, '' if self.steps is None else '<=%d' % self.steps, goal)

    def words(self, goal: str, bound: Fraction) -> List[str]:
        """The program's command line, up to the region."""
        if self.command == 'property':
            return ['property', '--formula', 'P%s%s [%s]' % (self.op, exact(bound), self.path(goal))]
        if self.reward is not None:
            cost = ['--reward', self.reward, '--budget', exact(bound), '--cap', str(self.cap)]
            return ['cost', '--goal', goal, *cost]
        steps = [] if self.steps is None else ['--steps', str(self.steps)]
        return [self.command, '--goal', goal, '--bound', exact(bound), *steps]

    def question(self, goal: str, bound: Fraction) -> str:
        """What is asked, as a line."""
        if self.command == 'verify':
            return 'P( reach %s ) <= %s' % (goal, bound)
        what = 'P' if self.reward is None else 'R{"%s"}' % self.reward
        return '%s%s%s [%s]' % (what, self.op, bound, self.path(goal))

    def measured(self, goal: str, is_process: bool) -> str:
        """What its numbers are of, as a formula."""
        which = ('min' if self.is_of_least else 'max') if is_process else ''
        what = 'P' if self.reward is None else 'R{"%s"}' % self.reward
        return '%s%s=? [%s]' % (what, which, self.path(goal))


class Asked(NamedTuple):
    """A formula that was read: without a bound it asks for numbers."""

    goal: str
    bound: Optional[Fraction]
    form: Form


def read_formula(text: str, cap: Optional[int] = None) -> Asked:
    """Reads a formula. What plift can't decide is refused here, with what comes near."""
    whole = FORMULA.fullmatch(text.strip())
    path = PATH.fullmatch(whole.group(5)) if whole else None
    if not whole or not path:
        known = next((told for sign, told in LIKELY if re.search(sign, text)), '%s; %s' % (SHAPES, NUMBERS))
        raise Fault('the formula %r isn\'t read: %s' % (text, known))
    reward, which, op, number, _ = whole.groups()
    safe, goal, steps = path.group(1) or path.group(2), path.group(4) or path.group(5), path.group(3)
    is_number = op.startswith('=')
    if is_number == bool(number) or which and not is_number:
        raise Fault('the formula %r isn\'t read: a bound stands behind <=, <, >= or >; %s' % (text, NUMBERS))
    if is_number:
        op = '>=' if which == 'min' else '<='
    form = Form(op, safe, None if steps is None else int(steps), reward, cap if reward else None)
    _require_decided(text, form)
    bound = None if is_number else _budget(number, form) if reward else read_bound(number)
    return Asked(goal, bound, form)


def _budget(number: str, form: Form) -> Fraction:
    budget = read_number(number)
    if budget < 0 or budget.denominator >= 2**32 or form.cap is not None and budget > form.cap:
        raise Fault('the budget %s isn\'t between 0 and the cap, or its denominator is 2^32 or more' % number)
    return budget


def _require_decided(text: str, form: Form) -> None:
    """Refuses what no command of plift decides."""
    if form.reward is not None and (form.op != '<=' or form.safe is not None or form.steps is not None):
        raise Fault('%s: of costs plift decides R{"r"}<=b [F "goal"], the most that is expected to be spent' % text)
    if form.steps is not None and (form.op != '<=' or form.safe is not None):
        raise Fault('%s: within a number of steps plift decides P<=b [F<=n "goal"], the most that is reached' % text)
    if form.steps is not None and not 1 <= form.steps <= MOST_STEPS:
        raise Fault('%s: the number of steps is from 1 to %d' % (text, MOST_STEPS))
