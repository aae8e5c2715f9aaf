"""The test of a fit: reach of both models, computed from the two texts at sampled valuations, has to be the same."""

from __future__ import annotations

import random
from fractions import Fraction
from typing import Dict, List, NamedTuple, Optional, Sequence, Set, Tuple

from .expressions import Numbers, Symbols, read_symbols
from .polynomials import UNIT, Box, Polynomial
from .reach import PRIME, Chain, TooDense, Work, reach
from .refusal import Difference
from .source import Names, Source
from .told import counted

MOST_STATES, MOST_FITTED = 2_000, 20_000
"""Larger models aren't compared as a whole: as they were read, and as they were fitted."""
FEW_STATES, MOST_VALUATIONS, FEW_VALUATIONS, MOST_TRIES = 200, 10, 3, 200
MOST_WORK = 2**22
"""Products that all eliminations take together: where there would be more, no further valuation is tried."""
SEED = 1
NOISE = 1e-9
"""What is above that by floating-point numbers is above 0."""
TOO_LARGE = 'not tested as a whole: reach is computed of at most %d states; each choice was multiplied out and compared'
TOO_DENSE = 'not tested as a whole: the model is connected too densely; each choice was multiplied out and compared'
Row = Tuple[List[int], List[bytes]]


class Plain(NamedTuple):
    """A model as it stands in a text: for each state its choices, with targets and values as they are written."""

    rows: List[List[Row]]
    labels: List[Set[bytes]]
    names: Names
    symbols: Dict[bytes, Symbols]
    polynomials: List[Polynomial]
    """The values multiplied out."""


class Asked(NamedTuple):
    """What is compared: a goal by its name, and in both models the goal's states and, of an until, the safe ones."""

    name: str
    goals: Tuple[Set[int], Set[int]]
    safe: Optional[Tuple[Set[int], Set[int]]] = None


class Pair(NamedTuple):
    """Two models, and which state of the first each of the second stands for; none for those in between. The second
    declares the parameters of the first that are listed."""

    before: Plain
    after: Plain
    places: Dict[int, int]
    parameters: Sequence[int]


def as_read(source: Source) -> Plain:
    """A model as it was read; values that were rounded are those that they became."""
    names = [name.decode('latin-1') for name in source.names.parameters]

    def texts(values: List[int]) -> List[bytes]:
        return [source.pool[value].text(names).encode('latin-1') for value in values]

    choices = [state.choices for state in source.states]
    rows = [[(choice.targets, choice.texts or texts(choice.values)) for choice in each] for each in choices]
    symbols = {text: source.names.cut(text) for text in {text for each in rows for _, row in each for text in row}}
    values = {value for each in choices for choice in each for value in choice.values}
    polynomials = [source.pool[value] for value in sorted(values)]
    return Plain(rows, [set(state.labels) for state in source.states], source.names, symbols, polynomials)


def compare(pair: Pair, asked: Sequence[Asked], box: Optional[Box]) -> str:
    """Compares reach in both, and says what was compared."""
    if not asked:
        return 'not tested: there is no label to be reached'
    draw, work = random.Random(SEED), Work(MOST_WORK)
    due = MOST_VALUATIONS if len(pair.before.rows) <= FEW_STATES else FEW_VALUATIONS
    count = 0
    try:
        for count in range(due + 1):
            valuation = _valuation(pair, box, draw) if count < due else None
            if valuation is None:
                break
            _compare(pair, asked, _Place(valuation, draw, work))
    except TooDense:
        if not count:
            return TOO_DENSE
    where = 'of the region' if box else 'from 0 to 1'
    if not count:
        about = 'not tested: no valuation %s was found at which all choices are distributions'
        return about % where + ('' if box else '; --region says where they are')
    return (
        'tested: from each of %s reach of %s is the same in both texts, computed exactly (modulo 2^61-1) at %s %s%s'
        % (
            counted(len(pair.places), 'state'),
            ', '.join('`%s`' % one.name for one in asked),
            counted(count, 'valuation'),
            where,
            ', the choices drawn at random' if any(len(choices) > 1 for choices in pair.before.rows) else '',
        )
    )


def _valuation(pair: Pair, box: Optional[Box], draw: random.Random) -> Optional[List[Fraction]]:
    """Values of the parameters at which all choices are distributions."""
    for tried in range(MOST_TRIES):
        scale = Fraction(1, 1 if box else 10 ** (tried // 20))
        valuation = []
        for index in range(len(pair.before.names.parameters)):
            low, high = (box or {}).get(index, UNIT)
            valuation.append(low + (high - low) * scale * Fraction(draw.randint(1, 996), 997))
        if _are_shares(pair.before, valuation):
            return valuation
    return None


def _are_shares(model: Plain, valuation: Sequence[Fraction]) -> bool:
    """Whether no value is below 0 there."""
    near = [float(value) for value in valuation]
    return all(value.near(near) > NOISE or value.at(valuation) >= 0 for value in model.polynomials)


class _Place(NamedTuple):
    """A valuation, by what choices are drawn there, and how much work there may be."""

    valuation: List[Fraction]
    draw: random.Random
    work: Work


def _compare(pair: Pair, asked: Sequence[Asked], at: _Place) -> None:
    """Compares reach at one valuation, for choices that are drawn."""
    valuation, draw, work = at
    own = [valuation[place] for place in pair.parameters]
    if not _are_shares(pair.after, own):
        raise Difference('a value is below 0')
    picks = [draw.randrange(len(choices)) for choices in pair.before.rows]
    picked = [picks[pair.places[place]] if place in pair.places else 0 for place in range(len(pair.after.rows))]
    chains = (
        _chain(pair.before, picks, pair.before.names.remainders(valuation, PRIME)),
        _chain(pair.after, picked, pair.after.names.remainders(own, PRIME)),
    )
    for one in asked:
        before, after = (reach(_kept(chains[side], one, side), one.goals[side], work) for side in (0, 1))
        for place, old in pair.places.items():
            if before[old] != after[place]:
                raise Difference('reach of %s from state %d' % (one.name, place))


def _chain(model: Plain, picks: Sequence[int], numbers: Numbers) -> Chain:
    """The model at a valuation, as it is where choices are made so."""
    known = {text: read_symbols(symbols, numbers) % PRIME for text, symbols in model.symbols.items()}
    rows = [choices[pick] for choices, pick in zip(model.rows, picks)]
    return [[(target, known[text]) for target, text in zip(*row) if known[text]] for row in rows]


def _kept(chain: Chain, asked: Asked, side: int) -> Chain:
    """The chain of an until, in which a run ends where it leaves the safe states."""
    if asked.safe is None:
        return chain
    on = asked.safe[side] | asked.goals[side]
    return [row if state in on else [] for state, row in enumerate(chain)]
