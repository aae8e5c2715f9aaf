"""Rows that don't sum to one, and the simplest fractions near their numbers that do."""

from __future__ import annotations

from fractions import Fraction
from typing import Callable, Dict, List, Optional, Sequence, Tuple, Union

from .polynomials import ONE, Monomial, Polynomial, common_multiple, is_one, total
from .refusal import Unfit, shown
from .source import Choice, Source
from .told import Told

WITHIN = Fraction(1, 10**12)
"""How far a number is moved at most, and then by no more than a millionth of itself."""
GRID, FEW = 10**13, 1000
"""The denominator that rows have in common where the simplest numbers don't do, and one that does no harm."""
MOST_SIZE, HUGE = 2**62, 10**300


def tolerance(value: Fraction) -> Fraction:
    """How far a number may be moved: so a small one doesn't become 0."""
    return min(WITHIN, abs(value) / 10**6)


def simplest(value: Fraction, within: Fraction) -> Fraction:
    """The fraction with the least denominator that is so near."""
    if value < 0:
        return -simplest(-value, within)
    low, high = value - within, value + within
    if low <= 0:
        return Fraction(0)
    whole: List[int] = []
    while True:  # the interval's continued fraction, as far as both ends share it
        floor = low.numerator // low.denominator
        if floor == low or floor + 1 <= high:
            whole.append(floor if floor == low else floor + 1)
            break
        whole.append(floor)
        low, high = 1 / (high - floor), 1 / (low - floor)
    found = Fraction(whole.pop())
    while whole:
        found = whole.pop() + 1 / found
    return found


def rounded(values: Sequence[Fraction], due: Fraction, is_coarse: bool) -> Optional[List[Fraction]]:
    """Numbers near these whose sum is due: the simplest ones where these do, else ones on a grid of decimals."""
    found = [simplest(value, tolerance(value)) for value in values]
    if not is_coarse and sum(found) == due:
        return found
    for place, value in enumerate(values):
        if abs(value) * GRID > 10**6 and found[place].denominator > FEW:
            found[place] = Fraction(round(value * GRID), GRID)
    most = max(range(len(values)), key=lambda place: abs(values[place]))
    found[most] = due - sum(value for place, value in enumerate(found) if place != most)
    is_near = all(abs(new - old) <= tolerance(old) for old, new in zip(values, found))
    return found if is_near else None


def rounded_row(values: Sequence[Polynomial], is_coarse: bool = False) -> Optional[List[Polynomial]]:
    """Values near these that sum to one, coefficient by coefficient; none where there are none."""
    coefficients = [value.coefficients for value in values]
    monomials: Dict[Monomial, Fraction] = {monomial: Fraction(0) for each in coefficients for monomial in each}
    monomials[()] = Fraction(1)
    parts: List[Dict[Monomial, Fraction]] = [{} for _ in values]
    for monomial, due in monomials.items():
        places = [place for place, each in enumerate(coefficients) if monomial in each]
        if not places:
            return None
        new = rounded([coefficients[place][monomial] for place in places], due, is_coarse)
        if new is None:
            return None
        for place, value in zip(places, new):
            parts[place][monomial] = value
    return [Polynomial.of(each) for each in parts]


def _rewrite(
    source: Source, told: Told, new_row: Callable[[Choice, List[Polynomial]], Optional[List[Polynomial]]]
) -> None:
    """Puts new values in the place of those of each row, where there are any; equal rows have the same."""
    known: Dict[Tuple[int, ...], Optional[List[int]]] = {}
    polynomials = source.pool.polynomials
    for choice in source.choices:
        key = tuple(choice.values)
        if key not in known:
            new = new_row(choice, [polynomials[value] for value in key])
            known[key] = None if new is None else [source.pool.add(value) for value in new]
        if known[key] is not None:
            _replace(source, choice, known[key], told)


def settle(source: Source, is_rounded: bool, told: Told) -> None:
    """Sees to it that each row sums to one, and by rounding that numbers aren't too long."""

    def summing(choice: Choice, values: List[Polynomial]) -> Optional[List[Polynomial]]:
        """A row that sums to one, in the place of one that doesn't."""
        if is_one(values):
            return None
        new = rounded_row(values) if is_rounded else None
        if new is None:
            raise _missed(source, choice, is_rounded)
        return new

    _rewrite(source, told, summing)
    for is_coarse in (False, True):
        if is_rounded and _is_long(source):
            _shorten(source, is_coarse, told)


def _is_long(source: Source) -> bool:
    """Whether some number has more digits than the program takes, or all together have."""
    below = 1
    for value in {value for choice in source.choices for value in choice.values}:
        polynomial = source.pool[value]
        below = common_multiple((below, polynomial.below))
        if below >= MOST_SIZE or is_wide(polynomial):
            return True
    return False


def _shorten(source: Source, is_coarse: bool, told: Told) -> None:
    """Rounds rows that have long numbers."""

    def short(_: Choice, values: List[Polynomial]) -> Optional[List[Polynomial]]:
        """The row rounded, where its numbers are long."""
        return None if all(value.below <= FEW for value in values) else rounded_row(values, is_coarse)

    _rewrite(source, told, short)


def is_wide(value: Polynomial) -> bool:
    """Whether a value has numbers of 2^62 or more, over its least common denominator."""
    return value.below >= MOST_SIZE or value.size >= MOST_SIZE


def _replace(source: Source, choice: Choice, new: Optional[List[int]], told: Told) -> None:
    """Writes other values into a row, if there are any, and tells each."""
    if new is None or new == choice.values:
        return
    names = [name.decode('latin-1') for name in source.names.parameters]
    for place, (old, value) in enumerate(zip(choice.values, new)):
        if old != value:
            text: Union[bytes, str] = choice.texts[place] if choice.texts else source.pool[old].text(names)
            told.change(
                'numbers are rounded to the simplest fractions whose rows sum to one',
                'it isn\'t: no number was moved by more than 10^-12 or by more than a millionth of itself, but the '
                'model is another one, and what is proved is proved of that',
                '%s: %s is %s' % (choice.where, shown(text), shown(source.pool[value].text(names))),
            )
    choice.values, choice.texts = new, []


def _missed(source: Source, choice: Choice, is_rounded: bool) -> Unfit:
    """Why a row isn't a distribution."""
    names = [name.decode('latin-1') for name in source.names.parameters]
    missed = total([source.pool[value] for value in choice.values] + [-ONE])
    about = '%s misses 1 by %s' % (choice.where, shown(missed.text(names), 80))
    if missed.is_constant:
        gap = abs(missed.constant)
        sign, way = ('+', 'above') if missed.constant > 0 else ('-', 'below')
        size = float(gap) if gap < HUGE else float('inf')
        about = '%s sums to 1 %s %s, about %.3g %s 1' % (choice.where, sign, shown(str(gap), 80), size, way)
    is_near = all(abs(value) <= len(choice.values) * WITHIN for value in missed.coefficients.values())
    advice = '; --round finds numbers near by that sum to 1' if is_near else ''
    return Unfit(choice.line, 'RowSum', about + (', and no numbers within 10^-12 do' if is_rounded else advice))
