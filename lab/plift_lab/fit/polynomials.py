"""Polynomials in the parameters of a model, with exact coefficients."""

from __future__ import annotations

from fractions import Fraction
from itertools import product
from math import gcd
from typing import Dict, Iterable, List, Mapping, Optional, Sequence, Set, Tuple, Union

Monomial = Tuple[Tuple[int, int], ...]
"""The parameters' numbers in order, each with a power above 0."""
Number = Union[int, Fraction]
Box = Mapping[int, Tuple[Fraction, Fraction]]
"""For some parameters the ends between which they lie; any other lies between 0 and 1."""
UNIT = Fraction(0), Fraction(1)


class Polynomial:
    """A sum of monomials, each with a whole number other than 0, over one denominator, in lowest terms.

    Most of a large model's are numbers, each with a text of its own: these are kept small.
    """

    __slots__ = ('above', 'below', '_terms', '_hash')

    def __init__(self, terms: Dict[Monomial, int], below: int = 1) -> None:
        if 0 in terms.values():
            terms = {monomial: value for monomial, value in terms.items() if value}
        if below != 1:
            common = below
            for value in terms.values():
                common = gcd(common, value)
                if common == 1:
                    break
            else:
                terms = {monomial: value // common for monomial, value in terms.items()}
                below //= common
        self.above: Optional[int] = terms.get((), 0) if len(terms) == (() in terms) else None
        """Of a constant what is above the line."""
        self.below = below
        self._terms: Optional[Dict[Monomial, int]] = terms
        self._hash = 0

    @classmethod
    def ratio(cls, above: int, below: int) -> 'Polynomial':
        """A constant, by what is above and below the line."""
        common = gcd(above, below)
        new = cls.__new__(cls)
        new.above, new.below, new._terms, new._hash = above // common, below // common, None, 0
        return new

    @classmethod
    def number(cls, value: Number) -> 'Polynomial':
        """A constant."""
        return cls.ratio(value.numerator, value.denominator)

    @classmethod
    def parameter(cls, index: int) -> 'Polynomial':
        """A parameter by itself."""
        return cls({((index, 1),): 1})

    @classmethod
    def of(cls, coefficients: Mapping[Monomial, Fraction]) -> 'Polynomial':
        """With these coefficients."""
        below = common_multiple(value.denominator for value in coefficients.values())
        return cls(
            {each: value.numerator * (below // value.denominator) for each, value in coefficients.items()}, below
        )

    @property
    def terms(self) -> Dict[Monomial, int]:
        """Each monomial with what is above the line."""
        if self._terms is None:
            self._terms = {(): self.above} if self.above else {}
        return self._terms

    @property
    def size(self) -> int:
        """The greatest of the numbers above the line, without its sign."""
        return max(abs(value) for value in self.terms.values()) if self.above is None else abs(self.above)

    @property
    def coefficients(self) -> Dict[Monomial, Fraction]:
        """Each monomial with its coefficient."""
        return {monomial: Fraction(value, self.below) for monomial, value in self.terms.items()}

    @property
    def key(self) -> Tuple[int, Union[int, Tuple[Tuple[Monomial, int], ...]]]:
        """What two equal polynomials have in common."""
        return self.below, tuple(sorted(self.terms.items())) if self.above is None else self.above

    def __eq__(self, other: object) -> bool:
        return isinstance(other, Polynomial) and self.key == other.key

    def __hash__(self) -> int:
        if not self._hash:
            self._hash = hash(self.key)
        return self._hash

    def __add__(self, other: 'Polynomial') -> 'Polynomial':
        return total((self, other))

    def __neg__(self) -> 'Polynomial':
        return Polynomial({monomial: -value for monomial, value in self.terms.items()}, self.below)

    def __sub__(self, other: 'Polynomial') -> 'Polynomial':
        return total((self, -other))

    def __mul__(self, other: 'Polynomial') -> 'Polynomial':
        terms: Dict[Monomial, int] = {}
        for (left, first), (right, second) in product(self.terms.items(), other.terms.items()):
            monomial = _joined(left, right)
            terms[monomial] = terms.get(monomial, 0) + first * second
        return Polynomial(terms, self.below * other.below)

    def scaled(self, factor: Number) -> 'Polynomial':
        """Times a number."""
        above, below = factor.numerator, factor.denominator
        return Polynomial({monomial: value * above for monomial, value in self.terms.items()}, self.below * below)

    @property
    def is_constant(self) -> bool:
        """Whether no parameter stands in it."""
        return self.above is not None

    @property
    def constant(self) -> Fraction:
        """The coefficient without parameters."""
        return Fraction(self.terms.get((), 0), self.below)

    @property
    def parameters(self) -> Set[int]:
        """The parameters that stand in it."""
        return {index for monomial in self.terms for index, _ in monomial}

    @property
    def degrees(self) -> Dict[int, int]:
        """The greatest power of each parameter that stands in it."""
        found: Dict[int, int] = {}
        for monomial in self.terms:
            for index, power in monomial:
                if found.get(index, 0) < power:
                    found[index] = power
        return found

    def by_power(self, index: int) -> List['Polynomial']:
        """What stands beside each power of a parameter, from power 0 on."""
        parts: List[Dict[Monomial, int]] = [{} for _ in range(self.degrees.get(index, 0) + 1)]
        for monomial, value in self.terms.items():
            power = next((power for name, power in monomial if name == index), 0)
            parts[power][tuple(each for each in monomial if each[0] != index)] = value
        return [Polynomial(terms, self.below) for terms in parts]

    def at(self, valuation: Union[Mapping[int, Fraction], Sequence[Fraction]]) -> Fraction:
        """Its value."""
        worth = Fraction(0)
        for monomial, value in self.terms.items():
            part = Fraction(value)
            for index, power in monomial:
                part *= valuation[index] ** power
            worth += part
        return worth / self.below

    def near(self, valuation: Sequence[float]) -> float:
        """About its value."""
        worth = 0.0
        for monomial, value in self.terms.items():
            part = value / self.below
            for index, power in monomial:
                part *= valuation[index] ** power
            worth += part
        return worth

    def least(self, box: Box) -> Fraction:
        """The least value over a box of what is affine in each parameter: it is that of a corner."""
        if self.is_constant:
            return self.constant
        names = sorted(self.parameters)
        ends = [box.get(index, UNIT) for index in names]
        return min(self.at(dict(zip(names, corner))) for corner in product(*ends))

    def text(self, names: Sequence[str]) -> str:
        """As the program reads it, where no power is above 1."""
        if self.above is not None:
            return '%d/%d' % (self.above, self.below) if self.below != 1 else str(self.above)
        told = ''
        for monomial, value in sorted(self.terms.items(), key=_order):
            common = gcd(value, self.below)
            above, below = abs(value) // common, self.below // common
            factors = [names[index] if power == 1 else '%s^%d' % (names[index], power) for index, power in monomial]
            if above != 1 or below != 1 or not factors:
                factors.insert(0, '%d/%d' % (above, below) if below != 1 else str(above))
            told += ('-' if value < 0 else '+' if told else '') + '*'.join(factors)
        return told


def _order(term: Tuple[Monomial, int]) -> Tuple[int, Monomial]:
    """Numbers stand first, then what has few parameters."""
    return len(term[0]), term[0]


def common_multiple(numbers: Iterable[int]) -> int:
    """The least one of whole numbers above 0."""
    found = 1
    for number in numbers:
        if found % number:
            found = found // gcd(found, number) * number
    return found


def total(parts: Iterable[Polynomial]) -> Polynomial:
    """The sum."""
    parts = list(parts)
    below = common_multiple(part.below for part in parts)
    terms: Dict[Monomial, int] = {}
    for part in parts:
        factor = below // part.below
        for monomial, value in part.terms.items():
            terms[monomial] = terms.get(monomial, 0) + value * factor
    return Polynomial(terms, below)


def is_one(parts: Sequence[Polynomial]) -> bool:
    """Whether the sum is 1; quickly for numbers over one denominator."""
    above, below = 0, parts[0].below if parts else 1
    for part in parts:
        if part.above is None or part.below != below:
            return total(parts) == ONE
        above += part.above
    return above == below


def _joined(left: Monomial, right: Monomial) -> Monomial:
    """The product of two monomials."""
    if not left or not right:
        return left or right
    powers = dict(left)
    for index, power in right:
        powers[index] = powers.get(index, 0) + power
    return tuple(sorted(powers.items()))


ONE, ZERO = Polynomial({(): 1}), Polynomial({})
