"""Bernstein's form: a polynomial in one parameter as what is due for each count of heads.

Let x run from 0 to 1 while p runs from low to high, and toss a coin n times that falls on heads with probability x.
There are k heads with probability C(n,k) x^k (1-x)^(n-k), and a polynomial of degree up to n in p is the sum of these,
each times its coefficient for k heads, in just one way. The coefficients of 1 are all 1: so where polynomials sum to 1,
their coefficients for k heads do, too, for each k.
"""

from __future__ import annotations

from fractions import Fraction
from math import comb
from typing import List, NamedTuple

from .polynomials import UNIT, Polynomial, total


class Toss(NamedTuple):
    """A parameter that is tossed so many times, on the scale from low to high."""

    parameter: int
    times: int
    low: Fraction = Fraction(0)
    high: Fraction = Fraction(1)

    @property
    def heads(self) -> Polynomial:
        """The probability of heads, in the parameter itself."""
        width = self.high - self.low
        return Polynomial.parameter(self.parameter).scaled(1 / width) - Polynomial.number(self.low / width)


def coefficients(value: Polynomial, toss: Toss) -> List[Polynomial]:
    """What is due for 0, 1, 2 and so on heads; the toss is as often as the parameter's power, or more."""
    powers = _rescaled(value.by_power(toss.parameter), toss.low, toss.high)
    return [
        total(part.scaled(Fraction(comb(heads, power), comb(toss.times, power))) for power, part in enumerate(powers))
        for heads in range(toss.times + 1)
    ]


def _rescaled(powers: List[Polynomial], low: Fraction, high: Fraction) -> List[Polynomial]:
    """What stands beside each power of x, where p is low + (high - low) x."""
    if (low, high) == UNIT:
        return powers
    return [
        total(
            powers[power].scaled(comb(power, own) * low ** (power - own) * (high - low) ** own)
            for power in range(own, len(powers))
        )
        for own in range(len(powers))
    ]
