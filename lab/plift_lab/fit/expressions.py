"""Values as they are written in a text, computed in what numbers the caller takes: polynomials, or remainders."""

from __future__ import annotations

import re
from fractions import Fraction
from itertools import islice
from typing import Any, Callable, List, NamedTuple, Optional, Pattern, Sequence, Tuple

from .polynomials import Number, Polynomial
from .refusal import ValueFault, shown

NUMBER = rb'[0-9]+(?:\.[0-9]*)?(?:[eE][+-]?[0-9]+)?|\.[0-9]+(?:[eE][+-]?[0-9]+)?'
NAME = rb'[A-Za-z_][A-Za-z0-9_]*'
NAMED = re.compile(NAME)
LITERAL = re.compile(rb'([0-9]*)\.?([0-9]*)(?:[eE]([+-]?[0-9]+))?')
COMMENT = re.compile(rb'(?:^|\s)//.*|\s+$', re.S)
MOST_SYMBOLS, MOST_NESTED, MOST_DIGITS, MOST_SIZE, MOST_POWER = (65536, 64, 1000, 2**8192, 1024)
"""Limits far beyond what the program reads: a value within them may still become one that fits."""
POWERS = [10**power for power in range(MOST_DIGITS + 1)]
MOST_TERMS, MOST_PRODUCTS, MOST_WORK = 4096, 2**18, 2**22
"""Monomials of a polynomial, products of two of them in one value, and in all values of a text."""
Symbols = List[Tuple[int, bytes]]
"""Symbols of a value, each with its kind: a number, a name, a place, an operator or bracket, or anything else."""


class Numbers(NamedTuple):
    """What values are computed in."""

    number: Callable[[int, int], Any]
    """A fraction, by what stands above and below the line."""
    name: Callable[[bytes], Any]
    """What a name is worth, or a place, whose name begins with `$`."""
    times: Callable[[Any, Any], Any]
    over: Callable[[Any, Any], Any]
    """A quotient."""
    kept: Callable[[Any], Any]
    """A result as it is kept, unless it grows beyond what can be meant."""
    constant: Callable[[Any], Optional[Number]]
    """The number that something is; none where it isn't one."""


def symbols_with(odd_names: Sequence[bytes] = ()) -> Pattern[bytes]:
    """The symbols of values, some parameters having names that the program doesn't take."""
    names = b'|'.join([re.escape(name) for name in sorted(odd_names, key=len, reverse=True)] + [NAME])
    return re.compile(rb'\s*(?:(%s)|(%s)|(\$[A-Za-z0-9_]+)|(\*\*|[-+*/^()])|(\S))' % (NUMBER, names))


def decimal(text: bytes) -> Optional[Tuple[int, int]]:
    """What is above and below the line of digits with a point between them or without; none of another text."""
    whole, point, behind = text.partition(b'.')
    if whole.isdigit() and (behind.isdigit() or not point) and len(text) <= MOST_DIGITS:
        return int(whole + behind), POWERS[len(behind)]
    return None


def literal(text: bytes) -> Tuple[int, int]:
    """The number that digits, a point and an exponent stand for: what is above and below the line."""
    found = decimal(text)
    if found:
        return found
    parts = LITERAL.fullmatch(text)
    if not parts or not parts.group(1) + parts.group(2):
        raise ValueFault('Syntax', '`%s` is no number' % shown(text))
    whole, behind, exponent = parts.group(1), parts.group(2), parts.group(3) or b'0'
    if len(whole) + len(behind) > MOST_DIGITS or len(exponent) > 5 or abs(int(exponent)) > MOST_DIGITS:
        raise ValueFault('Wide', 'a number has too many digits: %s' % shown(text))
    power = int(exponent) - len(behind)
    number = int(whole + behind)
    return (number * 10**power, 1) if power >= 0 else (number, 10**-power)


def read_value(text: bytes, numbers: Numbers, symbols: Pattern[bytes]) -> Any:
    """What a value is worth."""
    found = decimal(text)
    return numbers.number(*found) if found else read_symbols(cut(text, symbols), numbers)


def cut(text: bytes, symbols: Pattern[bytes]) -> Symbols:
    """The symbols of a value, up to a comment."""
    matches = islice(symbols.finditer(COMMENT.sub(b'', text)), MOST_SYMBOLS + 1)
    found = [(match.lastindex or 0, match.group(match.lastindex or 0)) for match in matches]
    if len(found) > MOST_SYMBOLS:
        raise ValueFault('Long', 'a value has more than %d symbols' % MOST_SYMBOLS)
    return found


def read_symbols(found: Symbols, numbers: Numbers) -> Any:
    """What a value is worth, when it is cut into symbols."""
    return _Value(found, numbers).read()


class _Value:
    """The symbols of a value, read from the left."""

    def __init__(self, found: Symbols, numbers: Numbers) -> None:
        self.found, self.numbers = found, numbers
        self.place = self.nested = 0

    def read(self) -> Any:
        worth = self.sum()
        if self.place < len(self.found):
            raise self.misfit()
        return worth

    def sign(self) -> bytes:
        """The operator or bracket that stands here, if one does."""
        kind, text = self.found[self.place] if self.place < len(self.found) else (0, b'')
        return text if kind == 4 else b''

    def misfit(self) -> ValueFault:
        if self.place == len(self.found):
            return ValueFault('Syntax', 'the value ends where a number or a name should stand')
        text = self.found[self.place][1]
        if text in (b'[', b'{'):
            return ValueFault('Syntax', 'an interval is no value: name the unknown as a parameter')
        return ValueFault('Syntax', '`%s` doesn\'t fit where it stands in the value' % shown(text))

    def sum(self) -> Any:
        worth = self.term()
        while self.sign() in (b'+', b'-'):
            is_added = self.sign() == b'+'
            self.place += 1
            part = self.term()
            worth = self.numbers.kept(worth + part if is_added else worth - part)
        return worth

    def term(self) -> Any:
        worth = self.factor()
        while self.sign() in (b'*', b'/'):
            is_times = self.sign() == b'*'
            self.place += 1
            part = self.factor()
            worth = self.numbers.times(worth, part) if is_times else self.divided(worth, part)
        return worth

    def factor(self) -> Any:
        sign = self.sign()
        if sign not in (b'-', b'+'):
            return self.power()
        self.place += 1
        self.deeper()
        worth = self.factor()
        self.nested -= 1
        return -worth if sign == b'-' else worth

    def power(self) -> Any:
        worth = self.atom()
        if self.sign() not in (b'^', b'**'):
            return worth
        self.place += 1
        self.deeper()
        exponent = self.numbers.constant(self.factor())
        self.nested -= 1
        if exponent is None or exponent < 0 or exponent.denominator != 1:
            raise ValueFault('Power', 'an exponent is a whole number from 0 on')
        if exponent > MOST_POWER:
            raise ValueFault('Power', 'the exponent %s is too large' % shown(str(exponent)))
        raised = self.numbers.number(1, 1)
        for _ in range(int(exponent)):
            raised = self.numbers.times(raised, worth)
        return raised

    def atom(self) -> Any:
        kind, text = self.found[self.place] if self.place < len(self.found) else (0, b'')
        if kind == 4 and text == b'(':
            self.place += 1
            self.deeper()
            worth = self.sum()
            self.nested -= 1
            if self.sign() != b')':
                raise self.misfit()
            self.place += 1
            return worth
        if kind not in (1, 2, 3):
            raise self.misfit()
        self.place += 1
        if kind == 1:
            return self.numbers.number(*literal(text))
        return self.numbers.name(text)

    def deeper(self) -> None:
        self.nested += 1
        if self.nested > MOST_NESTED:
            raise ValueFault('Deep', 'more than %d brackets and signs stand around one place' % MOST_NESTED)

    def divided(self, left: Any, right: Any) -> Any:
        divisor = self.numbers.constant(right)
        if divisor is None:
            raise ValueFault('ParametricDivisor', 'divide by numbers alone: a parameter stands in a divisor')
        if divisor == 0:
            raise ValueFault('DivisionByZero', 'a divisor is 0')
        return self.numbers.kept(self.numbers.over(left, divisor))


class Polynomials:
    """Values multiplied out, each with a limit to what it takes."""

    def __init__(self, name: Callable[[bytes], Polynomial]) -> None:
        self._products = self._work = 0
        self.numbers = Numbers(Polynomial.ratio, name, self._times, self._over, self._kept, self._constant)

    def read(self, text: bytes, symbols: Pattern[bytes]) -> Polynomial:
        """A value."""
        self._products = 0
        value: Polynomial = read_value(text, self.numbers, symbols)
        self._work += self._products + (1 if value.above else len(value.terms))
        if self._work > MOST_WORK:
            raise ValueFault('Long', 'all values together are too long when they are multiplied out')
        return value

    def _times(self, left: Polynomial, right: Polynomial) -> Polynomial:
        self._products += len(left.terms) * len(right.terms)
        if self._products > MOST_PRODUCTS:
            raise ValueFault('Long', 'a value is too long when it is multiplied out')
        return self._kept(left * right)

    @staticmethod
    def _over(left: Polynomial, divisor: Number) -> Polynomial:
        return left.scaled(Fraction(divisor.denominator, divisor.numerator))

    @staticmethod
    def _kept(worth: Polynomial) -> Polynomial:
        if len(worth.terms) > MOST_TERMS:
            raise ValueFault('Long', 'a value is too long when it is multiplied out')
        if worth.below >= MOST_SIZE or worth.size >= MOST_SIZE:
            raise ValueFault('Wide', 'a number of the value has too many digits')
        return worth

    @staticmethod
    def _constant(worth: Polynomial) -> Optional[Number]:
        return worth.constant if worth.is_constant else None


def remainders(name: Callable[[bytes], int], prime: int) -> Numbers:
    """Values at a valuation, computed as they are written, modulo a prime. What was read before has no fault."""

    def over(left: int, right: Number) -> int:
        return left * pow(int(right), prime - 2, prime) % prime

    def constant(worth: int) -> Number:
        return worth

    return Numbers(
        lambda above, below: above if below == 1 else over(above, below),
        name,
        lambda left, right: left * right % prime,
        over,
        lambda worth: worth % prime,
        constant,
    )
