"""Numbers as people write them, held as exact fractions, and as people read them."""

from __future__ import annotations

import decimal
import re
from fractions import Fraction

from .faults import Fault

LITERAL = re.compile(r'([0-9]{1,60})(?:\.([0-9]{1,60}))?(?:[eE]([+-]?[0-9]{1,2}))?')


def _literal(text: str) -> Fraction:
    parts = LITERAL.fullmatch(text)
    if not parts:
        raise Fault('%r is no number: write 1/10, 0.1 or 1e-1' % text)
    whole, behind, power = parts.group(1), parts.group(2) or '', int(parts.group(3) or 0)
    return Fraction(int(whole + behind)) * Fraction(10) ** (power - len(behind))


def read_number(text: str) -> Fraction:
    """A number or a fraction of two, maybe behind `-`."""
    text = text.strip()
    bare = text[1:].strip() if text.startswith('-') else text
    above, slash, below = bare.partition('/')
    value, divisor = _literal(above.strip()), _literal(below.strip()) if slash else Fraction(1)
    if divisor == 0:
        raise Fault('%r divides by 0' % text)
    return -value / divisor if text.startswith('-') else value / divisor


def read_part(text: str) -> Fraction:
    """A number, which may be told in percent by the sign %."""
    text = text.strip()
    return read_number(text[:-1]) / 100 if text.endswith('%') else read_number(text)


def read_share(text: str) -> Fraction:
    """A share from 0 to 1: a number, or one in percent with the sign %."""
    share = read_part(text)
    if not 0 <= share <= 1:
        raise Fault('%r is no share: write 95%% or 0.95' % text)
    return share


def read_bound(text: str) -> Fraction:
    """A bound on a probability."""
    bound = read_share(text)
    if bound.denominator >= 2**32:
        raise Fault('the bound %s has a denominator of 2^32 or more: round it' % text)
    return bound


def read_count(text: str, name: str, low: int, high: int) -> int:
    """A whole number in a range."""
    if not re.fullmatch('[0-9]{1,9}', text) or not low <= int(text) <= high:
        raise Fault('%s is a whole number from %d to %d, and not %r' % (name, low, high, text))
    return int(text)


def exact(value: Fraction) -> str:
    """As the program writes it."""
    return str(Fraction(value))


def near(value: Fraction, digits: int = 6, rounding: str = decimal.ROUND_HALF_EVEN) -> str:
    """A decimal for people, of so many significant digits."""
    with decimal.localcontext() as context:
        context.prec, context.rounding = digits, rounding
        number = (decimal.Decimal(value.numerator) / decimal.Decimal(value.denominator)).normalize()
    if number and (number.adjusted() < -4 or number.adjusted() > 15):
        return '%se%d' % (number.scaleb(-number.adjusted()).normalize(), number.adjusted())
    return format(number, 'f')


def above(value: Fraction, digits: int = 6) -> str:
    """A decimal that isn't below the value."""
    return near(value, digits, decimal.ROUND_CEILING)


def below(value: Fraction, digits: int = 6) -> str:
    """A decimal that isn't above the value."""
    return near(value, digits, decimal.ROUND_FLOOR)


def percent(share: Fraction) -> str:
    """In percent; a whole number is said only where it is one, and so are all and nothing."""
    if (share * 100).denominator == 1:
        return '%d %%' % (share * 100)
    shown = '%.2f' % float(share * 100)
    if shown in ('0.00', '100.00'):
        return '< 0.01 %' if share < Fraction(1, 2) else '> 99.99 %'
    return shown + ' %'
