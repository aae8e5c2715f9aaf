"""Numbers as plift reads them: literals, and fractions of two, exactly."""

from __future__ import annotations

import re
from fractions import Fraction
from typing import Optional

SIZE = 2**62  # numbers below it in size are narrow
MOST_POWER = 18  # of ten, up or down
LITERAL = re.compile(r"([0-9]+)(?:\.([0-9]+))?(?:[eE]([+-]?[0-9]+))?")
RATIO = re.compile(r"(?P<above>%s)(?:/(?P<below>%s))?" % (LITERAL.pattern, LITERAL.pattern))


class Wide(Exception):
    """A number that is too large, or has too many digits; why, its text tells."""


def narrowed(value: Fraction) -> Fraction:
    """The fraction, unless one of its parts is too large."""
    if max(abs(value.numerator), value.denominator) >= SIZE:
        raise Wide("in lowest terms it needs 2^62 or more above or below the line")
    return value


def literal_value(whole: str, decimals: Optional[str], exponent: Optional[str]) -> Fraction:
    """What the parts of a literal write."""
    digits = whole + (decimals or "")
    kept = digits.rstrip("0")
    number = kept.lstrip("0")
    if not number:
        return Fraction(0)
    if len(number) > 19 or int(number) >= SIZE:
        raise Wide(f"it has {len(number)} digits, and up to 18 always fit")
    power = len(digits) - len(kept) - len(decimals or "")
    if len((exponent or "").lstrip("+-0")) > 30:
        raise Wide("its exponent is too large: powers of ten go from -18 to 18")
    power += int(exponent or 0)
    if abs(power) > MOST_POWER:
        raise Wide(f"it is {number} times 10^{power}, and powers of ten go from -18 to 18")
    return narrowed(Fraction(int(number)) * Fraction(10) ** power)


def literal(text: str) -> Optional[Fraction]:
    """The value of a literal; none where the text is no literal."""
    match = LITERAL.fullmatch(text)
    return literal_value(*match.groups()) if match else None


def ratio(text: str) -> Optional[Fraction]:
    """The value of `literal` or `literal/literal`; none where the text isn't written so, or divides by 0."""
    match = RATIO.fullmatch(text)
    if not match:
        return None
    above = literal(match["above"])
    if match["below"] is None:
        return above
    below = literal(match["below"])
    return narrowed(above / below) if above is not None and below else None


def about(text: str) -> Optional[Fraction]:
    """The value of a number that people write: also with a sign, without a digit before or behind the point, with a
    comma for the point, or in percent."""
    match = re.fullmatch(r"\s*([+-]?)\s*(.*?)\s*(%?)\s*", text, re.S)
    sign, body, percent = match.groups() if match else ("", text, "")
    body = re.sub(r"\s*/\s*", "/", body)
    body = re.sub(r"^\.", "0.", re.sub(r"\.$", "", re.sub(r"^([0-9]+),([0-9]+)$", r"\1.\2", body)))
    try:
        value = ratio(body)
    except Wide:
        return None
    if value is None:
        return None
    return value * (-1 if sign == "-" else 1) / (100 if percent else 1)
