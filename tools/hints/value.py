"""A value of a model text: its symbols, its first fault with its place, and what it comes to, exactly."""

from __future__ import annotations

import re
from fractions import Fraction
from math import gcd
from typing import Callable, Dict, FrozenSet, List, NamedTuple, Optional, Sequence

from hints.numbers import LITERAL, SIZE, Wide, literal_value

Polynomial = Dict[FrozenSet[str], Fraction]

MOST_SYMBOLS = 4096
MOST_DEPTH = 64
MOST_PARAMETERS = 4
KINDS = {
    "literal": LITERAL.pattern,
    "name": r"[A-Za-z_][A-Za-z0-9_]*",
    "place": r"\$[A-Za-z0-9_]+",
    "mark": r"[^ \t]",
}
SYMBOL = re.compile("|".join(f"(?P<{kind}>{form})" for kind, form in KINDS.items()), re.S)


class Symbol(NamedTuple):
    """A symbol: its kind, its text, and where it stands."""

    kind: str
    text: str
    place: int


class Fault(Exception):
    """Why a text is no value: the cause, the place, and what is wrong there."""

    def __init__(self, cause: str, place: int, what: str):
        super().__init__(cause)
        self.cause, self.place, self.what = cause, place, what


class Tree(NamedTuple):
    """An operation with its operands, or a leaf; where its text begins, and where its sign stands."""

    sign: str
    operands: Sequence["Tree"]
    leaf: Polynomial
    start: int
    place: int


def symbols_of(text: str) -> List[Symbol]:
    """The symbols of a value, each the longest that fits."""
    return [Symbol(next(kind for kind in KINDS if m[kind]), m[0], m.start()) for m in SYMBOL.finditer(text)]


class Parser:
    """Reads a value from the left, over declared names."""

    def __init__(self, text: str, names: Sequence[str]):
        self.text, self.names = text, names
        self.symbols = symbols_of(text)
        self.at = self.depth = 0

    def next(self) -> Symbol:
        """The symbol that is due."""
        return self.symbols[self.at] if self.at < len(self.symbols) else Symbol("end", "", len(self.text))

    def parse(self) -> Tree:
        """The whole text as a value."""
        if len(self.symbols) > MOST_SYMBOLS:
            raise Fault("Long", 0, f"{len(self.symbols):,} symbols, and at most {MOST_SYMBOLS:,} are taken")
        tree = self.value()
        if self.next().kind != "end":
            self.misfit("an operator or the end is wanted here")
        return tree

    def misfit(self, wanted: str) -> None:
        """Tells a symbol that doesn't fit where an operator could stand."""
        symbol = self.next()
        if symbol.text == "^":
            raise Fault("Power", symbol.place, "a power")
        raise Fault("Syntax", symbol.place, wanted)

    def operation(self, signs: str, part: Callable[[], Tree]) -> Tree:
        """Parts with these signs between them, from the left."""
        tree = part()
        while self.next().text in signs and self.next().kind == "mark":
            sign = self.next()
            self.at += 1
            tree = Tree(sign.text, (tree, part()), {}, tree.start, sign.place)
        return tree

    def value(self) -> Tree:
        """A sum."""
        return self.operation("+-", self.term)

    def term(self) -> Tree:
        """A product."""
        return self.operation("*/", self.factor)

    def deeper(self) -> None:
        """One more parenthesis or unary minus."""
        self.depth += 1
        if self.depth > MOST_DEPTH:
            what = f"more than {MOST_DEPTH} parentheses and unary minus signs stand around this place"
            raise Fault("Deep", self.next().place, what)

    def factor(self) -> Tree:
        """A number, a parameter, a minus with its factor, or a value in parentheses."""
        symbol = self.next()
        place = symbol.place
        if symbol.text in ("-", "("):
            self.deeper()
            self.at += 1
            if symbol.text == "-":
                tree = Tree("neg", (self.factor(),), {}, place, place)
            else:
                tree = self.value()
                if self.next().text != ")":
                    self.misfit("an operator or ) is wanted here")
                self.at += 1
            self.depth -= 1
            return tree._replace(start=place)
        self.at += 1
        if symbol.kind == "name":
            if symbol.text not in self.names:
                raise Fault("UnknownName", place, symbol.text)
            return Tree("leaf", (), {frozenset([symbol.text]): Fraction(1)}, place, place)
        if symbol.kind != "literal":
            raise Fault("Syntax", place, "a number, a parameter, - or ( is wanted here")
        return Tree("leaf", (), constant(literal_at(symbol)), place, place)


def literal_at(symbol: Symbol) -> Fraction:
    """The number that a literal writes."""
    match = LITERAL.fullmatch(symbol.text)
    try:
        return literal_value(*match.groups()) if match else Fraction(0)
    except Wide as why:
        raise Fault("Wide", symbol.place, f"this number is too wide: {why}")


def constant(number: Fraction) -> Polynomial:
    """A number as a polynomial."""
    return {frozenset(): number} if number else {}


def parameters_in(poly: Polynomial) -> List[str]:
    """The parameters that occur in a polynomial."""
    return sorted({name for product in poly for name in product})


def product(tree: Tree, a: Polynomial, b: Polynomial) -> Polynomial:
    """The product, whose factors share no parameter."""
    shared = sorted(set(parameters_in(a)) & set(parameters_in(b)))
    if shared:
        raise Fault("SharedParameter", tree.place, shared[0])
    return {left | right: c * d for left, c in a.items() for right, d in b.items()}


def quotient(tree: Tree, a: Polynomial, b: Polynomial) -> Polynomial:
    """The quotient by a number."""
    if parameters_in(b):
        raise Fault("ParametricDivisor", tree.place, ", ".join(parameters_in(b)))
    if not b:
        raise Fault("DivisionByZero", tree.place, "the divisor is 0")
    return {names: c / b[frozenset()] for names, c in a.items()}


def total(a: Polynomial, b: Polynomial, sign: int) -> Polynomial:
    """The sum, or with the sign -1 the difference."""
    keys = list(a) + [names for names in b if names not in a]
    sums = {names: a.get(names, Fraction(0)) + sign * b.get(names, Fraction(0)) for names in keys}
    return {names: c for names, c in sums.items() if c}


def common_of(poly: Polynomial) -> int:
    """The least common denominator of the coefficients."""
    common = 1
    for c in poly.values():
        common = common * c.denominator // gcd(common, c.denominator)
    return common


def narrow(tree: Tree, poly: Polynomial) -> Polynomial:
    """The polynomial, unless its numbers are too large."""
    common = common_of(poly)
    if max([common] + [abs(c * common) for c in poly.values()]) >= SIZE:
        raise Fault("Wide", tree.place, "what this operation gives needs 2^62 or more above or below the line")
    return poly


def combined(tree: Tree, a: Polynomial, b: Polynomial) -> Polynomial:
    """What an operation makes of its operands."""
    if tree.sign == "*":
        return narrow(tree, product(tree, a, b))
    if tree.sign == "/":
        return narrow(tree, quotient(tree, a, b))
    return narrow(tree, total(a, b, 1 if tree.sign == "+" else -1))


def expanded(tree: Tree) -> Polynomial:
    """What a tree comes to, multiplied out: down its left side, and up again."""
    spine = []
    while len(tree.operands) == 2:
        spine.append(tree)
        tree = tree.operands[0]
    poly = narrow(tree, total({}, expanded(tree.operands[0]), -1)) if tree.operands else tree.leaf
    for above in reversed(spine):
        poly = combined(above, poly, expanded(above.operands[1]))
    return poly


def read_value(text: str, names: Sequence[str]) -> Polynomial:
    """What a value comes to."""
    poly = expanded(Parser(text, names).parse())
    names = parameters_in(poly)
    if len(names) > MOST_PARAMETERS:
        raise Fault("LimitValueParameters", 0, f"{len(names)} parameters: {', '.join(names)}")
    return poly


def fault_in(text: str, names: Sequence[str]) -> Optional[Fault]:
    """The first fault of a value."""
    try:
        read_value(text, names)
    except Fault as fault:
        return fault
    return None


def value_at(poly: Polynomial, values: Dict[str, Fraction]) -> Fraction:
    """What a polynomial is worth where its parameters have these values."""
    whole = Fraction(0)
    for names, c in poly.items():
        for name in names:
            c *= values[name]
        whole += c
    return whole


def written(poly: Polynomial, most: int = 6) -> str:
    """A polynomial as it could stand in a model text."""
    terms = []
    for names, c in sorted(poly.items(), key=lambda term: (len(term[0]), sorted(term[0])))[:most]:
        sign, size = ("-" if c < 0 else "+"), abs(c)
        letters = "*".join(sorted(names))
        terms.append(sign + (letters if letters and size == 1 else f"{size}*{letters}" if letters else str(size)))
    text = "".join(terms) + ("+.." if len(poly) > most else "")
    return text.lstrip("+") or "0"
