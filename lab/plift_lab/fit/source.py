"""A model as it was read: states with their choices, and values as numbers of a pool."""

from __future__ import annotations

from fractions import Fraction
from typing import Any, Dict, Iterator, List, Mapping, Sequence, Set, Tuple

from .expressions import NAMED, Numbers, Polynomials, Symbols, cut, read_symbols, remainders, symbols_with
from .polynomials import Polynomial
from .refusal import ValueFault, shown

Costs = Tuple[Fraction, ...]


class Choice:
    """What may be chosen in a state: where it leads, and by which values of the pool."""

    __slots__ = ('line', 'name', 'group', 'state', 'index', 'targets', 'values', 'texts')

    def __init__(self, line: int, name: bytes = b'', group: bytes = b'') -> None:
        self.line, self.name, self.group = line, name, group
        self.state = self.index = 0
        """The state's number in the text, and which of its choices it is."""
        self.targets: List[int] = []
        self.values: List[int] = []
        self.texts: List[bytes] = []
        """The values as they stand in the text; none of them where they were rounded."""

    @property
    def where(self) -> str:
        """Where it is, as the program says it."""
        return 'state %d choice %d' % (self.state, self.index)

    def lead(self, entries: Sequence[Tuple[int, int]]) -> None:
        """Lets it lead elsewhere: to these targets, with these values."""
        self.targets, self.values = [target for target, _ in entries], [value for _, value in entries]


class State:
    """A state: its number in the text, its labels and its choices."""

    __slots__ = ('line', 'number', 'place', 'group', 'labels', 'choices')

    def __init__(self, line: int, number: int, group: bytes, labels: Sequence[bytes]) -> None:
        self.line, self.number, self.group, self.labels = line, number, group, labels
        self.place = 0
        """Which of the states that were read it is, in the order of their numbers."""
        self.choices: List[Choice] = []

    def add(self, choice: Choice) -> None:
        """One choice more."""
        choice.state, choice.index = self.number, len(self.choices)
        self.choices.append(choice)

    def loop(self, place: int, one: int) -> None:
        """Lets each run stay here: the state's own place, and the pool's number of 1."""
        choice = self.choices[0] if self.choices else Choice(self.line)
        choice.lead([(place, one)])
        choice.texts = [b'1']
        self.choices = []
        self.add(choice)


class Pool:
    """Polynomials, each of them once, and which of them a text stands for."""

    def __init__(self) -> None:
        self.polynomials: List[Polynomial] = []
        self.constants: Set[int] = set()
        """Those in which no parameter stands."""
        self._by_key: Dict[Any, int] = {}

    def add(self, value: Polynomial) -> int:
        """Its number."""
        next_one = len(self.polynomials)
        number = self._by_key.setdefault(value.key, next_one)
        if number == next_one:
            self.polynomials.append(value)
            if value.above is not None:
                self.constants.add(number)
        return number

    def __getitem__(self, number: int) -> Polynomial:
        return self.polynomials[number]


class Names:
    """What names in values stand for: parameters, numbers that were defined, and places with values of their own."""

    def __init__(self, defined: Mapping[str, Fraction]) -> None:
        self.defined = {name.encode(): value for name, value in defined.items()}
        self.used: Set[bytes] = set()
        """Those of the defined names that stand anywhere."""
        self.parameters: List[bytes] = []
        self.places: Dict[bytes, Symbols] = {}
        self._symbols = symbols_with()
        self._worth: Dict[bytes, Polynomial] = {}
        self._values = Polynomials(self._named)

    def ready(self) -> None:
        """Makes ready to read values: the parameters are known by now."""
        self._symbols = symbols_with([name for name in self.parameters if not NAMED.fullmatch(name)])
        self._worth.update((name, Polynomial.parameter(index)) for index, name in enumerate(self.parameters))
        self._worth.update((name, Polynomial.number(value)) for name, value in self.defined.items())

    def polynomial(self, text: bytes) -> Polynomial:
        """A value multiplied out."""
        return self._values.read(text, self._symbols)

    def place(self, name: bytes, text: bytes) -> None:
        """Defines a place by a value in which those defined before may stand."""
        self._worth[name] = self.polynomial(text)
        self.places[name] = cut(text, self._symbols)

    def cut(self, text: bytes) -> Symbols:
        """A value's symbols."""
        return cut(text, self._symbols)

    def remainders(self, valuation: Sequence[Fraction], prime: int) -> Numbers:
        """In what values are computed at a valuation, as they are written, modulo a prime."""
        known = {name: remainder(value, prime) for name, value in zip(self.parameters, valuation)}
        known.update((name, remainder(value, prime)) for name, value in self.defined.items())
        numbers = remainders(known.__getitem__, prime)
        for name, symbols in self.places.items():
            known[name] = read_symbols(symbols, numbers)
        return numbers

    def _named(self, name: bytes) -> Polynomial:
        if name not in self._worth and name.startswith(b'$'):
            raise ValueFault('UnknownPlace', '`%s` isn\'t defined before it is used' % shown(name))
        if name not in self._worth:
            about = '`%s` is declared nowhere: --define %s=NUMBER gives a constant its value' % (
                shown(name),
                shown(name),
            )
            raise ValueFault('UnknownName', about)
        if name in self.defined:
            self.used.add(name)
        return self._worth[name]


def remainder(value: Fraction, prime: int) -> int:
    """A fraction modulo a prime that doesn't divide what is below the line."""
    return value.numerator * pow(value.denominator, prime - 2, prime) % prime


class Source:
    """All that was read."""

    def __init__(self, names: Names) -> None:
        self.names = names
        self.pool = Pool()
        self.kind = 'DTMC'
        self.is_timed = False
        """Whether values are rates."""
        self.rewards: List[bytes] = []
        self.reward_line = 0
        self.counts: Dict[str, Tuple[int, int]] = {}
        """The numbers of states and choices that the text tells, and in which line."""
        self.states: List[State] = []
        self.last_line = 0

    @property
    def choices(self) -> Iterator[Choice]:
        """The choices of all states."""
        return (choice for state in self.states for choice in state.choices)
