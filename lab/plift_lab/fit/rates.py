"""Models in continuous time: the chain of their jumps, in which it is seen whether a state is ever reached."""

from __future__ import annotations

from typing import Dict, Optional, Tuple

from .polynomials import ONE, total
from .refusal import Unfit, shown
from .source import Source
from .told import Told


def embed(source: Source, told: Told) -> None:
    """Writes each rate over the sum of its state's. Where these are probabilities already, nothing is changed."""
    if not source.is_timed:
        return
    names = [name.decode('latin-1') for name in source.names.parameters]
    known: Dict[Tuple[int, ...], Optional[Tuple[int, ...]]] = {}
    for choice in source.choices:
        key = tuple(choice.values)
        if key not in known:
            rates = [source.pool[value] for value in key]
            exit_rate = total(rates)
            if not exit_rate.is_constant:
                about = 'the rates of state %d sum to %s, and a parameter can\'t be divided by'
                raise Unfit(choice.line, 'ParametricDivisor', about % (choice.state, shown(exit_rate.text(names))))
            is_due = exit_rate.constant > 0 and exit_rate != ONE
            known[key] = (
                tuple(source.pool.add(rate.scaled(1 / exit_rate.constant)) for rate in rates) if is_due else None
            )
        shares = known[key]
        if shares is not None:
            choice.values, choice.texts = list(shares), []
    if any(state.group.strip() for state in source.states) or any(choice.group.strip() for choice in source.choices):
        told.change('rewards are left out', 'they count time here, which plift doesn\'t have; the model stays as it is')
    source.rewards = []
    for state in source.states:
        state.group = b''
    for choice in source.choices:
        choice.group = b''
