"""Makes a model fit the texts that plift reads: exactly, or it tells why not.

Writes a text of plift's profile, and a second one, on standard error or with --log in a file, that says of each change
what it did and why the question is the same. What needs no word of yours: powers of parameters and products that share
one, which become steps that toss the parameter; placeholders inside values; sections that say nothing of the question;
rewards of actions, where a state's choices cost alike; states that no run comes to. Both models are compared: reach is
computed exactly from both texts, for models of up to 2,000 states.

    plift-lab fit model.drn --define N=16 --goal 'done & !lost' > fitted.drn
"""

from __future__ import annotations

import argparse
import gc
import re
from contextlib import contextmanager
from fractions import Fraction
from typing import Dict, Iterator, List

from ..ends import say
from ..evidence import read_file
from ..faults import DONE, Fault
from ..fit import Wants, fit
from ..outputs import Output
from ..plain import plain
from ..regions import Region
from ..values import read_number

NAME = re.compile(r"[A-Za-z_][A-Za-z0-9_.\'#@~:!?\[\]]*")
MOST_PLACES = 10
"""Places of one kind of change that are told on standard error."""


def add_words(words: argparse.ArgumentParser) -> None:
    """The words of the command."""
    words.add_argument('model', metavar='MODEL', help='a file with a model text; - for standard input')
    words.add_argument(
        '--define',
        action='append',
        default=[],
        metavar='N=16',
        help='a constant\'s or a parameter\'s value; as often as there are any, or with commas between',
    )
    words.add_argument(
        '--goal',
        metavar='FORMULA',
        help='a formula of labels, as \'a & !(b | "c d")\', that becomes the new label `goal`, unless it is a label',
    )
    words.add_argument(
        '--safe',
        metavar='FORMULA',
        help='the same for the left side of an until; it becomes the label `safe`, which steps in between carry, too',
    )
    words.add_argument(
        '--region',
        metavar='R',
        help='the intervals for which it has to do, as in the other commands; from 0 to 1 if left out',
    )
    words.add_argument(
        '--relative', action='store_true', help='parameters may be tossed on the scale of their own interval'
    )
    words.add_argument(
        '--round',
        action='store_true',
        help='rounds numbers of rows that don\'t sum to one, within 10^-12: the model is another one then',
    )
    words.add_argument('--loops', action='store_true', help='runs stay in a state that has no transitions')
    words.add_argument('--recount', action='store_true', help='counts of states and choices that don\'t fit are mended')
    words.add_argument(
        '--drop', action='append', default=[], metavar='NAME', help='leaves out the section @NAME; as often as need be'
    )
    words.add_argument('--out', default='-', metavar='FILE', help='writes the fitted text there; - for standard output')
    words.add_argument(
        '--log', metavar='FILE', help='writes there, in full, what was changed; standard error if left out'
    )


def run(given: argparse.Namespace) -> int:
    """Does it."""
    out = Output(given.out, [given.model], '--out')
    log = Output(given.log, [given.model], '--log') if given.log is not None else None
    if log and (given.log == given.out or (log.path and log.path == out.path)):
        raise Fault('--out and --log name the same file')
    with uncollected():
        fitted = fit(read_file(given.model), wants_of(given))
    told = ['plift-lab fit: %s' % plain(given.model), *fitted.told.lines(None if log else MOST_PLACES), '']
    out.write(fitted.text)
    if log:
        log.write('\n'.join(told).encode())
    else:
        say('\n'.join(told), '')
    return DONE


@contextmanager
def uncollected() -> Iterator[None]:
    """Python doesn't look for objects that lead to each other meanwhile: a large model is millions that don't, and the
    search takes a fifth of the time."""
    was_on = gc.isenabled()
    gc.disable()
    try:
        yield
    finally:
        if was_on:
            gc.enable()


def wants_of(given: argparse.Namespace) -> Wants:
    """What the words ask for."""
    region = Region.read(given.region) if given.region is not None else None
    defined = _defined(given.define)
    for name, value in region.fixed if region else ():
        if name in defined:
            raise Fault('%s has a value in --region and in --define' % name)
        defined[name] = value
    if given.relative and not (region and region.intervals):
        raise Fault('--relative needs the intervals of --region')
    return Wants(
        defined,
        given.goal,
        given.safe,
        region,
        given.relative,
        given.round,
        given.loops,
        given.recount,
        [name.lstrip('@').lower() for name in given.drop],
    )


def _defined(texts: List[str]) -> Dict[str, Fraction]:
    """Names and their values."""
    found: Dict[str, Fraction] = {}
    for clause in (clause for text in texts for clause in text.split(',')):
        name, sign, value = (part.strip() for part in clause.partition('='))
        if not sign or not NAME.fullmatch(name):
            raise Fault('%r defines nothing: write --define N=16' % clause)
        if name in found:
            raise Fault('--define gives %s two values' % name)
        found[name] = read_number(value)
    return found
