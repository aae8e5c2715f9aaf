#!/usr/bin/env python3
"""The benchmark of "Parameter Synthesis for Markov Models: Faster Than Ever" (ATVA 2016), as far as it fits plift's
limits.

    bench/atva.py                        # makes the models, asks for 95 % of each, prints the table
    bench/atva.py --only brp,nand        # some families
    bench/atva.py --model brp 256 5      # writes one model
    bench/atva.py --published FILE       # a CSV table of other figures: model, and any columns, printed beside
    bench/atva.py --limit 600            # more than a minute for each model

The models are written anew from the descriptions of the protocols (bounded retransmission, crowds, multiplexing of NAND
gates, zero configuration, randomized consensus), state by state. Each parameter's interval runs from 1/100000 to
99999/100000, and a region is refined until 95 % of it is decided, as there. What stands behind a line is one report,
which `plift check` has judged; --keep FOLDER keeps all. PLIFT_PROGRAM names the program, as for plift-lab.
"""

from __future__ import annotations

import argparse
import csv
import resource
import signal
import sys
import time
from collections import namedtuple
from fractions import Fraction
from pathlib import Path
from typing import Any, Callable, Dict, Hashable, List, NamedTuple, Tuple

TOP = Path(__file__).resolve().parent.parent
sys.path.insert(0, str(TOP / 'lab'))

from plift_lab import Fault, Model, Region  # noqa: E402
from plift_lab.api import find_verdict  # noqa: E402
from plift_lab.session import Question, Session  # noqa: E402

Row = List[Tuple[str, Hashable]]
MOST_STATES, MOST_CHOICES, MOST_TRANSITIONS = 2**16, 2**17, 2**18


class TooLarge(Exception):
    """A model that doesn't fit plift's limits."""


def text(
    kind: str,
    parameters: List[str],
    first: Hashable,
    choices: Callable[[Any], List[Row]],
    labels: Callable[[Any], List[str]],
) -> bytes:
    """The states that can be reached, in the order in which they are met. A state without choices stays where it is."""
    number, todo, lines = {first: 0}, [first], []
    rows = transitions = 0
    for state in todo:
        lines.append(' '.join(['state %d' % number[state]] + ['init'] * (state == first) + labels(state)))
        for place, row in enumerate(choices(state) or [[('1', state)]]):
            values: Dict[int, List[str]] = {}
            for value, target in row:
                if target not in number:
                    number[target] = len(todo)
                    todo.append(target)
                values.setdefault(number[target], []).append(value)
            lines += ['action %d' % place] * (kind == 'MDP')
            lines += [
                '%d : %s' % (target, '+'.join('(%s)' % one for one in several) if len(several) > 1 else several[0])
                for target, several in values.items()
            ]
            rows, transitions = rows + 1, transitions + len(values)
        if len(todo) > MOST_STATES or rows > MOST_CHOICES or transitions > MOST_TRANSITIONS:
            raise TooLarge('%d states and more, %d choices, %d transitions' % (len(todo), rows, transitions))
    return ('\n'.join(['@type: ' + kind, '@parameters', ' '.join(parameters), '@model'] + lines) + '\n').encode()


# Bounded retransmission: a file of some frames, each sent again at most so many times, over a channel for frames (pK)
# and one for acknowledgements (pL). s is the sender (0 idle, 1 next frame, 2 waits, 3 again, 4 acknowledged, 5 gives
# up, 6 waits for the other side), r the receiver (0 new file, 1 first frame, 2 frame, 3 reported, 4 waits, 5 ends), k
# and l the channels (0 empty, 1 carries, 2 has lost). A bit alternates on both sides.
Brp = namedtuple('Brp', 's told i again bit first last sent_bit r said got_first got_last got_bit due_bit started k l')


def brp(frames: int, most: int) -> bytes:
    """Goal `error`: the sender gives up."""

    def moves(v: Brp) -> List[Row]:
        """The row of a state, if any: where several moves may come next, each has the same share of it."""
        found: List[Row] = []

        def step(**changes: int) -> None:
            """Something that happens with certainty."""
            found.append([('1', v._replace(**changes))])

        def send(**changes: int) -> None:
            """A frame goes onto its channel, which carries it with pK and else loses it."""
            sent = v._replace(s=2, first=int(v.i == 1), last=int(v.i == frames), sent_bit=v.bit, **changes)
            found.append([('pK', sent._replace(k=1)), ('1-pK', sent._replace(k=2))])

        def acknowledge(**changes: int) -> None:
            """An answer goes onto the other channel, which carries it with pL and else loses it."""
            found.append([('pL', v._replace(r=4, l=1, **changes)), ('1-pL', v._replace(r=4, l=2, **changes))])

        if v.s == 0 and not v.started:
            step(s=1, i=1, told=0, started=1)
        if v.s == 1 and v.k == 0:
            send(again=0)
        if v.s == 3 and v.again < most and v.k == 0:
            send(again=v.again + 1)
        if v.s == 2 and v.l == 1:
            step(s=4, bit=1 - v.bit, l=0)
        if v.s == 2 and v.k == 2:
            step(s=3, k=0)
        if v.s == 2 and v.l == 2:
            step(s=3, l=0)
        if v.s == 3 and v.again == most:
            step(s=5, told=1 if v.i < frames else 2)
        if v.s == 4 and v.i < frames:
            step(s=1, i=v.i + 1)
        if v.s == 4 and v.i == frames:
            step(s=0, told=3)
        if v.s in (5, 6) and v.r in (0, 4, 5):
            mine: Dict[str, int] = {'s': 6} if v.s == 5 else {'s': 0, 'bit': 0}
            others: Dict[int, Dict[str, int]] = {
                0: {},
                4: {'r': 5} if v.last else {'r': 5, 'said': 4},
                5: {'r': 0, 'said': 0},
            }
            other = others[v.r]
            step(**mine, **other)
        if v.k == 1 and v.r in (0, 4):
            step(r=1 if v.r == 0 else 2, got_first=v.first, got_last=v.last, got_bit=v.sent_bit, k=0)
        if v.r == 1:
            step(r=2, due_bit=v.got_bit)
        if v.r == 2 and v.due_bit == v.got_bit and not (v.got_first and v.got_last):
            step(r=3, said=1 if v.got_first else 3 if v.got_last else 2)
        if v.r == 2 and v.due_bit != v.got_bit and v.l == 0:
            acknowledge()
        if v.r == 3 and v.l == 0:
            acknowledge(due_bit=1 - v.due_bit)
        if len(found) > 1:
            share = '1/%d' % len(found)
            return [
                [
                    (share if value == '1' else '%s*(%s)' % (share, value), after)
                    for row in found
                    for value, after in row
                ]
            ]
        return found

    return text('DTMC', ['pL', 'pK'], Brp(*[0] * len(Brp._fields)), moves, lambda v: ['error'] * (v.s == 5))


def crowds(members: int, runs: int) -> bytes:
    """A message goes from member to member, on with PF, and to a bad one with badC, which notes who handed it on. Goal
    `observed`: the sender (member 0) was noted more than once in so many runs."""

    def moves(state: Tuple[str, int, int, Tuple[int, ...]]) -> List[Row]:
        """The row, if any, of a state: phase, runs left, who has the message, and how often each member was noted."""
        phase, left, holder, seen = state
        if phase == 'new':
            return [[('1', ('hold', left - 1, 0, seen))]] if left else []
        if phase == 'hold':
            return [[('PF', ('pick', left, holder, seen)), ('1-PF', ('new', left, 0, seen))]]
        if phase == 'pick':
            return [[('badC', ('noted', left, holder, seen)), ('1-badC', ('good', left, 0, seen))]]
        if phase == 'noted':
            after = tuple(count + (place == holder) for place, count in enumerate(seen))
            return [[('1', ('new', left, 0, after))]]
        return [[('1/%d' % members, ('hold', left, member, seen)) for member in range(members)]]

    return text(
        'DTMC', ['PF', 'badC'], ('new', runs, 0, (0,) * members), moves, lambda state: ['observed'] * (state[3][0] > 1)
    )


Nand = namedtuple('Nand', 'phase stage done good first second one other')


def nand(wires: int, stages: int) -> bytes:
    """Bundles of wires through stages of NAND gates, each gate wrong with perr, each input 1 with prob1. Behind a stage
    one bundle of its results comes in order, and the other is shuffled. Goal `reliable`: fewer than a tenth of the last
    wires are 1."""
    last = 2 * stages + 1

    def moves(v: Nand) -> List[Row]:
        """The row of a state, if any: one input of a gate, its result, or on to the next gate or stage."""
        left = wires - v.done
        if v.phase == 'choose':
            if left:
                return [[('1', v._replace(phase='one'))]]
            if v.stage < last:
                return [
                    [('1', v._replace(phase='one', stage=v.stage + 1, done=0, good=0, first=v.good, second=v.good))]
                ]
            return [[('1', v._replace(phase='end', first=0, second=0))]]
        if v.phase == 'one':
            hit, missed = v._replace(phase='other', one=1, first=max(v.first - 1, 0)), v._replace(phase='other', one=0)
            return [[('prob1', hit), ('1-prob1', missed)]] if v.stage == 1 else [[('1', hit if v.first else missed)]]
        if v.phase == 'other':
            hit, missed = v._replace(phase='gate', other=1, second=max(v.second - 1, 0)), v._replace(
                phase='gate', other=0
            )
            if v.stage == 1:
                return [[('prob1', hit), ('1-prob1', missed)]]
            if v.second in (0, left):
                return [[('1', hit if v.second else missed)]]
            return [[('%d/%d' % (v.second, left), hit), ('%d/%d' % (left - v.second, left), missed)]]
        if v.phase == 'gate':
            both, after = v.one * v.other, v._replace(phase='choose', done=v.done + 1, one=0, other=0)
            return [[('1-perr', after._replace(good=v.good + 1 - both)), ('perr', after._replace(good=v.good + both))]]
        return []

    return text(
        'DTMC',
        ['perr', 'prob1'],
        Nand('choose', 1, 0, 0, 0, 0, 0, 0),
        moves,
        lambda v: ['reliable'] * (v.phase == 'end' and v.good * 10 < wires),
    )


def zeroconf(probes: int) -> bytes:
    """A host takes an address, which is in use with q. It sends so many probes, each unanswered with p, and takes
    another address where one is answered. Goal `collision`: none was answered though the address is in use."""

    def moves(state: int) -> List[Row]:
        """The row of a state, if any: an address is taken in 0, and a probe is sent in each from 1 to the number of
        probes."""
        if state == 0:
            return [[('q', 1), ('1-q', -1)]]
        if 0 < state <= probes:
            return [[('p', state + 1), ('1-p', 0)]]
        return []

    return text('DTMC', ['p', 'q'], 0, moves, lambda state: ['collision'] * (state == probes + 1))


def consensus(processes: int, bound: int) -> bytes:
    """A shared coin: each process tosses one of its own (p1, p2, ..) and moves a counter up or down until it is far
    enough out. The scheduler says whose turn it is. Goal `agree`: all end with 1."""
    most = 2 * (bound + 1) * processes

    def moves(state: Tuple[int, Tuple[Tuple[str, int], ...]]) -> List[Row]:
        """A row for each process that hasn't ended: what it does if it has the turn."""
        counter, all_of_them = state
        found: List[Row] = []

        def after(place: int, phase: str, value: int, moved: int = 0) -> Hashable:
            """The state in which one process has this phase and value, and the counter has moved by so much."""
            return counter + moved, all_of_them[:place] + ((phase, value),) + all_of_them[place + 1 :]

        for place, (phase, value) in enumerate(all_of_them):
            if phase == 'toss':
                found.append(
                    [('p%d' % (place + 1), after(place, 'move', 0)), ('1-p%d' % (place + 1), after(place, 'move', 1))]
                )
            elif phase == 'move':
                found.append([('1', after(place, 'look', 0, 2 * value - 1))])
            elif phase == 'look':
                is_out = counter <= processes or counter >= most - processes
                found.append(
                    [('1', after(place, 'end', int(counter > processes)) if is_out else after(place, 'toss', 0))]
                )
        return found

    first = ((bound + 1) * processes, (('toss', 0),) * processes)
    return text(
        'MDP',
        ['p%d' % (place + 1) for place in range(processes)],
        first,
        moves,
        lambda state: ['agree'] * (set(state[1]) == {('end', 1)}),
    )


FAMILIES: Dict[str, Callable[..., bytes]] = {
    'brp': brp,
    'crowds': crowds,
    'nand': nand,
    'zeroconf': zeroconf,
    'consensus': consensus,
}


class Job(NamedTuple):
    """A line of the table."""

    family: str
    arguments: Tuple[int, ...]
    goal: str
    bound: str

    @property
    def name(self) -> str:
        """As the table has it."""
        return '%s (%s)' % (self.family, ','.join(map(str, self.arguments)))


JOBS = [
    Job(family, arguments, goal, bound)
    for family, goal, bound, several in (
        ('brp', 'error', '1/10', ((64, 4), (128, 5), (256, 5), (512, 5))),
        ('crowds', 'observed', '1/10', ((5, 4), (5, 5), (8, 5), (10, 5))),
        ('nand', 'reliable', '1/10', ((5, 5), (10, 2), (10, 5), (15, 5))),
        ('zeroconf', 'collision', '1/2', ((100,), (1000,), (10000,))),
        ('consensus', 'agree', '1/2', ((2, 2), (2, 8), (3, 2), (4, 2))),
    )
    for arguments in several
]
COLUMNS = (
    'model',
    'parameters',
    'states',
    'transitions',
    'bound',
    'depth',
    'regions',
    'safe',
    'unsafe',
    'unknown',
    'covered',
    'seconds',
)


class TimeUp(Exception):
    """A model that took too long."""


def end_of_time(number: int, frame: object) -> None:
    """Ends the work on a model when its seconds are over."""
    raise TimeUp


def ask(job: Job, share: Fraction, keep: str, limit: int) -> Dict[str, str]:
    """The columns of a job: regions are the leaves of its last report, seconds those of the processor for all
    depths."""
    line = {'model': job.name, 'bound': job.bound}
    try:
        model = Model(FAMILIES[job.family](*job.arguments))
    except TooLarge as large:
        return dict(line, covered='beyond the limits: %s' % large)
    region = Region(tuple((name, Fraction(1, 10**5), 1 - Fraction(1, 10**5)) for name in model.parameters))
    begin = resource.getrusage(resource.RUSAGE_CHILDREN)
    signal.alarm(limit)
    try:
        with Session(str(Path(keep) / job.name.replace(' ', '')) if keep else None) as session:
            report = find_verdict(session, Question(model, job.goal, Fraction(job.bound), region), share)
    except Fault as fault:
        return dict(line, covered=str(fault))
    except TimeUp:
        return dict(
            line,
            parameters=str(len(model.parameters)),
            states=str(model.text.count(b'state ')),
            transitions=str(model.text.count(b' : ')),
            covered='stopped after %d s' % limit,
        )
    finally:
        signal.alarm(0)
    spent = resource.getrusage(resource.RUSAGE_CHILDREN)
    counts = dict.fromkeys(('accept', 'reject', 'unknown'), 0)
    for (kind, _), count in report.counts.items():
        counts[kind] += count
    return dict(
        line,
        parameters=str(len(report.parameters)),
        states=str(report.states),
        transitions=str(model.text.count(b' : ')),
        depth=str(report.depth),
        regions=str(sum(counts.values())),
        safe=str(counts['accept']),
        unsafe=str(counts['reject']),
        unknown=str(counts['unknown']),
        covered='%.1f %%' % float(100 * (1 - report.shares['unknown'])),
        seconds='%.2f' % (spent.ru_utime + spent.ru_stime - begin.ru_utime - begin.ru_stime),
    )


def published(name: str) -> Dict[str, Dict[str, str]]:
    """Figures of others by model, from a CSV table whose first column is `model`."""
    with open(name, newline='', encoding='utf-8') as source:
        table = csv.DictReader(source)
        if 'model' not in (table.fieldnames or []):
            raise ValueError('no column is headed model')
        return {row.pop('model'): {'*' + column: value for column, value in row.items() if column} for row in table}


def main() -> int:
    """Prints the table or writes one model, and gives the status."""
    words = argparse.ArgumentParser(description=__doc__, formatter_class=argparse.RawDescriptionHelpFormatter)
    words.add_argument('--only', metavar='FAMILIES', help='some families, with commas between')
    words.add_argument('--model', nargs='+', metavar='WORD', help='writes one model: family and numbers')
    words.add_argument('--published', metavar='FILE', help='other figures, printed beside')
    words.add_argument('--coverage', default='95', metavar='PERCENT')
    words.add_argument('--keep', default='', metavar='FOLDER')
    words.add_argument(
        '--limit', default='60', metavar='SECONDS', help='a model that takes longer is stopped; 60 if left out'
    )
    given = words.parse_args()
    if given.model:
        if given.model[0] not in FAMILIES or not all(word.isdigit() for word in given.model[1:]):
            words.error('--model takes one of %s, and numbers' % ', '.join(FAMILIES))
        try:
            sys.stdout.buffer.write(FAMILIES[given.model[0]](*map(int, given.model[1:])))
        except (TooLarge, TypeError) as fault:
            words.error(str(fault))
        return 0
    only = given.only.split(',') if given.only else list(FAMILIES)
    unknown = [name for name in only if name not in FAMILIES]
    if unknown or not given.coverage.isdigit() or int(given.coverage) > 100:
        words.error('no family %s' % ', '.join(unknown) if unknown else '--coverage is a whole number up to 100')
    if not given.limit.isdigit() or not 0 < int(given.limit) < 10**6:
        words.error('--limit is a number of seconds')
    signal.signal(signal.SIGALRM, end_of_time)
    signal.signal(signal.SIGTERM, signal.default_int_handler)
    try:
        others = published(given.published) if given.published else {}
    except (OSError, ValueError, csv.Error) as fault:
        words.error('%s: %s' % (given.published, fault))
    columns = list(COLUMNS) + sorted({column for row in others.values() for column in row})
    print('| %s |\n|%s' % (' | '.join(columns), '---|' * len(columns)))
    begin = time.monotonic()
    for job in JOBS:
        if job.family in only:
            row = dict(
                ask(job, Fraction(int(given.coverage), 100), given.keep, int(given.limit)), **others.get(job.name, {})
            )
            print('| %s |' % ' | '.join(row.get(column, '') for column in columns), flush=True)
    print(
        '\nSeconds are those of the processor, for all depths that were tried and for checking each report; '
        '%d seconds passed in all.' % (time.monotonic() - begin)
    )
    return 0


if __name__ == '__main__':
    try:
        sys.exit(main())
    except KeyboardInterrupt:
        sys.exit(130)
