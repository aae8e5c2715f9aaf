#!/usr/bin/env python3
"""Writes models of any size:

    models.py relay HOPS TRIES      a message over hops; each hop is tried again over the radio (p) or the wire (q)
    models.py robot SIDE            a robot on a square, whose steps slip with p; a choice of four ways in each place
    models.py walk LENGTH           a walk to and fro, forth with p; the goal is at one end
    models.py dice COUNT            dice that are thrown with a coin of p, one by one; the goal is that all show one
    models.py mixed STATES          rows over four parameters, to three states above, one below and a sink
    models.py deep LAYERS WIDTH     layers of states with four choices each, on to the next layer or some layers back
    models.py component STATES      a chain in which nearly all states reach each other, from anywhere to anywhere
    models.py expander STATES L     each state leads to the next one and to one by chance, and leaks 1 in 10^L
    models.py chooser STATES L      a decision process: the same, with two such choices in each state
    models.py plane SIDE            a walk to and fro on a square, across with p; it ends in two of the corners
    models.py blocks COUNT          components of four states each, one behind the other
    models.py spender STATES L      an expander whose states cost what chance says; one in a hundred leaks 1 in 10^L

Hardware that fails rarely, with a fault in a cycle with p and a repair with q. A mission ends, safe, after 10^M cycles
on average; the goal is "lost". There are few states, and many steps:

    models.py memory BITS M         a word that is scrubbed; a fault more than BITS loses it
    models.py disks COUNT SPARE M   an array of disks, rebuilt one by one; more than SPARE broken ones lose it
    models.py watchdog COUNT M      a processor that hangs, until a timer of so many cycles resets it, if it isn't stuck
    models.py ring STATIONS M       a token goes around; where it is lost, a fault may make two
    models.py bus LIMIT M           a node whose counter of errors rises by 8 and falls by 1; at the limit it is off
    models.py spares COUNT M        units that take over from one another; while one does, a fault loses it
    models.py queue LENGTH M        a buffer that is filled with p and emptied with q, until it flows over
    models.py nested LEVELS M       faults behind faults, each ten times as slow as the one before
"""

from __future__ import annotations

import random
import sys
from dataclasses import dataclass
from typing import Callable, Iterable, List, Tuple

# The targets of a choice and their values; and a state: its labels and its choices.
Row = List[Tuple[int, str]]
State = Tuple[List[str], List[Row]]


@dataclass
class Job:
    """A model, by its family and sizes, and what is asked of it."""

    family: str
    sizes: tuple[int, ...]
    goal: str
    bound: str
    region: str
    depth: int = 4
    precision: int = 24

    def name(self) -> str:
        """Its family and its sizes, with blanks between."""
        return " ".join([self.family] + [str(size) for size in self.sizes])

    def options(self) -> list[str]:
        """The words for region, depth and precision."""
        return ["--region", self.region, "--depth", str(self.depth), "--precision", str(self.precision)]

    def verify(self) -> list[str]:
        """The words that ask for it, without the program."""
        return ["verify", "--goal", self.goal, "--bound", self.bound] + self.options()


def text(kind: str, parameters: list[str], states: list[State], reward: str = "") -> str:
    """The text of a model: for each state its labels, and its choices as lists of (target, value). Where there is a
    reward, the first label of each state is what it brings, in brackets."""
    lines = ["@type: " + kind]
    if parameters:
        lines += ["@parameters", " ".join(parameters)]
    if reward:
        lines += ["@reward_models", reward]
    lines.append("@model")
    for number, (labels, choices) in enumerate(states):
        lines.append(" ".join(["state", str(number)] + labels))
        for choice, row in enumerate(choices):
            if kind == "MDP":
                lines.append("action %d" % choice)
            lines += ["%d : %s" % entry for entry in row]
    return "\n".join(lines) + "\n"


def row_of(ends: Iterable[tuple[int, str]]) -> Row:
    """A row of (target, value), in order; values with the same target are added."""
    sums: dict[int, str] = {}
    for end, value in ends:
        sums[end] = sums[end] + "+" + value if end in sums else value
    return sorted(sums.items())


def relay(hops: int, tries: int) -> str:
    """State hop * tries + t: before that hop, after t losses. The last two states: delivered, and lost."""
    delivered, lost = hops * tries, hops * tries + 1
    states = []
    for hop in range(hops):
        for count in range(tries):
            here = hop * tries + count
            over = delivered if hop + 1 == hops else (hop + 1) * tries
            again = lost if count + 1 == tries else here + 1
            states.append(
                (["init"] if here == 0 else [], [[(over, "1-p"), (again, "p")], [(over, "1-q"), (again, "q")]])
            )
    states.append((["delivered"], [[(delivered, "1")]]))
    states.append((["lost"], [[(lost, "1")]]))
    return text("MDP", ["p", "q"], states)


def robot(side: int) -> str:
    """The robot begins in one corner; the opposite one is the goal, and the middle a pit that it never leaves."""
    pit = (side // 2) * side + side // 2
    states = []
    for place in range(side * side):
        across, up = place % side, place // side
        labels = ["init"] if place == 0 else ["home"] if place == side * side - 1 else []
        if place in (pit, side * side - 1):
            states.append((labels, [[(place, "1")]]))
            continue
        ways = [(across + 1, up), (across, up + 1), (across - 1, up), (across, up - 1)]
        ends = [y * side + x if 0 <= x < side and 0 <= y < side else place for x, y in ways]
        choices = []
        for way in range(4):
            meant, slipped = ends[way], ends[(way + 1) % 4]
            choices.append([(meant, "1")] if meant == slipped else [(meant, "1-p"), (slipped, "p")])
        states.append((labels, choices))
    return text("MDP", ["p"], states)


def walk(length: int) -> str:
    """From the middle; state 0 is a loss and the last state the goal."""
    states: list[State] = [([], [[(0, "1")]])]
    for place in range(1, length):
        labels = ["init"] if place == length // 2 else []
        states.append((labels, [[(place + 1, "p"), (place - 1, "1-p")]]))
    states.append((["won"], [[(length, "1")]]))
    return text("DTMC", ["p"], states)


def dice(count: int) -> str:
    """Each die has seven states: three tosses, the second of which is thrown again where it shows nothing."""
    lost, won = count * 7, count * 7 + 1
    states = []
    for die in range(count):
        base = die * 7
        after = won if die + 1 == count else base + 7
        tosses = [(1, 2), (3, 4), (5, 6), (1, after), (lost, lost), (lost, lost), (2, lost)]
        for place, (heads, tails) in enumerate(tosses):
            ends = [end if end >= 7 and end in (lost, won, after) else base + end for end in (heads, tails)]
            row = [(ends[0], "1")] if ends[0] == ends[1] else [(ends[0], "p"), (ends[1], "1-p")]
            states.append((["init"] if base + place == 0 else [], [row]))
    states.append((["lost"], [[(lost, "1")]]))
    states.append((["won"], [[(won, "1")]]))
    return text("DTMC", ["p"], states)


def mixed(count: int) -> str:
    """Each state leads to three of the next states and back to a lower one, over p, q, r, s; few are lost."""
    goal, sink = count, count + 1
    share = max(count // 4, 2)
    states = []
    for here in range(count):
        after = [min(end, goal) for end in (here + 1, here + 2 + here % 5, here + 7 + here % 11)]
        back = "(1-p)*(1-r*s)"
        ends = list(zip(after, ["p*q", "p*(1-q)", "(1-p)*r*s"]))
        ends += [(max(here - 4, 0), "%s*%d/%d" % (back, share - 1, share)), (sink, "%s/%d" % (back, share))]
        states.append((["init"] if here == 0 else [], [row_of(ends)]))
    states.append((["done"], [[(goal, "1")]]))
    states.append(([], [[(sink, "1")]]))
    return text("DTMC", ["p", "q", "r", "s"], states)


def deep(layers: int, width: int) -> str:
    """Each choice leads to a state of the next layer with p or q, and else up to five layers back, a few to the
    loss."""
    draw = random.Random(1).randrange
    goal, lost = layers * width, layers * width + 1
    states = []
    for here in range(layers * width):
        layer = here // width
        choices = []
        for choice in range(4):
            on = goal if layer + 1 == layers else (layer + 1) * width + draw(width)
            fails = choice == 0 and here % 50 == 0
            back = lost if fails else max(0, layer - 1 - draw(5)) * width + draw(width)
            coin = "pq"[draw(2)]
            choices.append(row_of([(on, coin), (back, "1-" + coin)]))
        states.append((["init"] if here == 0 else [], choices))
    states.append((["done"], [[(goal, "1")]]))
    states.append(([], [[(lost, "1")]]))
    return text("MDP", ["p", "q"], states)


def component(count: int) -> str:
    """Each state leads to three others by chance, and with 3/100 of 1-p to an end, which is the goal for a third of
    them."""
    draw = random.Random(1).randrange
    goal, lost = count, count + 1
    states = []
    for here in range(count):
        others = [draw(count) for _ in range(3)]
        end = (goal, lost, lost)[draw(3)]
        values = ("p*q", "p*(1-q)", "(1-p)*97/100", "(1-p)*3/100")
        states.append((["init"] if here == 0 else [], [row_of(zip([*others, end], values))]))
    states.append((["done"], [[(goal, "1")]]))
    states.append(([], [[(lost, "1")]]))
    return text("DTMC", ["p", "q"], states)


def spread(count: int, leak: int, choices: int) -> list[State]:
    """States that lead to the next one and to one by chance, by each of so many choices; what leaks is won or lost in
    equal parts."""
    draw = random.Random(1).randrange
    share = "1e-%d" % leak
    states: list[State] = []
    for here in range(count):
        rows = []
        for choice in range(choices):
            near = draw(count) if choice else (here + 1) % count
            ends = [(near, "p*(1-%s)" % share), (draw(count), "(1-p)*(1-%s)" % share)]
            rows.append(row_of([*ends, (count, share + "/2"), (count + 1, share + "/2")]))
        states.append((["init"] if here == 0 else [], rows))
    states.append((["won"], [[(count, "1")]]))
    states.append(([], [[(count + 1, "1")]]))
    return states


def expander(count: int, leak: int) -> str:
    """The goal is "won"; on the way from any state to any other one are few steps, and to an end very many."""
    return text("DTMC", ["p"], spread(count, leak, 1))


def chooser(count: int, leak: int) -> str:
    """The second choice leads to two states by chance."""
    return text("MDP", ["p"], spread(count, leak, 2))


def plane(side: int) -> str:
    """From the middle; a step over the edge stays. The first corner is lost, and the last one the goal."""
    states: list[State] = []
    for place in range(side * side):
        across, up = place % side, place // side
        labels = ["init"] if place == side // 2 * (side + 1) else ["won"] if place == side * side - 1 else []
        if place in (0, side * side - 1):
            states.append((labels, [[(place, "1")]]))
            continue
        ways = [(across + 1, up, "p"), (across - 1, up, "p"), (across, up + 1, "(1-p)"), (across, up - 1, "(1-p)")]
        ends = [(y * side + x if 0 <= x < side and 0 <= y < side else place, way + "/2") for x, y, way in ways]
        states.append((labels, [row_of(ends)]))
    return text("DTMC", ["p"], states)


def blocks(count: int) -> str:
    """Each component is a ring with shortcuts, and its last state leaves it twice in a thousand; one block in so many
    is lost with p."""
    won, lost = 4 * count, 4 * count + 1
    states: list[State] = []
    for first in range(0, won, 4):
        rows: list[Row] = [[(first + step + 1, "p"), (first + (step + 2) % 4, "1-p")] for step in range(3)]
        rows[2] = row_of(rows[2])
        rows.append(row_of([(first, "499/500"), (first + 4, "(1-p/%d)/500" % count), (lost, "p/%d" % (500 * count))]))
        states += [(["init"] if first + step == 0 else [], [row]) for step, row in enumerate(rows)]
    states.append((["won"], [[(won, "1")]]))
    states.append(([], [[(lost, "1")]]))
    return text("DTMC", ["p"], states)


def spender(count: int, leak: int) -> str:
    """Three states in twenty cost up to 1,000; what leaks is "done"."""
    draw = random.Random(1).randrange
    share = "1e-%d" % leak
    states: list[State] = []
    for here in range(count):
        cost = draw(1000) if draw(20) < 3 else 0
        on = "*(1-%s)" % share if here % 100 == 0 else ""
        ends = [((here + 1) % count, "p" + on), (draw(count), "(1-p)" + on)]
        row = row_of(ends + ([(count, share)] if on else []))
        states.append((["[%d]" % cost] + (["init"] if here == 0 else []), [row]))
    states.append((["[0]", "done"], [[(count, "1")]]))
    return text("DTMC", ["p"], states, "spent")


# ---- hardware that fails rarely


def cycles(rows: list[Row], parameters: list[str]) -> str:
    """A chain of these rows, each of which stays in its state with what is left of 1. Two ends follow: safe, and
    lost."""
    states: list[State] = []
    for here, row in enumerate(rows):
        stay = "1-(%s)" % "+".join("(%s)" % value for _, value in row)
        states.append((["init"] if here == 0 else [], [row_of([*row, (here, stay)])]))
    for name in ("safe", "lost"):
        states.append(([name], [[(len(states), "1")]]))
    return text("DTMC", parameters, states)


def over(mission: int) -> str:
    """The chance that a mission ends in a cycle."""
    return "1/%d" % 10**mission


def memory(bits: int, mission: int) -> str:
    """State e: so many wrong bits, of 64. Scrubbing sets all right again."""
    safe, lost = bits + 1, bits + 2
    rows: list[Row] = []
    for wrong in range(bits + 1):
        more = lost if wrong == bits else wrong + 1
        rows.append([(more, "%d*p" % (64 - wrong)), (safe, over(mission))] + ([(0, "q")] if wrong else []))
    return cycles(rows, ["p", "q"])


def disks(count: int, spare: int, mission: int) -> str:
    """State b: so many broken disks, of which one is rebuilt at a time."""
    safe, lost = spare + 1, spare + 2
    rows: list[Row] = []
    for broken in range(spare + 1):
        more = lost if broken == spare else broken + 1
        row = [(more, "%d*p" % (count - broken)), (safe, over(mission))]
        rows.append(row + ([(broken - 1, "q")] if broken else []))
    return cycles(rows, ["p", "q"])


def watchdog(count: int, mission: int) -> str:
    """State 0 works, 1 to COUNT: hung for so many cycles. Then the timer bites, or is stuck with p."""
    safe, lost = count + 1, count + 2
    rows: list[Row] = [[(1, "p"), (safe, over(mission))]]
    for hung in range(1, count):
        rows.append([(hung + 1, "(1-q)*(1-p)"), (0, "q*(1-p)")])
    rows.append([(0, "(1-p)/2"), (lost, "p/2")])
    return cycles(rows, ["p", "q"])


def ring(stations: int, mission: int) -> str:
    """State s: station s has the token. After the stations comes the state in which it is lost."""
    missing, safe, lost = stations, stations + 1, stations + 2
    rows: list[Row] = []
    for station in range(stations):
        row = [((station + 1) % stations, "1-p-1/10"), (missing, "p")]
        rows.append(row + ([(safe, over(mission))] if station == 0 else []))
    rows.append([(0, "q*(1-p)"), (lost, "q*p")])
    return cycles(rows, ["p", "q"])


def bus(limit: int, mission: int) -> str:
    """State c: the counter. An error comes in a burst with q, once the counter isn't 0."""
    safe, lost = limit, limit + 1
    rows: list[Row] = [[(8 if limit > 8 else lost, "p"), (safe, over(mission))]]
    for counter in range(1, limit):
        more = counter + 8 if counter + 8 < limit else lost
        rows.append([(more, "q"), (counter - 1, "9/10-q")])
    return cycles(rows, ["p", "q"])


def spares(count: int, mission: int) -> str:
    """State 2b: so many broken units; state 2b+1: the same, while another one takes over."""
    safe, lost = 2 * count, 2 * count + 1
    rows: list[Row] = []
    for broken in range(count):
        more = lost if broken + 1 == count else 2 * broken + 3
        row = [(more, "p"), (safe, over(mission))]
        rows.append(row + ([(2 * broken - 2, "q/100")] if broken else []))
        rows.append([(2 * broken, "q"), (lost, "p")])
    return cycles(rows, ["p", "q"])


def queue(length: int, mission: int) -> str:
    """State n: so many wait."""
    safe, lost = length + 1, length + 2
    rows: list[Row] = []
    for wait in range(length + 1):
        row = [(lost if wait == length else wait + 1, "p*(1-q)"), (safe, over(mission))]
        rows.append(row + ([(wait - 1, "q*(1-p)")] if wait else []))
    return cycles(rows, ["p", "q"])


def nested(levels: int, mission: int) -> str:
    """State l: faults of so many levels."""
    safe, lost = levels, levels + 1
    rows: list[Row] = []
    for level in range(levels):
        more = lost if level + 1 == levels else level + 1
        row = [(more, "p/%d" % 10**level)] + ([(safe, over(mission))] if level == 0 else [])
        rows.append(row + ([(level - 1, "q/%d" % 10**level)] if level else []))
    return cycles(rows, ["p", "q"])


RARE: tuple[Callable[..., str], ...] = (memory, disks, watchdog, ring, bus, spares, queue, nested)

PLAIN: tuple[Callable[..., str], ...] = (relay, robot, walk, dice, mixed, deep, component)

SPREAD: tuple[Callable[..., str], ...] = (expander, chooser, plane, blocks, spender)

FAMILIES: dict[str, Callable[..., str]] = {family.__name__: family for family in (*PLAIN, *SPREAD, *RARE)}

if __name__ == "__main__":
    if len(sys.argv) < 3 or sys.argv[1] not in FAMILIES:
        sys.exit(__doc__)
    sys.stdout.write(FAMILIES[sys.argv[1]](*map(int, sys.argv[2:])))
