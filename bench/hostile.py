#!/usr/bin/env python3
"""Inputs that try to keep each command of the program busy, and recheck.py, each of at most 1 MiB (a tree of 20 levels
has 16 MiB).

    hostile.py list                       the kinds
    hostile.py make KIND > input          writes an input
    hostile.py run [--bin PATH] [--limit SECONDS] [KIND..]
                                          runs the program on each, or recheck.py, and prints a table
"""

from __future__ import annotations

import argparse
import itertools
import os
import random
import resource
import sys
from dataclasses import dataclass
from typing import Callable, List, Tuple

import measure
import models

MIB = 1 << 20
ROOM = 4 << 30  # what a run may take of memory
RECHECK = [sys.executable, os.path.join(measure.TOP, "recheck", "recheck.py")]
LETTERS = "abcdefghijklmnop"

# What writes an input; and a state: its labels, and the lines of its choices.
Make = Callable[[], str]
State = Tuple[List[str], List[str]]


@dataclass
class Kind:
    """What writes an input, the words of the run that reads it, and what is hostile about it."""

    make: Make
    words: list[str]
    about: str

    def command(self, path: str) -> list[str]:
        """What is run, of the program at this path or of recheck.py."""
        return RECHECK if self.words == ["recheck"] else [path, *self.words]


KINDS: dict[str, Kind] = {}


def kind(words: str) -> Callable[[Make], Make]:
    """Enters a function that writes an input; its first line tells what is hostile."""

    def enter(make: Make) -> Make:
        """Enters it by its name, and gives it back."""
        KINDS[make.__name__.replace("_", "-")] = Kind(make, words.split(), (make.__doc__ or "").strip())
        return make

    return enter


def verify(region: str = "", bound: str = "1/2", precision: int = 24) -> str:
    """The words of a run of verify, with blanks between."""
    words = "verify --goal goal --bound %s --precision %d" % (bound, precision)
    return words + (" --region " + region if region else "")


def over(names: str, low: str = "1/10", high: str = "9/10") -> str:
    """A region that gives each parameter the same interval."""
    return ",".join("%s<=%s<=%s" % (low, name, high) for name in names)


def model(states: list[State], parameters: str = "", kind: str = "DTMC") -> str:
    """A model: for each state its labels, and the lines of its choices."""
    lines = ["@type: " + kind]
    if parameters:
        lines += ["@parameters", " ".join(parameters)]
    lines.append("@model")
    for number, (labels, rows) in enumerate(states):
        lines.append("state %d%s" % (number, "".join(" " + label for label in labels)))
        lines += rows
    return "\n".join(lines) + "\n"


def to_goal(rows: list[list[str]]) -> list[State]:
    """States 0 and on with these lines; then the goal and a sink, whose numbers follow."""
    states = [(["init"] if number == 0 else [], lines) for number, lines in enumerate(rows)]
    goal = len(states)
    return states + [(["goal"], ["%d : 1" % goal]), ([], ["%d : 1" % (goal + 1)])]


# ---- values


PRODUCT = "*".join("(1+%s)" % letter for letter in LETTERS)


def values_model(value: str, size: int = MIB - 4096) -> str:
    """States with a long value that is 1, each written with a number of its own: as many as fit."""
    rows: list[list[str]] = []
    used = 0
    while True:
        number = len(rows)
        row = "%d : %d-%d+%s" % (number, number, number, value)
        used += len(row) + 12
        if used > size:
            break
        rows.append([row])
    return model(to_goal(rows), LETTERS)


@kind(verify(over(LETTERS)))
def cancelling_products() -> str:
    """values of 40 products of 65,536 terms each, which cancel in pairs"""
    return values_model("+".join(["1"] + ["%s-%s" % (PRODUCT, PRODUCT)] * 20))


@kind(verify(over(LETTERS)))
def cancelling_steps() -> str:
    """values that add 1 to 65,536 terms and take it away, 1,900 times"""
    return values_model("1+" + PRODUCT + "+1-1" * 950 + "-" + PRODUCT)


@kind(verify(over(LETTERS)))
def cancelling_steps_once() -> str:
    """one such value"""
    return values_model("1+" + PRODUCT + "+1-1" * 950 + "-" + PRODUCT, 8192)


TENTHS = "1+" + PRODUCT + "+0.1-0.1" * 920 + "-" + PRODUCT
FACTORS = "1+" + PRODUCT + "*2*0.5" * 950 + "-" + PRODUCT


@kind(verify(over(LETTERS)))
def cancelling_tenths() -> str:
    """values that add a tenth to 65,536 terms and take it away, 1,840 times"""
    return values_model(TENTHS)


@kind(verify(over(LETTERS)))
def cancelling_tenths_once() -> str:
    """one such value"""
    return values_model(TENTHS, 8192)


@kind(verify(over(LETTERS)))
def cancelling_factors() -> str:
    """values that double 65,536 terms and halve them, 1,900 times"""
    return values_model(FACTORS)


@kind(verify(over(LETTERS)))
def cancelling_factors_once() -> str:
    """one such value"""
    return values_model(FACTORS, 8192)


@kind(verify("0<=p<=1"))
def deep_values() -> str:
    """values 64 deep, 21 in each sum"""
    parentheses = "(" * 64 + "p" + ")" * 64
    signs = "-" * 64 + "p"
    value = parentheses + ("-" + parentheses + "+" + signs) * 10
    count = MIB // (len(value) + 64)
    return model(to_goal([["%d : %s" % (number, value), "%d : 1-p" % (number + 1)] for number in range(count)]), "p")


@kind(verify())
def long_literals() -> str:
    """numbers with a hundred thousand zeros behind the point"""
    rows = [["%d : 0.%s1e%d" % (number, "0" * 100000, 100001)] for number in range(10)]
    return model(to_goal(rows))


@kind(verify("0<=p<=1"))
def placeholders() -> str:
    """65,536 placeholders, of which the last is used"""
    lines = ["@type: DTMC", "@parameters", "p", "@placeholders"]
    lines += ["$%x : p" % number for number in range(65535)] + ["$rest : 1-p", "@model", "state 0 init"]
    lines += ["1 : $fffe", "2 : $rest", "state 1 goal", "1 : 1", "state 2", "2 : 1"]
    return "\n".join(lines) + "\n"


@kind(verify("0<=p<=1"))
def placeholders_used() -> str:
    """16,000 placeholders, each used once"""
    count = 16000
    lines = ["@type: DTMC", "@parameters", "p", "@placeholders"]
    lines += ["$%d : 1-p" % number for number in range(count)] + ["@model"]
    for number in range(count):
        lines += [
            "state %d%s" % (number, "" if number else " init"),
            "%d : $%d" % (number + 1, number),
            "%d : p" % number,
        ]
    lines += ["state %d goal" % count, "%d : 1" % count]
    return "\n".join(lines) + "\n"


# ---- lines


@kind(verify())
def line_feeds() -> str:
    """a million line feeds"""
    return "\n" * MIB


@kind(verify())
def labels() -> str:
    """one state with half a million labels"""
    return "@type: DTMC\n@model\nstate 0 init goal" + " a" * 500000 + "\n0 : 1\n"


def descending(count: int, states: int) -> str:
    """One choice with so many transitions, to the last state first; and the states behind."""
    lines = ["@type: DTMC", "@model", "state 0 init", "%d : 1" % (count - 1)]
    lines += ["%d : 0" % target for target in range(count - 2, -1, -1)]
    for number in range(1, states):
        lines += ["state %d%s" % (number, " goal" if number == 1 else ""), "%d : 1" % number]
    return "\n".join(lines) + "\n"


@kind(verify())
def descending_targets() -> str:
    """one choice with 30,000 transitions, to the last state first"""
    return descending(30000, 30000)


@kind(verify())
def targets_without_states() -> str:
    """one choice with 90,000 transitions, to the last state first, which isn't there"""
    return descending(90000, 3)


# ---- choices


@kind(verify())
def idle_choices() -> str:
    """one state with 65,536 choices, each of which leads back to it"""
    lines = ["@type: MDP", "@model", "state 0 init"] + ["action", "0 : 1"] * 65535 + ["action", "1 : 1/2", "2 : 1/2"]
    lines += ["state 1 goal", "action", "1 : 1", "state 2", "action", "2 : 1"]
    return "\n".join(lines) + "\n"


@kind(verify("1/10<=p<=9/10"))
def idle_choices_over_p() -> str:
    """one state with 40,000 choices, each of which stays with p and is lost else"""
    lines = ["@type: MDP", "@parameters", "p", "@model", "state 0 init"]
    lines += ["action", "0 : p", "2 : 1-p"] * 40000 + ["action", "1 : p", "2 : 1-p"]
    lines += ["state 1 goal", "action", "1 : 1", "state 2", "action", "2 : 1"]
    return "\n".join(lines) + "\n"


# ---- cycles


def leaking(count: int, leak: str) -> str:
    """A ring of so many states; each is left with a small probability, in equal parts to the goal and the sink."""
    goal, sink = count, count + 1
    half = "%s/2" % leak
    rows = []
    for number in range(count):
        after = (number + 1) % count
        rows.append(["%d : 1-%s" % (after, leak), "%d : %s" % (goal, half), "%d : %s" % (sink, half)])
    return model(to_goal(rows))


@kind(verify(bound="1"))
def leaking_ring() -> str:
    """a ring of 16,000 states, each of which leaks a millionth"""
    return leaking(16000, "1e-6")


@kind(verify(bound="0"))
def leaking_ring_from_above() -> str:
    """the same, with a bound of 0"""
    return leaking(16000, "1e-6")


@kind(verify(bound="0", precision=40))
def leaking_pair_from_above() -> str:
    """two states that lead to each other but for 1e-7, at precision 40, with a bound of 0"""
    return leaking(2, "1e-7")


@kind(verify(bound="1", precision=40))
def tight_pair() -> str:
    """two states that lead to each other but for 1e-17, at precision 40"""
    return leaking(2, "1e-17")


@kind(verify(bound="0", precision=40))
def tight_pair_from_above() -> str:
    """the same, with a bound of 0"""
    return leaking(2, "1e-17")


def walking(length: int, forth: str = "1/2") -> str:
    """A walk over so many states from the lowest, with this probability of a step forth; goal above, sink below."""
    goal, sink = length, length + 1
    rows = []
    for number in range(length):
        after = number + 1 if number + 1 < length else goal
        before = number - 1 if number else sink
        rows.append(["%d : %s" % (after, forth), "%d : 1-%s" % (before, forth)])
    return model(to_goal(rows))


@kind(verify(bound="1"))
def fair_walk_300() -> str:
    """a fair walk over 300 states"""
    return walking(300)


@kind(verify(bound="1"))
def fair_walk_3000() -> str:
    """a fair walk over 3,000 states"""
    return walking(3000)


@kind(verify(bound="1"))
def fair_walk_28000() -> str:
    """a fair walk over 28,000 states"""
    return walking(28000)


@kind(verify(bound="0"))
def fair_walk_300_from_above() -> str:
    """a fair walk over 300 states, with a bound of 0"""
    return walking(300)


@kind(verify(bound="0"))
def fair_walk_3000_from_above() -> str:
    """a fair walk over 3,000 states, with a bound of 0"""
    return walking(3000)


# ---- large components of other shapes


def near_half(bound: str, precision: int, goal: str = "won") -> str:
    """The words of a run of verify where p is about a half."""
    return f"verify --goal {goal} --bound {bound} --precision {precision} --region 49/100<=p<=51/100"


def spent(budget: int) -> str:
    """The words of a run of cost there, at precision 40."""
    what = f"--goal done --reward spent --budget {budget} --cap 1000000000"
    return f"cost {what} --precision 40 --region 49/100<=p<=51/100"


@kind(near_half("1", 40))
def expander_400() -> str:
    """400 states that each lead to the next one and to one by chance, and leak 1 in 10^9, at precision 40"""
    return models.expander(400, 9)


@kind(near_half("0", 40))
def expander_400_from_above() -> str:
    """the same, with a bound of 0"""
    return models.expander(400, 9)


@kind(near_half("1", 40))
def expander_700() -> str:
    """700 such states"""
    return models.expander(700, 9)


@kind(near_half("0", 40))
def expander_700_from_above() -> str:
    """the same, with a bound of 0"""
    return models.expander(700, 9)


@kind(near_half("1", 40))
def chooser_100() -> str:
    """100 states with two such choices each"""
    return models.chooser(100, 9)


@kind(near_half("0", 24))
def chooser_100_from_above() -> str:
    """the same, with a bound of 0, at precision 24"""
    return models.chooser(100, 9)


@kind(near_half("0", 24))
def chooser_400_from_above() -> str:
    """400 of them"""
    return models.chooser(400, 9)


@kind(near_half("1", 40))
def plane_20() -> str:
    """a walk to and fro on 20 by 20 places, at precision 40"""
    return models.plane(20)


@kind(near_half("0", 40))
def plane_20_from_above() -> str:
    """the same, with a bound of 0"""
    return models.plane(20)


@kind(near_half("1", 40))
def plane_60() -> str:
    """a walk to and fro on 60 by 60 places"""
    return models.plane(60)


@kind(near_half("0", 40))
def plane_60_from_above() -> str:
    """the same, with a bound of 0"""
    return models.plane(60)


@kind(near_half("1", 40))
def blocks_1000() -> str:
    """1,000 components of four states, one behind the other, at precision 40"""
    return models.blocks(1000)


@kind(near_half("0", 40))
def blocks_1000_from_above() -> str:
    """the same, with a bound of 0"""
    return models.blocks(1000)


@kind(near_half("1", 40))
def blocks_10000() -> str:
    """10,000 of them"""
    return models.blocks(10000)


@kind(near_half("1/2", 24, "done") + ",2/5<=q<=3/5")
def deep_layers() -> str:
    """a decision process of 50 layers of 20 states, with four choices on to the next layer and back"""
    return models.deep(50, 20)


@kind(spent(1000000000))
def spender_300() -> str:
    """costs of 300 states by chance, which lead anywhere, and of which three leak 1 in 10^4"""
    return models.spender(300, 4)


@kind(spent(1000000000))
def spender_1000() -> str:
    """the same of 1,000 states, of which ten leak"""
    return models.spender(1000, 4)


# ---- hardware that fails rarely: few states and very many steps


def rare(region: str, bound: str = "1") -> str:
    """The words of a run of verify at precision 40, of the label "lost"."""
    return "verify --goal lost --bound %s --precision 40 --region %s" % (bound, region)


# a fault in 10^5 to 10^7 cycles, and a repair in 10 to 100
SELDOM = "1/10000000<=p<=1/100000,1/100<=q<=1/10"


@kind(rare(SELDOM))
def scrubbed_memory() -> str:
    """a word of memory with two wrong bits at most, for 10^6 cycles"""
    return models.memory(2, 6)


@kind(rare(SELDOM))
def array_of_disks() -> str:
    """eight disks, two of which are spare, for 10^6 cycles"""
    return models.disks(8, 2, 6)


@kind(rare(SELDOM))
def watchdog_timer() -> str:
    """a processor that is reset after eight cycles, for 10^6 cycles"""
    return models.watchdog(8, 6)


@kind(rare(SELDOM))
def token_ring_5() -> str:
    """a token that goes around five stations, for 10^6 rounds"""
    return models.ring(5, 6)


@kind(rare(SELDOM))
def token_ring_50() -> str:
    """a token that goes around fifty stations, for 10^6 rounds"""
    return models.ring(50, 6)


@kind(rare(SELDOM))
def bus_off() -> str:
    """a counter of errors up to 32, for 10^6 cycles"""
    return models.bus(32, 6)


@kind(rare(SELDOM))
def spare_units() -> str:
    """six units that take over from one another, for 10^6 cycles"""
    return models.spares(6, 6)


@kind(rare("1/20<=p<=1/10,3/20<=q<=1/5"))
def full_queue() -> str:
    """a queue of 40 places, for 10^6 cycles"""
    return models.queue(40, 6)


@kind(rare("1/100<=p<=1/10,1/10<=q<=1/2"))
def nested_scales() -> str:
    """faults behind faults, four deep, for 10^5 cycles"""
    return models.nested(4, 5)


# ---- end components


@kind(verify(bound="0"))
def end_components() -> str:
    """8,000 pairs of states that lead back to each other; each pair may leave, with a probability of its own"""
    rows = []
    count = 8000
    goal, sink = 2 * count, 2 * count + 1
    for pair in range(count):
        here, there = 2 * pair, 2 * pair + 1
        after = (2 * pair + 2) % (2 * count)
        leave = ["%d : %d/9001" % (goal, pair + 1), "%d : %d/9001" % (sink, 9000 - pair)]
        rows.append(["action", "%d : 1" % there, "action"] + leave)
        rows.append(["action", "%d : 1" % here, "action", "%d : 1/2" % after, "%d : 1/2" % sink])
    return model(to_goal(rows), kind="MDP")


def path_at_will(count: int) -> str:
    """From each state back with certainty, or on at a growing risk to be lost; the goal is behind the last one."""
    goal, sink = count, count + 1
    rows = []
    for here in range(count):
        lines = ["action", "%d : 1" % max(here - 1, 0), "action"]
        if here + 1 < count:
            lines += ["%d : %d/12001" % (here + 1, 12000 - here), "%d : %d/12001" % (sink, here + 1)]
        else:
            lines += ["%d : 1/2" % goal, "%d : 1/2" % sink]
        rows.append(lines)
    return model(to_goal(rows), kind="MDP")


@kind(verify(bound="0"))
def nested_ends_1000() -> str:
    """a path of 1,000 states; each may go back, or on at the risk to be lost"""
    return path_at_will(1000)


@kind(verify(bound="0"))
def nested_ends_12000() -> str:
    """the same with 12,000 states"""
    return path_at_will(12000)


# ---- parameters


@kind(verify(over(LETTERS)))
def parameter_sets() -> str:
    """rows over four of sixteen parameters, with all sixteen sets, at sixteen corners"""
    rows: list[list[str]] = []
    used = 0
    while used < MIB - 8192:
        number = len(rows)
        names = [LETTERS[(number // 4**place + 4 * place + number * place) % 4 + 4 * place] for place in range(4)]
        lines = []
        for corner in range(16):
            factors = ["%s" % name if corner >> bit & 1 else "(1-%s)" % name for bit, name in enumerate(names)]
            lines.append("*".join(factors))
        after = number + 1
        sums = [
            "%d : %s" % (number, "+".join(lines[:5])),
            "%d : %s" % (after, "+".join(lines[5:11])),
            "SINK : " + "+".join(lines[11:]),
        ]
        rows.append(sums)
        used += sum(len(line) + 1 for line in sums) + 12
    sink = str(len(rows) + 1)
    return model(to_goal([[line.replace("SINK", sink) for line in lines] for lines in rows]), LETTERS)


@kind(verify(over(LETTERS)))
def cancelling_rows() -> str:
    """a row of 27,000 transitions over all sets of four of sixteen parameters, which cancel in pairs"""
    products = ["*".join(names) for names in itertools.combinations(LETTERS, 4)]
    lines = ["@type: DTMC", "@parameters", " ".join(LETTERS), "@model", "state 0 init", "0 : 1"]
    for target in range(1, 26999, 2):
        product = products[target // 2 % len(products)]
        lines += ["%d : %s" % (target, product), "%d : -%s" % (target + 1, product)]
    for number in range(1, 27001):
        lines += ["state %d%s" % (number, " goal" if number == 1 else ""), "%d : 1" % number]
    return "\n".join(lines) + "\n"


# ---- reports


def head(depth: int = 0) -> str:
    """The head of a coin's report over the region from 0 to 1."""
    return (
        "plift 1\nkind dtmc\nparameters 1 p\ncommon 1\nstates 3\ninit 0\ngoal 1 1\nrow 0 0 2\nto 1 1:1\nto 2 0:1 1:-1\n"
        "row 1 0 1\nto 1 0:1\nrow 2 0 1\nto 2 0:1\nbound 1/2\nprecision 4\ndepth %d\ngrid %d\nbox 0 %d\n"
        % (depth, 2**depth, 2**depth)
    )


@kind("check")
def unknown_leaves() -> str:
    """a report of 20 levels with a million unknown leaves"""
    return head(20) + tree(20, "unknown\n")


def tree(depth: int, leaf: str, axes: int = 1) -> str:
    """A tree all of whose leaves are at that depth; the rectangles are halved on each parameter in turn."""

    def nodes(level: int) -> str:
        """The lines of a rectangle that many levels down, and of all in it."""
        return leaf if level == depth else "split %d\n" % (level % axes) + nodes(level + 1) * 2

    return nodes(0)


def rows_by_leaves(depth: int, choices: int = 2500) -> str:
    """A report of 2^depth accepting leaves, for each of which so many rows are tested at sixteen corners."""
    common = 10007
    signs = [(-1) ** bin(subset).count("1") for subset in range(16)]
    lines = ["plift 1", "kind mdp", "parameters 4 a b c d", "common %d" % common, "states 3", "init 0", "goal 1 1"]
    for choice in range(choices):
        terms = [(subset, sign * (choice + 1)) for subset, sign in enumerate(signs)]
        rest = [(0, common - choice - 1)] + [(subset, -number) for subset, number in terms[1:]]
        lines.append("row 0 %d 2" % choice)
        lines += [
            "to %d " % target + " ".join("%d:%d" % term for term in row) for target, row in ((1, terms), (2, rest))
        ]
    lines += ["row 1 0 1", "to 1 0:%d" % common, "row 2 0 1", "to 2 0:%d" % common, "bound 1/1", "precision 4"]
    lines += ["depth %d" % depth, "grid %d" % 2**depth, "box" + " 0 %d" % 2**depth * 4]
    return "\n".join(lines) + "\n" + tree(depth, "accept 16 16 16\n", 4)


@kind("check")
def rows_times_leaves() -> str:
    """a report of 8,192 accepting leaves, for each of which 2,500 rows are tested at sixteen corners"""
    return rows_by_leaves(13)


@kind("check")
def long_numbers() -> str:
    """a report whose bound is two numbers of half a million digits"""
    digits = "7" * (MIB // 2 - 512)
    return head().replace("bound 1/2", "bound %s/%s" % (digits, digits[:-1] + "9"))


@kind("check")
def long_denominator() -> str:
    """a report whose bound has a denominator of a million digits"""
    return head().replace("bound 1/2", "bound 1234567/%s" % ("7" * (MIB - 1024)))


@kind("check")
def long_accept() -> str:
    """a report whose leaf has a million numbers too many"""
    return head() + "accept" + " 1" * (MIB // 2 - 512) + "\n"


@kind("check")
def long_box() -> str:
    """a report whose region ends are numbers of half a million digits"""
    digits = "8" * (MIB // 2 - 512)
    return head().replace("box 0 1", "box %s %s" % (digits[:-1] + "0", digits))


# ---- other commands


def lumped(words: str = "") -> str:
    """The words of a run of lumped."""
    return verify().replace("verify", "lumped", 1) + words


@kind(lumped())
def colliding_constants() -> str:
    """18,000 states with a constant that is 0 by the prime that hashes are made with, each to one of a chain"""
    count = 18000
    chain, sink = 2 * count, 2 * count + 1
    prime, whole = 2**61 - 1, 2**62 - 1
    lines = ["@type: DTMC", "@placeholders", f"$a : {prime}/{whole}", f"$b : {whole - prime}/{whole}", "@model"]
    for number in range(count):
        lines += [f"state {number}{'' if number else ' init'}", f"{count + number} : $a", f"{sink} : $b"]
    for number in range(count, chain):
        lines += [f"state {number}", f"{number + 1} : 1"]
    lines += [f"state {chain} goal", f"{chain} : 1", f"state {sink}", f"{sink} : 1"]
    return "\n".join(lines) + "\n"


def copied(count: int, seed: int) -> str:
    """A chain of copies of four states, which lead to each other's copies at random, and two sinks of no label."""
    chance = random.Random(seed)
    # Where each of the four may lead to, by kinds: 4 and 5 are the sinks.
    targets = [(1, 3), (0, 4), (3, 5), (2, 0)]
    lines = ["@type: DTMC", "@model"]
    for number in range(4 * count):
        near = [
            4 * chance.randrange(count) + kind if kind < 4 else 4 * count + kind - 4 for kind in targets[number % 4]
        ]
        label = " goal" if number % 4 == 3 else " init" if number == 0 else ""
        lines += [f"state {number}{label}", *(f"{target} : 1/2" for target in near)]
    for sink in (4 * count, 4 * count + 1):
        lines += [f"state {sink}", f"{sink} : 1"]
    return "\n".join(lines) + "\n"


@kind(lumped())
def copied_states() -> str:
    """22,000 copies of four states, which lead to each other's copies, and two sinks"""
    return copied(5500, 1)


@kind(lumped())
def copied_states_few() -> str:
    """twelve copies of four states, and two sinks"""
    return copied(3, 2)


@kind(lumped())
def lumped_walk() -> str:
    """a fair walk over 1,000 states, of which no two are alike"""
    return walking(1000)


def formula(text: str) -> str:
    """The words of a run of property."""
    return "property --precision 24 --formula " + text


@kind(formula('P>=1/2[F"goal"]'))
def property_of_ends() -> str:
    """8,000 pairs of states that lead back to each other, asked for the scheduler that reaches the least"""
    return end_components()


@kind(formula('P<=1/2["init"U"goal"]'))
def property_of_walk() -> str:
    """a fair walk over 3,000 states, cut at its first state"""
    return walking(3000)


@kind("bounded --goal goal --bound 1/2 --steps 64 --precision 24")
def bounded_walk() -> str:
    """a fair walk over 3,000 states, within 64 steps"""
    return walking(3000)


@kind("cost --goal goal --reward tries --budget 100 --cap 1000000 --precision 24")
def costly_ring() -> str:
    """a ring of 1,000 states, each of which leaks a thousandth to the goal and costs 1"""
    count = 1000
    lines = ["@type: DTMC", "@reward_models", "tries", "@model"]
    for number in range(count):
        lines += [
            f"state {number} [1]{'' if number else ' init'}",
            f"{(number + 1) % count} : 0.999",
            f"{count} : 0.001",
        ]
    return "\n".join([*lines, f"state {count} goal", f"{count} : 1"]) + "\n"


@kind("migrate")
def migrated_rows() -> str:
    """a report of 8 accepting leaves, for each of which 2,500 rows are tested at sixteen corners"""
    return rows_by_leaves(3)


@kind("refine --depth 17")
def refined_leaves() -> str:
    """a report of 16 levels with 65,536 unknown leaves"""
    return head(16) + tree(16, "unknown\n")


@kind("generate 32767")
def generated() -> str:
    """the greatest ladder"""
    return ""


@kind("selftest 2000")
def tested_ladder() -> str:
    """a ladder of 2,000 blocks, verified and checked"""
    return ""


@kind("recheck")
def recheck_long_numbers() -> str:
    """a report whose bound is two numbers of half a million digits, read by recheck.py"""
    return long_numbers()


@kind("recheck")
def recheck_long_denominator() -> str:
    """a report whose bound has a denominator of a million digits, read by recheck.py"""
    return long_denominator()


@kind("recheck")
def recheck_rows_times_leaves() -> str:
    """a report of 8 accepting leaves, for each of which 2,500 rows are tested by recheck.py"""
    return rows_by_leaves(3)


@kind("recheck")
def recheck_rows_times_64_leaves() -> str:
    """a report of 64 accepting leaves, for each of which 2,500 rows are tested by recheck.py"""
    return rows_by_leaves(6)


@kind("recheck")
def recheck_two_states() -> str:
    """a report of two states, with as many rows with a product of four parameters and as many leaves as fit"""
    lines = ["plift 1", "kind mdp", "parameters 4 a b c d", "common 99999", "states 2", "init 0", "goal 1 1"]
    for choice in range(10900):
        lines += [f"row 0 {choice} 2", f"to 0 0:99999 15:-{choice + 1}", f"to 1 15:{choice + 1}"]
    lines += ["row 1 0 1", "to 1 0:99999", "bound 1/1", "precision 1", "depth 15", "grid 268435455"]
    return "\n".join(lines) + "\nbox" + " 0 262144" * 4 + "\n" + halved(27000, "accept 2 2\n", 4)


def halved(count: int, leaf: str, axes: int, level: int = 0) -> str:
    """A tree of so many leaves; the rectangles are halved on each parameter in turn."""
    if count == 1:
        return leaf
    parts = [halved(part, leaf, axes, level + 1) for part in (count - count // 2, count // 2)]
    return "split %d\n" % (level % axes) + "".join(parts)


# ----


def run(names: list[str], path: str, limit: int) -> int:
    """Prints a line for each kind; 1 where one took longer than so many seconds of the processor, and else 0."""
    print("%-26s %9s %6s %10s %8s  %s" % ("kind", "bytes", "status", "seconds", "MB", "note"))
    slow = []
    with measure.scratch() as folder:
        source, target = os.path.join(folder, "input"), os.path.join(folder, "output")
        for name in names:
            text = KINDS[name].make().encode("ascii")
            with open(source, "wb") as file:
                file.write(text)
            result = measure.once(KINDS[name].command(path), source, target, limit)
            if result.stopped:
                slow.append(name)
            status = "-" if result.stopped else str(result.status)
            seconds = ("> %d" % limit) if result.stopped else "%.2f" % result.seconds
            print(
                "%-26s %9d %6s %10s %8.1f  %s" % (name, len(text), status, seconds, result.megabytes, result.note),
                flush=True,
            )
    if slow:
        print("too slow: " + ", ".join(slow))
    return 1 if slow else 0


def main() -> None:
    """Lists the kinds, writes the inputs of some, or runs the program on them."""
    parser = argparse.ArgumentParser(description=__doc__, formatter_class=argparse.RawDescriptionHelpFormatter)
    parser.add_argument("what", choices=["list", "make", "run"])
    parser.add_argument("kinds", nargs="*")
    parser.add_argument("--bin")
    parser.add_argument("--limit", type=int, default=60)
    asked = parser.parse_intermixed_args()
    names = asked.kinds or list(KINDS)
    unknown = [name for name in names if name not in KINDS]
    if unknown:
        sys.exit("no such kind: " + ", ".join(unknown))
    if asked.what == "list":
        for name in names:
            print("%-26s %s" % (name, KINDS[name].about))
    elif asked.what == "make":
        for name in asked.kinds:
            sys.stdout.write(KINDS[name].make())
    else:
        resource.setrlimit(resource.RLIMIT_AS, (ROOM, ROOM))
        sys.exit(run(names, measure.program(asked.bin), asked.limit))


if __name__ == "__main__":
    main()
