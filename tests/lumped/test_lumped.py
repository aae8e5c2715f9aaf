"""Quotients that `plift lumped` writes, beside such as plain rounds come to, and chains that once took all memory.

`python3 -m unittest discover -s tests/lumped` tries build/quick/plift, or the program named by PLIFT_PROGRAM.
"""

from __future__ import annotations

import os
import random
import resource
import subprocess
import sys
import unittest
from pathlib import Path
from typing import List, Tuple

sys.dont_write_bytecode = True
TOP = Path(__file__).resolve().parents[2]
sys.path.insert(0, str(Path(__file__).resolve().parent))
from chains import Chain, random_chain  # noqa: E402

PROGRAM = os.environ.get("PLIFT_PROGRAM") or str(TOP / "build" / "quick" / "plift")
MEMORY, SECONDS = 1 << 30, 3

# Of each state a row over the denominator, the goal states and the initial one. Splits of these once gave one label
# after another to the same states: two ways to two sinks, five states, and ten.
TWO_SINKS = Chain(
    2,
    [
        {4: (1, 0), 1: (1, 0)},
        {1: (2, 0)},
        {2: (1, 0), 1: (1, 0)},
        {3: (2, 0)},
        {4: (2, 0)},
        {2: (1, 0), 1: (1, 0)},
    ],
    [s == 1 for s in range(6)],
    2,
)
FIVE = Chain(
    2,
    [
        {1: (1, 0), 3: (1, 0)},
        {0: (1, 0), 4: (1, 0)},
        {3: (1, 0), 4: (1, 0)},
        {2: (1, 0), 0: (1, 0)},
        {2: (1, 0), 4: (1, 0)},
    ],
    [s == 3 for s in range(5)],
    2,
)
HALVES = Chain(
    2,
    [
        {2: (1, 0), 7: (1, 0)},
        {5: (1, 0), 7: (1, 0)},
        {6: (1, 0), 9: (1, 0)},
        {0: (1, 0), 1: (1, 0)},
        {1: (1, 0), 4: (1, 0)},
        {0: (1, 0), 5: (1, 0)},
        {1: (1, 0), 6: (1, 0)},
        {0: (1, 0), 1: (1, 0)},
        {3: (1, 0), 9: (1, 0)},
        {9: (2, 0)},
    ],
    [s == 9 for s in range(10)],
    0,
)


# Two parts of a whole: the first is the prime 2^61 - 1, or a polynomial whose mark the program's own point makes 0.
PRIME = ("2305843009213693951/4611686018427387903", "2305843009213693952/4611686018427387903")
POLYNOMIAL = ("6940611991/45467420856+637291485/45467420856*p", "38526808865/45467420856-637291485/45467420856*p")


def ladder(parts: Tuple[str, str], states: int) -> str:
    """So many states that lead by the first part to a state of their own each, and by the second to a sink."""
    lines = ["@type: DTMC", "@parameters", "p", "@placeholders", "$a : " + parts[0], "$b : " + parts[1], "@model"]
    end = 2 * states
    for s in range(states):
        lines += [f"state {s}" + " init" * (s == 0), f"{states + s} : $a", f"{end + 1} : $b"]
    for s in range(states, end):
        lines += [f"state {s}", f"{s + 1} : 1"]
    return "\n".join(lines + [f"state {end} goal", f"{end} : 1", f"state {end + 1}", f"{end + 1} : 1"]) + "\n"


def limited() -> None:
    """Limits the memory and the processor time of the program."""
    resource.setrlimit(resource.RLIMIT_AS, (MEMORY, MEMORY))
    resource.setrlimit(resource.RLIMIT_CPU, (SECONDS, SECONDS))


def asked(text: str, region: str = "1/4<=p<=3/4") -> Tuple[int, str, str]:
    """The status of `plift lumped` on a chain, what it writes and what it notes."""
    words = [PROGRAM, "lumped", "--goal", "goal", "--bound", "1/2", "--region", region, "--precision", "4"]
    done = subprocess.run(
        words, input=text, capture_output=True, text=True, check=False, timeout=60, preexec_fn=limited
    )
    return done.returncode, done.stdout, done.stderr


def model_of(report: str) -> Tuple[int, List[str]]:
    """The denominator of a report's model, and its lines from that of the states on."""
    lines = report.split("\n")
    at = next(i for i, line in enumerate(lines) if line.startswith("states "))
    end = next(i for i, line in enumerate(lines) if line.startswith("bound "))
    return int(lines[at - 1].split()[1]), lines[at:end]


def reduced(chain: Chain, common: int) -> Chain:
    """The same chain over a divisor of its denominator."""
    by = chain.common // common
    rows = [{target: (a // by, b // by) for target, (a, b) in row.items()} for row in chain.rows]
    return chain._replace(common=common, rows=rows)


@unittest.skipUnless(os.access(PROGRAM, os.X_OK), "build/quick/plift isn't built: tools/quick.py plift")
class Quotients(unittest.TestCase):
    """The quotients of chains, within a limit of memory and time."""

    def assert_quotient(self, chain: Chain) -> None:
        """The report's model is the quotient by the coarsest right partition."""
        text = chain.text()
        status, report, note = asked(text)
        self.assertEqual((status, note), (0, ""), text)
        common, lines = model_of(report)
        self.assertEqual(lines, reduced(chain, common).quotient(), text)

    def test_chains_that_took_all_memory(self) -> None:
        """Blocks of which all states are touched, in turn with others."""
        for chain in (TWO_SINKS, FIVE, HALVES):
            self.assert_quotient(chain)
            for s in range(len(chain.rows)):
                self.assert_quotient(chain._replace(init=s))

    def test_parts_that_no_mark_tells(self) -> None:
        """All states differ, and are told apart at once: once each took a pass of its own."""
        for parts, states in ((PRIME, 17000), (POLYNOMIAL, 17000)):
            status, report, note = asked(ladder(parts, states))
            self.assertEqual((status, note), (0, ""))
            self.assertEqual(model_of(report)[1][0], f"states {2 * states + 2}")

    def test_random_chains(self) -> None:
        """Chains with copied states, sinks, dead ends and cycles."""
        rng = random.Random(1)
        for _ in range(300):
            self.assert_quotient(random_chain(rng, rng.choice((4, 6, 9, 14, 30))))


if __name__ == "__main__":
    unittest.main()
