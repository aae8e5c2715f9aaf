"""A picture of a report as SVG, in the user's own numbers, with the label that was asked for.

Of a rescaled report the picture has the user's intervals, as the file beside it tells them; parameters on no axis are
at the middles of their intervals. `view` makes a page to explore.

    plift-lab picture examples/retry-tree.report > retry.svg
"""

from __future__ import annotations

import argparse
import sys

from ..faults import DONE
from ..names import Names
from ..picture import svg
from ..session import Session
from ..words import add_drawn


def add_words(words: argparse.ArgumentParser) -> None:
    """The words of the command."""
    add_drawn(words)
    words.add_argument(
        '--model', metavar='MODEL', help='the model\'s text, which names the label; the report has numbers alone'
    )


def run(given: argparse.Namespace) -> int:
    """Does it."""
    with Session() as session:
        report = session.read(given.report)
    if given.model is not None:
        Names.read(given.model, report).name_goal(report)
    sys.stdout.write(svg(report, given.x, given.y))
    return DONE
