"""Words of a command line."""

import argparse
import sys
from typing import IO, NoReturn, Optional

from .faults import Fault


class Words(argparse.ArgumentParser):
    """A parser that tells a fault as all other faults are told."""

    def error(self, message: str) -> NoReturn:
        raise Fault('%s; `%s --help` tells the words' % (message, self.prog))

    def _print_message(self, message: str, file: Optional[IO[str]] = None) -> None:
        """Writes a page. What can't be written is a fault, which the parser itself would pass over."""
        (file or sys.stderr).write(message)


def add_drawn(words: argparse.ArgumentParser) -> None:
    """The words of a command that draws a report: which one, and what its axes are."""
    words.add_argument('report', metavar='REPORT', help='a file with a report; - for standard input')
    words.add_argument(
        '--x', metavar='P', help='the parameter from left to right; the first that a row depends on if left out'
    )
    words.add_argument('--y', metavar='P', help='the parameter from below up; the next one if left out')
