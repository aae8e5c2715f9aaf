"""The folder of a job: a report whose unknown leaves are the tiles, the model, and the reports of tiles that are done.

    job.txt          depth of the whole, halvings of a tile, bound, precision, in version 2 the least one, number of
    tiles base.report      the report whose unknown leaves are the tiles
    model.drn        its model as a text; its goal states have the label `goal`
    tiles.txt        number and region of each tile
    done/N.report    the report of tile N, once `plift check` has judged it
"""

from __future__ import annotations

import os
from pathlib import Path
from typing import Iterable, List, Optional

from plift_lab.faults import Fault

from .faults import UNFIT

MOST_DEPTH = 20
GOAL = 'goal'
"""The label of goal states in the model's text."""


class Job:
    """A folder that `split` has finished."""

    def __init__(self, place: Path) -> None:
        self.place = place
        try:
            told = dict(line.split(' ', 1) for line in (place / 'job.txt').read_text('ascii').splitlines())
            self.depth = _whole(told['depth'], MOST_DEPTH)
            self.levels, count = _whole(told['levels'], self.depth), _whole(told['tiles'], 2**MOST_DEPTH)
            self.bound, self.precision, self.least = told['bound'], told['precision'], told.get('from')
            lines = (place / 'tiles.txt').read_text('ascii').splitlines()
            self.regions = [line.split('\t', 1)[1] for line in lines]
        except (FileNotFoundError, NotADirectoryError):
            raise Fault('%s is no folder that `plift-tiles split` has made' % place) from None
        except (ValueError, KeyError, IndexError):
            raise Fault('%s has another job.txt or tiles.txt than `plift-tiles split` writes' % place) from None
        except OSError as error:
            raise Fault('%s can\'t be read: %s' % (error.filename or place, error.strerror or error)) from None
        if len(self.regions) != count:
            raise Fault('%s/tiles.txt has %d tiles, and job.txt tells %d' % (place, len(self.regions), count), UNFIT)

    @property
    def base(self) -> Path:
        """The report whose unknown leaves are the tiles."""
        return self.place / 'base.report'

    @property
    def model(self) -> Path:
        """The model's text."""
        return self.place / 'model.drn'

    @property
    def numbers(self) -> range:
        """The tiles."""
        return range(1, len(self.regions) + 1)

    @property
    def left(self) -> List[int]:
        """The tiles without a report."""
        return [number for number in self.numbers if not self.is_done(number)]

    def report(self, number: int) -> Path:
        """Where the report of a tile stands once it is done."""
        return self.place / 'done' / ('%d.report' % number)

    def is_done(self, number: int) -> bool:
        """Whether it stands there."""
        return self.report(number).exists()

    def words(self, number: int) -> List[str]:
        """The program's words for a tile."""
        return words(self.bound, self.regions[number - 1], str(self.levels), self.precision, self.least)


def _whole(text: str, most: int) -> int:
    """A number that `split` may have written."""
    if not (text.isdigit() and len(text) < 9 and int(text) <= most):
        raise ValueError(text)
    return int(text)


def words(bound: str, region: str, depth: str, precision: str, least: Optional[str]) -> List[str]:
    """The program's words for a region of the model's text, with the least precision of version 2."""
    where = ['--region', region] if region else []
    range_of = ['--precision', precision] + ([] if least is None else ['--from', least])
    return ['verify', '--goal', GOAL, '--bound', bound, *where, '--depth', depth, *range_of]


def lay_out(place: Path, told: Iterable[str], regions: List[str]) -> None:
    """Writes what tells of a job into its folder."""
    (place / 'done').mkdir()
    (place / 'tiles.txt').write_text(''.join('%d\t%s\n' % each for each in enumerate(regions, 1)), 'ascii')
    (place / 'job.txt').write_text(''.join('%s\n' % line for line in [*told, 'tiles %d' % len(regions)]), 'ascii')


def beside(place: Path) -> Path:
    """A name in the same folder for what is being made and isn't there yet. It tells who makes it."""
    return place.with_name('%s.%s.%d.part' % (place.name, os.uname().nodename, os.getpid()))
