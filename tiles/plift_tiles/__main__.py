"""Starts plift-tiles. It stands beside plift-lab, whose modules read reports and run the program."""

import sys
from pathlib import Path

TOP = Path(__file__).resolve().parents[2]
# Started as a file: the package's own folder must not be where modules are looked up.
sys.path[0:1] = [str(TOP / 'tiles'), str(TOP / 'lab')]

from plift_tiles.cli import main  # noqa: E402

if __name__ == '__main__':
    sys.exit(main())
