"""Starts plift-lab: as `python3 -m plift_lab`, or as a file of a checkout."""

import sys

if not __package__:
    # Started as a file: the package's own folder must not be where modules are looked up.
    sys.path[0] = sys.path[0].rpartition('/')[0] or '.'

from plift_lab.cli import main  # noqa: E402

if __name__ == '__main__':
    sys.exit(main())
