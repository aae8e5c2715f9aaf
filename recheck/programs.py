"""Which programs the tests of this folder ask: the ones that are named, else the proved ones, else the quick copies."""
from __future__ import annotations

import sys
from pathlib import Path

TOP = Path(__file__).resolve().parent.parent
BUILT = {
    'plift': ('crates/plift/out/plift', 'build/quick/plift'),
    'plift-view': ('crates/plift_view/out/plift_view', 'build/quick/plift-view'),
}


def program(name: str, given: str | None) -> Path | None:
    """The program that is given, else the first one of this name that is built; none where there is no such file."""
    places = [Path(given).resolve()] if given else [TOP / place for place in BUILT[name]]
    return next((place for place in places if place.is_file()), None)


def needed(name: str, given: str | None) -> Path:
    """The same, but where there is none the test ends with a word on what to do."""
    found = program(name, given)
    if not found:
        place = f'{given} is no file' if given else f'no {name} is built: tools/quick.py builds one'
        sys.exit(f'{Path(sys.argv[0]).name}: {place}')
    return found
