"""plift-lab: numbers, thresholds, leaves as data and pages to explore, over the proved program plift.

Nothing in it is believed: each answer names the reports that stand behind it, which `plift check` has judged (or
`plift audit`, or recheck.py: the answer says who).

    >>> from plift_lab import bounds
    >>> found = bounds('examples/retry.drn', 'lost', {'p': ('1/10', '3/10'), 'q': ('1/20', '1/5')})
    >>> float(found.sup.most)
    0.027000000000043656

`bounds` tells numbers, `verify` a verdict with its leaves, `threshold` how far a parameter may go, and `read` reads a
report of somebody. `help(plift_lab.bounds)` tells more. In a notebook each answer shows itself.
"""

from importlib import import_module as _import_module
from typing import Any as _Any
from typing import List as _List

from .version import VERSION as __version__  # noqa: F401

_PLACES = {
    'Bounds': 'api',
    'Edge': 'edge',
    'Fault': 'faults',
    'Leaf': 'report',
    'Model': 'models',
    'Refused': 'faults',
    'Region': 'regions',
    'Report': 'report',
    'bounds': 'api',
    'read': 'api',
    'threshold': 'api',
    'verify': 'api',
}
"""The library's parts, and the module of each, which is loaded once it is asked for: plift-tiles starts often."""
__all__ = list(_PLACES)


def __getattr__(name: str) -> _Any:
    if name not in _PLACES:
        raise AttributeError('module %r has no attribute %r' % (__name__, name))
    return getattr(_import_module('.' + _PLACES[name], __name__), name)


def __dir__() -> _List[str]:
    return sorted([*_PLACES, '__version__'])
