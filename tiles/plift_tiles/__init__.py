"""plift-tiles: one job of plift on many processors and machines, in tiles that any engine runs.

Nothing in it is believed: each tile counts once `plift check` has judged it, and `plift check` judges the whole.
"""

from plift_lab.version import VERSION as __version__

__all__ = ['__version__']
