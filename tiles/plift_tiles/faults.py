"""How a call of plift-tiles ends: a status for each ending, and one line for a person."""

from __future__ import annotations

from plift_lab.faults import Fault, Refused

DONE, LONG, UNFIT, SIGNAL = 0, 7, 9, 128
"""Done; a report is longer than `check` reads; a tile is missing, cut off or of another job; 128 and a signal's number
where one ended the call or the program. 1 to 8 are plift's own, which say what the program said; others are
plift-lab's: words, folders or files at fault, no room for what is written, want of memory, and no program to ask."""


def status_of(fault: Fault) -> int:
    """The status that tells a fault: the program's own where it is the program that refused or was killed."""
    if not isinstance(fault, Refused):
        return fault.status
    return fault.plift_status if fault.plift_status > 0 else SIGNAL - fault.plift_status
