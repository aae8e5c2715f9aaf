"""Hints for reading, writing, size and memory: what standard input and output are."""

from __future__ import annotations

import os
import stat
from typing import List, Optional

from hints.refusal import Refusal

MOST_BYTES = 2**26
MOST_CHECKED_BYTES = 2**32
MEM_FULL = (1, 7)  # the device /dev/full


def status_of(number: int) -> Optional[os.stat_result]:
    """What a standard stream is; none where it is closed."""
    try:
        return os.fstat(number)
    except OSError:
        return None


def source_hint() -> Optional[str]:
    """Why standard input most likely couldn't be read."""
    found = status_of(0)
    if found is None:
        return "standard input is closed: give a file by <"
    if stat.S_ISDIR(found.st_mode):
        return "standard input is a directory: name a file of it behind <"
    return None


def sink_hint() -> Optional[str]:
    """Why standard output most likely couldn't be written."""
    found = status_of(1)
    if found is None:
        return "standard output is closed"
    if stat.S_ISFIFO(found.st_mode) or stat.S_ISSOCK(found.st_mode):
        return "standard output is a pipe, and its reader has most likely ended (as head does)"
    if stat.S_ISCHR(found.st_mode) and (os.major(found.st_rdev), os.minor(found.st_rdev)) == MEM_FULL:
        return "standard output is /dev/full, which takes nothing"
    try:
        room = os.fstatvfs(1)
    except OSError:
        return None
    if stat.S_ISREG(found.st_mode) and room.f_bavail == 0:
        return "the disk is full: make room, and throw the front part away that was written"
    return None


def size_hints(refusal: Refusal) -> List[str]:
    """How long what was read is."""
    if refusal.command() == "selftest":
        return [f"the report would have more than {MOST_BYTES:,} bytes: selftest with fewer blocks"]
    if refusal.command() in ("check", "migrate", "refine") or refusal.program != "plift":
        most = MOST_CHECKED_BYTES if refusal.command() == "check" else MOST_BYTES
        told = f"the report has more than {most:,} bytes ({most >> 20:,} MiB)"
        return [f"{told}: verify with a lower --depth, or the region in parts"]
    return [f"the text has more than {MOST_BYTES:,} bytes (64 MiB): take a smaller model"]


def memory_hints(refusal: Refusal) -> List[str]:
    """What takes less memory."""
    told = ["no memory was found: look at ulimit -v, and at what else runs"]
    if refusal.command() in ("verify", "bounded", "property", "cost", "lumped", "refine"):
        told.append("a lower --depth or a smaller model takes less")
    return told


def outside_hints(refusal: Refusal, status: int) -> List[str]:
    """What is told of the statuses 5 to 8."""
    if status in (5, 6):
        told = source_hint() if status == 5 else sink_hint()
        return [told] if told else []
    if status == 7:
        return size_hints(refusal)
    return memory_hints(refusal) if status == 8 else []
