"""Decides tiles: runs the program on each, has its report checked, and only then puts it in its place."""

from __future__ import annotations

import contextlib
from pathlib import Path
from typing import Iterable

from plift_lab.ends import say
from plift_lab.faults import LOST, WRITING, Fault
from plift_lab.outputs import unwritten
from plift_lab.plain import printable
from plift_lab.program import MOST_CHECKED_BYTES, Program

from .faults import DONE, LONG, status_of
from .job import Job, beside


def work(program: Program, job: Job, numbers: Iterable[int]) -> int:
    """Decides those of these tiles that are left. One that fails doesn't stop the others, but for want of room or of a
    program, which all of them want; the status is that of the last one that failed."""
    status = DONE
    for number in numbers:
        try:
            if not job.is_done(number):
                _decide(program, job, number)
        except (Fault, OSError) as error:
            fault = unwritten(job.report(number), error) if isinstance(error, OSError) else error
            say('plift-tiles: tile %d: %s' % (number, printable(str(fault.args[0]))))
            status = status_of(fault)
            if status in (WRITING, LOST):
                break
    return status


def _decide(program: Program, job: Job, number: int) -> None:
    """Leaves the report of a tile in its place, or nothing."""
    part = beside(job.report(number))
    try:
        program.verify(job.words(number), job.model, part, lambda report, _: _require_readable(report))
        _require_readable(part)
        program.check(part.read_bytes())
        part.replace(job.report(number))
    finally:
        with contextlib.suppress(OSError):
            part.unlink()


def _require_readable(report: Path) -> None:
    """Ends a tile that `plift check` won't read."""
    if report.stat().st_size > MOST_CHECKED_BYTES:
        raise Fault(
            'its report is longer than the %d bytes that `plift check` reads: split to a smaller depth'
            % MOST_CHECKED_BYTES,
            LONG,
        )
