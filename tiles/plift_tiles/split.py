"""Makes the folder of a job from a finished report and a greater depth."""

from __future__ import annotations

import os
import shutil
from dataclasses import replace
from pathlib import Path

from plift_lab.faults import Fault
from plift_lab.head import Head
from plift_lab.outputs import writing
from plift_lab.parts import unknown_parts
from plift_lab.program import Program
from plift_lab.regions import shown
from plift_lab.report import Report

from .faults import UNFIT
from .job import beside, lay_out, words


def split(program: Program, data: bytes, place: Path, depth: int) -> int:
    """Makes the folder from the bytes of a report, whole or not at all, and returns the number of tiles."""
    report = Report(data, program.check(data))
    if depth <= report.depth:
        raise Fault('--depth %d: the report has depth %d, and a greater one is due' % (depth, report.depth))
    part = beside(place)
    shutil.rmtree(part, ignore_errors=True)
    try:
        with writing(place):
            part.mkdir()
            count = _fill(program, report, part, depth)
            part.rename(place)
    finally:
        shutil.rmtree(part, ignore_errors=True)
    return count


def _fill(program: Program, report: Report, place: Path, depth: int) -> int:
    """Writes all that the folder has."""
    head = Head.of(report)
    regions = [shown(report.own_rectangle(part.ends)) for part in unknown_parts(report)]
    told = [
        'depth %d' % depth,
        'levels %d' % (depth - head.depth),
        'bound %s' % report.bound,
        'precision %d' % report.precision,
    ]
    told += [] if report.version == 1 else ['from %d' % report.least_precision]
    (place / 'base.report').write_bytes(report.data)
    (place / 'model.drn').write_bytes(report.model_text)
    lay_out(place, told, regions)
    _ask_whole(program, report, depth, place)
    return len(regions)


def _ask_whole(program: Program, report: Report, depth: int, place: Path) -> None:
    """Whether the whole is admitted at the greater depth, and the model's text is read as the report's model: asked
    with the bound 1, which the first rectangle answers, before any tile is sent out."""
    answer = place / 'whole.report'
    least = None if report.version == 1 else str(report.least_precision)
    asked = words('1', report.region.text, str(depth), str(report.precision), least)
    program.verify(asked, place / 'model.drn', answer)
    head = Head.of(report).at(depth)
    head = replace(head, asked=b'bound 1/1\n' + head.asked.partition(b'\n')[2])
    with open(answer, 'rb') as lines:
        if lines.read(len(head.text)) != head.text:
            raise Fault('the model of the report isn\'t read back as itself', UNFIT)
    os.unlink(answer)
