"""Questions, and the session that asks them: each answer is a report that `plift check` has judged."""

from __future__ import annotations

import contextlib
import json
from dataclasses import dataclass, replace
from fractions import Fraction
from functools import lru_cache
from pathlib import Path
from typing import Any, Dict, List, Optional, Tuple

from .deeper import Deepening
from .evidence import Evidence, digest, read_file, read_origin
from .faults import Fault, Refused
from .forms import Form
from .judging import Judge
from .models import Model, Scale
from .origin import Origin
from .outputs import fresh, writing
from .pace import Pace
from .parts import cut
from .program import MOST_CHECKED_BYTES, Watch, find_program
from .progress import CHECKED, RECHECKED, Progress
from .regions import Region
from .report import Report

MOST_DEPTH, MOST_BITS, MOST_CALLS = 20, 40, 10**6


class Spent(Fault):
    """All questions that were allowed were asked."""


@dataclass(frozen=True)
class Question:
    """What is asked of a model: whether a label is reached with at most the bound, all over the region."""

    model: Model
    goal: str
    bound: Fraction
    region: Region
    depth: int = 0
    precision: Optional[int] = None
    """None: the most bits that its rows leave room for."""
    is_relative: bool = False
    """Whether each parameter is rescaled to its interval."""
    least_precision: Optional[int] = None
    """From which precision on each part is decided at the least one that does; none for one precision."""
    form: Form = Form()
    """What is asked of the goal and the bound."""

    def prepared(self) -> Tuple[Model, Region, Scale]:
        """The model and the region as they are given to the program, and what its numbers mean."""
        return _prepared(self.model, self.region, self.is_relative)

    def require_countable(self) -> None:
        """Refuses a number of steps where `plift-lab fit` counted steps anew, and it doesn't fit."""
        steps, each = self.form.steps, self.model.steps_of_each
        if steps is None or each is not None and steps % each == 0:
            return
        about = 'not alike many for each step, so within a number of steps is another question of this text'
        if each is not None:
            about = 'so that each step is %d: F<=S of the model before is F<=%d*S here' % (each, each)
        raise Fault('`plift-lab fit` has put steps in between, %s (plift itself can\'t know, and answers)' % about)

    @property
    def opened(self) -> 'Question':
        """The same with a bound that everything keeps to."""
        form = self.form.of('>=' if self.form.is_of_least else '<=')
        return replace(self, form=form, bound=Fraction(0 if form.is_of_least else form.unit))

    def words(self, region: Region, precision: int) -> List[str]:
        """The program's command line."""
        options = self.form.words(self.goal, self.bound)
        if region.text:
            options += ['--region', region.text]
        options += ['--depth', str(self.depth), '--precision', str(precision)]
        return options if self.least_precision is None else options + ['--from', str(self.least_precision)]


@lru_cache(maxsize=4)
def _prepared(model: Model, region: Region, is_relative: bool) -> Tuple[Model, Region, Scale]:
    region.fit(model.parameters)
    model = model.fixed(region)
    return model.rescaled(region) if is_relative else (model, region, {})


@dataclass(frozen=True)
class Job:
    """A question as the program gets it: a model's file, a region of that model's own numbers, and a precision."""

    question: Question
    model: Path
    region: Region
    scale: Scale
    bits: int

    @property
    def origin(self) -> Origin:
        """What is told of its report."""
        words = self.question.words(self.region, self.bits)
        asked, fixed = self.question, dict(self.question.region.fixed)
        return Origin(asked.goal, self.scale, fixed, words, self.model.name, asked.form.safe, asked.form.reward)

    def is_of(self, report: Report) -> bool:
        """Whether a report that was kept speaks of this region, this bound and this depth."""
        least, region = self.question.least_precision, {name: (low, high) for name, low, high in self.region.intervals}
        head = report.bound, report.depth, report.precision, report.least_precision
        due = (self.question.bound, self.question.depth, self.bits, self.bits if least is None else least)
        return head == due and report.own_rectangle(report.box) == region

    @property
    def name(self) -> str:
        """A hash that names it."""
        return digest(json.dumps(self.origin.told, sort_keys=True).encode())


class Session:
    """Asks questions of one program, and keeps the reports in one folder."""

    def __init__(self, keep: Optional[str] = None, is_told: bool = False, is_lasting: bool = False) -> None:
        self.program = find_program()
        self.judge = Judge(self.program)
        self.evidence = Evidence(keep)
        self.progress = Progress(is_told)
        self.is_lasting = is_lasting
        """Whether a folder that nobody named outlives the session, as long as its holder is there."""
        self.asked, self._left = 0, MOST_CALLS
        self._room: Dict[str, int] = {}
        self._paces: Dict[str, Pace] = {}

    def __enter__(self) -> 'Session':
        return self

    def __exit__(self, kind: Any, fault: Any, _: Any) -> None:
        if isinstance(fault, KeyboardInterrupt) and self.progress.known:
            fault.args = (fault.args[0] if fault.args else None, 'so far: ' + self.progress.known)
        self.progress.clear()
        self.judge.close()
        self.evidence.close(self.is_lasting)

    def ask(self, question: Question) -> Report:
        """The report that answers a question, once `plift check` has called it sound."""
        question.require_countable()
        model, region, scale = question.prepared()
        path = self.evidence.model_file(model.text)
        bits = question.precision if question.precision else self._room.get(path.name, MOST_BITS)
        while True:
            try:
                return self._run(Job(question, path, region, scale, bits))
            except Refused as refusal:
                if question.precision or bits - 4 < (question.least_precision or 1) or not _is_without_room(refusal):
                    raise
                bits -= 4
                self._room[path.name] = bits

    def deepen(self, question: Question, base: Report) -> Report:
        """The same, from a report of the same question at a smaller depth: what is decided there is asked again only
        where that takes less time. The bytes are those of `ask`."""
        model, region, scale = question.prepared()
        job = Job(question, self.evidence.model_file(model.text), region, scale, base.precision)
        try:
            return self._run(job, base)
        except Refused as refusal:
            if question.precision or not _is_without_room(refusal):
                raise
        return self.ask(question)  # with fewer bits, at which the base decides nothing

    def shorten(self, question: Question, base: Report) -> Report:
        """The same, from a report of the same question at a greater depth: nothing is asked of a report."""
        model, region, scale = question.prepared()
        return self._run(Job(question, self.evidence.model_file(model.text), region, scale, base.precision), base)

    def _run(self, job: Job, base: Optional[Report] = None) -> Report:
        known = self._known(job)
        if known is not None:
            return known
        path = self.evidence.next_report()
        part = path.with_name(path.name + '.part')
        try:
            seconds = self._write(job, base, part)
            data = read_file(str(part), MOST_CHECKED_BYTES)
            self.progress.judging()
            verdict = self.judge.judge(data)
            with writing(path):
                part.replace(path)
        finally:
            with contextlib.suppress(OSError):
                part.unlink()
        self.evidence.note(path, job.name, data, job.origin)
        report = Report(data, verdict.line, job.origin, str(path), verdict.judge)
        if seconds is not None:
            self._pace(job).note(1, len(report.nodes), seconds)
        return report

    def _known(self, job: Job) -> Optional[Report]:
        """The report of a job that was done before."""
        known = self.evidence.find(job.name)
        if known is None:
            return None
        data = read_file(str(known), MOST_CHECKED_BYTES)
        if read_origin(known, data) != job.origin:
            return None
        verdict = self.judge.judge(data)
        report = Report(data, verdict.line, job.origin, str(known), verdict.judge)
        return report if job.is_of(report) else None

    def _write(self, job: Job, base: Optional[Report], report: Path) -> Optional[float]:
        """Writes a job's report, from one at another depth if there is one. Returns how many seconds that took, where
        all was asked at once."""
        if base is None:
            return self._run_program(job.origin.words, job.model, report, self._watcher(job))
        if base.depth >= job.question.depth:
            with writing(report), fresh(report) as out:
                out.writelines(cut(base, job.question.depth))
            return None

        def ask(region: Region, depth: int, report: Path, is_open: bool = False) -> float:
            question = job.question.opened if is_open else job.question
            words = replace(question, depth=depth).words(region, job.bits)
            return self._run_program(words, job.model, report, self._watcher(job))

        return Deepening(base, job.question.depth, self._pace(job), ask).write(report)

    def _watcher(self, job: Job) -> Optional[Watch]:
        """What is called while the program writes the answer of a job."""
        return self.progress.watcher(CHECKED if job.question.form.command == 'verify' else RECHECKED)

    def allow(self, calls: int) -> None:
        """Lets the program be started so often from now on."""
        self._left = calls

    def _run_program(self, words: List[str], model: Path, report: Path, watch: Optional[Watch]) -> float:
        """Starts the program, if that is still allowed."""
        if self._left <= 0:
            raise Spent('as many questions were asked as --calls allows')
        self._left -= 1
        self.asked += 1
        return self.program.verify(words, model, report, watch)

    def _pace(self, job: Job) -> Pace:
        return self._paces.setdefault(job.model.name, Pace())

    def read(self, name: str) -> Report:
        """A report that somebody wrote, or a text of `bounded`, `property` or `cost`, once it was called sound."""
        data = read_file(name, MOST_CHECKED_BYTES)
        try:
            verdict = self.judge.judge(data)
        except Refused as refusal:
            refusal.args = ('%s: %s' % ('the report' if name == '-' else name, refusal.note or refusal),)
            raise
        origin = Origin() if name == '-' else read_origin(Path(name), data) or Origin()
        report = Report(data, verdict.line, origin, '' if name == '-' else name, verdict.judge)
        report.require_borne_out()
        return report

    def ask_again(
        self, report: Report, region: Region, bound: Fraction, depth: int = 0, precision: Optional[int] = None
    ) -> Report:
        """Asks of a part of a report's region, in the report's own numbers and of its own model. What it was asked by
        way of is cut in that model."""
        form = replace(report.form, safe=None, reward='cost' if report.form.reward else None)
        return self.ask(Question(Model(report.model_text), 'goal', bound, region, depth, precision, form=form))


def _is_without_room(refusal: Refused) -> bool:
    """Whether fewer bits may help."""
    return refusal.note.endswith('too wide')
