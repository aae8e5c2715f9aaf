#!/usr/bin/env python3
"""Builds a program of this repository: each crate that it stands on is proved and compiled by the
kit's command `rt`, several side by side.

    tools/build.py CRATE LOGS      CRATE is plift or plift_view; LOGS is a folder for one log a crate

`rt lib` keeps every other `rt` out of the crates below the one that it works on, so side by side each
crate is built in a room of its own: a copy of the sources and of the built libraries that it needs,
with hard links to the latter. What a crate's build has kept is put back also where the build is interrupted, so the
next one goes on from there. The program's time is set to when its build began, so that a source that
was changed meanwhile is newer. Ends with 0, or with 70 where the program can't be built.
"""

import contextlib
import fcntl
import os
import re
import shutil
import subprocess
import sys
import threading
import time
from concurrent.futures import FIRST_COMPLETED, Future, ThreadPoolExecutor, wait
from pathlib import Path
from typing import Any, Dict, Iterator, List, Optional, Set, Tuple

sys.path.insert(0, str(Path(__file__).resolve().parent))
import leash  # noqa: E402

TOP = Path(__file__).resolve().parent.parent
CRATES = TOP / "crates"
PARTS = ("src", "specs", "proofs")
SOURCES = (".rt", ".antt")
CANNOT_BUILD = 70
# What the build of this program from nothing took, and where.
USUAL_PROGRAM = "plift"
USUAL_MINUTES = 35
USUAL_MACHINE = "four processors"
# A crate's share of the work where tools/costs.tsv doesn't name it, and where its
# library is kept, in minutes.
UNKNOWN_MINUTES = 2.0
KEPT_MINUTES = 0.05
# Memory that is counted for a crate that is proved: some take 1 GB, the largest 3.1, and four at a time took 6.
LANE_BYTES = 2 << 30
TICK_SECONDS = 30


class BuildError(Exception):
    """Why the program can't be built, in words for the user."""


def dependencies(text: str) -> Dict[str, List[str]]:
    """Returns what each crate of crates.txt stands on, of the repository's own crates."""
    lines = [line.split("#")[0].strip() for line in text.splitlines()]
    heads = [line.partition(":") for line in lines if line]
    named = {head.split()[0]: rest.split() for head, _, rest in heads}
    return {name: [dep for dep in deps if dep in named] for name, deps in named.items()}


def closure(needs: Dict[str, List[str]], top: str) -> List[str]:
    """Returns the crates that `top` stands on, and itself last, each behind those that it needs."""
    found: List[str] = []

    def visit(name: str) -> None:
        if name not in found:
            for dep in needs[name]:
                visit(dep)
            found.append(name)

    visit(top)
    return found


def minutes_of(text: str) -> Dict[str, float]:
    """Returns what each crate's own proof takes, by a text in the form of tools/costs.tsv."""
    rows = [line.split("\t") for line in text.splitlines()]
    column = rows[0].index("minutes") if rows and "minutes" in rows[0] else 0
    return {row[0]: float(row[column]) for row in rows[1:] if 0 < column < len(row)}


def longest_chains(order: List[str], needs: Dict[str, List[str]], cost: Dict[str, float]) -> Dict[str, float]:
    """Returns for each crate how long the longest chain takes that begins with it and goes upwards."""
    above = {name: 0.0 for name in order}
    chain: Dict[str, float] = {}
    for name in reversed(order):
        chain[name] = above[name] + cost[name]
        for dep in needs[name]:
            above[dep] = max(above[dep], chain[name])
    return chain


def lanes_for(processors: int, free_bytes: Optional[int]) -> int:
    """Returns how many crates are proved at a time: one a processor, as far as the memory goes."""
    fit = processors if free_bytes is None else free_bytes // LANE_BYTES
    return max(1, min(processors, fit))


def in_minutes(minutes: float) -> str:
    """Returns a time in whole minutes, in words."""
    return f"{minutes:.0f} minute{'' if round(minutes) == 1 else 's'}"


def free_memory() -> Optional[int]:
    """Returns the memory that is free, in bytes, where the system tells it."""
    try:
        found = re.search(r"^MemAvailable:\s*([0-9]+) kB", Path("/proc/meminfo").read_text(), re.MULTILINE)
    except OSError:
        return None
    return int(found[1]) * 1024 if found else None


def pace_of(spent: float, work: float, usual_pace: float, total: float) -> float:
    """Returns the minutes that a minute of the table takes here: what was seen so far, and as if a
    tenth of the work had been seen before at the usual pace."""
    before = total / 10
    return (spent + usual_pace * before) / (work + before)


def newest_source(crate: str) -> float:
    """Returns when a source of this crate was changed last."""
    files = (path for part in PARTS for path in (CRATES / crate / part).rglob("*") if path.suffix in SOURCES)
    return max((path.stat().st_mtime for path in files), default=0.0)


def is_kept(crate: str, newest: float) -> bool:
    """Whether the crate's library was built behind this time."""
    built = CRATES / crate / "out" / "rlib"
    return built.is_dir() and max((path.stat().st_mtime for path in built.iterdir()), default=-1.0) >= newest


def link_or_copy(source: str, target: str) -> None:
    """Makes `target` the same file as `source`, or a copy of it where the file system has no links."""
    try:
        os.link(source, target)
    except OSError:
        shutil.copy2(source, target)


def last_lines(log: Path, count: int) -> str:
    """Returns the last lines of a log, each on a line of its own."""
    lines = log.read_text(encoding="utf-8", errors="replace").splitlines()
    return "".join(f"\n    {line}" for line in lines[-count:])


def remove(path: Path) -> None:
    """Removes a file or a folder, if it is there."""
    shutil.rmtree(path, ignore_errors=True)
    with contextlib.suppress(FileNotFoundError, NotADirectoryError, IsADirectoryError):
        path.unlink()


def lay_out(crate: str, below: List[str], room: Path) -> None:
    """Lays the sources of a crate and of those below it into a folder, with the libraries that are built below."""
    for name in [*below, crate]:
        for part in PARTS:
            source = CRATES / name / part
            if source.is_dir():
                shutil.copytree(source, room / "crates" / name / part)
    for name in below:
        library = CRATES / name / "out" / "rlib"
        if library.is_dir():
            shutil.copytree(library, room / "crates" / name / "out" / "rlib", copy_function=link_or_copy)
    lines = (TOP / "crates.txt").read_text(encoding="utf-8").splitlines(keepends=True)
    known = [line for line in lines if line.partition(":")[0].split()[:1] in [[name] for name in (*below, crate)]]
    (room / "crates.txt").write_text("".join(known), encoding="utf-8")


class Room:
    """A copy of one crate and of what is below it, in which `rt` works on that crate alone."""

    def __init__(self, crate: str, below: List[str]):
        self.crate = crate
        self.below = below
        self.home = CRATES / crate / "out"
        self.path = self.home / "room"

    @property
    def folder(self) -> Path:
        """The crate's folder in the room."""
        return self.path / "crates" / self.crate

    @property
    def kept(self) -> Path:
        """What the crate's build keeps, in the room."""
        return self.folder / "out"

    def take_back(self) -> None:
        """Puts what the room's crate has kept where `rt` looks for it, and removes the room."""
        if self.kept.is_dir():
            for entry in list(self.kept.iterdir()):
                remove(self.home / entry.name)
                entry.rename(self.home / entry.name)
        remove(self.path)

    def make(self) -> None:
        """Makes the room; what an earlier build left in it is taken back first."""
        self.home.mkdir(exist_ok=True)
        self.take_back()
        lay_out(self.crate, self.below, self.path)
        self.kept.mkdir(parents=True)
        for entry in list(self.home.iterdir()):
            if entry != self.path:
                entry.rename(self.kept / entry.name)


class Running:
    """The commands that run now, for which crate and since when, and how they are ended."""

    def __init__(self, locks: List[int]):
        self._locks = locks
        self._guard = threading.Lock()
        self._started: Dict[str, "subprocess.Popen[Any]"] = {}
        self._since: Dict[str, float] = {}
        self._stopping = False

    def call(self, crate: str, words: List[str], folder: Path, log: Path) -> int:
        """Runs a command for a crate and returns its status."""
        with open(log, "wb") as out:
            with self._guard:
                if self._stopping:
                    return CANNOT_BUILD
                # The locks are held by the command too, so that no other build comes before its end.
                started = leash.start(words, cwd=folder, stdout=out, stderr=out, pass_fds=self._locks)
                self._started[crate], self._since[crate] = started, time.monotonic()
            try:
                return started.wait()
            finally:
                with self._guard:
                    del self._started[crate], self._since[crate]
                if started.stdin:
                    started.stdin.close()

    def minutes(self) -> Dict[str, float]:
        """Returns for how long each crate has been worked on."""
        with self._guard:
            return {crate: (time.monotonic() - since) / 60 for crate, since in self._since.items()}

    def stop(self) -> None:
        """Ends all commands, and lets none begin any more."""
        with self._guard:
            self._stopping = True
            for started in self._started.values():
                leash.stop(started)


class Build:
    """One build: the crates that it needs, what is done of them, and what is told meanwhile."""

    def __init__(self, crate: str, logs: Path):
        needs = dependencies((TOP / "crates.txt").read_text(encoding="utf-8"))
        if crate not in needs:
            raise BuildError(f"crates.txt names no crate {crate}")
        self.crate = crate
        self.logs = logs
        self.program = CRATES / crate / "out" / crate
        self.order = closure(needs, crate)
        self.needs = needs
        self.cost: Dict[str, float] = {}
        self.usual_pace = 1.0
        self.lanes = lanes_for(len(os.sched_getaffinity(0)), free_memory())
        self.began = 0.0
        self.started = 0.0

    def say(self, text: str) -> None:
        """Tells the user how far the build is."""
        with contextlib.suppress(OSError):
            print(f"{self.crate.replace('_', '-')}: {text}", file=sys.stderr, flush=True)

    def _below(self, name: str) -> List[str]:
        return closure(self.needs, name)[:-1]

    def _newest(self) -> Dict[str, float]:
        """Returns for each crate when a source of it or of a crate below it was changed last."""
        own = {name: newest_source(name) for name in self.order}
        return {name: max(own[it] for it in closure(self.needs, name)) for name in self.order}

    def is_fresh(self) -> bool:
        """Whether the program is built, and no source is newer."""
        newest = max(self._newest()[self.crate], (TOP / "crates.txt").stat().st_mtime)
        return os.access(self.program, os.X_OK) and self.program.stat().st_mtime >= newest

    def begin(self) -> None:
        """Notes the time, finds what there is to do, by the table of what each crate costs, and tells it."""
        self.began = time.time()
        self.started = time.monotonic()
        table = TOP / "tools" / "costs.tsv"
        known = minutes_of(table.read_text(encoding="utf-8")) if table.is_file() else {}
        newest = self._newest()
        kept = [name for name in self.order if is_kept(name, newest[name])]
        self.cost = {name: KEPT_MINUTES if name in kept else known.get(name, UNKNOWN_MINUTES) for name in self.order}
        measured = closure(self.needs, USUAL_PROGRAM) if USUAL_PROGRAM in self.needs else self.order
        self.usual_pace = USUAL_MINUTES / sum(known.get(name, UNKNOWN_MINUTES) for name in measured)
        minutes = self.usual_pace * sum(self.cost.values())
        begun = f", {len(kept)} of them in an earlier build" if kept else ""
        self.say(
            f"each of {len(self.order)} crates is proved and then compiled{begun}: about {in_minutes(minutes)} on"
            f" {USUAL_MACHINE}, {self.lanes} at a time here; logs are in {self.logs}"
        )

    def _how_far(self, done: Set[str], running: Dict[str, float]) -> str:
        spent = (time.monotonic() - self.started) / 60
        total = sum(self.cost.values())
        # A crate that is worked on counts as half done at most: what it costs is only estimated.
        begun = sum(min(minutes / self.usual_pace, self.cost[name] / 2) for name, minutes in running.items())
        work = sum(self.cost[name] for name in done) + begun
        left = pace_of(spent, work, self.usual_pace, total) * (total - work)
        return f"{len(done)} of {len(self.order)} crates, {in_minutes(spent)} so far, some {max(left, 1):.0f} left"

    def _tell_running(self, done: Set[str], running: Dict[str, float]) -> None:
        longest_first = sorted(running.items(), key=lambda it: -it[1])
        work = ", ".join(f"{name} for {in_minutes(minutes)}" for name, minutes in longest_first)
        self.say(f"proving {work} ({self._how_far(done, running)})")

    def _work(self, name: str, jobs: int, is_first: bool, running: Running) -> int:
        """Proves and compiles one crate in its room, and returns its status."""
        room = Room(name, self._below(name))
        room.make()
        try:
            made = room.kept / name
            if name == self.crate:
                # What `rt` doesn't build now isn't there afterwards.
                remove(made)
            verb = "run" if name == self.crate else "lib"
            words = ["nice", "-n", "0" if is_first else "5", "rt", verb, "--jobs", str(jobs)]
            status = running.call(name, words, room.folder, self.logs / f"{name}.log")
            if name == self.crate:
                # There is no call that builds only: the program ran without words, and refused that.
                status = 0 if os.access(made, os.X_OK) else status or CANNOT_BUILD
            return status
        finally:
            room.take_back()

    def _start(self, waiting: List[str], done: Set[str], busy: List[str]) -> Iterator[Tuple[str, int, bool]]:
        """Takes the crates that can begin now off the list, each with its number of jobs: as many as
        there are lanes for the one with the longest chain above it, one for each other, and one for the
        program, which is a single function: each job would load all libraries anew."""
        chain = longest_chains(self.order, self.needs, self.cost)
        ready = sorted((name for name in waiting if done.issuperset(self.needs[name])), key=lambda name: -chain[name])
        for name in ready[: self.lanes - len(busy)]:
            is_first = all(chain[name] >= chain[it] for it in busy)
            waiting.remove(name)
            busy.append(name)
            yield name, self.lanes if is_first and name != self.crate else 1, is_first

    def run(self, locks: List[int]) -> None:
        """Builds all crates, those with the longest chain above them first."""
        waiting = list(self.order)
        done: Set[str] = set()
        running = Running(locks)
        futures: Dict["Future[int]", str] = {}
        failed: Optional[str] = None
        with ThreadPoolExecutor(self.lanes) as pool:
            try:
                while futures or (waiting and not failed):
                    busy = list(futures.values())
                    for name, jobs, is_first in self._start(waiting, done, busy) if not failed else ():
                        self.say(f"proving {name} ({self._how_far(done, running.minutes())})")
                        futures[pool.submit(self._work, name, jobs, is_first, running)] = name
                    ended = wait(futures, timeout=TICK_SECONDS, return_when=FIRST_COMPLETED).done
                    if not ended and sys.stderr.isatty():
                        self._tell_running(done, running.minutes())
                    for future in ended:
                        name = futures.pop(future)
                        if future.result() == 0:
                            done.add(name)
                        else:
                            failed = failed or name
                            if futures:
                                self.say(f"{name} was not built; what is being proved beside it is brought to its end")
            except BaseException:
                running.stop()
                raise
        if failed:
            log = self.logs / f"{failed}.log"
            raise BuildError(f"{failed} was not built; see {log}, which ends so:{last_lines(log, 5)}")
        os.utime(self.program, (self.began, self.began))


def is_locked(descriptor: int, how: int) -> bool:
    """Whether a lock was taken, or the file system has none."""
    try:
        fcntl.flock(descriptor, how)
    except BlockingIOError:
        return False
    except OSError:
        pass
    return True


def take_lock(descriptor: int, crate: str, build: Build) -> None:
    """Waits for a crate's lock. What a build has left is gone soon, and isn't spoken of."""
    for _ in range(20):
        if is_locked(descriptor, fcntl.LOCK_EX | fcntl.LOCK_NB):
            return
        time.sleep(0.05)
    build.say(f"another build, or rt, is at work in crates/{crate}, and this one waits for it")
    is_locked(descriptor, fcntl.LOCK_EX)


@contextlib.contextmanager
def locked(build: Build) -> Iterator[List[int]]:
    """Keeps other builds, and `rt`, out of the crates meanwhile, and waits for those that are in them."""
    held: List[int] = []
    try:
        for name in sorted(build.order):
            held.append(os.open(CRATES / name, os.O_RDONLY))
            take_lock(held[-1], name, build)
        yield held
    finally:
        for descriptor in held:
            os.close(descriptor)


def make(build: Build) -> None:
    """Builds the program, unless another build has done so meanwhile."""
    if not shutil.which("rt"):
        raise BuildError("the command rt of the Rattle kit is not on the PATH")
    build.logs.mkdir(parents=True, exist_ok=True)
    with locked(build) as locks:
        if build.is_fresh():
            return
        build.begin()
        build.run(locks)


def main(words: List[str]) -> int:
    """Builds the program that the words name."""
    if len(words) != 2:
        print("usage: tools/build.py CRATE LOGS", file=sys.stderr)
        return CANNOT_BUILD
    name = words[0].replace("_", "-")
    try:
        leash.end_on_signals()
        make(Build(words[0], Path(words[1])))
        return 0
    except BuildError as error:
        why = str(error)
    except leash.Interrupted:
        why = "interrupted; the next build goes on from here"
    except OSError as error:
        where = f"{error.filename}: " if error.filename else ""
        why = f"it was not built: {where}{error.strerror or error}"
    with contextlib.suppress(OSError):
        print(f"{name}: {why}", file=sys.stderr, flush=True)
    return CANNOT_BUILD


if __name__ == "__main__":
    sys.exit(main(sys.argv[1:]))
