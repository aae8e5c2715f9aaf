#!/usr/bin/env python3
"""Builds plift and plift-view without the prover, by cargo, where they aren't built yet or a source is newer, and
prints the path of the one that is asked for:

    quick.py [plift | plift-view]

The programs, build/quick/plift and build/quick/plift-view, do what the proved ones do, from the same code, but nothing
is proved of them. It needs Python and cargo, no network and no kit. All that is told goes to standard error, and what
cargo says to build/quick.log. It ends with 70 where they can't be built.
"""

from __future__ import annotations

import contextlib
import fcntl
import glob
import json
import os
import re
import shutil
import subprocess
import sys
import threading
import time
from collections.abc import Iterator
from typing import TextIO

TOOLS = os.path.dirname(os.path.abspath(__file__))
sys.path[:0] = [TOOLS, os.path.join(TOOLS, "native")]
sys.dont_write_bytecode = True
import leash  # noqa: E402
import workspace  # noqa: E402

BUILD = os.path.join(workspace.ROOT, "build")
QUICK = os.path.join(BUILD, "quick")
LOG = os.path.join(BUILD, "quick.log")
PROGRAMS = list(workspace.PROGRAMS.values())
OLDEST = (1, 63)
# From here on the programs are optimized each as a whole; before, that alone takes more than a minute.
QUICK_AT_WHOLE = (1, 75)
INSTALL = "install Rust %d.%d or newer, such as Debian's (apt install cargo) or that of https://rustup.rs" % OLDEST
NOT_PROVED = (
    "these programs are built from the proved code, but not proved themselves;"
    " a report needs no trust in what wrote it: check it with recheck/recheck.py or with a proved plift"
)


class Refused(Exception):
    """Why the programs can't be built, in one line."""


def say(text: str) -> None:
    """Tells the user a line, on standard error."""
    print("quick: " + text, file=sys.stderr, flush=True)


def path_of(program: str) -> str:
    """Where a program is kept."""
    return os.path.join(QUICK, program)


def sources() -> Iterator[str]:
    """All that the programs are made from: files, and folders, whose times tell what was removed."""
    yield os.path.join(workspace.ROOT, "crates.txt")
    yield os.path.abspath(__file__)
    crates = glob.glob(os.path.join(glob.escape(workspace.ROOT), "crates", "*", "src"))
    for top in [*crates, os.path.join(TOOLS, "native")]:
        for folder, _, names in os.walk(top):
            yield folder
            yield from (os.path.join(folder, name) for name in names)


def is_built() -> bool:
    """Whether both programs are there, and no source is newer than the build that made them."""
    try:
        built = min(os.stat(path_of(program)).st_mtime_ns for program in PROGRAMS)
        return all(os.stat(source).st_mtime_ns < built for source in sources())
    except FileNotFoundError:
        return False


def version_of(tool: str) -> tuple[int, ...]:
    """The version of cargo or rustc."""
    try:
        said = subprocess.run([tool, "--version"], capture_output=True, text=True)
    except OSError:
        raise Refused(f"{tool} isn't found: {INSTALL}") from None
    found = re.match(r"\S+ (\d+)\.(\d+)", said.stdout)
    if said.returncode != 0 or not found:
        words = (said.stderr or said.stdout).strip().splitlines() or ["it says nothing"]
        raise Refused(f"{tool} doesn't run ({words[0]}): {INSTALL}")
    return int(found[1]), int(found[2])


def compiler() -> tuple[int, ...]:
    """The version of the compiler, where it and cargo are new enough."""
    for tool in ("cargo", os.environ.get("RUSTC", "rustc")):
        version = version_of(tool)
        if version < OLDEST:
            raise Refused(f"{tool} is too old ({version[0]}.{version[1]}): {INSTALL}")
    return version


@contextlib.contextmanager
def locked() -> Iterator[None]:
    """Only one build at a time. The system takes the lock away with the process."""
    with open(os.path.join(BUILD, "quick.lock"), "w") as file:
        try:
            fcntl.flock(file, fcntl.LOCK_EX | fcntl.LOCK_NB)
        except BlockingIOError:
            say("another start is building them: waiting for it")
            fcntl.flock(file, fcntl.LOCK_EX)
        except OSError:
            say("this file system has no locks: don't start two builds at a time")
        yield


class Progress:
    """Tells on a terminal, in one line, how many crates are compiled and how long that takes so far."""

    def __init__(self, crates: int) -> None:
        self.crates = crates
        self.begun = 0
        self.start = time.monotonic()
        self.is_over = threading.Event()
        if sys.stderr.isatty():
            threading.Thread(target=self.tell, daemon=True).start()

    def seconds(self) -> float:
        """How long it has taken so far."""
        return time.monotonic() - self.start

    def tell(self) -> None:
        """Tells how far it is, twice a second, until it is over."""
        while not self.is_over.wait(0.5):
            print(
                f"\rquick: compiling {self.begun} of {self.crates} crates, {self.seconds():.0f} s ",
                end="",
                file=sys.stderr,
                flush=True,
            )

    def pass_line(self, line: str) -> None:
        """Takes a line that cargo has written."""
        self.begun += line.strip().startswith("Compiling ")

    def end(self) -> None:
        """Tells no more, and ends the line that is told."""
        self.is_over.set()
        if sys.stderr.isatty():
            print(file=sys.stderr)


def compiled(line: str) -> str | None:
    """The program that a line of cargo's messages tells of."""
    message: dict[str, str | None] = json.loads(line) if line.startswith("{") else {}
    return message.get("executable")


def run_cargo(source: str, log: TextIO, progress: Progress) -> dict[str, str]:
    """Compiles, with what cargo says in the log. Gives the path of each program as cargo made it."""
    command = ["cargo", "build", "--release", "--offline", "--message-format=json-render-diagnostics"]
    command += ["--target-dir", os.path.join(QUICK, "target")]
    with open(os.path.join(QUICK, "messages"), "w+") as messages:
        said = {"stderr": subprocess.PIPE, "text": True, "errors": "replace"}
        with leash.start(command, cwd=source, stdout=messages, **said) as cargo:
            try:
                for line in cargo.stderr or ():
                    log.write(line)
                    progress.pass_line(line)
            except BaseException:
                leash.stop(cargo)
                raise
            finally:
                progress.end()
        messages.seek(0)
        paths = [path for path in map(compiled, messages) if path]
    return {os.path.basename(path): path for path in paths} if cargo.returncode == 0 else {}


def refuse_by_log(count: int = 12) -> None:
    """Shows the last lines of what cargo said, and tells where all of it is."""
    with open(LOG, errors="replace") as file:
        lines = [line.rstrip() for line in file if line.strip() and "Compiling " not in line]
    sys.stderr.writelines(f"    {line}\n" for line in lines[-count:])
    if any("linker `cc` not found" in line for line in lines):
        raise Refused("cargo links by a C compiler, and there is no cc: install one, such as gcc (apt install gcc)")
    raise Refused(f"cargo failed; all that it said is in {LOG}")


def put(made: str, program: str, start: int) -> None:
    """Puts a program in its place at once, with the time at which its build began: a later change is newer."""
    fresh = path_of(program) + ".new"
    try:
        shutil.copy(made, fresh)
        os.utime(fresh, ns=(start, start))
        os.replace(fresh, path_of(program))
    finally:
        with contextlib.suppress(FileNotFoundError):
            os.remove(fresh)


def build() -> None:
    """Builds both programs anew and keeps them, or ends with what cargo said."""
    version = compiler()
    start = time.time_ns()
    source = os.path.join(QUICK, "source")
    workspace.write_quick(source, is_whole=version >= QUICK_AT_WHOLE)
    # One that a newer cargo wrote is refused by an older one, and nothing stands in it.
    with contextlib.suppress(FileNotFoundError):
        os.remove(os.path.join(source, "Cargo.lock"))
    progress = Progress(1 + len(workspace.closure(list(workspace.PROGRAMS))))
    say("building plift and plift-view without proofs: half a minute to two")
    with open(LOG, "w") as log:
        made = run_cargo(source, log, progress)
    if not all(program in made for program in PROGRAMS):
        refuse_by_log()
    for program in PROGRAMS:
        put(made[program], program, start)
    say(f"built in {progress.seconds():.0f} s: {NOT_PROVED}")


def ensure_built() -> None:
    """Builds both programs where they aren't built, or older than a source."""
    if is_built():
        return
    os.makedirs(QUICK, exist_ok=True)
    with locked():
        if not is_built():
            build()


def asked_program(words: list[str]) -> str:
    """The program that the words name; ends here where they ask for help or are wrong."""
    program = words[0].replace("_", "-") if words else PROGRAMS[0]
    if len(words) > 1 or program not in PROGRAMS:
        print(__doc__.strip(), file=sys.stderr)
        sys.exit(0 if words and words[0] in ("--help", "-h") else 2)
    return program


def main() -> int:
    """Builds the programs where need be and prints the path of the one that is asked for."""
    program = asked_program(sys.argv[1:])
    leash.end_on_signals()
    try:
        ensure_built()
    except (Refused, workspace.Unreadable) as refused:
        say(str(refused))
        return 70
    except OSError as error:
        say(f"{error.filename or BUILD} can't be written or read: {error.strerror}")
        return 70
    except leash.Interrupted as told:
        say("stopped; nothing was replaced, and the next start goes on")
        return 128 + told.number
    print(path_of(program))
    return 0


if __name__ == "__main__":
    sys.exit(main())
