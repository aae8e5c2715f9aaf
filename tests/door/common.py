"""What the tests of the door share: a copy of the launchers in a folder of its own, with programs that stand in."""

import importlib.util
import os
import shutil
import signal
import subprocess
import sys
import tempfile
import time
import unittest
from pathlib import Path
from types import ModuleType
from typing import Any, Dict, Iterator, List, Mapping, Optional, Sequence, Tuple, Union

sys.dont_write_bytecode = True
TOP = Path(__file__).resolve().parents[2]
# Seconds: longer than anything here takes on a busy machine, and less than a stand-in sleeps.
PATIENCE = 600
# Tells its words, and then does what the environment says.
STAND_IN = """#!/bin/sh
for word; do printf '<%s>' "$word"; done
printf '\\n'
[ -z "${COPY-}" ] || cat
[ -z "${SLEEP-}" ] || { echo $$ >"$SLEEP"; exec sleep 1000; }
[ -z "${NOTE-}" ] || printf '%s\\n' "$NOTE" >&2
[ -z "${DIE-}" ] || kill -s "$DIE" $$
exit "${STATUS-0}"
"""
# Proves nothing, and keeps what the real one keeps. It tells what it does in the file $CALLS.
FAKE_RT = """#!/bin/sh
crate=$(basename "$PWD")
echo "begin $crate $*" >>"$CALLS"
case " ${SLOW_CRATES-} " in
*" $crate "*)
    mkdir -p out/incremental
    echo part >out/incremental/part
    echo "slow $crate $$" >>"$CALLS"
    sleep 1000
    ;;
esac
case " ${BROKEN_CRATES-} " in
*" $crate "*) echo "error in $crate"; exit 1 ;;
esac
mkdir -p out/incremental out/rlib
echo whole >out/incremental/part
case $1 in
lib) echo "$crate" >"out/rlib/lib$crate.rlib" ;;
run) cp "$STAND_IN" "out/$crate"; chmod +x "out/$crate" ;;
esac
echo "end $crate" >>"$CALLS"
[ "$1" = lib ] || exit 2
"""

COMMANDS = ["verify", "bounded", "property", "cost", "lumped", "check", "migrate", "refine", "generate", "selftest"]


ENDING = (signal.SIGTERM, signal.SIGINT, signal.SIGHUP, signal.SIGQUIT, signal.SIGPIPE)


def as_from_a_shell() -> None:
    """For a process that is started: signals that these tests pass over, as in the background, are heard there."""
    for number in ENDING:
        signal.signal(number, signal.SIG_DFL)


def waits(each: float = 0.02) -> Iterator[None]:
    """Waits again and again for what has to come, as long as that may take."""
    end = time.monotonic() + PATIENCE
    while time.monotonic() < end:
        yield
        time.sleep(each)


def tool(name: str) -> ModuleType:
    """Loads a module of tools/."""
    sys.path.insert(0, str(TOP / "tools"))
    spec = importlib.util.spec_from_file_location(name, TOP / "tools" / f"{name}.py")
    assert spec and spec.loader
    module = importlib.util.module_from_spec(spec)
    spec.loader.exec_module(module)
    return module


def quick_program(name: str) -> Optional[Path]:
    """Returns the program that isn't proved, where it is built."""
    program = TOP / "build" / "quick" / name
    return program if os.access(program, os.X_OK) else None


def write_program(path: Path, text: str) -> None:
    """Writes a script that can be run."""
    path.parent.mkdir(parents=True, exist_ok=True)
    path.write_text(text)
    path.chmod(0o755)


class DoorCase(unittest.TestCase):
    """A test with a checkout of its own: launchers, crates that stand for the real ones, and a fake `rt`."""

    CRATES: Dict[str, List[str]] = {
        "lift_base": [],
        "lift_poly": [],
        "plift_top": ["lift_base", "lift_poly", "clap"],
        "plift": ["plift_top"],
        "view_top": ["lift_base"],
        "plift_view": ["view_top"],
        "other": [],
    }
    # What is copied from this checkout.
    PARTS: Tuple[str, ...] = ("plift", "plift-view", "VERSION", "tools", "man", "completion", "install")

    def setUp(self) -> None:
        self.room = Path(tempfile.mkdtemp(prefix="door test-"))
        self.addCleanup(shutil.rmtree, self.room, ignore_errors=True)
        self.top = self.room / "a checkout"
        for part in self.PARTS:
            if (TOP / part).is_dir():
                others = shutil.ignore_patterns("__pycache__", "native", "quick.py")
                shutil.copytree(TOP / part, self.top / part, ignore=others)
            elif (TOP / part).exists():
                self.top.mkdir(exist_ok=True)
                shutil.copy2(TOP / part, self.top / part)
        (self.top / "tools/native").mkdir()
        for crate in self.CRATES:
            for part in ("src/lib.rt", "specs/Lib.antt", "proofs/deep/proof.antt"):
                path = self.top / "crates" / crate / part
                path.parent.mkdir(parents=True, exist_ok=True)
                path.write_text("text\n")
                os.utime(path, (1000, 1000))
        lines = [f"{name}: {' '.join(deps)}\n" for name, deps in self.CRATES.items()]
        (self.top / "crates.txt").write_text("".join(lines))
        os.utime(self.top / "crates.txt", (1000, 1000))
        self.calls = self.room / "calls"
        write_program(self.room / "bin/rt", FAKE_RT)
        write_program(self.room / "stand-in", STAND_IN)
        self.environment = {**os.environ, "CALLS": str(self.calls), "STAND_IN": str(self.room / "stand-in")}
        self.environment["PATH"] = f"{self.room / 'bin'}:{os.environ['PATH']}"
        self.environment.pop("PLIFT_HINTS", None)
        self.environment.pop("PLIFT_PROGRAM", None)

    def built(self, crate: str = "plift") -> Path:
        """Puts a program that stands in where the proved one is found."""
        program = self.top / "crates" / crate / "out" / crate
        write_program(program, STAND_IN)
        return program

    def run_door(
        self,
        *words: str,
        door: Union[Path, str] = "",
        shell: Sequence[str] = (),
        environment: Mapping[str, str] = {},
        **how: Any,
    ) -> "subprocess.CompletedProcess[bytes]":
        """Runs ./plift, or another launcher, on these words."""
        command = [*shell, str(door or self.top / "plift"), *words]
        how = {"input": b"", **how} if "stdin" not in how else how
        return subprocess.run(command, capture_output=True, env={**self.environment, **environment}, **how)

    def version(self, *words: str, name: str = "plift") -> str:
        """Returns what a launcher says of itself."""
        return self.run_door(*words, "--version", door=self.top / name).stdout.decode()

    def lines(self) -> List[str]:
        """Returns what the fake `rt` did."""
        return self.calls.read_text().splitlines() if self.calls.exists() else []
