"""What the tests of plift-tiles share: a folder of their own, the program, and calls of the command."""

import io
import os
import shlex
import subprocess
import sys
import tempfile
import unittest
from pathlib import Path
from typing import Any, List, NamedTuple, Optional

sys.dont_write_bytecode = True
TOP = Path(__file__).resolve().parents[2]
sys.path[:0] = [str(TOP / "tiles"), str(TOP / "lab")]
from plift_lab.program import QUICK, Program, find_program  # noqa: E402
from plift_tiles.job import Job  # noqa: E402
from plift_tiles.join import join  # noqa: E402
from plift_tiles.split import split  # noqa: E402
from plift_tiles.work import work  # noqa: E402

__all__ = ["Job", "Program", "find_program", "join", "split", "work"]
COMMAND = TOP / "plift-tiles"
EXAMPLES = TOP / "examples"


class Answer(NamedTuple):
    """What a call came to."""

    status: int
    out: bytes
    told: str


def the_program() -> Program:
    """The one that PLIFT_PROGRAM names; else the quick one, else the proved one."""
    return Program(QUICK) if "PLIFT_PROGRAM" not in os.environ and QUICK.is_file() else find_program()


def written(program: Program, words: List[str], given: bytes) -> bytes:
    """What the program writes."""
    return subprocess.run([str(program.path), *words], input=given, capture_output=True, check=True).stdout


def joined(job: Job, partial: bool = False) -> bytes:
    """The joined report."""
    out = io.BytesIO()
    join(job, partial, out)
    return out.getvalue()


class TilesCase(unittest.TestCase):
    """A test with a folder of its own, in which the command is called."""

    def setUp(self) -> None:
        holder = tempfile.TemporaryDirectory(prefix="plift-tiles-test.")
        self.addCleanup(holder.cleanup)
        self.folder = Path(holder.name)
        self.program = the_program()

    def call(self, line: str, given: bytes = b"", program: Optional[Path] = None, **how: Any) -> Answer:
        """What `plift-tiles` answers to a line of words."""
        environment = {**os.environ, "PLIFT_PROGRAM": str(program or self.program.path)}
        if "stdin" not in how:
            how["input"] = given
        words = [str(COMMAND), *shlex.split(line)]
        how = {"cwd": self.folder, "env": environment, "stdout": subprocess.PIPE, "stderr": subprocess.PIPE, **how}
        ran = subprocess.run(words, **how)
        return Answer(ran.returncode, ran.stdout, ran.stderr.decode())

    def stand_in(self, text: str) -> Path:
        """A script in the program's place; `$PLIFT` is the program that it stands for."""
        path = self.folder / "stand-in"
        path.write_text(f"#!/bin/sh\nPLIFT={shlex.quote(str(self.program.path))}\n{text}")
        path.chmod(0o755)
        return path

    def retry(self, depth: int, *more: str) -> bytes:
        """The report of examples/retry.drn that examples/retry-tree.report is of at depth 4."""
        words = "verify --goal lost --bound 1/40 --region 1/10<=p<=1/2,1/10<=q<=1/2 --precision 10".split()
        return written(self.program, [*words, "--depth", str(depth), *more], (EXAMPLES / "retry.drn").read_bytes())

    def job(self, depth: int = 7, name: str = "work") -> Job:
        """A job on examples/retry-tree.report, which has three unknown leaves."""
        split(self.program, (EXAMPLES / "retry-tree.report").read_bytes(), self.folder / name, depth)
        return Job(self.folder / name)

    def ranged_job(self, name: str = "ranged") -> Job:
        """The same with a range of precisions."""
        split(self.program, self.retry(4, "--from", "3"), self.folder / name, 7)
        return Job(self.folder / name)

    def done_job(self, depth: int = 7, name: str = "work") -> Job:
        """The same, done."""
        job = self.job(depth, name)
        self.assertEqual(work(self.program, job, job.numbers), 0)
        return job

    def parts(self) -> List[str]:
        """What is left of calls that were killed."""
        return sorted(path.name for path in self.folder.rglob("*.part"))
