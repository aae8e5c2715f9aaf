"""The quick program ends with status 8 where memory is short, and never otherwise: a part of what run.py tries."""

from __future__ import annotations

import contextlib
import io
import os
import shutil
import sys
import tempfile
import unittest
from pathlib import Path

sys.dont_write_bytecode = True
HERE = Path(__file__).resolve().parent
sys.path.insert(0, str(HERE))
import run  # noqa: E402

PROGRAM = os.environ.get("PLIFT_PROGRAM") or str(HERE.parents[1] / "build" / "quick" / "plift")


@unittest.skipUnless(os.access(PROGRAM, os.X_OK), "no program is built")
@unittest.skipUnless(shutil.which("cc") or shutil.which("gcc"), "no C compiler is on the PATH")
class Memory(unittest.TestCase):
    """Each request of these runs is refused in turn."""

    CASES = [run.WIDE, run.LUMPED, run.COST, run.MIGRATE, run.GENERATE]

    def test_requests(self) -> None:
        """Every refused request is told, with nothing written, and none is made behind the first byte."""
        with tempfile.TemporaryDirectory(prefix="plift-memory.") as folder:
            bench = run.Bench(PROGRAM, folder)
            said = io.StringIO()
            with contextlib.redirect_stdout(said):
                for case in self.CASES:
                    bench.try_case(case)
            self.assertEqual(bench.failed, 0, said.getvalue())
            self.assertGreater(bench.passed, 1000)


if __name__ == "__main__":
    unittest.main()
