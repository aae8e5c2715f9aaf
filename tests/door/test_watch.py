"""What is told at a terminal while a report grows in a file: how far it is, once some seconds have passed, and what
stands where the program is stopped. The report and the status are what they are without it."""

import os
import pty
import re
import shutil
import signal
import subprocess
import sys
import unittest
from typing import Tuple

from common import PATIENCE, TOP, DoorCase, as_from_a_shell, write_program

TREE = TOP / "examples/retry-tree.report"
# Writes three of six leaves, waits until it is told to go on, if at all, and writes the others.
GROWING = f"""#!/bin/sh
head -n 42 '{TREE}'
[ "$GO_ON" != never ] || exec sleep 1000
until [ -e "$GO_ON" ]; do sleep 0.05; done
tail -n +43 '{TREE}'
exit 3
"""
WORDS = ["verify", "--goal", "lost", "--bound", "1/40", "--region", "x"]


class Watch(DoorCase):
    def setUp(self) -> None:
        super().setUp()
        shutil.copytree(TOP / "lab/plift_lab", self.top / "lab/plift_lab")
        write_program(self.built(), GROWING)
        self.hurry(0.3)

    def hurry(self, earliest: float) -> None:
        """Has it told so soon how far a report is."""
        text = (TOP / "tools/watch.py").read_text()
        hurried = text.replace("EARLIEST, EACH = 4.0, 1.0", f"EARLIEST, EACH = {earliest}, 0.1")
        (self.top / "tools/watch.py").write_text(hurried)

    def at_a_terminal(self, awaited: str = "", is_stopped: bool = False) -> Tuple[int, str, bytes]:
        """What a call comes to whose standard error is a terminal: its status, what is told and the report. Once what
        is awaited is told, the program goes on, or it is stopped."""
        go_on = self.room / "go on"
        if not awaited:
            go_on.touch()
        leader, follower = pty.openpty()
        with open(self.room / "out", "wb") as out, open(TREE, "rb") as given:
            process = subprocess.Popen(
                [str(self.top / "plift"), *WORDS],
                stdin=given,
                stdout=out,
                stderr=follower,
                env={**self.environment, "GO_ON": "never" if is_stopped else str(go_on)},
                start_new_session=True,
                preexec_fn=as_from_a_shell,
            )
        os.close(follower)
        told = b""
        is_awaited = bool(awaited)
        try:
            while piece := os.read(leader, 1000):
                told += piece
                if is_awaited and awaited.encode() in told:
                    is_awaited = False
                    if is_stopped:
                        os.killpg(process.pid, signal.SIGINT)
                    else:
                        go_on.touch()
        except OSError:  # the last that had the terminal open has ended
            pass
        os.close(leader)
        return process.wait(PATIENCE), told.decode(), (self.room / "out").read_bytes()

    def test_a_report_that_grows(self) -> None:
        status, told, report = self.at_a_terminal("in 3 rectangles")
        self.assertEqual((status, report), (3, TREE.read_bytes()))
        self.assertRegex(told, r"plift: \d s so far; 18\.8 % of the region is settled, in 3 rectangles")

    def test_a_report_that_comes_at_once(self) -> None:
        self.hurry(PATIENCE)
        status, told, report = self.at_a_terminal()
        self.assertEqual((status, report), (3, TREE.read_bytes()))
        self.assertNotIn("so far", told)

    def test_what_stands_where_it_is_stopped(self) -> None:
        status, told, report = self.at_a_terminal("in 3 rectangles", is_stopped=True)
        self.assertEqual(status, -signal.SIGINT)
        self.assertIn("plift: stopped; 18.8 % of the region stands in the file, cut off", told)
        self.assertTrue(TREE.read_bytes().startswith(report))

    def test_what_is_appended_is_not_followed(self) -> None:
        """What was there before is none of this report."""
        shutil.copy(TREE, self.room / "out")
        for mode, due in (("ab", ""), ("r+b", "100.0 % of the region")):
            with open(self.room / "out", mode) as out:
                script = [sys.executable, str(self.top / "tools/watch.py")]
                process = subprocess.Popen(script, stdout=out, stderr=subprocess.PIPE)
            first = b""
            while process.stderr and not re.search(b"so far|%", first) and process.poll() is None:
                first += process.stderr.read(1)
            process.terminate()
            told = (first + (process.communicate()[1] or b"")).decode()
            self.assertTrue(re.search("plift: [0-9]+ s so far", told), told)
            self.assertIn(due, told)
            self.assertEqual("%" in told, bool(due))


if __name__ == "__main__":
    unittest.main()
