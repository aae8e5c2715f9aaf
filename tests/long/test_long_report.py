"""Reports that are longer than a model may be are checked, in memory that doesn't grow with them; and a fault is told
before what is behind it is read."""

import io
import os
import subprocess
import sys
import unittest
from pathlib import Path
from typing import List, Tuple

sys.dont_write_bytecode = True
sys.path.insert(0, str(Path(__file__).resolve().parent))
from long_report import MOST_DEPTH, QUICK, TOP, Long, check  # noqa: E402

sys.path.insert(0, str(TOP / "recheck"))
import recheck  # noqa: E402

MIB = 2**20
MOST_PEAK = 50 * MIB
# More bytes than a text may have that is read whole.
MANY = 80 * MIB


COIN = (TOP / "examples" / "coin.report").read_bytes()
# Each row: the front of a text that has no end, and what is told of it.
ENDLESS = [
    (b"x\n", "line 1: Syntax"),
    (b"", "line 1: Limit"),
    (COIN[: COIN.index(b"precision")], "line 16: Limit"),
    (COIN.replace(b"y 9 ", b"y 10 "), "line 20: Syntax"),
    (COIN, "rest"),
]


def told_of_endless(command: List[str], front: bytes) -> Tuple[int, str]:
    """How a program ends, and what it notes, that is given a text with this front and zeros for ever."""
    with subprocess.Popen(["cat", "-", "/dev/zero"], stdin=subprocess.PIPE, stdout=subprocess.PIPE) as zeros:
        assert zeros.stdin and zeros.stdout
        zeros.stdin.write(front)
        zeros.stdin.close()
        try:
            ran = subprocess.run(command, stdin=zeros.stdout, capture_output=True, text=True, timeout=60)
        finally:
            zeros.stdout.close()
            zeros.kill()
    return ran.returncode, ran.stderr


class Endless(unittest.TestCase):
    def compare(self, command: List[str]) -> None:
        for front, fault in ENDLESS:
            with self.subTest(command=command[0], fault=fault):
                self.assertEqual(told_of_endless(command, front), (1, f"not sound: {fault}\n"))

    @unittest.skipUnless(os.access(QUICK, os.X_OK), "build/quick has no program")
    def test_check(self) -> None:
        self.compare([str(QUICK), "check"])

    def test_recheck(self) -> None:
        self.compare([sys.executable, str(TOP / "recheck" / "recheck.py")])


class LongReport(unittest.TestCase):
    def test_its_length_is_what_is_told(self) -> None:
        for most, states in ((5_000, 3), (100_000, 40), (3 * MIB, 300)):
            report = Long(most, states)
            text = b"".join(report.pieces())
            self.assertEqual(len(text), len(report))
            self.assertLessEqual(most - len(report.leaf) - 8, len(text))
            self.assertLessEqual(len(text), most)
        with self.assertRaises(ValueError):
            Long(500, 40)

    def test_it_is_sound(self) -> None:
        report = Long(100_000, 40)
        self.assertEqual(
            recheck.check(recheck.Text(io.BytesIO(b"".join(report.pieces())))),
            f"sound accept {report.leaves} reject 0 unknown 0",
        )

    def test_the_most_leaves(self) -> None:
        self.assertEqual(Long(2**32, 10).leaves, 2**MOST_DEPTH)
        self.assertGreater(len(Long(2**32)), 2**32 - 5_000)

    @unittest.skipUnless(os.access(QUICK, os.X_OK), "build/quick has no program")
    def test_its_check_takes_little_memory(self) -> None:
        for states in (316, 65_536):
            report = Long(MANY, states)
            with self.subTest(states=states):
                came = check(QUICK, report)
                self.assertEqual((came.status, came.told), (0, f"sound accept {report.leaves} reject 0 unknown 0"))
                self.assertLess(came.peak, MOST_PEAK)


if __name__ == "__main__":
    unittest.main()
