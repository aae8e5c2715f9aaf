"""The build of a proved program, with a fake `rt`: its order, what it keeps when it is ended, and what it tells."""

import fcntl
import os
import signal
import subprocess
import time
import unittest
from pathlib import Path
from typing import List, Tuple

from common import PATIENCE, DoorCase, as_from_a_shell, tool, waits

build = tool("build")

NEEDS = {"low": [], "side": [], "middle": ["low"], "high": ["middle", "side"], "other": ["low"]}
TABLE = "crate\tfunctions\tminutes\nlow\t13\t0.5\nside\t1\t2\n"


class Parts(unittest.TestCase):
    def test_crates_and_what_they_need(self) -> None:
        text = "# a comment\nlow:\nhigh may_abort=2: low std # more\n"
        self.assertEqual(build.dependencies(text), {"low": [], "high": ["low"]})
        self.assertEqual(build.closure(NEEDS, "high"), ["low", "middle", "side", "high"])

    def test_minutes_are_in_the_column_of_that_name(self) -> None:
        self.assertEqual(build.minutes_of(TABLE), {"low": 0.5, "side": 2.0})
        self.assertEqual(build.minutes_of("crate\tminutes\tmore\nlow\t3\t4\n"), {"low": 3.0})
        self.assertEqual([build.minutes_of(text) for text in ("", "\n", "crate\nlow\n")], [{}, {}, {}])

    def test_minutes_of_the_repository(self) -> None:
        text = (build.TOP / "tools" / "costs.tsv").read_text(encoding="utf-8")
        needs = build.dependencies((build.TOP / "crates.txt").read_text(encoding="utf-8"))
        programs = build.closure(needs, "plift") + build.closure(needs, "plift_view")
        self.assertLessEqual(set(programs), set(build.minutes_of(text)))
        tables = tool("tables")
        self.assertEqual({cost.crate: cost.minutes for cost in tables.costs_of(text)}, build.minutes_of(text))

    def test_documents_are_as_they_are_made(self) -> None:
        self.assertEqual(tool("tables").main(["--check"]), 0)

    def test_a_table_is_made_from_its_data(self) -> None:
        tables = tool("tables")
        made = tables.cost_table(tables.costs_of(TABLE), lambda pattern: 2 if pattern.startswith("tests/") else 0)
        self.assertIn("| `low` | 13 |  | 2 | 0.5 |\n| `side` | 1 |  | 2 | 2.0 |\n| all | 14 | 0 | 4 | 2 |\n", made)

    def test_longest_chains(self) -> None:
        order = build.closure(NEEDS, "high")
        cost = {"low": 1.0, "side": 5.0, "middle": 2.0, "high": 3.0}
        chains = {"high": 3.0, "middle": 5.0, "low": 6.0, "side": 8.0}
        self.assertEqual(build.longest_chains(order, NEEDS, cost), chains)

    def test_as_many_at_a_time_as_processors_and_memory_allow(self) -> None:
        self.assertEqual([build.lanes_for(4, it) for it in (None, 64 << 30, 5 << 30, 0)], [4, 4, 2, 1])

    def test_minutes_in_words(self) -> None:
        self.assertEqual(
            [build.in_minutes(it) for it in (0, 0.4, 0.9, 1.4, 2)],
            ["0 minutes", "0 minutes", "1 minute", "1 minute", "2 minutes"],
        )

    def test_pace_goes_from_the_usual_to_the_seen(self) -> None:
        self.assertEqual(build.pace_of(0, 0, 0.5, 100), 0.5)
        self.assertEqual(build.pace_of(90, 90, 0.5, 100), 0.95)


class Builds(DoorCase):
    def start(self, crate: str = "plift", **environment: str) -> "subprocess.Popen[str]":
        words = ["python3", str(self.top / "tools/build.py"), crate, str(self.top / "build/logs")]
        own = {**self.environment, **environment}
        return subprocess.Popen(words, env=own, stderr=subprocess.PIPE, text=True, preexec_fn=as_from_a_shell)

    def end(self, started: "subprocess.Popen[str]") -> Tuple[int, str]:
        told = started.communicate(timeout=PATIENCE)[1]
        return started.returncode, told

    def wait_for(self, front: str) -> List[str]:
        """Waits for a line of the fake `rt`, and returns its words."""
        for _ in waits():
            found = [line.split() for line in self.lines() if line.startswith(front)]
            if found:
                return found[0]
        self.fail(f"no {front} in {self.lines()}")

    def out(self, crate: str) -> Path:
        return self.top / "crates" / crate / "out"

    def assert_no_rooms(self) -> None:
        self.assertEqual(list(self.top.glob("crates/*/out/room")), [])

    def test_all_crates_below_and_no_other(self) -> None:
        status, told = self.end(self.start())
        self.assertEqual(status, 0, told)
        ended = [line.split()[1] for line in self.lines() if line.startswith("end")]
        self.assertEqual(sorted(ended), ["lift_base", "lift_poly", "plift", "plift_top"])
        self.assertEqual(ended[2:], ["plift_top", "plift"])
        logs = sorted(path.name for path in self.top.glob("build/logs/*"))
        self.assertEqual(logs, [f"{name}.log" for name in sorted(ended)])
        self.assertTrue(os.access(self.out("plift") / "plift", os.X_OK))
        self.assertRegex(told, r"plift: each of 4 crates is proved .*about [0-9]+ minutes")
        self.assertRegex(told, r"plift: proving plift_top \(2 of 4 crates, 0 minutes so far, some [0-9]+ left\)")
        self.assert_no_rooms()

    def test_the_program_is_as_old_as_the_begin_of_its_build(self) -> None:
        before = time.time()
        started = self.start(SLOW_CRATES="none")
        self.wait_for("begin")
        changed = self.top / "crates/plift_top/src/lib.rt"
        changed.write_text("changed\n")
        self.assertEqual(self.end(started)[0], 0)
        made = (self.out("plift") / "plift").stat().st_mtime
        self.assertTrue(before <= made < changed.stat().st_mtime)

    def test_a_crate_that_is_not_proved(self) -> None:
        status, told = self.end(self.start(BROKEN_CRATES="plift_top"))
        self.assertEqual(status, 70)
        self.assertRegex(told, r"plift: plift_top was not built; see .*/plift_top\.log, which ends so:\n")
        self.assertIn("\n    error in plift_top\n", told)
        self.assertNotIn("Traceback", told)
        self.assertIn("error in plift_top", (self.top / "build/logs/plift_top.log").read_text())
        self.assertNotIn("begin plift run", " ".join(self.lines()))

    def test_an_older_program_does_not_stand_for_one_that_is_not_built(self) -> None:
        self.built()
        os.utime(self.out("plift") / "plift", (500, 500))
        self.assertEqual(self.end(self.start(BROKEN_CRATES="plift"))[0], 70)
        self.assertFalse((self.out("plift") / "plift").exists())

    def test_a_program_that_is_built_already(self) -> None:
        self.built()
        self.assertEqual(self.end(self.start()), (0, ""))
        self.assertEqual(self.lines(), [])

    def check_ended_by(self, number: int) -> Tuple[int, str]:
        started = self.start(SLOW_CRATES="plift_top")
        slow = int(self.wait_for("slow")[2])
        started.send_signal(number)
        status, told = self.end(started)
        for _ in waits():
            if not os.path.exists(f"/proc/{slow}"):
                break
        self.assertFalse(os.path.exists(f"/proc/{slow}"), "the fake rt runs on")
        return status, told

    def check_next_goes_on(self) -> None:
        self.calls.unlink(missing_ok=True)
        status, told = self.end(self.start())
        self.assertEqual(status, 0, told)
        self.assertIn("2 of them in an earlier build", told)
        self.assertEqual((self.out("plift_top") / "incremental/part").read_text(), "whole\n")
        self.assert_no_rooms()

    def test_interrupted(self) -> None:
        for number in (signal.SIGINT, signal.SIGTERM, signal.SIGHUP):
            with self.subTest(number):
                status, told = self.check_ended_by(number)
                self.assertEqual(status, 70)
                self.assertIn("plift: interrupted; the next build goes on from here", told)
                self.assertNotIn("Traceback", told)
                self.assertEqual((self.out("plift_top") / "incremental/part").read_text(), "part\n")
                self.assert_no_rooms()
                self.calls.unlink()
        self.check_next_goes_on()

    def test_killed(self) -> None:
        self.assertEqual(self.check_ended_by(signal.SIGKILL)[0], -signal.SIGKILL)
        self.assertTrue((self.out("plift_top") / "room").exists())
        self.check_next_goes_on()

    def test_a_second_build_waits(self) -> None:
        first = self.start(SLOW_CRATES="plift_top")
        self.wait_for("slow")
        second = self.start()
        assert second.stderr
        told = second.stderr.readline()
        self.assertRegex(told, "plift: another build, or rt, is at work in crates/.*waits for it")
        first.send_signal(signal.SIGTERM)
        self.end(first)
        self.assertEqual(self.end(second)[0], 0)

    def test_what_another_build_has_built_meanwhile(self) -> None:
        lock = os.open(self.top / "crates/lift_base", os.O_RDONLY)
        fcntl.flock(lock, fcntl.LOCK_EX)
        second = self.start()
        assert second.stderr
        second.stderr.readline()
        self.built()
        os.close(lock)
        self.assertEqual(self.end(second), (0, ""))
        self.assertEqual(self.lines(), [])

    def test_what_cannot_be_written(self) -> None:
        (self.top / "build").write_text("a file, not a folder\n")
        status, told = self.end(self.start())
        self.assertEqual((status, told.count("\n")), (70, 1), told)
        self.assertTrue(told.startswith("plift: it was not built: "), told)

    def test_no_prover(self) -> None:
        (self.room / "bin/rt").unlink()
        status, told = self.end(self.start("plift_view", PATH=f"{self.room / 'bin'}:/usr/bin:/bin"))
        self.assertEqual((status, told), (70, "plift-view: the command rt of the Rattle kit is not on the PATH\n"))

    def test_no_such_crate(self) -> None:
        self.assertEqual(self.end(self.start("plift_no")), (70, "plift-no: crates.txt names no crate plift_no\n"))


if __name__ == "__main__":
    unittest.main()
