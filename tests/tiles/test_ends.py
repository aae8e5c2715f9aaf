"""How calls end that are stopped, that find no room, or whose program fails: nothing wrong is left, and the same words
do what is left."""

import os
import resource
import signal
import subprocess
import time
import unittest
from pathlib import Path
from unittest import mock

from common import COMMAND, EXAMPLES, Answer, Job, TilesCase, joined, work
from plift_tiles.job import beside
from plift_tiles.join import join

# Seconds: longer than anything here takes on a busy machine, and less than a stand-in sleeps.
PATIENCE = 600
# Sleeps in the first call of `verify`, as its file tells whom to wake; then it is the program.
SLOW = """if [ "$1" = verify ] && ! [ -e slept ]; then
    echo $$ > slept
    exec sleep 1000
fi
exec "$PLIFT" "$@"
"""
# A stand-in's text that goes wrong in each `verify`, the status of `work`, what is told of a tile, and the tiles left.
TABLE = """
kill -KILL $$                                             | 137 | 1: plift was stopped by signal 9                        | 1 3
kill -XFSZ $$                                             | 153 | 1: plift was stopped by signal 25                       | 1 3
echo write fault >&2; exit 6                              | 6   | 1: plift ended with status 6: write fault               | 1 2 3
echo out of memory >&2; exit 8                            | 8   | 1: plift ended with status 8: out of memory             | 1 3
echo 'rows: state 0 choice 0: too wide' >&2; exit 4       | 4   | 1: plift refuses this: rows: state 0 choice 0: too wide | 1 3
exit 0                                                    | 1   | 1: plift refuses this: not sound: line 1: Truncated     | 1 3
"$PLIFT" "$@" | sed 's/^accept 22 78/accept 22 77/'; exit | 1   | 3: plift refuses this: not sound: node 8 state 1        | 3
"""


def as_from_a_shell() -> None:
    """For a process that is started: signals that these tests pass over, as in the background, are heard there."""
    for number in (signal.SIGTERM, signal.SIGINT, signal.SIGHUP, signal.SIGQUIT):
        signal.signal(number, signal.SIG_DFL)


class Ends(TilesCase):
    """Calls that don't end as they should."""

    def begun(self, line: str, program: Path, given: str) -> "subprocess.Popen[bytes]":
        """A call that waits in its program."""
        environment = {**os.environ, "PLIFT_PROGRAM": str(program)}
        with open(self.folder / given, "rb") as source:
            process = subprocess.Popen(
                [str(COMMAND), *line.split()],
                cwd=self.folder,
                env=environment,
                preexec_fn=as_from_a_shell,
                stdin=source,
                stderr=subprocess.PIPE,
            )
        assert process.stderr
        self.addCleanup(process.stderr.close)
        end = time.monotonic() + PATIENCE
        while process.poll() is None and time.monotonic() < end:
            if (self.folder / "slept").exists() and (self.folder / "slept").read_text().endswith("\n"):
                return process
            time.sleep(0.05)
        raise AssertionError("the program wasn't started")

    def end(self, process: "subprocess.Popen[bytes]", number: int) -> bool:
        """Ends a call by a signal, and tells whether its program has ended, too."""
        child = int((self.folder / "slept").read_text())
        process.send_signal(number)
        process.wait(PATIENCE)
        try:
            os.kill(child, signal.SIGKILL)
        except ProcessLookupError:
            return True
        return False

    def test_a_signal_ends_a_worker_and_its_program(self) -> None:
        job = self.job()
        for number in (signal.SIGTERM, signal.SIGHUP, signal.SIGINT, signal.SIGQUIT):
            process = self.begun("work work 1 2", self.stand_in(SLOW), "work/job.txt")
            self.assertTrue(self.end(process, number))
            self.assertEqual(process.returncode, 128 + number)
            told = b"plift-tiles: ended by a signal; what is done stays, and the same words go on\n"
            assert process.stderr
            self.assertEqual((process.stderr.read(), self.parts(), job.left), (told, [], [1, 2, 3]))
            (self.folder / "slept").unlink()

    def test_a_worker_that_is_killed_leaves_its_tile(self) -> None:
        job = self.job()
        process = self.begun("work work 1 2 3", self.stand_in(SLOW), "work/job.txt")
        self.assertFalse(self.end(process, signal.SIGKILL))
        self.assertEqual((len(self.parts()), job.left), (1, [1, 2, 3]))
        self.assertEqual(self.call("work work 1 2 3", program=self.folder / "stand-in"), (0, b"", ""))
        self.assertEqual(self.call("join work"), (0, self.retry(7), ""))

    def test_a_split_that_is_stopped_leaves_no_folder(self) -> None:
        (self.folder / "base.report").write_bytes((EXAMPLES / "retry-tree.report").read_bytes())
        for number in (signal.SIGTERM, signal.SIGKILL):
            process = self.begun("split work --depth 7", self.stand_in(SLOW), "base.report")
            self.end(process, number)
            self.assertEqual((len(self.parts()), (self.folder / "work").exists()), (number == signal.SIGKILL, False))
            (self.folder / "slept").unlink()
        came = self.call("split work --depth 7", (self.folder / "base.report").read_bytes())
        self.assertEqual(came, (0, b"", "plift-tiles: 3 tiles\n"))

    def test_programs_that_fail(self) -> None:
        job = self.job()
        work(self.program, job, [2])
        for row in TABLE.strip().splitlines():
            text, status, told, left = (part.strip() for part in row.rsplit("|", 3))
            job.report(2).unlink()
            # The second tile is decided as it should be: one that fails doesn't stop the others.
            second = "verify*'1/5<=p<=3/10,1/10<=q'*"
            script = self.stand_in(f"""case "$*" in {second}) ;; verify*) {text};; esac\nexec "$PLIFT" "$@"\n""")
            with self.subTest(text):
                came = self.call("work work 1 2 3", program=script)
                self.assertEqual((came.status, came.out), (int(status), b""), came.told)
                self.assertIn(f"plift-tiles: tile {told}", came.told)
                self.assertEqual((job.left, self.parts()), ([int(word) for word in left.split()], []))
            work(self.program, job, [2])

    def test_tiles_that_take_their_time(self) -> None:
        """What is looked at while a program runs stops no tile that is read."""
        job = self.job()
        script = self.stand_in("""case "$1" in verify) sleep 0.7;; esac\nexec "$PLIFT" "$@"\n""")
        self.assertEqual(self.call("work work 1 2 3", program=script), (0, b"", ""))
        self.assertEqual((job.left, self.parts()), ([], []))

    def test_a_report_that_check_would_not_read(self) -> None:
        job = self.job()
        with mock.patch("plift_tiles.work.MOST_CHECKED_BYTES", 400), mock.patch("sys.stderr") as told:
            self.assertEqual(work(self.program, job, [1, 2]), 7)
        self.assertIn("longer than the 400 bytes", "".join(call.args[0] for call in told.write.call_args_list))
        self.assertEqual((job.left, self.parts()), ([1, 2, 3], []))

    def test_a_joined_report_that_check_would_not_read(self) -> None:
        self.done_job()
        with mock.patch("plift_tiles.join.MOST_CHECKED_BYTES", 400):
            with open(self.folder / "whole.report", "wb") as out:
                told = join(Job(self.folder / "work"), False, out)
        length = (self.folder / "whole.report").stat().st_size
        self.assertEqual(len(told), 1)
        self.assertIn(f"has {length} bytes, more than the 400", told[0])

    def limited(self, line: str, given: bytes = b"") -> Answer:
        """What a call comes to that can write 300 bytes to a file."""

        def few() -> None:
            """Sets the limit."""
            resource.setrlimit(resource.RLIMIT_FSIZE, (300, 300))

        return self.call(line, given, preexec_fn=few)

    def test_no_room(self) -> None:
        came = self.limited("split work --depth 7", (EXAMPLES / "retry-tree.report").read_bytes())
        self.assertEqual((came.status, came.out, came.told.count("\n")), (6, b"", 1), came.told)
        self.assertEqual(list(self.folder.iterdir()), [])
        job = self.done_job()
        with open("/dev/full", "wb") as full:
            came = self.call("join work", stdout=full)
        self.assertEqual(
            (came.status, came.told), (6, "plift-tiles: standard output can't be written: No space left on device\n")
        )
        job.report(1).unlink()
        came = self.limited("work work 1")
        self.assertIn(came.status, (6, 128 + signal.SIGXFSZ), came.told)
        self.assertEqual((job.left, self.parts()), ([1], []))

    def test_a_place_where_no_folder_can_be(self) -> None:
        """It is named as it was given, and not by a file that would have been in it."""
        came = self.call("split /proc/none --depth 7", (EXAMPLES / "retry-tree.report").read_bytes())
        self.assertEqual((came.status, came.out), (2, b""))
        self.assertEqual(came.told, "plift-tiles: /proc/none can't be written: No such file or directory\n")

    def test_streams_that_are_closed_or_full(self) -> None:
        job = self.done_job()
        lines = "--help", "join --help", "--version", "left work", "status work", "join work"
        job.report(1).unlink()
        for line in (*lines, "join work --partial"):
            for to, says in (("> /dev/full", "No space left on device"), (">&-", "is closed")):
                due = 9 if line == "join work" and to != ">&-" else 6
                came = self.shell(f"{line} {to}")
                self.assertEqual((came.status, came.out, came.told.count("\n")), (due, b"", 1), (line, came.told))
                self.assertRegex(came.told, f"plift-tiles: (standard output .*{says}|1 of 3 tiles .*)\n")
        self.assertEqual(self.shell("work work 1 2>&-").status, 0)
        self.assertEqual(self.shell("work none 1 2> /dev/full").status, 2)
        came = self.shell("split new --depth 7 <&-")
        self.assertEqual((came.status, came.told), (2, "plift-tiles: standard input can't be read: it is closed\n"))
        self.assertEqual((self.parts(), job.left), ([], []))

    def shell(self, line: str) -> Answer:
        """What a line of the shell comes to."""
        environment = {**os.environ, "PLIFT_PROGRAM": str(self.program.path)}
        words = ["sh", "-c", f"exec '{COMMAND}' {line}"]
        came = subprocess.run(words, cwd=self.folder, env=environment, capture_output=True)
        return Answer(came.returncode, came.stdout, came.stderr.decode())

    def test_a_link_that_somebody_laid_is_not_followed(self) -> None:
        job, victim = self.job(), self.folder / "victim"
        victim.write_bytes(b"precious")
        part = beside(job.report(1))
        part.symlink_to(victim)
        self.assertEqual(work(self.program, job, job.numbers), 0)
        self.assertEqual((victim.read_bytes(), self.parts(), job.left), (b"precious", [], []))

    def test_nobody_reads_what_is_told(self) -> None:
        self.job()
        read, write = os.pipe()
        os.close(read)
        with open(write, "wb") as out:
            self.assertEqual(self.call("left work", stdout=out), (6, None, ""))

    def test_two_workers_at_one_tile(self) -> None:
        job = self.job(depth=9)
        environment = {**os.environ, "PLIFT_PROGRAM": str(self.program.path)}
        workers = [
            subprocess.Popen([COMMAND, "work", "work", "1", "2", "3"], cwd=self.folder, env=environment)
            for _ in range(3)
        ]
        self.assertEqual([worker.wait() for worker in workers], [0, 0, 0])
        self.assertEqual((joined(job), self.parts()), (self.retry(9), []))


if __name__ == "__main__":
    unittest.main()
