"""What is told while a job runs, and the models of the benchmark."""

import io
import os
import subprocess
import sys
import unittest
from contextlib import redirect_stderr
from pathlib import Path
from typing import List, Tuple
from unittest import mock

from plift_lab.progress import Follower, Progress, seconds_shown, slowness, time_left
from plift_lab.session import Session

from .helpers import EXAMPLES, TOP, TREE, InFolder


# Of jobs of a minute: seconds, and thousandths of the region that were settled by then.
RECORDS = (
    '2:0 3:125 4:133 5:134 6:135 7:137 8:138 9:139 10:149 11:150 12:153 13:156 14:196 15:199 16:201 17:211 '
    '18:215 19:215 20:219 21:313 22:313 23:315 24:321 25:322 26:323 27:323 28:344 29:344 30:346 31:347 32:348 '
    '33:352 34:352 35:354 36:354 37:359 38:375 39:383 40:384 41:387 42:388 43:389 44:398 45:399 46:400 47:402 '
    '48:403 49:404 50:406 51:438 52:438 53:440 54:440 55:441 56:446 57:446 58:453 59:500 60:1000',
    '2:48 5:98 9:156 11:205 18:255 21:329 23:396 26:473 32:547 39:614 42:688 44:755 47:830 53:898 57:973 ' '60:1000',
    '1:2 4:12 6:23 8:48 11:54 13:102 15:188 18:194 20:203 23:234 26:240 28:250 31:418 33:754 36:762 38:776 '
    '41:797 43:804 46:853 49:938 51:945 54:962 57:984 59:992 60:1000',
)


class Following(InFolder):
    def test_a_growing_report(self) -> None:
        """However the report is cut into pieces, the share of its leaves is that of what has come."""
        data, path = Path(TREE).read_bytes(), self.folder / 'growing'
        shares = []
        for size in (1, 7, 50, 1000):
            follower, told = Follower(), []
            for end in range(0, len(data) + size, size):
                path.write_bytes(data[:end])
                told.append(follower.settled(path))
            self.assertEqual(told, sorted(told))
            shares.append(told[-1])
        self.assertEqual(shares, [1.0] * 4)
        path.write_bytes(data[: data.index(b'reject')])
        self.assertEqual(Follower().settled(path), 0.25)
        self.assertEqual(Follower().settled(self.folder / 'not there'), 0.0)

    def test_times(self) -> None:
        self.assertEqual(
            [seconds_shown(seconds) for seconds in (0.4, 99, 150, 7200)], ['0 s', '99 s', '2 min', '2.0 h']
        )

    def test_the_time_that_is_left(self) -> None:
        """It is told where all that was done and what was done of late tell about the same."""
        even = [(float(second), second / 20) for second in range(1, 11)]
        self.assertAlmostEqual(time_left(even) or 0, 10)
        self.assertIsNone(time_left(even[:4]))
        slower = [(1.0, 0.5), (2.0, 0.7), (5.0, 0.71), (10.0, 0.72)]
        self.assertIsNone(time_left(slower))
        self.assertIsNone(time_left([(10.0, 0.01)]))
        self.assertIsNone(time_left([(6.0, 0.5), (12.0, 0.5)]))

    def test_the_time_that_is_left_of_recorded_jobs(self) -> None:
        """Where it is told it is within a factor of two, but at one moment in twenty."""
        told = right = 0
        for record in RECORDS:
            past: List[Tuple[float, float]] = []
            for moment in record.split():
                second, share = map(int, moment.split(':'))
                past.append((float(second), share / 1000))
                left = time_left(past) if second < 60 else None
                if left is not None:
                    told += 1
                    right += (60 - second) / 2 <= left <= 2 * (60 - second)
        self.assertGreater(told, 15)
        self.assertGreaterEqual(right, 0.95 * told)

    def test_judging_takes_time_too(self) -> None:
        """A report of a megabyte at which half is settled, and a judge of a megabyte in ten seconds: ten seconds more
        for the half that comes and the one that is there, and twice that for two questions."""
        head, path = b'box 0 4\nsplit 0\naccept ' + b'7 ' * 5 * 10**5, self.folder / 'growing'
        path.write_bytes(head + b'\n')
        for spans, due in ((1, 20), (2, 40)):
            told = io.StringIO()
            with redirect_stderr(told), mock.patch('plift_lab.progress.slowness', lambda process: 1.0), mock.patch(
                'plift_lab.progress.Past.left', lambda self, spent, share: 3.0
            ):
                progress = Progress(True)
                with progress.part(0.0, 1 / spans):
                    watch = progress.watcher(1e5)
                    progress._told -= 11
                    watch(path, 1)  # type: ignore[misc]
                progress._told -= 11
                progress.judging()
            first, second = told.getvalue().splitlines()
            self.assertIn(', some %d s left' % (due + 3), first)
            self.assertIn(' of the region is settled, and is judged now', second)

    def test_a_busy_machine(self) -> None:
        self.assertGreaterEqual(slowness(os.getpid()), 1)
        self.assertEqual(slowness(2**30), 1)

    def test_once_for_the_whole_job(self) -> None:
        """The share goes on from question to question, and never back; where none is known it is no number."""
        told = io.StringIO()
        path = self.folder / 'growing'
        path.write_bytes(Path(TREE).read_bytes()[:-1])
        with redirect_stderr(told):
            progress = Progress(True)
            self.assertEqual(progress.known, '')
            for low, high in ((0.0, 0.5), (0.5, 1.0)):
                with progress.part(low, high):
                    watch = progress.watcher()
                    for data in (b'', Path(TREE).read_bytes()):
                        path.write_bytes(data)
                        progress._told -= 11
                        watch(path, os.getpid())  # type: ignore[misc]
            self.assertEqual(progress.known, '100.0 % of the region is settled')
            with self.assertRaises(KeyboardInterrupt) as stopped, Session() as session:
                session.progress = progress
                raise KeyboardInterrupt(2)
            self.assertEqual(stopped.exception.args, (2, 'so far: 100.0 % of the region is settled'))
            progress.say('p between 1 and 2')
            progress._told -= 11
            progress.watcher()(path, os.getpid())  # type: ignore[misc]
        self.assertEqual(
            [line.split(' after ')[0] for line in told.getvalue().splitlines()],
            ['0 s so far', '50.0 % of the region is settled', '50.0 % of the region is settled']
            + ['100.0 % of the region is settled', 'p between 1 and 2; 0 s so far'],
        )

    def test_nothing_is_told_at_once(self) -> None:
        told = io.StringIO()
        with redirect_stderr(told):
            progress = Progress(True)
            progress.say('at once')
            progress._told -= 11
            progress.say('later')
        self.assertEqual(told.getvalue(), 'later\n')


class Benchmark(unittest.TestCase):
    def test_sizes(self) -> None:
        """The models have as many states as are known of them."""
        for words, states in (('brp 64 4', 4359), ('nand 5 5', 4122), ('zeroconf 10', 13), ('consensus 2 2', 272)):
            done = subprocess.run(
                [sys.executable, str(TOP / 'bench/atva.py'), '--model', *words.split()], stdout=subprocess.PIPE
            )
            self.assertEqual(sum(line.startswith(b'state ') for line in done.stdout.splitlines()), states, words)

    def test_mistakes(self) -> None:
        for words in (
            ('--model', 'brp'),
            ('--model', 'nothing', '3'),
            ('--model', 'nand', '20', '9'),
            ('--only', 'x'),
            ('--coverage', 'a'),
            ('--published', '/nowhere'),
            ('--published', str(EXAMPLES / 'coin.drn')),
            ('--limit', '0'),
        ):
            done = subprocess.run(
                [sys.executable, str(TOP / 'bench/atva.py'), *words], stdout=subprocess.PIPE, stderr=subprocess.PIPE
            )
            self.assertEqual(done.returncode, 2, words)
            self.assertNotIn(b'Traceback', done.stderr)


if __name__ == '__main__':
    unittest.main()
