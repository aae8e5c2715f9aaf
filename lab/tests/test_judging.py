"""The process that judges texts by recheck.py: its answers, its death, and its end."""

import os
import resource
import signal
import subprocess
import sys
import unittest
from pathlib import Path
from typing import NoReturn
from unittest import mock

from plift_lab import judging
from plift_lab.faults import LOST, WRITING, Fault, Refused
from plift_lab.judging import Judge, Second
from plift_lab.program import Program, find_program

from .helpers import EXAMPLES, RETRY, InFolder, run

TEXTS = (
    (RETRY, 'P>=0.99 [F "delivered"]', 'p=1/10..3/10,q=1/20..1/5', '--depth', '4'),
    (RETRY, 'P>=0.97 [F "delivered"]', 'p=1/10..3/10,q=1/20..1/5'),
    (str(EXAMPLES / 'loop.drn'), 'P<=1/10 [F<=2 "heads"]', 'p=1/5..2/5'),
    (str(EXAMPLES / 'sends.drn'), 'R{"sends"}<=7/5 [F "done"]', 'p=1/10..3/10,q=1/20..1/5', '--cap', '3'),
)


def is_there(process: int) -> bool:
    """Whether a process lives."""
    try:
        os.kill(process, 0)
    except ProcessLookupError:
        return False
    return True


class Answers(InFolder):
    def setUp(self) -> None:
        super().setUp()
        self.second = Second()
        self.addCleanup(self.second.close)

    @property
    def process(self) -> int:
        """The number of the process that judges."""
        process = self.second._process
        assert process is not None
        return process.pid

    def written(self) -> 'list[bytes]':
        """Texts of each kind."""
        texts = []
        for place, (model, formula, region, *more) in enumerate(TEXTS):
            path = str(self.folder / str(place))
            run('verify', model, '--formula', formula, '--region', region, '--report', path, *more)
            texts.append(Path(path).read_bytes())
        return texts

    def checker(self, body: str) -> None:
        """Puts another checker in the place of recheck.py."""
        path = self.file('checker.py', ('import os, time\n\n\ndef main(words):\n    %s\n' % body).encode())
        place = mock.patch.object(judging, 'RECHECK', Path(path))
        place.start()
        self.addCleanup(place.stop)

    def test_each_text_has_its_own_answer(self) -> None:
        """One process says of each text what recheck.py says of it alone, whatever came before it."""
        sound, processes = self.written(), set()
        unsound = [sound[0].replace(b'\nholds', b'\nfails', 1), sound[3][:-9], b'', sound[2] + b'\n', b'a\nb']
        for text in [*sound, *unsound, *reversed(sound), unsound[0], sound[0]]:
            alone = subprocess.run([sys.executable, str(judging.RECHECK)], input=text, capture_output=True, check=False)
            try:
                told = 0, self.second.judge(text)
            except Refused as refusal:
                told = refusal.plift_status, refusal.note
            self.assertEqual(told, (alone.returncode, (alone.stdout or alone.stderr).decode().strip()))
            self.assertEqual(told[0], int(text in unsound))
            processes.add(self.process)
        self.assertEqual(len(processes), 1)

    def test_no_text_is_judged_twice(self) -> None:
        text, judge = self.written()[1], Judge(find_program())
        self.addCleanup(judge.close)
        with mock.patch.object(Program, 'check', side_effect=Refused(2, 'usage: words', [], b'')) as audit:
            with mock.patch.object(Second, 'judge', return_value='sound') as second:
                self.assertEqual({judge.judge(text) for _ in range(3)}, {('sound', str(judging.RECHECK))})
        self.assertEqual((audit.call_count, second.call_count), (1, 1))

    def test_it_dies_between_two_texts(self) -> None:
        text = self.written()[1]
        line = self.second.judge(text)
        assert self.second._process is not None
        self.second._process.kill()
        self.second._process.wait()
        self.assertEqual(self.second.judge(text), line)

    def test_it_dies_over_a_text(self) -> None:
        for body, status, told in (
            ('os.kill(os.getpid(), 9)', -9, ''),
            ('raise ValueError("no such thing")', 1, 'ValueError: no such thing'),
            ('os._exit(0)', 0, ''),
            ('os.write(1, b"sound"); os._exit(0)', 0, 'sound'),
            ('raise KeyboardInterrupt', 130, ''),
        ):
            with self.subTest(body):
                self.checker(body)
                for _ in range(2):
                    with self.assertRaises(Refused) as refused:
                        self.second.judge(b'a')
                    self.assertEqual((refused.exception.plift_status, refused.exception.note), (status, told))

    def test_no_line_but_a_status(self) -> None:
        self.checker('return 130')
        with self.assertRaises(Refused) as refused:
            self.second.judge(b'a')
        self.assertEqual((refused.exception.plift_status, refused.exception.status), (130, LOST))

    def test_it_is_not_there(self) -> None:
        with mock.patch.object(judging, 'RECHECK', self.folder / 'nothing'):
            with self.assertRaisesRegex(Fault, 'isn\'t there, which judges'):
                self.second.judge(b'a')

    def test_no_room_for_a_text(self) -> None:
        before = resource.getrlimit(resource.RLIMIT_FSIZE)
        resource.setrlimit(resource.RLIMIT_FSIZE, (10, before[1]))
        try:
            with self.assertRaisesRegex(Fault, 'can\'t be written: File too large') as full:
                self.second.judge(bytes(11))
        finally:
            resource.setrlimit(resource.RLIMIT_FSIZE, before)
        self.assertEqual(full.exception.status, WRITING)

    def test_it_ends_where_the_command_is_interrupted(self) -> None:
        def interrupt(number: int, _: object) -> NoReturn:
            raise KeyboardInterrupt(number)

        self.checker('time.sleep(600)')
        before = signal.signal(signal.SIGALRM, interrupt)
        self.addCleanup(signal.signal, signal.SIGALRM, before)
        signal.setitimer(signal.ITIMER_REAL, 1)
        with self.assertRaises(KeyboardInterrupt):
            try:
                self.second.judge(b'a')
            finally:
                process = self.process
                self.second.close()
        self.assertFalse(is_there(process))

    def test_it_ends_with_the_command(self) -> None:
        """Also where that is killed."""
        code = 'from plift_lab.judging import *; import os; one = Second(); one._ready(); print(one._process.pid); '
        for ending in ('one.close()', 'os._exit(0)'):
            with subprocess.Popen(
                [sys.executable, '-c', code + 'import sys; sys.stdout.flush(); ' + ending],
                stdout=subprocess.PIPE,
                cwd=Path(judging.__file__).parent.parent,
            ) as command:
                assert command.stdout is not None
                process = int(command.stdout.readline())
                self.assertEqual(command.wait(), 0)
            for _ in range(600):
                if not is_there(process):
                    break
                signal.sigtimedwait([], 0.1)
            self.assertFalse(is_there(process), ending)


class Programs(InFolder):
    def test_what_was_built_without_proofs(self) -> None:
        """A quick build tells, and so does what was installed or released of one."""
        for program, made in (
            ('programs/plift', 'programs/made'),
            ('bin/plift', 'libexec/plift/programs/made'),
            ('quick/plift', 'elsewhere'),
        ):
            for text in (b'quick\n', b'proved\n'):
                for name in (program, made):
                    (self.folder / name).parent.mkdir(parents=True, exist_ok=True)
                (self.folder / made).write_bytes(text)
                is_unproved = text == b'quick\n' or program == 'quick/plift'
                told = '%s check%s' % (self.folder / program, ', built without proofs' if is_unproved else '')
                self.assertEqual(Program(self.folder / program).judge('check'), told)


if __name__ == '__main__':
    unittest.main()
