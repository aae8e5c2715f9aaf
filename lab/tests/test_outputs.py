"""What is written where: nothing of the user's is lost, nothing that a file says reaches the terminal raw, nothing is
left behind, and a status says where something couldn't be written."""

import json
import os
import resource
import shlex
import signal
import stat
import subprocess
import sys
import threading
import unittest
from pathlib import Path
from typing import Any, List

from plift_lab.evidence import digest
from plift_lab.outputs import Output
from plift_lab.plain import listed, plain, printable
from plift_lab.program import find_program

from .helpers import EXAMPLES, PATIENCE, RETRY, TOP, TREE, InFolder, as_from_a_shell, run, wait_for

REGION = 'p=1/10..1/2,q=1/10..1/2'
QUESTION = ('--goal', 'lost', '--region', REGION)
BOUND = ('--bound', '1/40', '--precision', '10', '--depth', '4')
MAIN = str(TOP / 'lab/plift_lab/__main__.py')


class Called(InFolder):
    """Calls of the command as a process."""

    def call(self, line: str, **how: Any) -> 'subprocess.CompletedProcess[bytes]':
        """What a line of the shell comes to, in which LAB is the command."""
        known = dict(os.environ, PLIFT_PROGRAM=str(find_program().path), LAB='%s %s' % (sys.executable, MAIN))
        how = dict({'env': known, 'cwd': str(self.folder), 'stdout': subprocess.PIPE, 'stderr': subprocess.PIPE}, **how)
        return subprocess.run(['bash', '-c', line.replace('LAB', '$LAB')], timeout=PATIENCE, **how)

    def verify(self, report: str, model: str = RETRY) -> 'subprocess.CompletedProcess[bytes]':
        """The question of examples/retry-tree.report, whose report goes there."""
        words = ' '.join(map(shlex.quote, ('verify', model, *QUESTION, *BOUND, '--report', report)))
        return self.call('LAB ' + words)


class Reports(Called):
    def test_a_link_is_followed(self) -> None:
        (self.folder / 'there').mkdir()
        target, link = self.folder / 'there/a.report', self.folder / 'link'
        for before in (None, b'something'):
            if before:
                target.write_bytes(before)
            link.unlink(missing_ok=True)
            link.symlink_to(target)
            self.assertEqual(self.verify('link').returncode, 0)
            self.assertTrue(link.is_symlink())
            self.assertEqual(target.read_bytes(), Path(TREE).read_bytes())
        self.assertIn('P( reach lost )', run('verdict', str(link))[1])
        self.assertEqual(sorted(os.listdir(str(self.folder / 'there'))), ['a.report', 'a.report.json'])

    def test_the_model_is_not_written_over(self) -> None:
        model = Path(self.file('m.drn', Path(RETRY).read_bytes()))
        (self.folder / 'link').symlink_to(model)
        os.link(model, self.folder / 'twin')
        for name in ('m.drn', 'link', 'twin', './there/../m.drn'):
            (self.folder / 'there').mkdir(exist_ok=True)
            came = self.verify(name, 'm.drn')
            self.assertEqual((came.returncode, came.stdout), (2, b''), name)
            self.assertIn(b'is read by this command (m.drn)', came.stderr)
        words = ' '.join(QUESTION + BOUND)
        self.assertEqual(self.call('LAB verify - %s --report m.drn < m.drn' % words).returncode, 2)
        self.assertEqual(model.read_bytes(), Path(RETRY).read_bytes())

    def test_a_file_of_the_user_beside_a_report(self) -> None:
        mine = Path(self.file('a.json', b'{"mine": 1}'))
        self.assertEqual(self.verify('a').returncode, 2)
        self.assertEqual((mine.read_bytes(), sorted(os.listdir(str(self.folder)))), (b'{"mine": 1}', ['a.json']))
        mine.unlink()
        for _ in range(2):
            self.assertEqual(self.verify('a').returncode, 0)
        self.assertEqual(sorted(os.listdir(str(self.folder))), ['a', 'a.json'])

    def test_a_pipe_is_written_through(self) -> None:
        os.mkfifo(self.folder / 'pipe')
        (self.folder / 'link').symlink_to('pipe')
        for name in ('pipe', 'link'):
            read: List[bytes] = []
            reader = threading.Thread(target=lambda: read.append((self.folder / 'pipe').read_bytes()))
            reader.start()
            self.assertEqual(self.verify(name).returncode, 0)
            if not stat.S_ISFIFO(os.stat(self.folder / 'pipe').st_mode):  # it was replaced: end the reader
                self.fail('the pipe was replaced')
            reader.join(10)
            self.assertEqual(read, [Path(TREE).read_bytes()])
        self.assertEqual(sorted(os.listdir(str(self.folder))), ['link', 'pipe'])

    def test_standard_output_by_a_name(self) -> None:
        (self.folder / 'out').symlink_to('/proc/self/fd/1')
        for name in ('/dev/stdout', '/dev/fd/1', 'out'):
            came = self.verify(name)
            self.assertTrue(came.stdout.startswith(Path(TREE).read_bytes() + b'mixed: '), name)
            words = ' '.join(QUESTION + BOUND)
            self.call('LAB verify %s %s --report %s > told' % (RETRY, words, name))
            told = (self.folder / 'told').read_bytes()
            self.assertTrue(told.startswith(Path(TREE).read_bytes() + b'mixed: '), name)
        self.assertEqual(sorted(os.listdir(str(self.folder))), ['out', 'told'])

    @unittest.skipUnless(os.geteuid() == 0, 'only root makes devices')
    def test_a_device_is_written_through(self) -> None:
        for name, minor, status in (('null', 3, 0), ('full', 7, 6)):
            path = self.folder / name
            os.mknod(path, stat.S_IFCHR | 0o666, os.makedev(1, minor))
            try:
                open(path, 'rb').close()
            except OSError:
                self.skipTest('devices can\'t be opened in this folder')
            came = self.verify(name)
            self.assertEqual((came.returncode, stat.S_ISCHR(os.stat(path).st_mode)), (status, True), came.stderr)
        self.assertIn(b'full can\'t be written: No space left on device', came.stderr)
        self.assertEqual(sorted(os.listdir(str(self.folder))), ['full', 'null'])

    def test_what_is_replaced_keeps_its_mode(self) -> None:
        path = Path(self.file('a', b'before'))
        path.chmod(0o640)
        self.assertEqual(self.verify('a').returncode, 0)
        self.assertEqual(stat.S_IMODE(path.stat().st_mode), 0o640)

    def test_a_part_of_that_name_stays(self) -> None:
        mine = Path(self.file('a.part', b'mine'))
        self.assertEqual(self.verify('a').returncode, 0)
        self.assertEqual(mine.read_bytes(), b'mine')

    def test_places_that_are_refused_before_the_work(self) -> None:
        (self.folder / 'loop').symlink_to('loop')
        for name, says in (('none/a', 'No such file'), ('.', 'Is a directory'), ('loop', 'Too many levels')):
            came = self.verify(name)
            self.assertEqual((came.returncode, came.stdout), (2, b''))
            self.assertIn(says.encode(), came.stderr)
        with self.assertRaisesRegex(Exception, 'no name of a file'):
            Output('a\0b')


class Kept(Called):
    NAMES = ('plift-lab.json', '1.report', '1.report.json', '1.report.part', '1.report.json.part', '2.report.part')

    def test_no_link_in_a_folder_is_followed(self) -> None:
        victim = Path(self.file('victim', b'precious'))
        for name in (*self.NAMES, None):
            folder = self.folder / 'k'
            folder.mkdir()
            (folder / 'plift-lab.json').write_bytes(b'{}')
            if name is None:  # the model's name is known once it was written
                run('bounds', RETRY, *QUESTION, '--keep', str(folder))
                name = next(folder.glob('model-*')).name
            (folder / name).unlink(missing_ok=True)
            (folder / name).symlink_to(victim)
            status, _, fault = run('bounds', RETRY, *QUESTION, '--keep', str(folder))
            self.assertEqual(status, 2 if name == 'plift-lab.json' else 0, (name, fault))
            self.assertEqual(victim.read_bytes(), b'precious', name)
            self.assertEqual([path.name for path in folder.glob('*.part')], [], name)
            for path in folder.iterdir():
                path.unlink()
            folder.rmdir()

    def test_a_report_of_another_question_is_not_taken(self) -> None:
        """Somebody put another sound report in the place of one, and tells of it what is told of that one."""
        keep = self.folder / 'k'
        words = ('verify', RETRY, *QUESTION, *BOUND, '--keep', str(keep))
        self.assertEqual(run(*words)[0], 0)
        other = (EXAMPLES / 'retry.report').read_bytes()
        (keep / '1.report').write_bytes(other)
        told = json.loads((keep / '1.report.json').read_text('utf-8'))
        told['sha256'] = digest(other)
        (keep / '1.report.json').write_text(json.dumps(told), 'utf-8')
        self.assertIn('mixed', run(*words)[1])

    def test_no_room(self) -> None:
        def few() -> None:
            resource.setrlimit(resource.RLIMIT_FSIZE, (100, 100))

        for words in ('--keep k', '', '--report a'):
            came = self.call('LAB verify %s %s %s' % (RETRY, ' '.join(QUESTION + BOUND), words), preexec_fn=few)
            self.assertEqual((came.returncode, came.stdout), (6, b''), came.stderr)
            self.assertRegex(came.stderr, rb'\Aplift-lab: [^\n]*File too large\n\Z')


class Shown(InFolder):
    def test_bytes(self) -> None:
        self.assertEqual(plain(b'a\x1b[2J\n\xff~ '), 'a\\x1b[2J\\x0a\\xff~ ')
        self.assertEqual(printable('jos\u00e9 \x1b\u202e\n'), 'jos\u00e9 \\x1b\\u202e\\n')
        self.assertEqual(listed(['p%d' % n for n in range(99)])[-21:], 'p14, p15, and 83 more')

    def forged(self, **told: Any) -> str:
        """A report of the tree whose file beside it tells this."""
        report = str(self.folder / 'a.report')
        words = ('--relative', '--report', report)
        self.assertEqual(run('verify', RETRY, *QUESTION, *BOUND, *words)[0], 0)
        beside = json.loads(Path(report + '.json').read_text('utf-8'))
        Path(report + '.json').write_text(json.dumps(dict(beside, **told)), 'utf-8')
        return report

    def test_a_goal(self) -> None:
        report = self.forged(goal='x\x1b[2J\nsound accept 9 reject 0 unknown 0')
        for words in (('verdict', report), ('view', report), ('leaves', report, '--json'), ('leaves', report, '--csv')):
            _, told, fault = run(*words)
            self.assertNotIn('\x1b', told + fault)
            self.assertNotIn('\nsound', told + fault)
        self.assertIn('x\\x1b[2J\\x0asound accept 9', run('verdict', report, '--brief')[1])

    def test_a_scale_that_the_report_does_not_bear_out(self) -> None:
        plain_report = Path(self.file('b.report', Path(TREE).read_bytes()))
        report = self.forged()
        self.assertEqual(run('verdict', report, '--brief')[0], 30)
        beside = json.loads(Path(report + '.json').read_text('utf-8'))
        beside['sha256'] = digest(plain_report.read_bytes())
        for told in (beside, dict(beside, scale={}, fixed={'p': '1/2'}), dict(beside, scale={'z': ['0', '1']})):
            Path(str(plain_report) + '.json').write_text(json.dumps(told), 'utf-8')
            status, out, fault = run('leaves', str(plain_report), '--csv')
            self.assertEqual((status, out), (2, ''))
            self.assertIn('doesn\'t bear out', fault)
        Path(str(plain_report) + '.json').write_text(json.dumps(dict(beside, scale={'\x1b[2J': ['0', '1']})), 'utf-8')
        status, out, fault = run('leaves', str(plain_report), '--csv')
        self.assertEqual((status, out, '\x1b' in fault), (2, '', False))

    def test_names_of_parameters(self) -> None:
        text = b'@type: DTMC\n@parameters\np \x1b[2Jq \x07\rsound\n@model\nstate 0 init g\n0 : 1\n'
        for region in ('p=0..1', 'z=0..1'):
            status, out, fault = run('bounds', self.file('m.drn', text), '--goal', 'g', '--region', region)
            self.assertEqual((status, out), (2, ''))
            self.assertRegex(fault, r'\A[\x20-\x7e]*\n\Z')
        many = b'@type: DTMC\n@parameters\n%s\n@model\n' % b' '.join(b'p%d' % n for n in range(9999))
        self.assertLess(len(run('bounds', self.file('m.drn', many), '--goal', 'g', '--region', 'z=0..1')[2]), 300)


class Ends(Called):
    def test_signals(self) -> None:
        """The program ends with its caller, and no half report is left."""
        slow = self.file('slow', b'#!/bin/sh\necho plift 1\necho $$ > started\nexec sleep 1000\n')
        os.chmod(slow, 0o755)
        words = [sys.executable, MAIN, 'verify', RETRY, *QUESTION, *BOUND, '--keep', 'k']
        started = self.folder / 'started'
        for number in (signal.SIGHUP, signal.SIGQUIT, signal.SIGTERM, signal.SIGINT):
            process = subprocess.Popen(
                words,
                env=dict(os.environ, PLIFT_PROGRAM=slow),
                preexec_fn=as_from_a_shell,
                cwd=str(self.folder),
                stdout=subprocess.PIPE,
                stderr=subprocess.PIPE,
            )
            wait_for(lambda: started.exists() and started.read_text().endswith('\n'), process)
            child = int(started.read_text())
            process.send_signal(number)
            out, err = process.communicate(timeout=PATIENCE)
            gone = self.is_gone(child)
            self.assertEqual((process.returncode, out, gone), (130, b'', True), (number, err))
            self.assertIn(b'interrupted', err)
            self.assertEqual([path.name for path in (self.folder / 'k').glob('*.*port*')], [], number)
            started.unlink()

    def test_what_stands_where_it_is_stopped(self) -> None:
        """A question of several is slow: what the others have shown is told."""
        slow = self.file(
            'slow',
            b'#!/bin/sh\nif [ "$1" = verify ]; then\n    echo >> asked\n'
            b'    if [ "$(wc -l < asked)" -gt 2 ]; then echo > sleeps; exec sleep 1000; fi\nfi\nexec "%s" "$@"\n'
            % str(find_program().path).encode(),
        )
        os.chmod(slow, 0o755)
        process = subprocess.Popen(
            [sys.executable, MAIN, 'threshold', RETRY, *QUESTION, '--bound', '1/40', '--parameter', 'p', '--keep', 'k'],
            env=dict(os.environ, PLIFT_PROGRAM=slow),
            preexec_fn=as_from_a_shell,
            cwd=str(self.folder),
            stdout=subprocess.PIPE,
            stderr=subprocess.PIPE,
        )
        wait_for((self.folder / 'sleeps').exists, process)
        process.send_signal(signal.SIGINT)
        out, err = process.communicate(timeout=PATIENCE)
        self.assertEqual((process.returncode, out), (130, b''))
        self.assertRegex(err.decode(), r'plift-lab: so far: p between 0\.\d+ and 0\.\d+; interrupted')

    def is_gone(self, number: int) -> bool:
        """Whether a process has ended; one that hasn't is ended."""
        try:
            os.kill(number, signal.SIGKILL)
            return False
        except ProcessLookupError:
            return True

    def test_a_reader_of_progress_that_ends(self) -> None:
        came = self.call('LAB verify %s %s --progress 2> /dev/full' % (RETRY, ' '.join(QUESTION + BOUND)))
        self.assertEqual((came.returncode, came.stdout[:6]), (0, b'mixed:'))

    def test_streams(self) -> None:
        """Each command says by 6 that its answer went nowhere, in one line, and nothing is left to a trace."""
        lines = [
            'verify %s %s' % (RETRY, ' '.join(QUESTION + BOUND)),
            'bounds %s %s --json' % (RETRY, ' '.join(QUESTION)),
            'verdict %s' % TREE,
            'leaves %s --csv' % TREE,
            'leaves %s --json' % TREE,
            'view %s' % TREE,
            'explain too long',
            '--help',
            'bounds --help',
            '--version',
        ]
        for line in lines:
            closed = [('>&-', 'closed')] * (line in ('--help', 'leaves %s --csv' % TREE))
            for to, says in [('> /dev/full', 'No space left on device'), *closed]:
                came = self.call('LAB %s %s' % (line, to))
                self.assertEqual((came.returncode, came.stdout), (6, b''), (line, to, came.stderr))
                self.assertRegex(came.stderr.decode(), r'\Aplift-lab: standard output [^\n]*%s\n\Z' % says)

    def test_standard_error(self) -> None:
        for to in ('2>&-', '2> /dev/full'):
            self.assertEqual(self.call('LAB verdict %s --brief %s' % (TREE, to)).returncode, 30)
            self.assertEqual(self.call('LAB verdict nothing-there %s' % to).returncode, 2)

    def test_standard_input(self) -> None:
        came = self.call('LAB verdict - <&-')
        self.assertEqual((came.returncode, came.stderr.count(b'\n')), (2, 1))
        self.assertIn(b'closed', came.stderr)

    def test_what_nohup_asks(self) -> None:
        """A signal that is ignored where the command starts stays ignored."""
        script = 'import signal, sys; sys.path.insert(0, %r)\nfrom plift_lab.ends import _armed\n' % str(TOP / 'lab')
        script += 'signal.signal(signal.SIGHUP, signal.SIG_IGN)\nwith _armed(): signal.raise_signal(signal.SIGHUP)\n'
        self.assertEqual(subprocess.run([sys.executable, '-c', script]).returncode, 0)


if __name__ == '__main__':
    unittest.main()
