"""The package can be installed without a network, and runs from where it was installed."""

import importlib.util
import os
import subprocess
import sys
import unittest

from plift_lab import version
from plift_lab.program import find_program

from .helpers import TOP, TREE, InFolder


class Install(InFolder):
    def test_one_version_for_all(self) -> None:
        due = (TOP / 'VERSION').read_text('ascii').strip()
        self.assertEqual((version.MADE, version.VERSION), (due, due))
        for tool in ('plift-lab', 'plift-tiles'):
            told = subprocess.run([str(TOP / tool), '--version'], stdout=subprocess.PIPE).stdout
            self.assertEqual(told.decode(), '%s %s\n' % (tool, due))

    @unittest.skipUnless(importlib.util.find_spec('pip'), 'needs pip')
    def test_offline(self) -> None:
        install = [
            sys.executable,
            '-m',
            'pip',
            'install',
            '--no-index',
            '--quiet',
            '--disable-pip-version-check',
            '--target',
        ]
        done = subprocess.run(
            install + [str(self.folder / 'there'), str(TOP / 'lab')], stdout=subprocess.PIPE, stderr=subprocess.STDOUT
        )
        self.assertEqual(done.returncode, 0, done.stdout.decode())
        known = dict(os.environ, PYTHONPATH=str(self.folder / 'there'), PLIFT_PROGRAM=str(find_program().path))
        for words, says in ((('verdict', TREE, '--brief'), b'mixed'), (('view', TREE), b'<!DOCTYPE html>')):
            script = str(self.folder / 'there/bin/plift-lab')
            told = subprocess.run(
                [sys.executable, script, *words], env=known, cwd=str(self.folder), stdout=subprocess.PIPE
            )
            self.assertTrue(told.stdout.startswith(says), told.stdout[:200])


if __name__ == '__main__':
    unittest.main()
