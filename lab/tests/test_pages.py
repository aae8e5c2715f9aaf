"""The man page and the completion of plift-lab: whether they have the words that the commands take, and work."""

import importlib.util
import shutil
import subprocess
import unittest
from typing import Any

from .helpers import TOP, InFolder


def generator() -> Any:
    """lab/pages.py, as a module."""
    spec = importlib.util.spec_from_file_location('lab_pages', str(TOP / 'lab/pages.py'))
    assert spec is not None and spec.loader is not None
    module = importlib.util.module_from_spec(spec)
    spec.loader.exec_module(module)
    return module


class Pages(InFolder):
    def test_they_are_those_of_the_words(self) -> None:
        for name, write in generator().PAGES.items():
            self.assertEqual((TOP / name).read_text('utf-8'), write(), '%s: python3 lab/pages.py' % name)

    @unittest.skipUnless(shutil.which('groff'), 'needs groff')
    def test_the_man_page_is_set_without_a_fault(self) -> None:
        words = ['groff', '-man', '-ww', '-Tutf8', str(TOP / 'man/plift-lab.1')]
        done = subprocess.run(words, stdout=subprocess.PIPE, stderr=subprocess.PIPE)
        self.assertEqual((done.returncode, done.stderr), (0, b''))

    def test_completion_in_bash(self) -> None:
        self.file('model.drn', b'')
        for line, due in (
            ('plift-lab ver', 'verify verdict'),
            ('plift-lab bounds --ca', '--calls --cap'),
            ('plift-lab bounds mo', 'model.drn'),
            ('plift-lab verify x --keep mo', 'model.drn'),
            ('plift-lab verify x --goal mo', ''),
            ('plift-lab view --', '--help --x --y --model --title'),
        ):
            words = line.split(' ')
            script = 'source %s; COMP_WORDS=(%s); COMP_CWORD=%d; _plift_lab; echo ${COMPREPLY[@]}' % (
                TOP / 'completion/plift-lab.bash',
                ' '.join(words),
                len(words) - 1,
            )
            told = subprocess.run(['bash', '-c', script], cwd=str(self.folder), stdout=subprocess.PIPE).stdout.decode()
            self.assertEqual(set(told.split()), set(due.split()), line)


if __name__ == '__main__':
    unittest.main()
