"""The library as a notebook has it: what it shows, what it takes, and the notebook of docs, cell by cell."""

import ast
import contextlib
import doctest
import gc
import importlib
import io
import json
import os
import re
import subprocess
import sys
import unittest
from pathlib import Path
from typing import Any, Dict, List, Optional
from xml.etree import ElementTree

import plift_lab
from plift_lab import Fault, Refused, bounds, threshold, verify

from .helpers import RETRY, TOP, run

REGION = {'p': ('1/10', '1/2'), 'q': ('1/10', '1/2')}
NOTEBOOK = TOP / 'docs/lab.ipynb'
EXECUTE = '''
import sys, nbclient, nbformat
made = nbclient.NotebookClient(nbformat.read(sys.argv[1], 4), timeout=240).execute()
sys.stdout.write(nbformat.writes(made))
'''


class Words(unittest.TestCase):
    def test_what_there_is(self) -> None:
        due = [
            'Bounds',
            'Edge',
            'Fault',
            'Leaf',
            'Model',
            'Refused',
            'Region',
            'Report',
            '__version__',
            'bounds',
            'read',
        ]
        self.assertEqual(dir(plift_lab), due + ['threshold', 'verify'])
        for name in plift_lab.__all__:
            self.assertTrue(getattr(plift_lab, name).__doc__, name)
        for name in ('bounds', 'threshold', 'verify', 'read'):
            self.assertIn('>>> ', getattr(plift_lab, name).__doc__)

    def test_its_examples(self) -> None:
        here = os.getcwd()
        os.chdir(str(TOP))
        self.addCleanup(os.chdir, here)
        for name in ('plift_lab', 'plift_lab.api'):
            failed, tried = doctest.testmod(importlib.import_module(name))
            self.assertEqual((failed, tried > 2), (0, True), name)

    def test_regions_and_models(self) -> None:
        text = Path(RETRY).read_text('ascii')
        due = verify(RETRY, 'lost', '1/40', 'p=1/10..1/2,q=1/10').data
        for model in (Path(RETRY), text, text.encode()):
            for region in ({'p': '1/10..1/2', 'q': '0.1'}, {'p': ['10%', '1/2'], 'q': ('1/10', '1/10')}):
                self.assertEqual(verify(model, 'lost', '1/40', region).data, due)
        for region, says in (
            ({'p': (0.1, 0.5), 'q': '1/10'}, 'float'),
            ({'p': ('1/10', '1/5', '1/2'), 'q': '1/10'}, 'a pair of numbers'),
            ({'p': '1/10..1/2'}, 'no interval for q'),
        ):
            with self.assertRaisesRegex(Fault, says):
                verify(RETRY, 'lost', '1/40', region)

    def test_what_is_due(self) -> None:
        for words, says in (
            ({}, 'not both'),
            ({'goal': 'lost', 'formula': 'P<=1/4 [F "lost"]'}, 'not both'),
            ({'goal': 'lost'}, 'a bound is due'),
            ({'formula': 'P<=1/4 [F "lost"]', 'bound': '1/4'}, 'the formula has a bound'),
            ({'formula': 'R{"sends"}<=1/4 [F "lost"]'}, 'cap is due'),
        ):
            with self.assertRaisesRegex(Fault, says):
                verify(RETRY, region=REGION, **words)

    def test_refusals_carry_their_hints(self) -> None:
        with self.assertRaises(Refused) as caught:
            bounds(RETRY, 'lots', REGION)
        self.assertIn('is lost meant?', '\n'.join(caught.exception.hints))
        self.assertIn('\nhint: ', str(caught.exception))
        self.assertEqual(
            run('bounds', RETRY, '--goal', 'lots', '--region', 'p=0..1,q=0..1')[2].count('is lost meant'), 1
        )


class Shown(unittest.TestCase):
    def test_reports(self) -> None:
        report = verify(RETRY, 'lost', '1/40', REGION, depth=6)
        self.assertRegex(repr(report), r'\AReport\(mixed: P\( reach lost \)')
        self.assertIn('<caption>mixed: P( reach lost ) &lt;= 1/40', report._repr_html_())
        picture = report._repr_svg_()
        root = ElementTree.fromstring(picture)
        self.assertTrue(root.tag.endswith('svg'))
        self.assertIn('P( reach lost )', picture)
        outlines = ''.join(re.findall('fill="url[^"]*" d="([^"]*)"', picture))
        self.assertEqual(outlines.count('z'), sum(1 for _ in report.leaves()))

    def test_pictures_in_the_users_own_numbers(self) -> None:
        region = {'p': ('1/1000', '1/500'), 'q': ('1/10', '1/2')}
        report = verify(RETRY, 'lost', '1/40', region, depth=2, relative=True)
        picture = report._repr_svg_() or ''
        for text in ('0.001<', '0.002<', '0.1<', '0.5<'):
            self.assertIn('>' + text, picture)

    def test_pictures_of_one_and_three_parameters(self) -> None:
        one = verify(RETRY, 'lost', '1/40', {'p': ('1/10', '1/2'), 'q': '1/10'}, depth=4)._repr_svg_() or ''
        ElementTree.fromstring(one)
        self.assertIn('>p</text>', one)
        three = verify(str(TOP / 'examples/chain.drn'), 'lost', '1/2', 'p=3/5..9/10,q=3/5..9/10,r=3/5..9/10', depth=3)
        self.assertIn('at r = 3/4', three._repr_svg_() or '')

    def test_bounds_and_edges(self) -> None:
        found = bounds(RETRY, 'lost', REGION, '1/1000')
        self.assertRegex(repr(found), r'\ABounds\(Pmax=\? \[F "lost"\]: sup from 0\.12')
        self.assertIn('p=1/2', found._repr_html_())
        edge = threshold(RETRY, 'lost', '1/40', 'p', {'p': ('1/10', '1/2'), 'q': '1/10'})
        self.assertIn('<td>accepted</td>', edge._repr_html_())
        self.assertIn('p &lt;= ', edge._repr_html_())

    def test_what_is_named_is_there(self) -> None:
        found = bounds(RETRY, 'lost', REGION, '1/1000')
        path = Path(found.sup.witness[1].path)
        self.assertTrue(path.is_file())
        self.assertTrue(all(Path(end.path).is_file() for _, end in found.inf.cover))
        del found
        gc.collect()
        self.assertFalse(path.parent.exists())


class Notebook(unittest.TestCase):
    """The notebook of docs says what comes."""

    def setUp(self) -> None:
        self.cells = [one for one in json.loads(NOTEBOOK.read_text('utf-8'))['cells'] if one['cell_type'] == 'code']
        here = os.getcwd()
        os.chdir(str(TOP))
        self.addCleanup(os.chdir, here)

    def test_by_python(self) -> None:
        space: Dict[str, Any] = {}
        for cell in self.cells:
            printed, value = run_cell(''.join(cell['source']), space)
            self.assertEqual((printed, value), told_by(cell['outputs']), ''.join(cell['source']))

    def test_by_jupyter(self) -> None:
        python = with_jupyter()
        if python is None:
            self.skipTest('nbclient isn\'t installed (apt install python3-nbclient python3-ipykernel)')
        words = [python, '-c', EXECUTE, str(NOTEBOOK)]
        environment = dict(os.environ, PYTHONPATH=str(TOP / 'lab'))
        done = subprocess.run(words, env=environment, stdout=subprocess.PIPE, stderr=subprocess.PIPE, timeout=300)
        self.assertEqual(done.returncode, 0, done.stderr.decode())
        cells = [one for one in json.loads(done.stdout)['cells'] if one['cell_type'] == 'code']
        self.assertEqual(
            [told_by(cell['outputs']) for cell in cells], [told_by(cell['outputs']) for cell in self.cells]
        )


def with_jupyter() -> Optional[str]:
    """A Python that can run notebooks: this one, or the system's."""
    for python in (sys.executable, '/usr/bin/python3'):
        words = [python, '-c', 'import nbclient, nbformat, ipykernel']
        if Path(python).exists() and subprocess.run(words, stderr=subprocess.DEVNULL).returncode == 0:
            return python
    return None


def run_cell(text: str, space: Dict[str, Any]) -> Any:
    """What a cell prints, and what its last line comes to."""
    tree, last = ast.parse(text), None
    if isinstance(tree.body[-1], ast.Expr):
        last = ast.Expression(tree.body.pop().value)  # type: ignore[attr-defined]
    with contextlib.redirect_stdout(io.StringIO()) as out:
        exec(compile(tree, 'cell', 'exec'), space)
        value = None if last is None else eval(compile(last, 'cell', 'eval'), space)
    return out.getvalue(), '' if value is None else repr(value)


def told_by(outputs: List[Dict[str, Any]]) -> Any:
    """The same, as a notebook keeps it."""
    printed = ''.join(''.join(one['text']) for one in outputs if one['output_type'] == 'stream')
    return printed, ''.join(
        ''.join(one['data']['text/plain']) for one in outputs if one['output_type'] == 'execute_result'
    )


if __name__ == '__main__':
    unittest.main()
