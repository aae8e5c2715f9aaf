"""The commands as they are typed: what they print, their statuses, and one clear line for each mistake."""

import csv
import io
import json
import os
import re
import shutil
import signal
import subprocess
import sys
import unittest
from fractions import Fraction
from pathlib import Path
from typing import Any, Dict, Tuple
from unittest import mock

from plift_lab.evidence import Evidence
from plift_lab.faults import Fault
from plift_lab.outputs import write_file
from plift_lab.program import find_program

from .helpers import EXAMPLES, LINKS, PATIENCE, RANGE, RETRY, TOP, TREE, InFolder, as_from_a_shell, run, wait_for

REGION = 'p=1/10..1/2,q=1/10..1/2'
THIRD = b'@type: DTMC\n@model\nstate 0 init\n1 : 1/3\n2 : 2/3\nstate 1 a\n1 : 1\nstate 2\n2 : 1\n'
QUESTION = (RETRY, '--goal', 'lost', '--region', REGION)


class Verdict(InFolder):
    def test_statuses(self) -> None:
        names = ('retry.report', 'coin.report', 'retry-tree.report')
        self.assertEqual([run('verdict', str(EXAMPLES / name))[0] for name in names], [10, 20, 30])
        unknown = str(self.folder / 'u.report')
        status, told, _ = run('verify', *QUESTION, '--bound', '1/40', '--report', unknown)
        self.assertEqual((status, told.splitlines()[1]), (0, '  %s: sound accept 0 reject 0 unknown 1' % unknown))
        self.assertNotIn('kept nowhere', told)
        self.assertEqual(run('verdict', unknown, '--brief')[0], 40)

    def test_brief_is_one_line(self) -> None:
        self.assertEqual(
            run('verdict', TREE, '--brief')[1],
            'mixed: P( reach goal ) <= 1/40 (accepted 6.25 %, rejected 75 %, unknown 18.75 %)\n',
        )

    def test_precision_in_the_way(self) -> None:
        report = str(self.folder / 'a.report')
        run(
            'verify',
            LINKS,
            '--goal',
            'lost',
            '--bound',
            '7/250',
            '--region',
            'p=1/10..1/5,q=1/10..1/5',
            '--precision',
            '10',
            '--report',
            report,
        )
        self.assertIn('more precision decides it', run('verdict', report)[1])

    def test_depth_in_the_way(self) -> None:
        status, told, _ = run('verdict', TREE, '--json')
        found = json.loads(told)['unknown']
        self.assertEqual((status, len(found)), (30, 3))
        for one in found:
            self.assertTrue(Fraction(one['least']) <= Fraction(1, 40) < Fraction(one['most']))
        self.assertIn('depth', [one['help'] for one in found])

    def test_neither(self) -> None:
        report = str(self.folder / 'a.report')
        run('verify', self.file('third.drn', THIRD), '--goal', 'a', '--bound', '1/3', '--report', report)
        status, told, _ = run('verdict', report)
        self.assertEqual(status, 40)
        self.assertIn('between 0.333333333 and 0.333333334', told)
        self.assertIn('rounding is what is left: at a single point the two numbers are ', told)
        self.assertIn('neither more precision nor more depth', told)

    def test_sides_of_different_scale(self) -> None:
        """Nearly all depends on p, whose side is short: halving it is what helps, and --relative is advised."""
        report, text = str(self.folder / 'a.report'), b'\n'.join(
            [b'@type: DTMC', b'@parameters', b'p m', b'@model', b'state 0 init', b'1 : p', b'2 : 1-p']
            + [b'state 1', b'3 : m', b'2 : 1-m', b'state 2', b'2 : 1', b'state 3 failed', b'3 : 1', b'']
        )
        words = ('--goal', 'failed', '--bound', '1/100', '--region', 'p=1e-4..1/50,m=1/2..1', '--report', report)
        self.assertEqual(run('verify', self.file('m.drn', text), *words)[0], 0)
        told = run('verdict', report)[1]
        self.assertRegex(told, 'halving p .*, but the longest side is that of m: --relative, and then more depth')


class Leaves(InFolder):
    def test_csv(self) -> None:
        rows = list(csv.DictReader(io.StringIO(run('leaves', TREE, '--csv')[1])))
        self.assertEqual([row['kind'] for row in rows], ['accepted'] + 3 * ['unknown'] + 2 * ['rejected'])
        columns = ('p_low', 'q_high', 'value', 'scheduler')
        self.assertEqual([rows[4][column] for column in columns], ['1/10', '1/2', '27/1024', '0'])
        self.assertEqual(sum(Fraction(row['share']) for row in rows), 1)

    def test_each_leaf_has_its_precision(self) -> None:
        rows = list(csv.DictReader(io.StringIO(run('leaves', self.file('range.report', RANGE), '--csv')[1])))
        self.assertEqual(
            [(row['kind'], row['value'], row['precision']) for row in rows],
            [('accepted', '1/2', '1'), ('unknown', '', '4'), ('rejected', '11/16', '4')],
        )

    def test_json_and_decimals(self) -> None:
        told = json.loads(run('leaves', TREE, '--json')[1])
        self.assertEqual(
            (told['verdict'], len(told['leaves']), told['schedulers'][1]), ('mixed', 6, [0, 0, 0, None, None])
        )
        told = json.loads(run('leaves', TREE, '--json', '--decimals')[1])
        self.assertEqual(told['leaves'][0]['rectangle'], {'p': [0.1, 0.2], 'q': [0.1, 0.2]})

    def test_unknown_can_be_asked_again(self) -> None:
        regions = run('leaves', TREE, '--unknown')[1].splitlines()
        self.assertEqual(len(regions), 3)
        for region in regions:
            status, told, _ = run(
                'verify', RETRY, '--goal', 'lost', '--bound', '1/40', '--region', region, '--depth', '3'
            )
            self.assertEqual(status, 0, told)

    def test_rescaled_leaves_are_told_in_the_users_numbers(self) -> None:
        report = str(self.folder / 'a.report')
        run('verify', *QUESTION, '--bound', '1/40', '--depth', '4', '--relative', '--report', report)
        self.assertEqual(
            run('leaves', report, '--csv')[1].split('\n')[1].split(',')[:5], ['0', '1/10', '1/5', '1/10', '1/5']
        )


class Verify(InFolder):
    def test_bits_that_are_too_few(self) -> None:
        words = ('bounds', RETRY, '--goal', 'lost', '--region', 'p=1/10..3/10,q=1/20..1/5', '--width', '0.0001%')
        status, told, _ = run(*words, '--precision', '8')
        self.assertEqual(status, 1)
        self.assertRegex(told, r'sup: 8 bits round by 0\.0\d+ here, so no width below 0\.0\d+ can be had')
        self.assertIn('a greater --precision rounds less (40 is the greatest)', told)
        self.assertEqual(run(*words)[0], 0)

    def test_several_bounds(self) -> None:
        keep = str(self.folder / 'k')
        bounds = ('--bound', '1/40', '--bound', '1/2000', '--bound', '1')
        status, told, _ = run('verify', *QUESTION, *bounds, '--depth', '2', '--keep', keep)
        self.assertEqual(status, 0)
        self.assertEqual(re.findall('^[a-z]+', told, re.M), ['mixed', 'rejected', 'accepted'])
        for number in (1, 2, 3):
            self.assertIn('%s/%d.report: sound ' % (keep, number), told)
            self.assertTrue((self.folder / ('k/%d.report' % number)).is_file())

    def test_coverage_not_reached(self) -> None:
        words = ('--goal', 'a', '--bound', '1/3', '--coverage', '90%')
        self.assertEqual(run('verify', self.file('third.drn', THIRD), *words)[0], 1)

    def test_the_report_on_standard_output(self) -> None:
        words = ('--bound', '1/40', '--depth', '4', '--precision', '10', '--report', '-')
        done = subprocess.run(
            [str(TOP / 'plift-lab'), 'verify', *QUESTION, *words], stdout=subprocess.PIPE, stderr=subprocess.PIPE
        )
        self.assertEqual((done.returncode, done.stdout), (0, Path(TREE).read_bytes()))

    def test_bounds_and_threshold_as_json(self) -> None:
        told = json.loads(run('bounds', *QUESTION, '--width', '1/10', '--json')[1])
        self.assertLessEqual(Fraction(told['sup']['most']) - Fraction(told['sup']['least']), Fraction(1, 10))
        told = json.loads(
            run(
                'threshold',
                RETRY,
                '--goal',
                'lost',
                '--bound',
                '1/40',
                '--parameter',
                'p',
                '--region',
                'p=1/10..1/2,q=1/20..1/5',
                '--json',
            )[1]
        )
        self.assertLess(Fraction(told['accepted_to']), Fraction(told['rejected_at']))


class View(InFolder):
    def data(self, *words: str) -> Tuple[str, Dict[str, Any]]:
        status, page, _ = run('view', *words)
        self.assertEqual(status, 0)
        return page, json.loads(re.findall('<script type="application/json" id="data">(.*)</script>', page)[0])

    def test_data(self) -> None:
        page, data = self.data(TREE)
        self.assertEqual((data['tree'], data['axes'], data['live']), ('010' '1AU' '1UUR' 'R', [0, 1], [0, 1]))
        self.assertEqual(
            (data['values'], data['picks'], data['schedulers']), ([9, 27, 27], [0, 1], ['1 1 1 - -', '0 0 0 - -'])
        )
        self.assertEqual(data['counts'], [1, 2, 3])
        self.assertEqual([one['exact'] for one in data['shares']], ['1/16', '3/4', '3/16'])
        self.assertNotIn('{{', page)
        self.assertEqual(re.findall(r'(?:src|href|url|@import|fetch\()\s*[=(]', page), [])

    def test_a_range_of_precisions(self) -> None:
        data = self.data(self.file('range.report', RANGE))[1]
        self.assertEqual((data['tree'], data['values'], data['precision']), ('0A0UR', [8, 11], 4))
        self.assertEqual(data['precisions'], [1, 4])
        self.assertIn(['precision', '1 to 4 bits'], data['facts'])
        self.assertIsNone(self.data(TREE)[1]['precisions'])

    def test_axes(self) -> None:
        self.assertEqual(self.data(TREE, '--x', 'q')[1]['axes'], [1, 0])
        self.assertEqual(self.data(TREE, '--y', 'p')[1]['axes'], [1, 0])
        self.assertEqual(self.data(str(EXAMPLES / 'coin.report'))[1]['axes'], [0, -1])
        self.assertEqual(self.data(str(EXAMPLES / 'plain.report'))[1]['axes'], [-1, -1])

    def test_a_title_can_hold_anything(self) -> None:
        title = '</script><b>&"{{DATA}}'
        page, _ = self.data(TREE, '--title', title)
        self.assertIn('<title>&lt;/script&gt;&lt;b&gt;&amp;&quot;{{DATA}}</title>', page)
        self.assertEqual(page.count('</script>'), 2)

    @unittest.skipUnless(shutil.which('node'), 'needs node')
    def test_its_tree_finds_the_same_leaves(self) -> None:
        page, data = self.data(TREE)
        script = re.findall(r'<script>\n(.*?)class Plot', page, re.S)[0]
        told = json.loads(run('leaves', TREE, '--json')[1])
        ends = [[Fraction(end) for end in leaf['rectangle'][name]] for leaf in told['leaves'] for name in ('p', 'q')]
        units = [[int((end - Fraction(1, 10)) / Fraction(2, 5) * 2**20) for end in pair] for pair in ends]
        points = [[(low + high) / 2 for low, high in units[place : place + 2]] for place in range(0, len(units), 2)]
        asked = (
            script
            + '''
            const tree = new Tree(%s, 2);
            const seen = [];
            const note = (node, low, high) => seen.push([[low[0], high[0]], [low[1], high[1]]]);
            tree.each([0, 0], {0: [0, UNIT], 1: [0, UNIT]}, note);
            const found = %s.map((point) => tree.find(point)).map((leaf) => leaf.number);
            console.log(JSON.stringify([found, seen, exactText(between('1/10', '1/2', UNIT / 4)), tree.depths()]));
        '''
            % (json.dumps(data['tree']), json.dumps(points))
        )
        done = subprocess.run(['node', '-e', asked], stdout=subprocess.PIPE, check=True)
        found, seen, quarter, depths = json.loads(done.stdout)
        self.assertEqual(found, list(range(6)))
        self.assertEqual(seen, [units[place : place + 2] for place in range(0, len(units), 2)])
        self.assertEqual(quarter, '1/5')
        self.assertEqual(depths, [[0, 0, 0], [0, 1, 0], [0, 1, 0], [0, 0, 0], [1, 0, 3]])


class Mistakes(InFolder):
    def wrong(self, *words: str, status: int = 2, says: str = '') -> None:
        """One line on standard error, nothing on standard output, and that status."""
        got, out, err = run(*words)
        self.assertEqual((got, out), (status, ''), (words, err))
        self.assertRegex(err, r'\Aplift-lab: [^\n]+\n(hint: [^\n]+\n)*\Z', words)
        self.assertIn(says, err, words)

    def test_words(self) -> None:
        report = str(EXAMPLES / 'coin.report')
        self.wrong(says='name a command')
        for words, says in (
            (('verfy',), 'invalid choice'),
            (('verify',), 'required'),
            (('verdict',), 'REPORT'),
            (('leaves', report), '--csv'),
            (('leaves', report, '--csv', '--json'), 'not allowed'),
            (('verdict', report, '--look', '-1'), '--look'),
            (('view', report, '--x', 'z'), 'no parameter z; it has p'),
            (('view', report, '--x', 'p', '--y', 'p'), 'both axes'),
            (('bounds', *QUESTION, '--width', '0'), 'above 0'),
            (('bounds', *QUESTION, '--width', '-1'), 'above 0'),
            (('bounds', *QUESTION, '--calls', '1'), '--calls'),
            (('bounds', *QUESTION, '--precision', '41'), '--precision'),
            (('verify', *QUESTION, '--bound', '3'), 'no share'),
            (('verify', *QUESTION, '--bound', '<=0.03'), 'no number'),
            (('verify', *QUESTION, '--bound', '1/2', '--depth', '21'), '--depth'),
            (('verify', *QUESTION, '--bound', '1/2', '--coverage', '2'), 'no share'),
            (('verify', *QUESTION, '--bound', '1/2', '--bound', '1/3', '--report', 'x'), '--keep'),
            (('verify', *QUESTION, '--bnd', '1/2'), '--bnd'),
            (('verify', *QUESTION), 'a bound is due'),
            (('bounds', RETRY, '--region', REGION), 'name a goal by --goal LABEL, or ask a formula'),
            (('explain',), 'no note'),
            (('explain', 'hello'), 'no note'),
            (('threshold', *QUESTION, '--bound', '1/2', '--parameter', 'p', '--width', '0'), 'above 0'),
            (('threshold', *QUESTION, '--bound', '1/2', '--parameter', 'z'), 'no interval for z'),
        ):
            self.wrong(*words, says=says)

    def test_regions(self) -> None:
        many = ','.join('p%d=0..1' % number for number in range(99))
        for region, says in (
            ('p=0..1', 'no interval for q'),
            ('p=0..1,q=0..1,z=0..1', 'no parameter z'),
            ('P=0..1,q=0..1', 'no parameter P'),
            ('p<1', 'no part of a region'),
            ('0.1,0.2', 'no part'),
            ('p=1..0,q=0..1', 'before it begins'),
            ('', 'no interval for p, q'),
            (many, 'at most 16'),
            ('p=0..1,q=0..1,', 'no part'),
            ('p=0..2,q=0..1', 'rows: state 0'),
        ):
            self.wrong('bounds', RETRY, '--goal', 'lost', '--region', region, says=says)

    def test_files(self) -> None:
        for name, says in (
            ('nothing-there', 'No such file'),
            (str(self.folder), 'Is a directory'),
            ('', 'without a name'),
            ('a\0b', 'read'),
        ):
            self.wrong('verdict', name, says=says)
            self.wrong('bounds', name, '--goal', 'g', says=says)
        self.wrong('verdict', RETRY, says='not sound: line 1: Syntax')
        self.wrong('bounds', TREE, '--goal', 'g', says='model: line 1: Syntax')
        good = (EXAMPLES / 'retry-tree.report').read_bytes()
        for data in (
            b'',
            b'\0' * 1000,
            b'\xff\xfe',
            good[:-5],
            good + b'unknown\n',
            good.replace(b'9 41', b'8 41'),
            good.replace(b'\n', b'\r\n'),
            b'plift 2\n',
            b'plift 1\n' * 1000,
            b'\x1f\x8b\x08',
        ):
            name = self.file('bad.report', data)
            for words in (('verdict', name), ('leaves', name, '--csv'), ('view', name)):
                self.wrong(*words, says='not sound: ')

    def test_models(self) -> None:
        for text, says in (
            (b'', 'MissingSection'),
            (b'\0', 'NotText'),
            (b'@type: DTMC\n@parameters\np p\n@model\n', 'RepeatedName'),
            (b'@type: DTMC\n@model\nstate 0 init g\n0 : 1/2\n', 'sums to'),
            (b'@type: CTMC\n', 'UnsupportedType'),
        ):
            region = ('--region', 'p=0..1') if b'p p' in text else ()
            self.wrong('bounds', self.file('m.drn', text), '--goal', 'g', *region, says=says)
        self.wrong('bounds', RETRY, '--goal', 'lsot', '--region', REGION, says='UnknownLabel')

    def test_folders(self) -> None:
        self.file('mine.txt', b'')
        self.wrong('bounds', *QUESTION, '--keep', str(self.folder), says='holds other files')
        self.wrong('bounds', *QUESTION, '--keep', str(self.folder / 'mine.txt'), says='can\'t be used')
        self.wrong('verify', *QUESTION, '--bound', '1', '--report', str(self.folder), says='can\'t be written')
        self.assertEqual(os.listdir(str(self.folder)), ['mine.txt'])

    def test_one_at_a_time_in_a_folder(self) -> None:
        folder = str(self.folder / 'k')
        held = Evidence(folder)
        self.wrong('bounds', *QUESTION, '--keep', folder, says='in use by another')
        held.close()
        self.assertEqual(run('bounds', *QUESTION, '--keep', folder)[0], 0)

    def test_no_program(self) -> None:
        with mock.patch.dict(os.environ, {'PLIFT_PROGRAM': '/nowhere/plift'}):
            self.wrong('verdict', TREE, status=70, says='is no program')
        text = self.file('text', b'no program\n')
        os.chmod(text, 0o755)
        with mock.patch.dict(os.environ, {'PLIFT_PROGRAM': text}):
            self.wrong('verdict', TREE, status=70, says='started')
        liar = self.file('liar', b'#!/bin/sh\ncat > /dev/null\necho sound accept 1\n')
        os.chmod(liar, 0o755)
        with mock.patch.dict(os.environ, {'PLIFT_PROGRAM': liar}):
            self.wrong('verdict', RETRY, says='isn\'t in a form')

    def test_the_first_program_that_is_there(self) -> None:
        places = {name: self.folder / name for name in ('BUILT', 'RELEASED', 'plift', 'QUICK')}
        for path in places.values():
            self.file(path.name, b'#!/bin/sh\n')
            path.chmod(0o755)
        patched: Dict[str, Any] = {name: path for name, path in places.items() if name != 'plift'}
        with mock.patch.multiple('plift_lab.program', **patched), mock.patch.dict(
            os.environ, {'PATH': str(self.folder)}
        ):
            os.environ.pop('PLIFT_PROGRAM', None)
            for path in places.values():
                self.assertEqual(find_program().path, path.resolve())
                path.unlink()
            with self.assertRaises(Fault):
                find_program()
            # The script of a checkout on the PATH would build.
            self.file('plift', b'#!/bin/sh\n')
            (self.folder / 'plift').chmod(0o755)
            (self.folder / 'tools').mkdir()
            self.file('tools/build.sh', b'')
            with self.assertRaises(Fault):
                find_program()

    def test_help(self) -> None:
        for words in (
            (),
            ('verify',),
            ('bounds',),
            ('threshold',),
            ('verdict',),
            ('leaves',),
            ('view',),
            ('picture',),
            ('explain',),
        ):
            status, told, err = run(*words, '--help')
            self.assertEqual((status, err), (0, ''))
            self.assertIn('statuses: ', told)

    def test_explain(self) -> None:
        for note in (
            'usage: words',
            'usage: --region Missing',
            'model: line 3: Power',
            'rows: state 0 choice 1: set 0 sums to 9999',
            'not sound: node 0 axis',
            'too long',
            'plift-lab: plift refuses this: model: line 31: UnknownLabel',
            'NoChoice',
            'UnknownLabel',
            'EmptyInterval',
        ):
            status, told, _ = run('explain', *note.split(' '))
            self.assertEqual(status, 0, note)
            self.assertGreater(len(told.splitlines()), 1, note)


class Interrupted(InFolder):
    def test_ends_cleanly(self) -> None:
        """A long job is interrupted: no trace, no process, no half report, and the folder can be used again."""
        slow = self.file('slow', b'#!/bin/sh\necho plift 1\nexec sleep 1000\n')
        os.chmod(slow, 0o755)
        keep = self.folder / 'kept'
        for number in (signal.SIGINT, signal.SIGTERM):
            process = subprocess.Popen(
                [sys.executable, str(TOP / 'lab/plift_lab/__main__.py'), 'bounds', *QUESTION, '--keep', str(keep)],
                env=dict(os.environ, PLIFT_PROGRAM=slow),
                preexec_fn=as_from_a_shell,
                stdout=subprocess.PIPE,
                stderr=subprocess.PIPE,
            )
            wait_for(lambda: list(keep.glob('*.part')), process)
            process.send_signal(number)
            out, err = process.communicate(timeout=PATIENCE)
            self.assertEqual((process.returncode, out), (130, b''))
            self.assertNotIn(b'Traceback', err)
            self.assertEqual(list(keep.glob('*.part')) + list(keep.glob('*.report')), [])
        self.assertEqual(run('bounds', *QUESTION, '--keep', str(keep))[0], 0)

    def test_a_file_that_was_not_written_whole_is_not_left(self) -> None:
        with mock.patch('plift_lab.evidence.os.replace', side_effect=KeyboardInterrupt), self.assertRaises(
            KeyboardInterrupt
        ):
            write_file(self.folder / 'a', b'text')
        self.assertEqual(os.listdir(str(self.folder)), [])

    def test_in_a_part_that_is_asked_again(self) -> None:
        keep, parts = self.folder / 'kept', ('--region', REGION, '--depth', '4', '--keep', str(self.folder / 'kept'))
        words = ('verify', RETRY, '--goal', 'lost', '--bound', '1/40', *parts)
        self.assertEqual(run(*words)[0], 0)
        slow = self.file(
            'slow',
            b'#!/bin/sh\ncase "$*" in\n*"--bound 1 "*) ;;\n*verify*) exec sleep 1000 ;;\nesac\n'
            b'exec "%s" "$@"\n' % str(find_program().path).encode(),
        )
        os.chmod(slow, 0o755)
        process = subprocess.Popen(
            [sys.executable, str(TOP / 'lab/plift_lab/__main__.py'), *words, '--coverage', '99%'],
            env=dict(os.environ, PLIFT_PROGRAM=slow),
            preexec_fn=as_from_a_shell,
            stdout=subprocess.PIPE,
            stderr=subprocess.PIPE,
        )
        wait_for(lambda: list(keep.glob('part-of-*')), process)
        process.terminate()
        out, err = process.communicate(timeout=PATIENCE)
        self.assertEqual((process.returncode, out, err.count(b'Traceback')), (130, b'', 0))
        self.assertEqual([path.name for path in keep.glob('*.part')], [])
        self.assertEqual([path.name for path in keep.glob('*.report')], ['1.report'])

    def test_a_reader_that_ends(self) -> None:
        command = '"%s" leaves "%s" --json | head -c 5; exit "${PIPESTATUS[0]}"' % (TOP / 'plift-lab', TREE)
        done = subprocess.run(['bash', '-c', command], stdout=subprocess.PIPE, stderr=subprocess.PIPE)
        self.assertIn(done.returncode, (0, 6))
        self.assertEqual(done.stderr, b'')


if __name__ == '__main__':
    unittest.main()
