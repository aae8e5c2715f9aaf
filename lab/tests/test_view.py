"""What a page says of a report: in the model's words where they are given, by formulas, and nothing of the user's
disk."""

import json
import re
import unittest
from pathlib import Path
from typing import Any, Dict, Tuple

from plift_lab.models import Model

from .helpers import EXAMPLES, RETRY, TREE, InFolder, run

REGION = 'p=1/10..3/10,q=1/20..1/5'


class Pages(InFolder):
    def data(self, *words: str) -> Tuple[str, Dict[str, Any]]:
        """A page, and what its script knows."""
        status, page, fault = run('view', *words)
        self.assertEqual((status, fault), (0, ''))
        found = re.search('<script type="application/json" id="data">(.*?)</script>', page, re.S)
        assert found is not None
        return page, json.loads(found.group(1))

    def test_the_words_of_the_model(self) -> None:
        page, data = self.data(TREE, '--model', RETRY)
        self.assertIn('<title>P( reach lost ) &lt;= 1/40</title>', page)
        self.assertEqual(data['choosing'], [[state, '', ['radio', 'wire']] for state in (0, 1, 2)])
        self.assertIn('retry.drn', json.dumps(data['facts']))
        page, data = self.data(TREE)
        self.assertIn('<title>P( reach goal ) &lt;= 1/40</title>', page)
        self.assertEqual(data['choosing'], [[state, '', ['0', '1']] for state in (0, 1, 2)])

    def test_no_line_ends_before_a_sign_of_percent(self) -> None:
        page, data = self.data(TREE)
        self.assertEqual(data['shares'][0]['percent'], '6.25\u00a0%')
        self.assertIn('(accepted 6.25\u00a0%, rejected 75\u00a0%, unknown 18.75\u00a0%)</p>', page)

    def test_a_picture_names_the_label(self) -> None:
        for words, label in (((TREE, '--model', RETRY), 'lost'), ((TREE,), 'goal')):
            status, picture, fault = run('picture', *words)
            self.assertEqual((status, fault), (0, ''))
            self.assertIn('<title>mixed: P( reach %s ) &lt;= 1/40' % label, picture)
            self.assertIn('font-weight="bold">P( reach %s ) &lt;= 1/40</text>' % label, picture)

    def test_ticks_of_a_picture(self) -> None:
        for interval, told, is_rounded in (
            ('1/10..1/2', ['>0.2<', '>0.3<'], False),
            ('1/3..2/3', ['>0.33333<', '>0.5<'], True),
            ('0.123456..0.123457', ['>0.123456<', '>0.1234562<', '>0.123457<'], True),
            ('0.123456789012..0.1234567890121', ['>p from 30864197253/250000000000 to 1234567890121/'], False),
        ):
            report = str(self.folder / 'a.report')
            words = ('--goal', 'lost', '--bound', '1/40', '--region', 'p=%s,q=1/4' % interval, '--report', report)
            self.assertEqual(run('verify', RETRY, *words)[0], 0)
            status, picture, fault = run('picture', report)
            self.assertEqual((status, fault), (0, ''))
            for text in told:
                self.assertIn(text, picture)
            self.assertEqual(picture.count('ticks are rounded'), int(is_rounded), interval)

    def test_another_model(self) -> None:
        for name in ('links.drn', 'twin.drn', 'coin.drn', 'retry-tree.report'):
            status, out, fault = run('view', TREE, '--model', str(EXAMPLES / name))
            self.assertEqual((status, out), (2, ''), name)
            self.assertIn('isn\'t the model of the report', fault)

    def test_names_of_states(self) -> None:
        text = b'@type: MDP\n@model\n// no state 9\nstate 0 [1, 2] init "all \x1b on" b\n\taction go [0]\n\t\t0 : 1\n'
        text += b'\taction "to stay" [3]\n\t\t1 : 1\nstate 1\naction [0]\n1 : 1\nstate 2 goal\n2 : 1\n'
        self.assertEqual(
            [(state.labels, state.actions) for state in Model(text).states()],
            [(['all \\x1b on', 'b'], ['go', 'to stay']), ([], ['']), (['goal'], [])],
        )

    def test_no_folder_of_the_user(self) -> None:
        report = str(self.folder / 'a.report')
        words = ('--goal', 'lost', '--bound', '1/40', '--region', REGION, '--report', report)
        self.assertEqual(run('verify', RETRY, *words)[0], 0)
        page, data = self.data(report, '--model', RETRY)
        self.assertEqual(dict(data['facts'])['report'], 'a.report')
        for folder in (str(self.folder), str(Path(RETRY).parent), str(Path.home())):
            self.assertNotIn(folder, page)

    def test_what_leaves_say(self) -> None:
        for model, formula, says in (
            ('retry', 'P<=1/40 [F "lost"]', ['At most @ is reached, whatever', 'At least @ is reached by the choices']),
            ('retry', 'P>=0.9 [F "lost"]', ['At least @ is reached, whatever', 'At most @ is reached by the choices']),
            (
                'retry',
                'P<=1/40 [F<=2 "lost"]',
                ['At most @ is reached within 2 steps, wh', 'At least @ is reached within'],
            ),
            ('links', 'P>1/40 [F "lost"]', ['At least @ is reached.', 'At most @ is reached.']),
            ('sends', 'R{"sends"}<=1 [F "done"]', ['At most @ is expected to be spent, whatever', '']),
        ):
            report = str(self.folder / 'a.text')
            words = ('--formula', formula, '--region', REGION, '--cap', '4', '--report', report)
            self.assertEqual(run('verify', str(EXAMPLES / (model + '.drn')), *words)[0], 0)
            _, data = self.data(report)
            for due, told in zip(says, data['says']):
                self.assertTrue(told.startswith(due), (formula, told))
            self.assertEqual((data['unit'], data['hasSteps']), (4 if 'R' in formula else 1, 'F<=' in formula))


if __name__ == '__main__':
    unittest.main()
