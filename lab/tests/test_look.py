"""Pages in Chromium, where it is installed: nothing is cut at either size, and keyboard and touch do as they should."""

import json
import shutil
import unittest
from typing import Any, Dict, List, Tuple

import look

from .helpers import RETRY, TREE, InFolder, run

LONG = 'loss_of_the_primary_channel'
NAMED = """@type: MDP
@parameters
%(long)s b c d
@model
state 0 init
action send_over_the_primary_channel_and_wait_for_the_acknowledgement
1 : %(long)s
2 : 1-%(long)s
action b
1 : b
2 : 1-b
state 1 waiting_for_the_second_phase_of_the_handshake
action c
2 : c
3 : 1-c
action d
2 : d
3 : 1-d
state 2 "all is <lost>"
2 : 1
state 3
3 : 1
""" % {
    'long': LONG
}
LEAVES = 'byId("shares").innerText.replace(/\\s+/g, " ").trim()'


@unittest.skipUnless(shutil.which('chromium'), 'chromium is not there')
class Looks(InFolder):
    def setUp(self) -> None:
        super().setUp()
        scratch = look.scratch()
        self.browser = look.Browser(scratch.__enter__())
        self.addCleanup(scratch.__exit__, None, None, None)
        self.addCleanup(self.browser.close)
        self.browser.call('Page.enable')

    def page(self, report: str, *words: str) -> str:
        """The address of a report's page."""
        status, text, fault = run('view', report, *words)
        self.assertEqual((status, fault), (0, ''))
        path = self.folder / 'page.html'
        path.write_text(text, 'utf-8')
        return path.as_uri()

    def asked(self, model: str, *words: str) -> str:
        """A report of a question."""
        report = str(self.folder / 'a.report')
        self.assertEqual(run('verify', model, *words, '--report', report)[0], 0)
        return report

    def test_nothing_is_cut(self) -> None:
        named = self.folder / 'named.drn'
        named.write_text(NAMED)
        narrow = 'p=0.123456789012..0.123456789013,q=0.123456789..0.12345679'
        everywhere = ','.join('%s=0.1..0.9' % name for name in (LONG, 'b', 'c', 'd'))
        questions: List[Tuple[str, List[str], str, str]] = [
            (str(named), ['--model', str(named)], 'all is <lost>', everywhere),
            (RETRY, ['--model', RETRY], 'lost', narrow),
            (RETRY, [], 'lost', 'p=0.123456789012..0.123456789013,q=0.1'),
            (RETRY, [], 'lost', 'p=0.1,q=0.1'),
        ]
        for model, words, goal, region in questions:
            asked = ('--goal', goal, '--bound', '1/100', '--region', region, '--depth', '2')
            url = self.page(self.asked(model, *asked), *words)
            for name, width, height in look.SIZES:
                self.browser.size(width, height, name == 'wide')
                self.browser.open(url)
                look.tap(self.browser) if name == 'narrow' else look.point(self.browser)
                self.browser.wait(look.TITLE + '.startsWith("Leaf ")')
                self.assertEqual(look.cut(self.browser), [], (name, region))

    def test_by_keyboard(self) -> None:
        self.browser.size(1280, 900, False)
        self.browser.open(self.page(TREE))
        told = dict(look.use(self.browser))
        self.assertEqual(told['key Enter'], told['key ArrowDown'] + ' (kept)')
        self.assertEqual(told['key Escape'], 'Leaf')
        self.assertEqual(told['asks for nothing'], 0)
        self.browser.open(self.page(TREE))
        self.assertEqual(
            self.browser.tell(LEAVES),
            'leaves of the region of the picture accepted 1 6.25 % 1/16 6.25 % 1 seen'
            ' rejected 2 75 % 3/4 75 % 2 seen unknown 3 18.75 % 3/16 18.75 % 3 seen',
        )

    def test_by_touch(self) -> None:
        self.browser.size(390, 844, True)
        self.browser.open(self.page(TREE, '--model', RETRY))
        self.assertEqual(self.browser.tell('byId("leaf").textContent'), 'Tap the picture.')
        told: Dict[str, Any] = dict(look.touch(self.browser))
        self.assertEqual((told['tap'], told['tap again']), ('Leaf 5: rejected (kept)', 'Leaf 5: rejected'))
        self.assertTrue(told['is on the screen'])
        self.assertEqual(told['has the keys'], 'picture')
        views: List[Dict[str, List[float]]] = [json.loads(told[what]) for what in ('two fingers', 'drag')]
        (near, far), (moved, end) = (view['x'] for view in views)
        self.assertLess(far - near, 2**19)
        self.assertGreater(moved, near)
        self.assertAlmostEqual(end - moved, far - near, 3)


if __name__ == '__main__':
    unittest.main()
