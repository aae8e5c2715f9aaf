#!/usr/bin/env python3
"""Looks at a page of `plift-lab view` in headless Chromium:  python3 lab/look.py PAGE [--pictures PREFIX]

Tells how long it took from the start of loading until the picture was drawn and how long a leaf under the pointer
takes, uses the page by keyboard, by pointer and on a narrow screen by touch, and says what it tells then; with
--pictures it also writes PNGs at both sizes, light and dark. Ends with status 1 where a text is cut or lies over
another one. Needs `chromium`; tests use it where it is installed.
"""

from __future__ import annotations

import argparse
import base64
import contextlib
import json
import os
import shutil
import subprocess
import sys
import tempfile
import time
from pathlib import Path
from typing import Any, Iterator, Union

SLIDE = '''(() => {
    const slider = document.querySelectorAll("input[type=range]")[%d];
    slider.value = 300000;
    slider.dispatchEvent(new Event("input"));
})()'''
ORDER = '''[...document.querySelectorAll("button, canvas[tabindex], select, input, summary")]
    .map((one) => one.id || one.tagName).join(" ")'''
CUT = '''(() => {
    const beyond = (one) => one.scrollWidth > one.clientWidth + 1 || one.getBoundingClientRect().right > innerWidth + 1;
    const found = [...document.querySelectorAll("body *")]
        .filter((one) => one.clientWidth && getComputedStyle(one).display !== "inline" && beyond(one))
        .map((one) => `${one.tagName} ${one.id} ${one.textContent.slice(0, 40)}`);
    const { context, xTicks } = plot.layout(), { left, width } = plot.area, [from, to] = plot.view.x;
    let free = 0;
    for (const { units, text } of xTicks) {
        const place = left + (units - from) / (to - from) * width, half = context.measureText(text).width / 2;
        if (place - half < free || place + half > plot.canvas.clientWidth) found.push(`tick ${text}`);
        free = place + half + 4;
    }
    redraw();
    return found;
})()'''
HOVER = '''(() => {
    const picture = byId("picture"), box = picture.getBoundingClientRect(), took = [];
    for (let place = 0; place < 200; place++) {
        const clientX = box.x + box.width * (place * 37 % 200) / 200;
        const clientY = box.y + box.height * (place * 91 % 200) / 200;
        const start = performance.now();
        picture.dispatchEvent(new PointerEvent("pointermove", { clientX, clientY }));
        void byId("leaf").offsetHeight;
        took.push(performance.now() - start);
    }
    took.sort((one, other) => one - other);
    return `${took[100].toFixed(1)} ms, ${took[199].toFixed(1)} ms at most`;
})()'''
SIZES = (('wide', 1280, 900), ('narrow', 390, 844))
TITLE = 'byId("leaf-title").textContent'
VIEW = 'JSON.stringify(plot.view)'
Place = tuple[float, float]


class Browser:
    """Chromium, spoken to through two pipes."""

    def __init__(self, folder: str) -> None:
        """Starts it with an empty page; what it keeps it keeps in the folder."""
        to_read, self._to = os.pipe()
        self._from, to_write = os.pipe()

        def place_pipes() -> None:
            """Puts the ends of the pipes where Chromium looks for them: it reads from 3 and writes to 4."""
            kept_read, kept_write = os.dup(to_read), os.dup(to_write)
            os.dup2(kept_read, 3)
            os.dup2(kept_write, 4)

        self._process = subprocess.Popen(
            [
                'chromium',
                '--headless=new',
                '--no-sandbox',
                '--disable-gpu',
                '--hide-scrollbars',
                '--remote-debugging-pipe',
                '--user-data-dir=' + folder,
            ],
            preexec_fn=place_pipes,
            close_fds=False,
            stdin=subprocess.DEVNULL,
            stdout=subprocess.DEVNULL,
            stderr=subprocess.DEVNULL,
        )
        os.close(to_read)
        os.close(to_write)
        self._count, self._rest, self._session = 0, b'', None
        target = self.call('Target.createTarget', url='about:blank')['targetId']
        self._session = self.call('Target.attachToTarget', targetId=target, flatten=True)['sessionId']

    def call(self, method: str, **parameters: Any) -> dict[str, Any]:
        """One call of the DevTools protocol, and its answer."""
        self._count += 1
        message = {'id': self._count, 'method': method, 'params': parameters}
        if self._session:
            message['sessionId'] = self._session
        os.write(self._to, json.dumps(message).encode() + b'\0')
        while True:
            while b'\0' not in self._rest:
                piece = os.read(self._from, 1 << 20)
                if not piece:
                    sys.exit('chromium ended')
                self._rest += piece
            text, _, self._rest = self._rest.partition(b'\0')
            answer = json.loads(text)
            if answer.get('id') == self._count:
                if 'error' in answer:
                    sys.exit('%s: %s' % (method, answer['error']))
                return dict(answer['result'])

    def tell(self, script: str) -> Any:
        """What a script of the page comes to."""
        answer = self.call('Runtime.evaluate', expression=script, returnByValue=True)
        if 'exceptionDetails' in answer:
            sys.exit('the page: %s' % answer['exceptionDetails'].get('exception', {}).get('description'))
        return answer['result'].get('value')

    def open(self, url: str) -> None:
        """Loads a page and waits for its picture."""
        self.call('Page.navigate', url=url)
        self.wait('document.documentElement && document.documentElement.dataset.drawn')

    def wait(self, script: str) -> None:
        """Until a script is true."""
        for _ in range(3000):
            if self.tell('location.href !== "about:blank" && !!(%s)' % script):
                return
            time.sleep(0.05)
        sys.exit('the page never drew its picture')

    def key(self, key: str) -> None:
        """Presses a key."""
        for kind in ('keyDown', 'keyUp'):
            text = {'text': key} if len(key) == 1 and kind == 'keyDown' else {}
            self.call('Input.dispatchKeyEvent', type=kind, key=key, **text)

    def mouse(self, kind: str, x: float, y: float, **more: Union[int, str]) -> None:
        """Moves or presses."""
        self.call('Input.dispatchMouseEvent', type=kind, x=x, y=y, **more)

    def fingers(self, kind: str, *places: Place) -> None:
        """Puts fingers on the screen, moves or lifts them."""
        self.call('Input.dispatchTouchEvent', type=kind, touchPoints=[{'x': x, 'y': y} for x, y in places])

    def size(self, width: int, height: int, is_dark: bool) -> None:
        """How large the window is, and whether the system is dark; a narrow one is touched."""
        by_touch = width < 600
        screen = {'width': width, 'height': height, 'deviceScaleFactor': 1 + by_touch, 'mobile': by_touch}
        self.call('Emulation.setDeviceMetricsOverride', **screen)
        self.call('Emulation.setTouchEmulationEnabled', enabled=by_touch, maxTouchPoints=2)
        scheme = {'name': 'prefers-color-scheme', 'value': 'dark' if is_dark else 'light'}
        self.call('Emulation.setEmulatedMedia', features=[scheme])

    def picture(self, path: str) -> None:
        """Writes what is seen."""
        Path(path).write_bytes(base64.b64decode(self.call('Page.captureScreenshot', format='png')['data']))

    def close(self) -> None:
        """Ends it."""
        self._session = None
        self.call('Browser.close')
        self._process.wait()


def cut(browser: Browser) -> list[str]:
    """The texts that are cut, or that lie over another one."""
    return list(browser.tell(CUT))


def place(browser: Browser) -> Place:
    """A place in the picture."""
    box = json.loads(browser.tell('JSON.stringify(document.getElementById("picture").getBoundingClientRect())'))
    return box['x'] + box['width'] * 0.6, box['y'] + box['height'] * 0.4


def point(browser: Browser) -> Place:
    """Points at a leaf, and tells where."""
    x, y = place(browser)
    browser.mouse('mouseMoved', x, y)
    return x, y


def tap(browser: Browser) -> str:
    """Taps at a leaf, and tells what stands above it."""
    at = place(browser)
    browser.fingers('touchStart', at)
    browser.fingers('touchEnd')
    time.sleep(0.5)
    return str(browser.tell(TITLE))


def touch(browser: Browser) -> Iterator[tuple[str, Any]]:
    """Uses the page by touch."""
    yield 'tap', tap(browser)
    told = 'byId("leaf").firstElementChild.getBoundingClientRect()'
    yield 'is on the screen', browser.tell('%s.bottom <= innerHeight' % told)
    yield 'has the keys', browser.tell('document.activeElement.id')
    yield 'tap again', tap(browser)
    x, y = place(browser)
    browser.fingers('touchStart', (x - 30, y), (x + 30, y))
    browser.fingers('touchMove', (x - 90, y), (x + 90, y))
    browser.fingers('touchEnd')
    yield 'two fingers', browser.tell(VIEW)
    browser.fingers('touchStart', (x, y))
    for step in range(1, 6):
        browser.fingers('touchMove', (x - 12 * step, y))
    browser.fingers('touchEnd')
    yield 'drag', browser.tell(VIEW)


def use(browser: Browser) -> Iterator[tuple[str, Any]]:
    """Uses the page by keyboard and by pointer; each line tells what was done and what the page says."""
    browser.tell('document.getElementById("picture").focus()')
    for key in ('ArrowRight', 'ArrowUp', 'ArrowLeft', 'ArrowDown', 'Enter', 'Escape'):
        browser.key(key)
        yield 'key %s' % key, browser.tell(TITLE)
    for key in ('+', '+', '-', '0'):
        browser.key(key)
        yield 'key %s' % key, browser.tell(VIEW)
    x, y = point(browser)
    yield 'pointer', browser.tell('document.getElementById("leaf").innerText').replace('\n', ' | ')[:300]
    browser.mouse('mouseWheel', x, y, deltaX=0, deltaY=-300)
    yield 'wheel', browser.tell(VIEW)
    browser.mouse('mousePressed', x, y, button='left', buttons=1, clickCount=1)
    browser.mouse('mouseMoved', x + 60, y + 30, button='left', buttons=1)
    browser.mouse('mouseReleased', x + 60, y + 30, button='left', clickCount=1)
    yield 'drag', browser.tell(VIEW)
    for slider in range(browser.tell('document.querySelectorAll("input[type=range]").length')):
        browser.tell(SLIDE % slider)
        time.sleep(0.3)
        yield 'slider', browser.tell('byId("axes").innerText + " " + byId("shares").innerText').replace('\n', ' | ')
    yield 'focus order', browser.tell(ORDER)
    yield 'asks for nothing', browser.tell('performance.getEntriesByType("resource").length')


@contextlib.contextmanager
def scratch() -> Iterator[str]:
    """A folder that is removed behind, as far as the browser has let go of it."""
    folder = tempfile.mkdtemp()
    try:
        yield folder
    finally:
        shutil.rmtree(folder, ignore_errors=True)


def main() -> int:
    """Prints the milliseconds of three loads, and what the page says when it is used; writes the pictures if asked."""
    words = argparse.ArgumentParser(description=__doc__, formatter_class=argparse.RawDescriptionHelpFormatter)
    words.add_argument('page')
    words.add_argument('--pictures', metavar='PREFIX')
    given = words.parse_args()
    url, wrong = Path(given.page).resolve().as_uri(), 0
    with scratch() as folder:
        browser = Browser(folder)
        browser.call('Page.enable')
        browser.size(*SIZES[0][1:], False)
        for _ in range(3):
            browser.open(url)
            print('drawn %s ms after the start of loading' % browser.tell('document.documentElement.dataset.drawn'))
            browser.call('Page.navigate', url='about:blank')
        browser.open(url)
        print('a leaf under the pointer: %s' % browser.tell(HOVER))
        for what, told in use(browser):
            print('%s: %s' % (what, told))
        for name, width, height in SIZES:
            for is_dark in (False, True):
                browser.size(width, height, is_dark)
                browser.open(url)
                tap(browser) if name == 'narrow' else point(browser)
                time.sleep(0.5)
                for text in cut(browser):
                    wrong = 1
                    print('%s: cut: %s' % (name, text))
                if given.pictures:
                    browser.picture('%s-%s-%s.png' % (given.pictures, name, 'dark' if is_dark else 'light'))
        browser.open(url)
        for what, told in touch(browser):
            print('touch, %s: %s' % (what, told))
        browser.close()
    return wrong


if __name__ == '__main__':
    sys.exit(main())
