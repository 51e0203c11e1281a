"""Headless Chromium, controlled over its debugging pipe; and pictures as PNG.

Names: CHROMIUM (the program, or None) · Browser (one run of it: show, ask, click, key, drag, touch, picture) · pixels_of.
"""
from __future__ import annotations

import base64
import json
import os
import select
import shutil
import signal
import struct
import subprocess
import sys
import tempfile
import time
import zlib
from typing import Any

CHROMIUM = next(filter(None, map(shutil.which, ('chromium', 'chromium-browser', 'google-chrome'))), None)
SECONDS = 180.0
# Gives the program the two ends of the pipe under the numbers that it wants.
START = 'import os, sys; os.dup2(int(sys.argv[1]), 3); os.dup2(int(sys.argv[2]), 4); os.execv(sys.argv[3], sys.argv[3:])'
FLAGS = ['--headless=new', '--no-sandbox', '--remote-debugging-pipe', '--use-angle=swiftshader', '--enable-unsafe-swiftshader',
         '--hide-scrollbars', '--no-first-run', '--disable-extensions', '--disable-background-networking', '--disable-dev-shm-usage']


def pixels_of(data: bytes) -> list[list[tuple[int, ...]]]:
    """Returns the rows of pixels of a PNG of eight bits a channel, without interlacing."""
    width, height, depth, kind, _, _, interlaced = struct.unpack_from('>2I5B', data, 16)
    if depth != 8 or kind not in (2, 6) or interlaced:
        raise ValueError('a PNG of another kind')
    packed, at = b'', 8
    while at < len(data):
        size, = struct.unpack_from('>I', data, at)
        packed += data[at + 8:at + 8 + size] if data[at + 4:at + 8] == b'IDAT' else b''
        at += size + 12
    step = 3 if kind == 2 else 4
    plain, rows, above = zlib.decompress(packed), [], bytes(width * step)
    for y in range(height):
        start = y * (width * step + 1)
        above = unfiltered(plain[start], bytearray(plain[start + 1:start + 1 + width * step]), above, step)
        rows.append([tuple(above[x:x + 3]) for x in range(0, len(above), step)])
    return rows


def unfiltered(kind: int, row: bytearray, above: bytes, step: int) -> bytes:
    """Returns a row of a PNG without its filter."""
    for k in range(len(row)):
        left, corner = (row[k - step], above[k - step]) if k >= step else (0, 0)
        if kind == 4:
            near = left + above[k] - corner
            best = min((abs(near - left), 0, left), (abs(near - above[k]), 1, above[k]), (abs(near - corner), 2, corner))[2]
        else:
            best = (0, left, above[k], (left + above[k]) // 2)[kind]
        row[k] = row[k] + best & 255
    return bytes(row)


class Browser:
    """One run of Chromium with one page. `errors` are the page's console errors and exceptions."""

    def __init__(self, width: int = 640, height: int = 400) -> None:
        self.folder = tempfile.TemporaryDirectory()
        there, out = os.pipe()
        back, here = os.pipe()
        self.process = subprocess.Popen(
            [sys.executable, '-c', START, str(there), str(here), CHROMIUM or '', *FLAGS, f'--user-data-dir={self.folder.name}',
             f'--window-size={width},{height}'], pass_fds=(there, here), start_new_session=True,
            stdout=subprocess.DEVNULL, stderr=subprocess.DEVNULL)
        os.close(there)
        os.close(here)
        self.out, self.back, self.text, self.number = out, back, b'', 0
        self.errors: list[str] = []
        self.session: str | None = None
        try:
            target = self.call('Target.createTarget', url='about:blank')['targetId']
            self.session = self.call('Target.attachToTarget', targetId=target, flatten=True)['sessionId']
            for domain in ('Page', 'Runtime', 'Log'):
                self.call(domain + '.enable')
            self.resize(width, height)
        except BaseException:
            self.close()
            raise

    def close(self) -> None:
        """Ends the program and those that it began: they are a group of their own."""
        for end in (self.out, self.back):
            os.close(end)
        try:
            self.process.wait(5)
        except subprocess.TimeoutExpired:
            os.killpg(self.process.pid, signal.SIGKILL)
            self.process.wait()
        for _ in range(50):
            try:
                self.folder.cleanup()
                return
            except OSError:
                time.sleep(0.1)

    def call(self, method: str, **words: Any) -> Any:
        """Returns what a method of the protocol answers."""
        self.number += 1
        message = {'id': self.number, 'method': method, 'params': words}
        if self.session:
            message['sessionId'] = self.session
        os.write(self.out, json.dumps(message).encode('ascii') + b'\0')
        while True:
            answer = self.message()
            if answer.get('id') == self.number:
                if 'error' in answer:
                    raise RuntimeError(f'{method}: {answer["error"]}')
                return answer['result']

    def message(self) -> Any:
        """Returns the next message of the browser; those that tell an error are kept."""
        end = time.monotonic() + SECONDS
        while b'\0' not in self.text:
            if not select.select([self.back], [], [], max(0.0, end - time.monotonic()))[0]:
                raise TimeoutError('the browser says nothing')
            data = os.read(self.back, 1 << 20)
            if not data:
                raise RuntimeError('the browser has ended')
            self.text += data
        line, _, self.text = self.text.partition(b'\0')
        answer = json.loads(line)
        told = answer.get('params', {})
        if answer.get('method') == 'Runtime.exceptionThrown':
            self.errors.append(str(told['exceptionDetails']))
        elif answer.get('method') == 'Runtime.consoleAPICalled' and told['type'] in ('error', 'assert', 'warning'):
            self.errors.append(str(told['args']))
        elif answer.get('method') == 'Log.entryAdded' and told['entry']['level'] in ('error', 'warning'):
            self.errors.append(told['entry']['text'])
        return answer

    def resize(self, width: int, height: int, phone: bool = False) -> None:
        self.call('Emulation.setDeviceMetricsOverride', width=width, height=height, deviceScaleFactor=1, mobile=phone)
        self.call('Emulation.setTouchEmulationEnabled', enabled=phone)

    def show(self, path: str, address: str = '') -> None:
        """Opens a page of write_page, and waits for its mesh."""
        self.call('Page.navigate', url='about:blank')
        self.call('Page.navigate', url=f'file://{os.path.abspath(path)}{address}')
        self.until('document.getElementById("view")?.dataset.mesh !== undefined')

    def ask(self, text: str) -> Any:
        """Returns the value of a JavaScript expression, or of what it promises."""
        result = self.call('Runtime.evaluate', expression=text, awaitPromise=True, returnByValue=True)
        if 'exceptionDetails' in result:
            raise RuntimeError(f'{text}: {result["exceptionDetails"]}')
        return result['result'].get('value')

    def until(self, text: str) -> None:
        """Waits until an expression is true."""
        end = time.monotonic() + SECONDS
        while not self.ask(text):
            if time.monotonic() > end:
                raise TimeoutError(f'never: {text}')
            time.sleep(0.05)

    def spot(self, name: str, right: float = 0.5, down: float = 0.5) -> tuple[float, float]:
        """Returns a place of an element of this id, in parts of its size."""
        x, y, width, height = self.ask(f'(r => [r.x, r.y, r.width, r.height])(document.getElementById("{name}").getBoundingClientRect())')
        return x + right * width, y + down * height

    def mouse(self, kind: str, place: tuple[float, float], **words: Any) -> None:
        self.call('Input.dispatchMouseEvent', type=kind, x=place[0], y=place[1], **words)

    def click(self, name: str, right: float = 0.5, down: float = 0.5) -> None:
        self.ask(f'document.getElementById("{name}").scrollIntoView({{block: "nearest"}})')
        place = self.spot(name, right, down)
        for kind in ('mousePressed', 'mouseReleased'):
            self.mouse(kind, place, button='left', clickCount=1)

    def drag(self, name: str, start: tuple[float, float], end: tuple[float, float], button: str = 'left') -> None:
        buttons = {'left': 1, 'right': 2}[button]
        self.mouse('mousePressed', self.spot(name, *start), button=button, clickCount=1)
        self.mouse('mouseMoved', self.spot(name, *end), button=button, buttons=buttons)
        self.mouse('mouseReleased', self.spot(name, *end), button=button, clickCount=1)

    def touch(self, name: str, *steps: list[tuple[float, float]]) -> None:
        """Moves fingers over an element: each step is where they are."""
        for k, step in enumerate([*steps, []]):
            places = [self.spot(name, *place) for place in step]
            points = [{'x': x, 'y': y, 'id': number} for number, (x, y) in enumerate(places)]
            self.call('Input.dispatchTouchEvent', type='touchStart' if not k else 'touchMove' if points else 'touchEnd', touchPoints=points)

    def key(self, key: str, modifiers: int = 0) -> None:
        code = {'ArrowLeft': 37, 'ArrowUp': 38, 'ArrowRight': 39, 'ArrowDown': 40, 'Home': 36, 'Tab': 9, 'Escape': 27, ' ': 32}.get(key, ord(key[0]))
        text = {'text': key} if len(key) == 1 else {}
        self.call('Input.dispatchKeyEvent', type='keyDown', key=key, windowsVirtualKeyCode=code, modifiers=modifiers, **text)
        self.call('Input.dispatchKeyEvent', type='keyUp', key=key, windowsVirtualKeyCode=code, modifiers=modifiers)

    def picture(self, name: str = 'view') -> list[list[tuple[int, ...]]]:
        """Returns what an element shows, after the next two frames."""
        self.ask('new Promise(done => requestAnimationFrame(() => requestAnimationFrame(() => done(1))))')
        (left, top), (right, bottom) = self.spot(name, 0, 0), self.spot(name, 1, 1)
        across, down = self.ask('[scrollX, scrollY]')
        clip = {'x': left + across, 'y': top + down, 'width': right - left, 'height': bottom - top, 'scale': 1}
        return pixels_of(base64.b64decode(self.call('Page.captureScreenshot', format='png', clip=clip, captureBeyondViewport=True)['data']))
