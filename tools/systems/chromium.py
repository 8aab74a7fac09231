"""Chromium without a window, spoken to over two pipes by its DevTools protocol: a page is shown, given files, clicked."""
import base64
import json
import os
import select
import shutil
import subprocess
import tempfile
import weakref
from typing import Any, Optional

from doomview_tools.trouble import Trouble

from . import scripts

NAMES = ('chromium', 'chromium-browser', 'google-chrome')
WORDS = ['--headless=new', '--no-sandbox', '--disable-gpu', '--remote-debugging-pipe', '--no-first-run', 'about:blank']
PIPES = (3, 4)  # that Chromium reads and writes
DOMAINS = ('Page', 'Runtime', 'Log', 'DOM', 'Network')
SECONDS = 120  # that a condition on a page may take
SILENT = 900  # seconds without a word after which a browser counts as lost
# Of seconds and a condition; they stand first, where what a Trouble says of it has them.
WAIT = f'((seconds, holds, until) => until(seconds, holds))(%d, () => (%s), {scripts.text("until.js")})'


def command() -> Optional[str]:
    """The path of Chromium where it is installed."""
    return next(filter(None, map(shutil.which, NAMES)), None)


class Chromium:
    """A browser with one page. `requests` are the addresses that the page asked for, `errors` what it said of failures."""

    def __init__(self, width: int = 1200, height: int = 1000) -> None:
        self.profile = tempfile.mkdtemp()
        self.remove_profile = weakref.finalize(self, shutil.rmtree, self.profile, ignore_errors=True)
        reading, self.to = os.pipe()
        self.of, writing = os.pipe()

        def wire() -> None:
            high = [os.dup2(end, end + 50) for end in (reading, writing)]
            for number, end in zip(PIPES, high):
                os.dup2(end, number)
                os.set_inheritable(number, True)

        words = [command() or NAMES[0], *WORDS, f'--user-data-dir={self.profile}', f'--window-size={width},{height}']
        self.process = subprocess.Popen(words, preexec_fn=wire, close_fds=False, stderr=subprocess.DEVNULL,
                                        stdout=subprocess.DEVNULL, env={**os.environ, 'HOME': self.profile})
        os.close(reading)
        os.close(writing)
        self.read, self.count, self.session = b'', 0, None
        self.errors: list[str] = []
        self.requests: list[str] = []
        target = self.call('Target.createTarget', url='about:blank')['targetId']
        self.session = self.call('Target.attachToTarget', targetId=target, flatten=True)['sessionId']
        for domain in DOMAINS:
            self.call(f'{domain}.enable')

    def __enter__(self) -> 'Chromium':
        return self

    def __exit__(self, *_: object) -> None:
        self.session = None
        try:
            self.call('Browser.close')
        except (Trouble, OSError):  # it has ended
            self.process.kill()
        self.process.wait()
        for end in (self.to, self.of):
            os.close(end)
        self.remove_profile()

    def message(self) -> dict[str, Any]:
        """The next message of the browser."""
        while b'\0' not in self.read:
            if not select.select([self.of], [], [], SILENT)[0]:
                self.process.kill()
                raise Trouble(f'chromium has said nothing for {SILENT} seconds')
            piece = os.read(self.of, 1 << 20)
            if not piece:
                raise Trouble('chromium has ended')
            self.read += piece
        line, _, self.read = self.read.partition(b'\0')
        return json.loads(line)

    def call(self, method: str, **parameters: Any) -> dict[str, Any]:
        """What the browser answers to a command."""
        self.count += 1
        said = {'id': self.count, 'method': method, 'params': parameters, **({'sessionId': self.session} if self.session else {})}
        data = json.dumps(said).encode() + b'\0'
        while data:
            data = data[os.write(self.to, data):]
        while True:
            found = self.message()
            self.note(found)
            if found.get('id') == self.count:
                if 'error' in found:
                    raise Trouble(f'chromium: {method}: {found["error"]["message"]}')
                return found['result']

    def note(self, found: dict[str, Any]) -> None:
        """Notes what the page asked for, and what went wrong in it."""
        method, parameters = found.get('method'), found.get('params', {})
        if method == 'Network.requestWillBeSent':
            self.requests.append(parameters['request']['url'])
        elif method == 'Runtime.exceptionThrown':
            details = parameters['exceptionDetails']
            self.errors.append(details.get('exception', {}).get('description') or details['text'])
        elif method == 'Log.entryAdded' and parameters['entry']['level'] == 'error':
            self.errors.append(parameters['entry']['text'])

    def value(self, code: str) -> Any:
        """The value of JavaScript in the page, in time."""
        done = self.call('Runtime.evaluate', expression=code, awaitPromise=True, returnByValue=True)
        if 'exceptionDetails' in done:
            details = done['exceptionDetails']
            raise Trouble(f'{code[:200]}: {details.get("exception", {}).get("description", details["text"])}')
        return done['result'].get('value')

    def wait(self, condition: str, seconds: int = SECONDS) -> None:
        """Waits until a condition of the page is met."""
        self.value(WAIT % (seconds, condition))

    def show(self, path: str) -> None:
        """Shows the page of a file."""
        self.call('Page.navigate', url='file://' + os.path.abspath(path))
        self.wait("document.readyState === 'complete'")

    def choose(self, selector: str, files: list[str]) -> None:
        """Chooses files in an element of the page, as a user does."""
        root = self.call('DOM.getDocument')['root']['nodeId']
        node = self.call('DOM.querySelector', nodeId=root, selector=selector)['nodeId']
        self.call('DOM.setFileInputFiles', nodeId=node, files=[os.path.abspath(path) for path in files])

    def mouse(self, kind: str, x: float, y: float, modifiers: int = 0) -> None:
        button = {} if kind == 'mouseMoved' else {'button': 'left', 'clickCount': 1}
        self.call('Input.dispatchMouseEvent', type=kind, x=x, y=y, modifiers=modifiers, **button)

    def click(self, x: float, y: float, modifiers: int = 0) -> None:
        """Clicks at a point of the window."""
        for kind in ('mouseMoved', 'mousePressed', 'mouseReleased'):
            self.mouse(kind, x, y, modifiers)

    def press(self, key: str, code: int = 0) -> None:
        """Presses a key and lets it go."""
        text = {'text': key} if len(key) == 1 else {}
        self.call('Input.dispatchKeyEvent', type='keyDown', key=key, windowsVirtualKeyCode=code, **text)
        self.call('Input.dispatchKeyEvent', type='keyUp', key=key, windowsVirtualKeyCode=code)

    def screenshot(self, path: str, is_whole: bool = False) -> None:
        data = self.call('Page.captureScreenshot', captureBeyondViewport=is_whole)['data']
        with open(path, 'wb') as file:
            file.write(base64.b64decode(data))
