"""Firefox without a window, spoken to by WebDriver BiDi over a web socket: with what the tests of the page use of a browser,
as chromium.Chromium has it."""
import base64
import json
import os
import secrets
import shutil
import socket
import subprocess
import tempfile
import time
import weakref
from typing import Any, Optional

from doomview_tools.trouble import Trouble

from .chromium import SECONDS, SILENT, WAIT

NAMES = ('firefox-esr', 'firefox')
WORDS = ['--headless', '--no-remote', '--remote-debugging-port', '0', 'about:blank']
SERVER = 'WebDriverBiDiServer.json'  # in the profile: where it is spoken to
PREFERENCES = {'browser.shell.checkDefaultBrowser': False, 'datareporting.policy.dataSubmissionEnabled': False,
               'app.normandy.enabled': False, 'browser.aboutwelcome.enabled': False, 'remote.prefs.recommended': True}
STARTED = 60  # seconds that a start may take
TEXT, CLOSED, WHOLE, MASKED, PING, PONG = 1, 8, 0x80, 0x80, 9, 10  # of the frames of a web socket
EVENTS = ['log.entryAdded', 'network.beforeRequestSent']
SHIFT, SHIFT_BIT = '\ue008', 8
# The keys that have no letter, as WebDriver writes them.
KEYS = {'ArrowLeft': '\ue012', 'ArrowUp': '\ue013', 'ArrowRight': '\ue014', 'ArrowDown': '\ue015', 'PageUp': '\ue00e',
        'PageDown': '\ue00f', 'Enter': '\ue007', 'Escape': '\ue00c'}


def command() -> Optional[str]:
    """The path of Firefox where it is installed."""
    return next(filter(None, map(shutil.which, NAMES)), None)


class WebSocket:
    """A web socket of this machine, to which texts are sent, and from which they come."""

    def __init__(self, port: int, path: str) -> None:
        self.socket, self.read = socket.create_connection(('127.0.0.1', port)), b''
        self.socket.settimeout(SILENT)
        key = base64.b64encode(secrets.token_bytes(16)).decode()
        self.socket.sendall((f'GET {path} HTTP/1.1\r\nHost: 127.0.0.1:{port}\r\nUpgrade: websocket\r\nConnection: Upgrade\r\n'
                             f'Sec-WebSocket-Key: {key}\r\nSec-WebSocket-Version: 13\r\n\r\n').encode())
        while b'\r\n\r\n' not in self.read:
            self.more()
        head, _, self.read = self.read.partition(b'\r\n\r\n')
        if b' 101 ' not in head.splitlines()[0]:
            raise Trouble(f'firefox: {head.decode(errors="replace")}')

    def more(self) -> None:
        try:
            piece = self.socket.recv(1 << 20)
        except socket.timeout as error:
            raise Trouble(f'firefox has said nothing for {SILENT} seconds') from error
        if not piece:
            raise Trouble('firefox has ended')
        self.read += piece

    def take(self, count: int) -> bytes:
        """The next bytes."""
        while len(self.read) < count:
            self.more()
        data, self.read = self.read[:count], self.read[count:]
        return data

    def send(self, data: bytes, kind: int = TEXT) -> None:
        size, mask = len(data), secrets.token_bytes(4)
        length = bytes([MASKED | size]) if size < 126 else bytes([MASKED | 126]) + size.to_bytes(2, 'big') if size < 65536 \
            else bytes([MASKED | 127]) + size.to_bytes(8, 'big')
        pad = (mask * (size // 4 + 1))[:size]
        masked = (int.from_bytes(data, 'big') ^ int.from_bytes(pad, 'big')).to_bytes(size, 'big')
        self.socket.sendall(bytes([WHOLE | kind]) + length + mask + masked)

    def text(self) -> bytes:
        """The next text."""
        whole = b''
        while True:
            first, size = self.take(2)
            if size >= 126:
                size = int.from_bytes(self.take(2 if size == 126 else 8), 'big')
            data, kind = self.take(size), first & 15
            if kind == CLOSED:
                raise Trouble('firefox has ended')
            if kind == PING:
                self.send(data, PONG)
            elif kind != PONG:
                whole += data
                if first & WHOLE:
                    return whole


class Firefox:
    """A browser with one page. `requests` are the addresses that the page asked for, `errors` what it said of failures."""

    def __init__(self, width: int = 1200, height: int = 1000) -> None:
        self.profile = tempfile.mkdtemp()
        self.remove_profile = weakref.finalize(self, shutil.rmtree, self.profile, ignore_errors=True)
        with open(os.path.join(self.profile, 'user.js'), 'w', encoding='utf-8') as file:
            file.writelines(f'user_pref({json.dumps(name)}, {json.dumps(value)});\n' for name, value in PREFERENCES.items())
        self.process = subprocess.Popen([command() or NAMES[0], '--profile', self.profile, *WORDS], stdin=subprocess.DEVNULL,
                                        stdout=subprocess.DEVNULL, stderr=subprocess.DEVNULL,
                                        env={**os.environ, 'HOME': self.profile})
        self.errors: list[str] = []
        self.requests: list[str] = []
        self.count = 0
        self.wire: Optional[WebSocket] = None  # until it has begun
        try:
            self.wire = WebSocket(self.port(), '/session')
            self.call('session.new', capabilities={})
            self.call('session.subscribe', events=EVENTS)
            self.context = self.call('browsingContext.getTree')['contexts'][0]['context']
            self.resize(width, height)
        except BaseException:
            self.end()
            raise

    def port(self) -> int:
        """The port at which it is spoken to, once it has begun."""
        end, path = time.monotonic() + STARTED, os.path.join(self.profile, SERVER)
        while time.monotonic() < end and self.process.poll() is None:
            try:
                with open(path, encoding='utf-8') as file:
                    return json.load(file)['ws_port']
            except (OSError, ValueError):
                time.sleep(.05)
        raise Trouble('firefox does not begin')

    def __enter__(self) -> 'Firefox':
        return self

    def __exit__(self, *_: object) -> None:
        self.end()

    def end(self) -> None:
        if self.wire:
            self.wire.socket.close()
        self.process.terminate()
        try:
            self.process.wait(STARTED)
        except subprocess.TimeoutExpired:
            self.process.kill()
            self.process.wait()
        self.remove_profile()

    def call(self, method: str, **parameters: Any) -> dict[str, Any]:
        """What the browser answers to a command."""
        wire = self.wire
        if wire is None:
            raise Trouble('firefox does not begin')
        self.count += 1
        wire.send(json.dumps({'id': self.count, 'method': method, 'params': parameters}).encode())
        while True:
            found = json.loads(wire.text())
            self.note(found)
            if found.get('id') == self.count:
                if found['type'] == 'error':
                    raise Trouble(f'firefox: {method}: {found["message"]}')
                return found['result']

    def note(self, found: dict[str, Any]) -> None:
        """Notes what the page asked for, and what went wrong in it."""
        method, parameters = found.get('method'), found.get('params', {})
        if method == 'network.beforeRequestSent':
            self.requests.append(parameters['request']['url'])
        elif method == 'log.entryAdded' and parameters['level'] == 'error':
            self.errors.append(parameters['text'])

    def remote(self, code: str, **more: Any) -> dict[str, Any]:
        """What JavaScript in the page gives in time, as BiDi writes it."""
        done = self.call('script.evaluate', expression=code, target={'context': self.context}, awaitPromise=True, **more)
        if done['type'] != 'success':
            raise Trouble(f'{code[:200]}: {done["exceptionDetails"]["text"]}')
        return done['result']

    def value(self, code: str) -> Any:
        """The value of JavaScript in the page, in time."""
        found = self.remote(code, resultOwnership='root', serializationOptions={'maxObjectDepth': 0})
        if 'handle' not in found:
            return found.get('value')
        done = self.call('script.callFunction', functionDeclaration='value => JSON.stringify(value)', awaitPromise=False,
                         target={'context': self.context}, arguments=[{'handle': found['handle']}])
        self.call('script.disown', handles=[found['handle']], target={'context': self.context})
        if done['type'] != 'success':
            raise Trouble(f'{code[:200]}: {done["exceptionDetails"]["text"]}')
        return json.loads(done['result']['value']) if 'value' in done['result'] else None

    def wait(self, condition: str, seconds: int = SECONDS) -> None:
        """Waits until a condition of the page is met."""
        self.value(WAIT % (seconds, condition))

    def show(self, path: str) -> None:
        """Shows the page of a file."""
        self.call('browsingContext.navigate', context=self.context, url='file://' + os.path.abspath(path), wait='complete')

    def choose(self, selector: str, files: list[str]) -> None:
        """Chooses files in an element of the page, as a user does."""
        element = self.remote(f'document.querySelector({json.dumps(selector)})')
        self.call('input.setFiles', context=self.context, element={'sharedId': element['sharedId']},
                  files=[os.path.abspath(path) for path in files])

    def act(self, kind: str, actions: list[dict[str, Any]], **more: Any) -> None:
        self.call('input.performActions', context=self.context, actions=[{'type': kind, 'id': kind, 'actions': actions, **more}])

    def mouse(self, kind: str, x: float, y: float, modifiers: int = 0) -> None:
        """Moves the mouse, or presses or lets go of its left button there."""
        moved = {'type': 'pointerMove', 'x': round(x), 'y': round(y)}
        ended = {'mousePressed': {'type': 'pointerDown', 'button': 0}, 'mouseReleased': {'type': 'pointerUp', 'button': 0}}
        self.act('pointer', [moved, *([ended[kind]] if kind in ended else [])], parameters={'pointerType': 'mouse'})

    def click(self, x: float, y: float, modifiers: int = 0) -> None:
        """Clicks at a point of the window, with Shift where that is in the modifiers, as DevTools count them."""
        held = [{'type': 'keyDown', 'value': SHIFT}, {'type': 'pause'}, {'type': 'pause'}, {'type': 'keyUp', 'value': SHIFT}]
        clicked = [{'type': 'pointerMove', 'x': round(x), 'y': round(y)}, {'type': 'pointerDown', 'button': 0},
                   {'type': 'pointerUp', 'button': 0}]
        sources = [{'type': 'pointer', 'id': 'pointer', 'parameters': {'pointerType': 'mouse'}, 'actions': clicked}]
        if modifiers & SHIFT_BIT:
            sources.append({'type': 'key', 'id': 'key', 'actions': held})
        self.call('input.performActions', context=self.context, actions=sources)

    def press(self, key: str, code: int = 0) -> None:
        """Presses a key and lets it go."""
        value = KEYS.get(key, key)
        self.act('key', [{'type': 'keyDown', 'value': value}, {'type': 'keyUp', 'value': value}])

    def resize(self, width: int, height: int) -> None:
        """Gives the window another size."""
        self.call('browsingContext.setViewport', context=self.context, viewport={'width': width, 'height': height})

    def screenshot(self, path: str, is_whole: bool = False) -> None:
        data = self.call('browsingContext.captureScreenshot', context=self.context, origin='document' if is_whole else 'viewport')['data']
        with open(path, 'wb') as file:
            file.write(base64.b64decode(data))
