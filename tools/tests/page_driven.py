"""What tests of the page share: a page in Chromium with the made room, driven as a user does; in Firefox where DOOMVIEW_BROWSER
is firefox, but for what only DevTools can do."""
import base64
import contextlib
import json
import os
import shutil
import subprocess
import tempfile
import unittest
from unittest import mock

from made_files import COMMAND
from doomview_tools import paths, program
from systems import chromium, firefox

PAGE, TESTED = os.environ.get('DOOMVIEW_PAGE', ''), os.environ.get('DOOMVIEW_TESTED', '')
IS_FIREFOX = os.environ.get('DOOMVIEW_BROWSER') == 'firefox'
HAS_BROWSER = bool((firefox if IS_FIREFOX else chromium).command())
FIRST = [] if IS_FIREFOX else ['file://' + os.path.abspath(PAGE)]  # what the page asked for: Firefox tells of no file
GAMES = [path for path in ('/usr/share/games/doom/freedoom1.wad', '/usr/share/games/doom/freedoom2.wad') if os.path.exists(path)]
SAID, READY = "find('said').textContent", "document.body.dataset.ready === 'yes'"


def run(*words, folder=None, status=0):
    """What the command prints."""
    env = {**os.environ, 'DOOMVIEW': TESTED}
    done = subprocess.run([COMMAND, *words], cwd=folder, env=env, stdin=subprocess.DEVNULL, capture_output=True)
    if done.returncode != status:
        raise AssertionError(f'{words}: {done.returncode}, {done.stderr.decode()}')
    return done.stdout


@unittest.skipUnless(PAGE and TESTED and HAS_BROWSER, 'there is no page, no program or no browser')
class Shown(unittest.TestCase):
    """A page in a browser, with the made room."""

    @classmethod
    def setUpClass(cls):
        cls.folder = tempfile.mkdtemp()
        cls.addClassCleanup(shutil.rmtree, cls.folder)
        cls.room = cls.at('room.wad')
        run('room', '-o', cls.room)

    @classmethod
    def at(cls, name):
        return os.path.join(cls.folder, name)

    def setUp(self):
        self.browser = self.entered()
        self.browser.show(PAGE)
        self.browser.wait(READY)
        self.drive()

    def entered(self):
        stack = contextlib.ExitStack()
        self.addCleanup(stack.close)
        return stack.enter_context(firefox.Firefox() if IS_FIREFOX else chromium.Chromium())

    def tearDown(self):
        self.assertEqual(self.browser.errors, [])
        asked = [address for address in self.browser.requests if not address.startswith(('blob:null/', 'data:', 'about:'))]
        self.assertEqual(asked, FIRST)

    def shown_once(self):
        """Forgets the pages that were shown beside the first one."""
        others = [address for address in self.browser.requests if not address.startswith('file://')]
        self.browser.requests = others + FIRST

    def value(self, code):
        return self.browser.value(code)

    def devtools(self, method, **parameters):
        """What DevTools do; in Firefox a window gets another size, and a test of all else is left out."""
        if not IS_FIREFOX:
            return self.browser.call(method, **parameters)
        if method != 'Emulation.setDeviceMetricsOverride':
            self.skipTest(f'Firefox has no {method}')
        return self.browser.resize(parameters['width'], parameters['height'])

    def drive(self):
        """Puts the functions of page/driver.js into the page."""
        with open(os.path.join(os.path.dirname(os.path.abspath(__file__)), 'page', 'driver.js'), encoding='utf-8') as file:
            self.value(file.read())

    def write(self, name, data):
        """The path of a file with some bytes."""
        with open(self.at(name), 'wb') as file:
            file.write(data)
        return self.at(name)

    def said(self):
        return self.value(SAID)

    def take(self, *files):
        """Chooses files, and waits for the view from the start of the first map."""
        self.value('walker.view = null; level = null; 0')
        self.browser.choose('#files', list(files))
        self.browser.wait('walker.view && level && !walker.isBusy')

    def choose(self, name):
        self.value(f"walker.view = null; find('chosen').value = {name!r}; find('chosen').onchange(); 0")
        self.browser.wait(f"level && level.map === {name!r} && walker.view && !walker.isBusy || {SAID}")

    def frame(self):
        return self.bytes_of('walker.view.frame')

    def bytes_of(self, code):
        """The bytes that code gives."""
        return base64.b64decode(self.value(f'driver.base64({code})'))

    def go(self, row):
        self.value(f'walker.go({json.dumps(list(row[:4]))}); 0')
        self.browser.wait('!walker.isBusy')

    def native(self, job, wad, name, rows, *more):
        """What the program writes for rows."""
        path = self.at('path.csv')
        with open(path, 'w', encoding='utf-8') as file:
            file.write(paths.text(rows))
        with mock.patch.dict(os.environ, DOOMVIEW=TESTED):
            done = program.run([job, name, *([wad] if isinstance(wad, str) else wad), '--path', path, *more])
        self.assertEqual((done.status, done.line), (0, ''))
        return done.output
