"""The gate of what is made for other systems: golden runs of the program for Windows under Wine, and of the page's program in
a browser, whose values are those of tests/golden/tables."""
import functools
import importlib.machinery
import importlib.util
import json
import math
import os
import shutil
import subprocess
import sys
import tempfile
import time
import weakref
from collections.abc import Callable, Iterator
from types import ModuleType
from typing import TYPE_CHECKING, Any, NamedTuple

from doomview_tools import installation
from doomview_tools.trouble import Trouble

from . import kit, scripts

if TYPE_CHECKING:  # when it runs, golden() finds them
    from cases import Case, Outcome, Runner

GOLDEN = os.path.join(installation.TOP, 'tests', 'golden')
WINE = ('wine', 'wine64')
WINE_NAMES = ('WINEPREFIX', 'WINEDEBUG', 'WINEDLLOVERRIDES')  # variables
LAYOUT = ['setarch', '-R']  # words before a command, which starts with no random layout of memory then
LOST = 'err:virtual:'  # in what Wine says where it cannot map what Windows has in each process
# Cases that cannot be tried so, with the reason.
NO_BROWSER = 'what a shell does with streams, readers that go, words that are no text, files without content'
NO_WINDOWS = 'words that are no UTF-8, which no word of Windows can be'
DIFFERENT, UNTRIED = 1, 2  # statuses: it writes or says something else; it could not be tried to its end
MORE = 60  # seconds that what is begun in time may take then
NO_FILES = '/dev/'  # in the words of a case: a file that a page has not
NO_TABLE = 'large'  # of cases over files that neither a page nor Wine can be given, and with few files open
READ, RUN = scripts.text('golden_page.js'), scripts.text('golden_worker.js')


class Result(NamedTuple):
    """How many cases were tried, how many there are, and a line on each that differs."""

    tried: int
    every: int
    wrong: list[str]


def golden() -> ModuleType:
    """The module tests/golden/run."""
    if GOLDEN not in sys.path:
        sys.path.insert(0, GOLDEN)
    loader = importlib.machinery.SourceFileLoader('golden_run', os.path.join(GOLDEN, 'run'))
    spec = importlib.util.spec_from_loader('golden_run', loader)
    assert spec, 'the loader has the path of a file'
    found = importlib.util.module_from_spec(spec)
    loader.exec_module(found)
    return found


def native() -> str:
    """The path of the program that was linked of the object file of which the previews are made."""
    path = os.path.splitext(kit.object_file())[0]
    if not os.access(path, os.X_OK):
        raise Trouble(f'there is no program {path}; build it first, by ./doomview --build')
    return path


def is_text(case: 'Case') -> bool:
    """Whether the words of a case are UTF-8."""
    try:
        ''.join(case.arguments()).encode()
        return True
    except UnicodeEncodeError:
        return False


def line_on(case: 'Case', found: list[str]) -> str:
    return f'{case.table}: {case.name}: {"; ".join(found)}: {case.words} {case.how}'.rstrip()


def wine() -> str:
    """The path of Wine, or an empty text."""
    return next(filter(None, map(shutil.which, WINE)), '')


@functools.lru_cache(maxsize=None)
def layout() -> list[str]:
    """LAYOUT where it can be had, or no words. Debian's wine64 is no program that can be loaded anywhere, and has none that
    keeps places free for it; so at times the kernel puts its heap where Windows has the page that all processes share, and
    it ends before it has loaded the program. That cannot be where the layout is not random."""
    try:
        works = subprocess.run([*LAYOUT, 'true'], stdin=subprocess.DEVNULL, capture_output=True).returncode == 0
    except OSError:
        works = False
    return LAYOUT if works else []


def start() -> list[str]:
    """The words before a program for Windows."""
    return [*layout(), wine()]


def is_lost(status: str, size: str, said: str) -> bool:
    """Whether a run that ended so, with so many bytes of output, may be one that Wine ended before the program was loaded."""
    return not layout() and (status, size) == ('1', '0') and (not said or LOST in said)


class Wine:
    """Wine with a folder of its own, kept up while cases run: each would else wait for its services."""

    def __init__(self) -> None:
        self.folder = tempfile.mkdtemp()
        self.remove_folder = weakref.finalize(self, shutil.rmtree, self.folder, ignore_errors=True)
        self.env = {**os.environ, 'WINEPREFIX': os.path.join(self.folder, 'prefix'), 'WINEDEBUG': '-all,err+virtual',
                    'WINEDLLOVERRIDES': 'mscoree,mshtml='}

    def __enter__(self) -> 'Wine':
        subprocess.run([*start(), 'cmd', '/c', 'exit'], env=self.env, stdin=subprocess.DEVNULL, stdout=subprocess.DEVNULL,
                       stderr=subprocess.DEVNULL)
        self.keeper = subprocess.Popen([*start(), 'cmd'], env=self.env, stdin=subprocess.PIPE, stdout=subprocess.DEVNULL,
                                       stderr=subprocess.DEVNULL)
        return self

    def __exit__(self, *_: object) -> None:
        assert self.keeper.stdin, 'it is a pipe'
        self.keeper.stdin.close()
        self.keeper.wait()
        subprocess.run(['wineserver', '-k', '-w'], env=self.env, stderr=subprocess.DEVNULL)
        self.remove_folder()

    def command(self, data: bytes) -> str:
        """The path of a command that runs a program for Windows."""
        target, path = (os.path.join(self.folder, name) for name in ('doomview.exe', 'doomview'))
        with open(target, 'wb') as file:
            file.write(data)
        named = ' '.join(f'{name}={self.env[name]}' for name in WINE_NAMES)
        with open(path, 'w', encoding='utf-8') as file:
            file.write(f'#!/bin/sh\n{named} exec {" ".join(start())} {target} "$@"\n')
        os.chmod(path, 0o755)
        return path

    def run(self, words: list[str], folder: str, **more: Any) -> subprocess.CompletedProcess[Any]:
        """Runs a program for Windows in a folder, once more where its start may have been lost."""
        def once() -> subprocess.CompletedProcess[Any]:
            return subprocess.run([*start(), *words], cwd=folder, env=self.env, stdin=subprocess.DEVNULL, capture_output=True, **more)
        done = once()
        said = done.stderr.decode(errors='replace')
        return once() if is_lost(str(done.returncode), str(len(done.stdout)), said) else done


def outcome_of(runner: 'Runner', case: 'Case') -> 'Outcome':
    """How a case ends under Wine, the second time where its start may have been lost."""
    found = runner.run(case)
    return runner.run(case) if is_lost(found.status, found.length, found.line) else found


def under_wine(plain: bytes, jobs: int) -> Result:
    """The golden runs of the program for Windows."""
    run, cases = golden(), golden_cases()
    tried = [case for case in cases if is_text(case)]
    with Wine() as there, tempfile.TemporaryDirectory(prefix='golden-') as folder:
        run.put_files(native(), folder, tried)
        runner = run.Runner(there.command(plain), folder)
        with run.concurrent.futures.ThreadPoolExecutor(jobs) as pool:
            outcomes = dict(zip(tried, pool.map(functools.partial(outcome_of, runner), tried)))
    return Result(len(tried), len(cases), list(wrong_lines(outcomes)))


def golden_cases() -> list['Case']:
    run = golden()
    return run.leave_out([case for table in run.table_names() if table != NO_TABLE for case in run.read_table(table)])


def wrong_lines(outcomes: dict['Case', 'Outcome']) -> Iterator[str]:
    for case, outcome in outcomes.items():
        found = golden().differences(case, outcome)
        if found:
            yield line_on(case, found)


def in_browser(page: str, browser_of: Callable[[], Any]) -> Result:
    """The golden runs of the program in a page, in a browser that a class gives."""
    run, cases = golden(), golden_cases()
    from cases import ZONES, Outcome
    tried = [case for case in cases if case.how in ('', *ZONES) and is_text(case) and NO_FILES not in case.words]
    outcomes = {}
    with tempfile.TemporaryDirectory(prefix='golden-') as folder, browser_of() as browser:
        run.put_files(native(), folder, tried)
        files = [os.path.join(folder, name) for name in os.listdir(folder) if os.path.isfile(os.path.join(folder, name))]
        browser.show(page)
        browser.wait("document.body.dataset.ready === 'yes'")
        browser.value("document.body.append(Object.assign(document.createElement('input'), { type: 'file', id: 'golden', multiple: true }))")
        browser.choose('#golden', files)
        if not browser.value(f'({READ})({json.dumps(RUN)})'):
            raise Trouble('the page did not get the files of the golden runs')
        found = browser.value(f'golden({json.dumps([case.arguments() for case in tried])})')
        for case, (status, line, size, digest) in zip(tried, found):
            outcomes[case] = Outcome(str(status), line, str(size), digest, case.how in ZONES)
    return Result(len(tried), len(cases), list(wrong_lines(outcomes)))


def say(text: str) -> None:
    print(f'portable: {text}', flush=True)


def status_of_tests(test: str, part: str, path: str, until: float = math.inf, browser: str = '') -> int:
    """How a part of the tests of what is made ends; they find it by a variable. What they say is shown at their end. One that
    is not through some time after `until` is ended."""
    variable = 'DOOMVIEW_EXE' if test == 'test_exe' else 'DOOMVIEW_PAGE'
    words = [sys.executable, '-B', '-m', 'unittest', 'discover', '-s', os.path.join(installation.TOOLS, 'tests'), '-p', f'{test}.py', '-k', part]
    env = {**os.environ, variable: path, 'DOOMVIEW_TESTED': native(), 'DOOMVIEW_BROWSER': browser}
    try:
        done = subprocess.run(words, env=env, stdin=subprocess.DEVNULL, stdout=subprocess.PIPE, stderr=subprocess.STDOUT,
                              errors='replace', timeout=None if until == math.inf else max(until + MORE - time.monotonic(), 1))
    except subprocess.TimeoutExpired:
        return UNTRIED
    say(f'{test}, {part}{f" in {browser}" if browser else ""}: {done.stdout.rstrip()}')
    if done.returncode:
        return DIFFERENT if 'failures=' in done.stdout else UNTRIED
    return 0


def report(where: str, found: Result, reason: str, began: float) -> int:
    """Says how golden runs ended; the status for it."""
    for line in found.wrong:
        say(f'{where}: {line}')
    say(f'{where}: {found.tried - len(found.wrong)} of {found.tried} golden cases are well, in {time.monotonic() - began:.0f} seconds'
        + (f'; {found.every - found.tried} are left out: {reason}' if found.every > found.tried else ''))
    return DIFFERENT if found.wrong else 0
