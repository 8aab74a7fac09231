"""The proved program: where it is, whether it is built, and runs of it.

DOOMVIEW names another program to run in its place. `run(words)` takes the words that a user gives to doomview: WADs
are found as ports find them, and where `--tables` or `--things` is not named the tools' own are."""
import atexit
import contextlib
import os
import shutil
import subprocess
import tempfile
import typing
from collections.abc import Iterable

from . import installation, tables
from .call_words import Words
from .files import WholeFile, check_outputs, is_terminal, write_whole
from .jobs import LEVEL_JOBS, NO_PROGRAM, USAGE, WRITE_FAULT
from .trouble import Ended, Trouble
from .word_checks import wrong_words

SECONDS = 300  # that a run of the sources without proofs may take
SENTENCE = 'explain: '  # before each sentence on a line of the program
SHOWN = 5  # lines of what rt said where there was no run


Output = typing.Union[int, typing.IO[bytes], None]  # where the output of a run goes; None: into its Run


class Run(typing.NamedTuple):
    """How a run ended: its status, its output where that went nowhere else, and the last line of what it said, and all."""

    status: int
    output: bytes
    line: str
    said: str


def named_program() -> str:
    """The program that DOOMVIEW names, or an empty text."""
    return os.environ.get('DOOMVIEW', '')


def path() -> str:
    """The path of the program."""
    return os.path.abspath(named_program() or installation.PROGRAM)


def is_source(name: str) -> bool:
    return name.endswith(('.rt', '.antt')) or name == 'crates.txt'


def newest_source(top: str) -> float:
    """When the last of the sources was written."""
    newest = os.path.getmtime(os.path.join(top, 'crates.txt'))
    for folder, folders, names in os.walk(os.path.join(top, 'crates')):
        folders[:] = [name for name in folders if name != 'out']
        newest = max([newest, *(os.path.getmtime(os.path.join(folder, name)) for name in names if is_source(name))])
    return newest


def is_current(program: str, top: str) -> bool:
    """Whether a program is there and no older than the sources."""
    return os.access(program, os.X_OK) and os.path.getmtime(program) >= newest_source(top)


def is_built() -> bool:
    """Whether the program can run at once."""
    return bool(named_program()) or installation.IS_RELEASE or is_current(installation.PROGRAM, installation.TOP)


def ready() -> str:
    """The path of the program, which is built first if that is needed."""
    if not is_built():
        from .build import build
        build()
    if not os.access(path(), os.X_OK):
        what = 'set DOOMVIEW to one, or leave it unset' if named_program() else 'take the whole folder of doomview anew'
        raise Trouble(f'there is no program {path()}; {what}', NO_PROGRAM)
    return path()


def environment() -> dict[str, str]:
    """The surroundings of the program: DOOMVIEW is not handed on, since it may name this command."""
    return {name: value for name, value in os.environ.items() if name != 'DOOMVIEW'}


def cache_folder() -> str:
    """Where what is made once is kept."""
    named = os.environ.get('XDG_CACHE_HOME', '')
    folder = named if os.path.isabs(named) else os.path.join(os.path.expanduser('~'), '.cache')
    return os.path.join(folder, 'doomview')


held_files = []  # temporary files of this process


def temporary_file(data: bytes, ending: str) -> str:
    """A file with these bytes that is there as long as this process."""
    try:
        handle, name = tempfile.mkstemp(prefix='doomview-', suffix=ending)
        held_files.append(name)
        atexit.register(os.remove, name)
        with open(handle, 'wb') as file:
            file.write(data)
    except OSError as error:
        raise Trouble(f'cannot write a temporary file ({error.strerror}); TMPDIR may name another place for '
                      'it') from error
    return name


def has_tables(file: str) -> bool:
    try:
        with open(file, 'rb') as opened:
            return tables.is_right(opened.read())
    except OSError:
        return False


def tables_file() -> str:
    """The path of the tables of angles, which are made once and kept, or held as long as this process."""
    kept = os.path.join(cache_folder(), 'tables.bin')
    if has_tables(kept):
        return kept
    data = tables.tables()
    try:
        os.makedirs(cache_folder(), exist_ok=True)
        write_whole(kept, data)
    except (OSError, Trouble):
        return temporary_file(data, '.bin')
    return kept


def things_file() -> str:
    """The path of the thing table of the games."""
    return installation.data('things.csv')


def complete(words: Iterable[str]) -> list[str]:
    """The words of a job as the program takes them: WADs found, and the tools' own tables where none are named."""
    given = Words(words)
    if given.job not in LEVEL_JOBS:
        return given.with_wads_found()
    own = [('--tables', tables_file), ('--things', things_file)]
    more = [part for name, file in own if name not in given.given for part in (name, file())]
    words = given.with_wads_found()
    at = 1 if words[0] == given.job else 0  # where they are options, whatever stands behind
    return words[:at] + more + words[at:]


def run_of(status: int, output: typing.Optional[bytes], said: bytes) -> Run:
    """How a run ended; one that a signal ended has 128 and its number, as in a shell. The sentences that doomview.exe adds
    to its line are left out, since the command has its own."""
    lines = [line for line in said.decode(errors='replace').splitlines(True) if not line.startswith(SENTENCE)]
    last = ''.join(lines[-1:]).rstrip('\r\n')
    return Run(status if status >= 0 else 128 - status, output or b'', last, ''.join(lines))


def run(words: Iterable[str], output: Output = None, unproved: bool = False) -> Run:
    """Runs the program to its end: its status, its output where `output` is no file for it, the last line of what it
    said, and all of it. `unproved` runs the sources without a proof, by `rt try`, where the program is not built."""
    words = complete(words)
    if unproved and not is_built():
        return run_sources(words, output)
    return run_of(*call([ready(), *words], output))


def guard_terminal(words: Iterable[str]) -> None:
    """A Trouble where a job would write to a terminal what is no text. Where its words are wrong it may run, since it
    writes nothing then."""
    given = Words(words)
    if not given.writes_bytes or not is_terminal():
        return
    if not wrong_words(given):
        raise Trouble(f'what {given.job} writes is no text, and the output is a terminal; name a file by -o FILE',
                      USAGE)
    os.dup2(os.open(os.devnull, os.O_WRONLY), 1)


def check_output(words: Iterable[str]) -> None:
    """A Trouble where the file that `-o` names cannot be written, or is one that the job reads."""
    words = list(words)
    output, files = Words(words).output, Words(complete(words)).files
    if output:
        check_outputs([output], [*files, path()], WRITE_FAULT)


def run_whole(words: list[str]) -> Run:
    """Runs the program with its output in the file that `-o` names, whole or not there, or else as it comes on the
    standard output."""
    output = Words(words).output
    if not output:
        guard_terminal(complete(words))
        return run(words, 1)
    check_output(words)
    with contextlib.suppress(Ended), WholeFile(output, WRITE_FAULT) as part:
        done = run(words, part)
        if done.status:
            raise Ended(done.status)
    return done


def call(command: list[str], output: Output, folder: typing.Optional[str] = None) -> tuple[int, bytes, bytes]:
    """Status, output and what is said of a command."""
    try:
        done = subprocess.run(command, cwd=folder, env=environment(), stdin=subprocess.DEVNULL,
                              stdout=subprocess.PIPE if output is None else output, stderr=subprocess.PIPE)
    except OSError as error:
        raise Trouble(f'cannot run {command[0]}: {error.strerror}', NO_PROGRAM) from error
    return done.returncode, done.stdout, done.stderr


def start(words: Iterable[str], **more: typing.Any) -> subprocess.Popen[typing.Any]:
    """Starts the program."""
    try:
        return subprocess.Popen([ready(), *complete(words)], env=environment(), **more)
    except OSError as error:
        raise Trouble(f'cannot run {path()}: {error.strerror}', NO_PROGRAM) from error


def pass_on(words: list[str]) -> Run:
    """Runs the program with its output on the standard output, as it comes; what it said on standard error is kept."""
    words = complete(words)
    guard_terminal(words)
    try:
        done = subprocess.run([ready(), *words], env=environment(), stderr=subprocess.PIPE)
    except OSError as error:
        raise Trouble(f'cannot run {path()}: {error.strerror}', NO_PROGRAM) from error
    return run_of(done.returncode, None, done.stderr)


def with_own_name(word: str, files: dict[str, str]) -> str:
    """A word, with a name of its own for the file that it names."""
    option, equal, file = word.partition('=') if word.startswith('--') else ('', '', word)
    if not os.path.isfile(file):
        return word
    name = f'file{len(files)}'
    files[name] = os.path.abspath(file)
    return option + equal + name


def run_sources(words: list[str], output: Output) -> Run:
    """Runs the sources without a proof and without a build; at most 1 MiB comes out. The checks of `rt try` stop such a
    run at an index out of range or a sum that overflows, and nothing is proved of it."""
    if not shutil.which('rt'):
        raise Trouble('the command rt is not installed: doomview is made by the Rattle kit, whose folder bin has to be '
                      'in PATH', NO_PROGRAM)
    files: dict[str, str] = {}
    words = [with_own_name(word, files) for word in words]
    data = [part for name, file in files.items() for part in ('--data', f'{name}={file}')]
    status, written, said = call(['rt', 'try', '--steps', '1', '--seconds', str(SECONDS), *data, '--', *words], output,
                                 os.path.join(installation.TOP, 'crates', 'doomview'))
    lines = said.decode(errors='replace').splitlines()
    line = ([text for text in lines if text.startswith('doomview: ')] or [''])[-1]
    if line or status == 0:
        return run_of(status, written, line.encode())
    raise Trouble('\n'.join([*(text[:300] for text in lines[-SHOWN:]), 'rt try did not run the sources; its last lines '
                             'are above']), NO_PROGRAM)
