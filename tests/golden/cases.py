"""The cases: read from the tables, run, and compared with what a run of another program gave."""
import csv
import dataclasses
import functools
import hashlib
import io
import os
import re
import shlex
import subprocess
import urllib.parse

HERE = os.path.dirname(os.path.abspath(__file__))
TABLES = os.path.join(HERE, 'tables')
PIXELS = os.path.join(HERE, 'pixels.csv')
PIXEL_HEADER = ['case', 'view', 'column', 'row', 'bytes']
WIDTH, PIXELS_OF_A_VIEW = 320, 64000
HEADER = ['case', 'words', 'how', 'status', 'line', 'bytes', 'sha256']
NOTE = '# Values come from another program written from the same rules, or by hand from the rules; none from doomview.'
FULL, MAY_BE_FULL, READS, FILES = 'full', 'may be full', 'reads ', 'files '
ZONES = (FULL, MAY_BE_FULL)
ZONE_FULL = '6'  # the status
ZONE_LINE = re.compile(r'doomview: zone full wanted (\d+) widest (\d+)')
SECONDS = 300  # after which a run is given up


@dataclasses.dataclass(frozen=True)
class Outcome:
    """How a run ended: its status, its line, and how many bytes it wrote with what sum; of a run whose zone was full
    also whether it wrote a beginning of what is expected; and what is wrong at pixels that are known by hand."""
    status: str
    line: str
    length: str
    sum: str
    is_part: bool = False
    wrong: tuple[str, ...] = ()


@dataclasses.dataclass(frozen=True)
class Pixel:
    """What a case writes of a pixel: the record of a trace, or the colour of a frame."""
    view: int
    column: int
    row: int
    expected: bytes

    def difference(self, output: bytes) -> list[str]:
        """What differs at this pixel of an output, in a few words; nothing where it is as expected."""
        size = len(self.expected)
        at = size * (PIXELS_OF_A_VIEW * self.view + WIDTH * self.row + self.column)
        came = output[at:at + size]
        if came == self.expected:
            return []
        place = f'view {self.view} column {self.column} row {self.row}'
        return [f'{place}: {self.expected.hex()} expected, {came.hex() or "none"} came']


@dataclasses.dataclass(frozen=True)
class Case:
    """A case of a table. `how` is empty, or tells of the zone (`full`, `may be full`), of the reader of the output
    (`reads N`: it goes after so many bytes) or of how many files may be open (`files N`), or has what a shell does with the
    streams (`>&-`)."""
    table: str
    name: str
    words: str
    how: str
    expected: Outcome
    pixels: tuple[Pixel, ...] = ()

    def arguments(self) -> list[str]:
        """The words as the program gets them; %FF among them is a byte."""
        return [os.fsdecode(urllib.parse.unquote_to_bytes(word)) for word in shlex.split(self.words)]

    def wrong_pixels(self, output: bytes) -> tuple[str, ...]:
        """What differs at the pixels that are known by hand."""
        return tuple(line for pixel in self.pixels for line in pixel.difference(output))

    def shell(self) -> str:
        """The line of a shell that runs the words, or nothing where none is needed."""
        if self.how.startswith(FILES):
            return f'ulimit -n {self.how[len(FILES):]}; exec "$0" "$@"'
        return '' if not self.how or self.how in ZONES else f'exec "$0" "$@" {self.how}'

    def row(self, outcome: Outcome) -> str:
        """The line of the table where it ends so."""
        text = io.StringIO()
        csv.writer(text, lineterminator='\n').writerow(
            [self.name, self.words, self.how, outcome.status, outcome.line, outcome.length, outcome.sum])
        return text.getvalue()


def table_names() -> list[str]:
    return sorted(name[:-4] for name in os.listdir(TABLES) if name.endswith('.csv'))


def read_rows(path: str, header: list[str]) -> list[list[str]]:
    """The rows under the header of a table; lines that begin with # are notes."""
    with open(path, encoding='utf-8', newline='') as file:
        rows = [row for row in csv.reader(file) if row and not row[0].startswith('#')]
    if rows[:1] != [header]:
        raise ValueError(f'the first line of {os.path.basename(path)} is not {",".join(header)}')
    return rows[1:]


@functools.lru_cache(maxsize=None)
def known_pixels() -> dict[str, list[Pixel]]:
    """The pixels that are known by hand, by the name of their case."""
    pixels: dict[str, list[Pixel]] = {}
    for name, view, column, row, expected in read_rows(PIXELS, PIXEL_HEADER):
        pixels.setdefault(name, []).append(Pixel(int(view), int(column), int(row), bytes.fromhex(expected)))
    return pixels


def read_table(table: str) -> list[Case]:
    rows = read_rows(os.path.join(TABLES, f'{table}.csv'), HEADER)
    return [case_of(table, *row, *[''] * (len(HEADER) - len(row))) for row in rows]


def case_of(table: str, name: str, words: str, how: str, *expected: str) -> Case:
    status, line, length, digest = expected
    return Case(table, name, words, how, Outcome(status, line, length, digest), tuple(known_pixels().get(name, ())))


def differences(case: Case, outcome: Outcome) -> list[str]:
    """What differs between what is expected of a case and how it ended, a few words each."""
    expected = case.expected
    if case.how == FULL or case.how == MAY_BE_FULL and outcome.status == ZONE_FULL:
        return zone_differences(outcome)
    fields = [('status', expected.status, outcome.status), ('line', expected.line, outcome.line),
              ('bytes', expected.length, outcome.length), ('sum', expected.sum, outcome.sum)]
    found = [f'{name} {want or "none"} expected, {came or "none"} came' for name, want, came in fields if want != came]
    return [*found, *outcome.wrong]


def zone_differences(outcome: Outcome) -> list[str]:
    """The same of a run whose zone has to be full."""
    if outcome.status != ZONE_FULL:
        return [f'status {ZONE_FULL} expected, {outcome.status} came']
    found = []
    sizes = ZONE_LINE.fullmatch(outcome.line)
    if not sizes or int(sizes[2]) >= int(sizes[1]):
        found.append(f'line of a full zone expected, {outcome.line or "none"} came')
    if not outcome.is_part:
        found.append(f'a beginning of {outcome.length} bytes of the whole output expected, others came')
    return found


class Runner:
    """Runs cases with a program over files in a folder."""

    def __init__(self, program: str, folder: str) -> None:
        self.program, self.folder = program, folder

    def run(self, case: Case) -> Outcome:
        """How a case ends."""
        if case.how.startswith(READS):
            return self.read(case.arguments(), int(case.how[len(READS):]))
        command = [self.program, *case.arguments()]
        if case.shell():
            command = ['sh', '-c', case.shell(), *command]
        outcome, output = self.call(command)
        if outcome.status == ZONE_FULL and case.how in ZONES:
            whole, beginning = self.call([self.program, *without_zone(case.arguments())])
            is_part = whole == case.expected and beginning.startswith(output)
            return dataclasses.replace(outcome, is_part=is_part)
        return dataclasses.replace(outcome, wrong=case.wrong_pixels(output))

    def expect(self, case: Case) -> Outcome:
        """What a table is to have of a case: in a zone that may be full what a run in another zone writes."""
        if case.how in ZONES:
            return self.call([self.program, *without_zone(case.arguments())])[0]
        return self.run(case)

    def call(self, command: list[str]) -> tuple[Outcome, bytes]:
        """How a command ends, and what it writes."""
        try:
            done = subprocess.run(command, cwd=self.folder, stdin=subprocess.DEVNULL, stdout=subprocess.PIPE,
                                  stderr=subprocess.PIPE, timeout=SECONDS)
        except subprocess.TimeoutExpired:
            return Outcome('none', f'no end after {SECONDS} seconds', '0', ''), b''
        return outcome_of(done.returncode, done.stdout, done.stderr), done.stdout

    def read(self, arguments: list[str], count: int) -> Outcome:
        """How a run ends whose reader takes so many bytes and goes; its write then fails, without a signal."""
        with subprocess.Popen([self.program, *arguments], cwd=self.folder, stdin=subprocess.DEVNULL,
                              stdout=subprocess.PIPE, stderr=subprocess.PIPE, restore_signals=False) as process:
            assert process.stdout and process.stderr, 'both are pipes'
            output = process.stdout.read(count)
            process.stdout.close()
            line = process.stderr.read()
        return outcome_of(process.returncode, output, line)


def without_zone(arguments: list[str]) -> list[str]:
    """Words without the option --zone."""
    kept, skipped = [], False
    for word in arguments:
        if not skipped and word != '--zone' and not word.startswith('--zone='):
            kept.append(word)
        skipped = word == '--zone'
    return kept


def outcome_of(status: int, output: bytes, line: bytes) -> Outcome:
    text = line.decode('utf-8', 'backslashreplace')
    text = text[:-1] if text.endswith('\n') else text and text + ' without a line end'
    return Outcome(str(status), text, str(len(output)), hashlib.sha256(output).hexdigest())
