"""Frames of many camera paths: each path of a folder is drawn to a file of frames, beyond views over a limit, and goes on
where it was interrupted.

Of the path MAP01-a.csv the file is MAP01-a.bin, beside it MAP01-a.drawn, which says of which words it is, how many views it
has, and which of them are over a limit: their frames are 0. While it is drawn the frames are in .MAP01-a.bin.part, and the
words and such views in .MAP01-a.drawn.part."""
import hashlib
import os
import re
import subprocess
import tempfile
import threading
import typing
from collections.abc import Iterable, Sequence

from . import paths, program
from .files import check_target, write_whole
from .frames import SIZE
from .jobs import LIMIT
from .trouble import Trouble

ENDING, FRAMES, RECORD, PART = '.csv', '.bin', '.drawn', '.part'
NAME = re.compile('([A-Za-z0-9_]+)(?:-.*)?')
OVER = re.compile(r'doomview: limit view (\d+) (planes|openings) (\d+)')
DIGITS = 16  # of a sum
CHUNK = 1 << 20


class Over(typing.NamedTuple):
    """A view over a limit: its number, the limit, and how many of that it has."""

    view: int
    what: str
    number: int


class Path(typing.NamedTuple):
    """A camera path to draw: its file and its name without ending, its map, and where its frames go."""

    file: str
    name: str
    map: str
    folder: str

    def target(self, ending: str) -> str:
        return os.path.join(self.folder, self.name + ending)

    def part(self, ending: str) -> str:
        """The file that has a part of what a target will have."""
        return os.path.join(self.folder, f'.{self.name}{ending}{PART}')


class Drawn(typing.NamedTuple):
    """A path that was drawn: its views, those over a limit, whether that was done before, and what was wrong."""

    path: Path
    views: int
    over: list[Over]
    is_old: bool = False
    trouble: str = ''


def in_folder(place: str, maps: Sequence[str], folder: str) -> list[Path]:
    """The camera paths of a folder, or the one that is named; a Trouble where there are none, or one of no map."""
    files = [place] if os.path.isfile(place) else []
    if os.path.isdir(place):
        files = [os.path.join(place, name) for name in sorted(os.listdir(place))
                 if name.endswith(ENDING) and not name.startswith('.')]
    if not files:
        raise Trouble(f'{place} has no camera paths; their names are those of maps, as MAP01.csv, or MAP01-any.csv')
    found = []
    for file in files:
        name = os.path.splitext(os.path.basename(file))[0]
        own = NAME.fullmatch(name)
        if not own or own[1].upper() not in maps:
            raise Trouble(f'{file} is named after no map of the WAD; the name of a path is that of a map, as MAP01.csv, or '
                          'begins so, as MAP01-any.csv')
        found.append(Path(file, name, own[1].upper(), folder))
    return found


def sum_of(parts: Iterable[bytes]) -> str:
    digest = hashlib.sha256()
    for part in parts:
        digest.update(part)
    return digest.hexdigest()[:DIGITS]


def sum_of_file(path: str) -> str:
    with open(path, 'rb') as file:
        return sum_of(iter(lambda: file.read(CHUNK), b''))


class Drawing:
    """Draws paths over some WADs by some words of the job render."""

    def __init__(self, wads: list[str], words: list[str]) -> None:
        self.wads, self.words = wads, words
        self.base = ' '.join([*(sum_of_file(path) for path in [*wads, program.ready()]), *words])
        self.runs: set[subprocess.Popen[bytes]] = set()
        self.lock, self.is_ended = threading.Lock(), False

    def inputs(self, path: Path) -> str:
        """A sum of all that the frames of a path come from."""
        return sum_of([self.base.encode(), path.map.encode(), sum_of_file(path.file).encode()])

    def known(self, path: Path) -> Drawn:
        """A path that is drawn already, as it would be now; one that is not has a trouble."""
        views, record = len(paths.rows(path.file)), read_record(path.target(RECORD))
        size = os.path.getsize(path.target(FRAMES)) if os.path.isfile(path.target(FRAMES)) else -1
        if size != SIZE * views or not record or record[0] != self.inputs(path):
            return Drawn(path, 0, [], trouble='it is not drawn; what its machine said says why')
        return Drawn(path, views, record[1], True)

    def draw(self, path: Path) -> Drawn:
        """Draws a path, unless it is drawn already; goes on where a part is drawn."""
        try:
            rows, inputs = paths.rows(path.file), self.inputs(path)
            known = self.known(path)
            if not known.trouble:
                return known
            check_target(path.target(FRAMES))
            check_target(path.part(FRAMES))
            over = self.begin(path, inputs)
            trouble = self.go_on(path, rows, over)
            if trouble:
                return Drawn(path, len(rows), over, trouble=trouble)
            write_whole(path.target(RECORD), record_text(inputs, over).encode())
            os.replace(path.part(FRAMES), path.target(FRAMES))
            os.remove(path.part(RECORD))
            return Drawn(path, len(rows), over)
        except Trouble as error:
            return Drawn(path, 0, [], trouble=str(error))
        except OSError as error:
            return Drawn(path, 0, [], trouble=f'cannot write {error.filename or path.target(FRAMES)}: {error.strerror}')

    def begin(self, path: Path, inputs: str) -> list[Over]:
        """The views over a limit of the part that is drawn already; begins anew where it is of other words."""
        record = read_record(path.part(RECORD))
        if record and record[0] == inputs and os.path.isfile(path.part(FRAMES)):
            return record[1]
        with open(path.part(FRAMES), 'wb'):
            pass
        with open(path.part(RECORD), 'w', encoding='utf-8') as file:
            file.write(record_text(inputs, []))
        return []

    def go_on(self, path: Path, rows: list[paths.Row], over: list[Over]) -> str:
        """Draws the views of a path that are not drawn; what is wrong, or an empty text."""
        while True:
            done = os.path.getsize(path.part(FRAMES)) // SIZE
            os.truncate(path.part(FRAMES), SIZE * done)
            over[:] = [one for one in over if one.view < done]
            if done >= len(rows):
                return ''
            status, line = self.run(path, rows[done:])
            found = OVER.match(line)
            if status == LIMIT and found:
                over.append(Over(done + int(found[1]), found[2], int(found[3])))
                mark(path, over[-1])
            elif status or os.path.getsize(path.part(FRAMES)) != SIZE * len(rows):
                return line or f'the program ended with {status}'

    def run(self, path: Path, rows: list[paths.Row]) -> tuple[int, str]:
        """Draws rows behind the frames that are there; the status, and the last line of what was said."""
        with tempfile.NamedTemporaryFile('w', prefix='doomview-', suffix=ENDING, encoding='utf-8') as rest, \
                open(path.part(FRAMES), 'ab') as part:
            rest.write(paths.text(rows))
            rest.flush()
            with self.lock:
                if self.is_ended:
                    return 1, 'it was ended'
                run = program.start(['render', path.map, *self.wads, '--path', rest.name, *self.words], stdout=part,
                                    stderr=subprocess.PIPE, stdin=subprocess.DEVNULL)
                self.runs.add(run)
            said = run.communicate()[1].decode(errors='replace').splitlines()
            with self.lock:
                self.runs.discard(run)
        return run.returncode, said[-1] if said else ''

    def end(self) -> None:
        """Ends the runs that are under way."""
        with self.lock:
            self.is_ended = True
            for run in self.runs:
                run.terminate()


def mark(path: Path, over: Over) -> None:
    """Puts a frame of 0 in the place of a view over a limit, and notes that."""
    with open(path.part(RECORD), 'a', encoding='utf-8') as file:
        file.write(f'{" ".join(map(str, over))}\n')
    with open(path.part(FRAMES), 'ab') as file:
        file.truncate(SIZE * over.view)
        file.write(bytes(SIZE))


def record_text(inputs: str, over: list[Over]) -> str:
    return ''.join(f'{line}\n' for line in [inputs, *(' '.join(map(str, one)) for one in over)])


def read_record(path: str) -> typing.Optional[tuple[str, list[Over]]]:
    """What the record of a path says: the sum of its inputs, and its views over a limit; None where there is none."""
    try:
        with open(path, encoding='utf-8') as file:
            inputs, *lines = file.read().splitlines()
        return inputs, [Over(int(view), what, int(count)) for view, what, count in map(str.split, lines)]
    except (OSError, ValueError):
        return None


def views_drawn(path: Path) -> int:
    """How many views of a path are drawn so far."""
    for file in (path.target(FRAMES), path.part(FRAMES)):
        if os.path.isfile(file):
            return os.path.getsize(file) // SIZE
    return 0


def over_in_words(over: list[Over]) -> str:
    return '; '.join(f'{one.view} {one.what} {one.number}' for one in over)


def table(drawn: Iterable[Drawn]) -> str:
    """The table of what was drawn: a line for each path."""
    lines = [f'{one.path.name},{one.path.map},{one.views},{len(one.over)},{over_in_words(one.over)}' for one in drawn
             if not one.trouble]
    return '\n'.join(['path,map,views,over,views over a limit', *lines]) + '\n'
