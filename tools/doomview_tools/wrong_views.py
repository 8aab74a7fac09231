"""What `vectors/ci` left of a test of a port: which views are wrong, and what the port drew at them.

`tests(folder)` reads the tests of a folder WORK, one for each WAD. A test chooses some of its wrong views."""
import collections
import itertools
import json
import os
import typing
from collections.abc import Iterator, Sequence

from . import beside_vectors, vectors, wads
from .trouble import Trouble
from .vectors import Vector

FOUND, VECTORS, RUNS = 'found.json', 'vectors.csv', 'runs'  # what ci writes into the folder of a WAD's frames
WRONG, MISSING, NO_VERDICT = 'wrong', 'missing', 'departs'
OTHER_SPANS = {'packed': 'packed', 'full': 'full'}  # words of views that are wrong for their spans alone
Key = tuple[str, str]  # a map and a set


class View(typing.NamedTuple):
    """A view of a test: its vector, what check called it, whether that is wrong, and which frame of a file it is."""

    vector: Vector
    word: str
    is_wrong: bool
    file: str
    number: int

    @property
    def name(self) -> str:
        return f'{self.vector.map} {self.vector.set} view {self.vector.view}'


class Run(typing.NamedTuple):
    """A run of the port: a line of the file runs."""

    map: str
    set: str
    skill: str
    size: str
    views: int
    base: str


class Test:
    """What ci left of the test of a WAD."""

    def __init__(self, folder: str) -> None:
        self.folder = os.path.abspath(folder)
        found = read_json(os.path.join(folder, FOUND))
        self.spans: str = 'full' if found['spans'] == 'either' else found['spans']
        self.wad, self.vectors_name = os.path.abspath(wad_of_found(found)), found['vectors']
        rows = vectors.read(os.path.join(folder, VECTORS))
        by_key = {(it['map'], it['set'], it['view']): it for it in found['views']}
        self.runs = read_runs(os.path.join(folder, RUNS))
        self.views = list(self.placed(rows, by_key))

    def placed(self, rows: list[Vector], found: dict[tuple[str, str, int], dict[str, typing.Any]]) -> Iterator[View]:
        """The views that were checked, each with its file: the runs of a map and set have its rows in their order."""
        of_part = collections.defaultdict(list)
        for row in rows:
            of_part[row.map, row.set].append(row)
        left = {key: iter(part) for key, part in of_part.items()}
        for run in self.runs:
            for number, row in enumerate(itertools.islice(left[run.map, run.set], run.views)):
                known = found.get((row.map, row.set, row.view))
                if known:
                    yield View(row, known['word'], known['wrong'], run.base, number)

    def of_word(self, word: str) -> list[View]:
        """The views that check called so and that are wrong, or without a verdict."""
        return [view for view in self.views if view.word == word and (view.is_wrong or word == NO_VERDICT)]

    def chosen(self, most: int) -> list[View]:
        """Some of the wrong views: the first of each map and set, the second of each and so on, in their order."""
        parts: dict[Key, list[View]] = collections.defaultdict(list)
        for view in self.of_word(WRONG):
            parts[view.vector.map, view.vector.set].append(view)
        turns = (view for turn in itertools.zip_longest(*parts.values()) for view in turn if view)
        some = set(itertools.islice(turns, most))
        return [view for view in self.views if view in some]

    def frames(self, views: Sequence[View]) -> list[bytes]:
        """The port's frames of some views, as indices; a Trouble where a picture is no frame."""
        palette = beside_vectors.asked('pictures', 'palette_of_wad', self.wad)
        found: dict[View, bytes] = {}
        for base, part in itertools.groupby(views, lambda view: view.file):
            of_file = list(part)
            file = beside_vectors.asked('views', 'of_name', self.folder, base, palette)
            drawn = list(file.take(max(view.number for view in of_file) + 1)) if file else []
            found.update((view, drawn[view.number].data) for view in of_file if drawn and drawn[view.number])
        return [found.get(view, b'') for view in views]

    def wad_of(self, vector: Vector) -> str:
        """The WAD that a vector is of: of the made map the one that ci wrote, or the same anew."""
        if vector.set != vectors.MADE:
            return self.wad
        folder = os.path.join(self.folder, vectors.MADE)
        path = os.path.join(folder, os.path.basename(self.wad))
        return path if os.path.isfile(path) else beside_vectors.asked('made', 'write', self.wad, folder)

    def said(self, base: str) -> str:
        """What the port said in a run, or an empty text."""
        try:
            with open(os.path.join(self.folder, 'said', f'{base}.txt'), encoding='utf-8', errors='replace') as file:
                return file.read().strip()
        except OSError:
            return ''


def read_json(path: str) -> dict[str, typing.Any]:
    """What check found; a Trouble where the file is another."""
    try:
        with open(path, encoding='utf-8') as file:
            found = json.load(file)
    except (OSError, ValueError) as error:
        raise Trouble(f'cannot read {path}, which vectors/ci writes') from error
    if not isinstance(found, dict) or not {'views', 'spans', 'vectors', 'wad', 'sum'} <= set(found):
        raise Trouble(f'{path} is not what vectors/ci writes')
    return found


def read_runs(path: str) -> list[Run]:
    """The runs that ci let the port make."""
    try:
        with open(path, encoding='utf-8') as file:
            lines = [line.split() for line in file]
    except OSError as error:
        raise Trouble(f'cannot read {path}, which vectors/ci writes') from error
    return [Run(line[0], line[1], line[2], line[3], int(line[4]), line[5]) for line in lines]


def wad_of_found(found: dict[str, str]) -> str:
    """The WAD of a test: where it was, or an installed one of that name; a Trouble where it is another now."""
    name = os.path.basename(found['wad'])
    path = found['wad'] if os.path.isfile(found['wad']) else wads.find_or_none(name)
    if path is None:
        raise Trouble(f'{found["wad"]} is not there any more, and no {name} is installed')
    now = beside_vectors.asked('games', 'sum_of', path)
    if now != found['sum']:
        raise Trouble(f'{path} has the SHA-256 {now}; the frames were drawn of a WAD with {found["sum"]}')
    return path


def tests(folder: str) -> list[Test]:
    """The tests of a folder WORK."""
    if not os.path.isdir(folder):
        raise Trouble(f'there is no folder {folder}')
    found = [os.path.join(folder, name) for name in sorted(os.listdir(folder))
             if os.path.isfile(os.path.join(folder, name, FOUND))]
    if not found:
        raise Trouble(f'{folder} has no test of a port: vectors/ci leaves one in the folder that WORK names')
    return [Test(one) for one in found]
