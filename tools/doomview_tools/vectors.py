"""Vectors: for viewpoints of a WAD's maps the sums of the frames that are right there (docs/VECTORS.md).

A vector is a row of a file of the folder `vectors`. `of_map(wad, name)` makes those of a map, `read(path)` reads a
file, `frames(..)` draws doomview's frames of some, and `rule_of(..)` says what a port's frame at a vector is."""
import collections
import csv
import hashlib
import io
import itertools
import math
import os
import tempfile
import typing
import zlib
from collections.abc import Iterable, Iterator

from . import beside_vectors, levels, original, paths, vectors_map, wads, weapons
from .doom import EVERY_SKILL
from .frames import SIZE
from .trouble import Trouble

DIGITS, BANDS, BAND_DIGITS = 16, 10, 4  # of SHA-256; a band is 20 rows of pixels, with digits of its CRC-32
PLACES, SEED = 20, 1
MADE = 'made'  # the set of the made map
SETS = ['near', 'sizes', 'skills', 'light', 'weapons', MADE]
MORE = ['E1M1', 'E2M4', 'E4M2', 'MAP01', 'MAP07', 'MAP19']  # the maps that have all sets
SOME = 3  # places of each size and skill
LIT = 16
FAR = 1024  # map units
SKILL, SIZE_OF_VIEW = 3, 11
PISTOL = (weapons.raised_layer('PISG'),)
HELD = [PISTOL, (weapons.raised_layer('PUNG'),), (weapons.raised_layer('SHTG', 'B'),),
        (weapons.raised_layer('PISG', 'B'), weapons.raised_layer('PISF', 'A', 1)),
        (weapons.raised_layer('MISG', 'B'), weapons.raised_layer('MISF', 'B', 1)),
        (weapons.Layer('CHGG', 'A', 0, -700000, 40 * weapons.UNIT + 12345),)]
COLORMAPS, EXTRA_LIGHTS = [1, 32, 16, 8, 24, 31], [1, 2, 3, 5, 8, 15]  # under which weapons are held too
SMALLER = 7  # a size of the view, at which a weapon is held too
WADS, WADS_HEAD = 'wads.csv', ['vectors', 'wad', 'version', 'sha256', 'lumps']  # beside the vectors: the WADs of each
NONE = '-'  # the sum where a run ends without the frame


class Vector(typing.NamedTuple):
    """A vector: a row of a file, whose columns have these names."""

    set: str
    map: str
    view: int
    skill: int
    size: int
    weapon: str
    x: int
    y: int
    z: int
    angle: int
    extralight: int
    colormap: int
    frame: str
    packed: str
    answer: str
    original: str
    bands: str
    packedbands: str = ''


class Group(typing.NamedTuple):
    """Views of one run: of a set, with one skill, size and weapon."""

    set: str
    skill: int
    size: int
    layers: tuple[weapons.Layer, ...]
    rows: list[paths.Row]


def is_before(row: paths.Row, thing: levels.Thing) -> bool:
    """Whether a thing is less than FAR before an eye, and within 45 degrees of where it looks."""
    x, y = thing.x - row.x / levels.UNIT, thing.y - row.y / levels.UNIT
    off = math.atan2(y, x) - row.angle * 2 * math.pi / levels.TURN
    return math.hypot(x, y) < FAR and math.cos(off) > math.sqrt(0.5)


def by_skill(level: levels.Level, rows: list[paths.Row]) -> list[paths.Row]:
    """The rows in whose sight the most things are that not every skill has."""
    some = [thing for thing in level.things if 0 < thing.options & EVERY_SKILL < EVERY_SKILL]
    return sorted(rows, key=lambda row: -sum(is_before(row, thing) for thing in some))[:SOME]


def groups(level: levels.Level, rows: list[paths.Row]) -> Iterator[Group]:
    """The runs of a map: rows at which one can stand, and of some maps all sets."""
    yield Group('near', SKILL, SIZE_OF_VIEW, (), rows)
    if level.name not in MORE:
        return
    for size in range(3, 11):
        yield Group('sizes', SKILL, size, (), rows[:SOME])
    for skill in (1, 2, 4, 5):
        yield Group('skills', skill, SIZE_OF_VIEW, (), by_skill(level, rows))
    lit = [row._replace(extralight=i) if i % 2 else row._replace(colormap=2 * i)
           for i, row in enumerate(rows[:LIT + 1])]
    yield Group('light', SKILL, SIZE_OF_VIEW, (), lit[1:])
    yield from held(rows)


def held(rows: list[paths.Row]) -> Iterator[Group]:
    """The runs with weapons: as it is, under a fixed colormap and extra light, and at a smaller size."""
    for i, layers in enumerate(HELD):
        yield Group('weapons', SKILL, SIZE_OF_VIEW, layers, rows[i:i + 2])
    for i, layers in enumerate(HELD):
        lit = [rows[i]._replace(colormap=COLORMAPS[i]), rows[i + 1]._replace(extralight=EXTRA_LIGHTS[i])]
        yield Group('weapons', SKILL, SIZE_OF_VIEW, layers, lit)
    yield Group('weapons', SKILL, SMALLER, PISTOL, rows[:2])


def sum_of(frame: bytes) -> str:
    return hashlib.sha256(frame).hexdigest()[:DIGITS] if frame else NONE


def bands_of(frame: bytes) -> str:
    """Short sums of the bands of a frame, which say where another one differs."""
    step = SIZE // BANDS
    sums = (zlib.crc32(frame[step * i:step * (i + 1)]) for i in range(BANDS))
    return ''.join(f'{number:08x}'[-BAND_DIGITS:] for number in sums) if frame else NONE


def words_of(group: Group) -> tuple[list[str], list[str]]:
    """The words of a run for doomview and for the original."""
    skill, size = str(group.skill), str(group.size)
    return ['--skill', skill, '--size', size], ['-skill', skill, '-size', size]


def run_of(folder: str, wad: str, name: str, group: Group, spans: str = 'full') -> original.Run:
    return original.Run(folder, wad, name, group.rows, *words_of(group), group.layers, spans)


def vectors_of(run: original.Run, group: Group, first: int) -> Iterator[Vector]:
    """The vectors of a run, numbered from `first` on."""
    answer = run.compare()
    packed, ended = run.still(list(range(len(group.rows))), 'still', original.PACKED)
    for i, row in enumerate(group.rows):
        ours, full = run.ours.get(i, b''), run.port.get(i, b'')
        drawn = b'' if answer[i] in ('ended', 'ranges') else full
        dos = b'' if i in ended else packed[i]
        yield Vector(group.set, run.name, first + i, group.skill, group.size, weapons.word(group.layers), *row,
                     sum_of(ours), sum_of(dos), answer[i], '' if answer[i] == 'same' else sum_of(drawn),
                     bands_of(ours), bands_of(dos))


def of_map(wad: str, name: str, places: int = PLACES) -> list[Vector]:
    """The vectors of a map, drawn by doomview and by the original."""
    counts: collections.Counter[str] = collections.Counter()
    found: list[Vector] = []
    level = levels.read([wad], name)
    for group in groups(level, paths.places(level, places, SEED)):
        with tempfile.TemporaryDirectory(prefix='doomview-') as folder:
            found += vectors_of(run_of(folder, wad, name, group), group, counts[group.set])
        counts[group.set] += len(group.rows)
    return found


def label_of_made(wad: str) -> str:
    """The name of the made map over a game's WAD; an empty text where the WAD lacks what the map needs."""
    lumps = [(lump.name.encode('latin-1'), lump.data) for lump in wads.read(wad)]
    is_game = vectors_map.NEEDED <= {name.decode('latin-1') for name, _ in lumps}
    return beside_vectors.asked('made', 'label_of', lumps) if is_game else ''


def of_made(wad: str) -> list[Vector]:
    """The vectors of the made map over a game's WAD; none where it lacks what the map needs."""
    label = label_of_made(wad)
    if not label:
        return []
    group = Group(MADE, SKILL, SIZE_OF_VIEW, (), vectors_map.rows())
    with tempfile.TemporaryDirectory(prefix='doomview-') as folder:
        made = beside_vectors.asked('made', 'write', wad, os.path.join(folder, MADE))
        return list(vectors_of(run_of(folder, made, label, group), group, 0))


def text(vectors: Iterable[Vector]) -> str:
    """The text of a file of vectors."""
    out = io.StringIO()
    table = csv.writer(out, lineterminator='\n')
    table.writerow(Vector._fields)
    table.writerows(vectors)
    return out.getvalue()


def wads_text(folder: str, name: str, wad: str) -> str:
    """The text of a folder's table of WADs with the WAD of the vectors of a name, in the place of an older line."""
    rows = beside_vectors.asked('games', 'known', folder)
    own = {'vectors': name, 'wad': os.path.basename(wad), 'sha256': beside_vectors.asked('games', 'sum_of', wad),
           'lumps': beside_vectors.asked('games', 'sum_of_lumps', wad)}
    same: dict[str, str] = next((row for row in rows if (row['vectors'], row['sha256']) == (name, own['sha256'])), {})
    out = io.StringIO()
    table = csv.DictWriter(out, WADS_HEAD, restval='', extrasaction='ignore', lineterminator='\n')
    table.writeheader()
    table.writerows([*(row for row in rows if row['vectors'] != name), {**same, **own}])
    return out.getvalue()


def check_wad(path: str, wad: str) -> None:
    """A Trouble where the vectors of a file are of another WAD, with both sums."""
    sentence, is_right = beside_vectors.asked('games', 'told', wad, path)
    if not is_right:
        raise Trouble(sentence)


def vector_of(record: dict[str, str]) -> Vector:
    """The vector of a row of a file, by the names of its columns."""
    texts = ('set', 'map', 'weapon', 'frame', 'packed', 'answer', 'original', 'bands', 'packedbands')
    record = {**Vector._field_defaults, **record}
    fields: dict[str, typing.Any] = {name: record[name] if name in texts else int(record[name])
                                     for name in Vector._fields}
    return Vector(**fields)


def read(path: str) -> list[Vector]:
    """The vectors of a file."""
    try:
        with open(path, newline='', encoding='utf-8') as file:
            found = [vector_of(record) for record in csv.DictReader(file)]
    except OSError as error:
        raise Trouble(f'cannot read {path}: {error.strerror}') from error
    except (ValueError, KeyError, TypeError, csv.Error):
        found = []
    if not found:
        raise Trouble(f'{path} is no file of vectors; take one of the folder vectors')
    return found


def row_of(vector: Vector) -> paths.Row:
    return paths.Row(*(getattr(vector, name) for name in paths.Row._fields))


def file_name(map_name: str, kind: str) -> str:
    """The name of the file of a port's frames of a map and a set."""
    return map_name + ('' if kind == SETS[0] else f'-{kind}') + '.bin'


def key_of(vector: Vector) -> tuple[str, int, int, tuple[weapons.Layer, ...]]:
    """What the vectors of one run have in common."""
    return vector.set, vector.skill, vector.size, weapons.of_word(vector.weapon)


def frames(wad: str, vectors: Iterable[Vector], spans: str = 'full') -> bytes:
    """doomview's frames of vectors of one map and set, one after the other, with full or packed spans; zeros for a view
    that a run would end."""
    drawn = []
    for key, part in itertools.groupby(vectors, key_of):
        of_run = list(part)
        with tempfile.TemporaryDirectory(prefix='doomview-') as folder:
            of_set = wad if key[0] != MADE else beside_vectors.asked('made', 'write', wad, os.path.join(folder, MADE))
            run = run_of(folder, os.path.abspath(of_set), of_run[0].map, Group(*key, [row_of(row) for row in of_run]),
                         spans)
            run.draw({i for i, vector in enumerate(of_run) if vector.frame == NONE})
            drawn += [run.ours.get(i, bytes(SIZE)) for i in range(len(of_run))]
    return b''.join(drawn)


def of_frames(path: str, frames_path: str) -> list[Vector]:
    """The vectors of a file of frames, by its name: MAP01.bin, or MAP01-sizes.bin."""
    name = os.path.basename(frames_path)
    found = [vector for vector in read(path) if file_name(vector.map, vector.set) == name]
    if not found:
        raise Trouble(f'{path} has no vectors of {name}; a file of frames is named as its map, such as MAP01.bin')
    return found


def rule_of(vector: Vector, ours: bytes, frame: bytes) -> str:
    """In a word or two what a port's frame that is not doomview's is at a vector, or an empty text. What is the
    original's in the spans of doomview's frame comes first."""
    original_one = f"the original's frame ({vector.answer})" if vector.answer != 'same' else 'packed spans'
    if sum_of(ours) == vector.frame:
        names = {vector.packed: 'packed spans', vector.original: original_one}
    else:
        names = {vector.frame: 'full spans', vector.original: 'full spans', vector.packed: original_one}
    return names.get(sum_of(frame), '')
