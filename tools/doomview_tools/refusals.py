"""Refusals in words: what the numbers behind a code mean, by names from the files of the call.

What is wrong and how to mend it is in docs/REFUSALS.md, code by code."""
import csv
import itertools
import os
import re
import struct
from collections.abc import Callable, Iterable, Iterator

from . import art, checks, doom, installation, levels, wads
from .call_words import Words
from .trouble import Trouble, WadError

Numbers = list[int]  # of a refusal
Sentences = Iterator[str]
FIELDS = [['x', 'y', 'angle', 'type', 'options'],
          ['vertex 1', 'vertex 2', 'flags', 'special', 'tag', 'side 0', 'side 1'],
          ['x offset', 'y offset', 'top', 'bottom', 'middle', 'sector'],
          ['x', 'y'],
          ['vertex 1', 'vertex 2', 'angle', 'line', 'side of the line', 'offset'],
          ['count of segs', 'first seg'],
          ['x', 'y', 'dx', 'dy'] + ['a box'] * 8 + ['child 0', 'child 1'],
          ['floor', 'ceiling', 'floor flat', 'ceiling flat', 'light', 'special', 'tag']]
SIDEDEFS, SEGS, SIDE_OF_LINE = 2, 4, 4  # numbers of lumps, and a field of a seg
TABLES = {2: '--things', 3: '--path', 10: '--weapon'}  # of each group of codes the option
SPRITE, FRAME, FLAG, WORD = 'four letters from ! to ~', 'a letter from A to ]', '0 or 1', '-2147483648 to 2147483647'
COLUMNS = {2: [('type', '0 to 65535'), ('sprite', SPRITE), ('frame', FRAME), ('bright', FLAG), ('hang', '0 to 32767'),
               ('shadow', FLAG)],
           3: [('x', WORD), ('y', WORD), ('z', WORD), ('angle', '0 to 4294967295'), ('extralight', '0 to 15'),
               ('colormap', '0 to 32')],
           10: [('view', '0 to 9999'), ('sprite', SPRITE), ('frame', FRAME), ('bright', FLAG), ('sx', WORD),
                ('sy', WORD)]}
OF_ROWS, OF_COLUMNS = (3, 4, 5, 6, 11, 12), (4, 5)  # codes of a group whose numbers are a row, and a column
MOST_DEPTH = 1024
NO_MAP = 601
SHOWN_LINES = 12


def codes() -> dict[int, tuple[str, str]]:
    """From REFUSALS.md: for each code what is wrong and how to mend it. `the same` is what stands above."""
    try:
        with open(os.path.join(installation.DOCS, 'REFUSALS.md'), encoding='utf-8') as file:
            rows = re.findall(r'^\| (\d{3,4}) \|([^|\n]*)\|([^|\n]*)\|([^|\n]*)\|', file.read(), re.M)
    except OSError:
        rows = []
    answer, last = {}, ''
    for code, _, wrong, mend in rows:
        mend = mend.strip()
        last = last + mend[len('the same'):] if mend.startswith('the same') else mend
        answer[int(code)] = wrong.strip(), last
    return answer


def head_of(path: str) -> bytes:
    """The first four bytes of a plain file, or none."""
    try:
        with open(path if os.path.isfile(path) else os.devnull, 'rb') as file:
            return file.read(4)
    except OSError:
        return b''


def in_words(parts: Iterable[object]) -> str:
    """Words with commas and `and`."""
    words = list(map(str, parts))
    return words[0] if len(words) == 1 else ', '.join(words[:-1]) + ' and ' + words[-1]


class Scene:
    """The WADs of a call and the level that it names, as far as they can be read."""

    def __init__(self, words: Words) -> None:
        self.wads, self.map_name = words.wads, words.map_name.upper()
        self.lumps: list[wads.Lump] = []
        self.places: list[str] = []  # of each lump its WAD
        for wad in self.wads:
            try:
                read = wads.read(wad) if os.path.isfile(wad) else []
            except WadError:
                read = []
            self.lumps += read
            self.places += [wad] * len(read)
        self.label = wads.map_labels(self.lumps).get(self.map_name)
        here = self.lumps[self.label + 1:self.label + 9] if self.label is not None else []
        self.file = self.places[self.label] if self.label is not None else None
        self.level = levels.Level(self.map_name, self.file or '', dict(here))

    def lines_of_side(self, side: int) -> list[int]:
        return [i for i, line in enumerate(self.level.lines) if side in (line.front, line.back)]

    def side(self, number: int) -> str:
        if number >= len(self.level.sides):
            return f'side {number}'
        found = self.level.sides[number]
        lines = ' and '.join(f'line {i}' for i in self.lines_of_side(number)) or 'no line'
        return (f'side {number}, of {lines}, in sector {found.sector}: upper {found.upper}, lower {found.lower}, '
                f'middle {found.middle}')

    def sector(self, number: int) -> str:
        if number >= len(self.level.sectors):
            return f'sector {number}'
        found = self.level.sectors[number]
        return f'sector {number}: floor {found.floor_flat}, ceiling {found.ceiling_flat}'

    def thing(self, number: int) -> str:
        if number >= len(self.level.things):
            return f'thing {number}'
        found = self.level.things[number]
        return f'thing {number}: type {found.type} at {found.x}, {found.y}'

    def texture(self, number: int) -> str:
        found = art.name_of_texture(dict(self.lumps), number)
        return 'texture {} ({}, number {})'.format(*found) if found else 'a texture'

    def lump(self, number: int) -> str:
        return f'lump {self.lumps[number].name} of {self.places[number]}'

    def wad(self, number: int) -> str:
        return self.wads[number] if number < len(self.wads) else f'file {number} of the WADs, counted from 0'

    def field(self, lump: int, record: int, field: int) -> str:
        where = f'{doom.MAP_LUMPS[lump]} record {record}, {FIELDS[lump][field]}'
        if lump == SIDEDEFS:
            return f'{where} ({self.side(record)})'
        if (lump, field) == (SEGS, SIDE_OF_LINE) and record < len(self.level.segs):
            seg = self.level.segs[record]
            side = {0: ', which has no front side', 1: ', which has no back side'}.get(seg.side, '')
            return f'{where} (of line {seg.line}{side})'
        return where

    def texture_names(self) -> set[str]:
        """The names of all textures; none where the lists are damaged."""
        try:
            return {texture.name for texture in art.textures_of(dict(self.lumps))}
        except WadError:
            return set()

    def flats(self) -> set[str]:
        """The names of the lumps between the marks of flats."""
        by_file = itertools.groupby(zip(self.places, self.lumps), key=lambda pair: pair[0])
        return {name for _, pairs in by_file for name in art.marked_names([lump for _, lump in pairs], 'F')}

    def depth(self) -> int:
        """How deep the nodes are."""
        most, seen, left = 0, set(), [(len(self.level.nodes) - 1, 1)]
        while left:
            number, depth = left.pop()
            if number & doom.LEAF or number in seen or not 0 <= number < len(self.level.nodes):
                continue
            seen.add(number)
            most = max(most, depth)
            left += [(child, depth + 1) for child in self.level.nodes[number][-2:]]
        return most


def of_row(code: int, numbers: Numbers) -> str:
    """The row, and the column, of a table."""
    column = ''
    if code % 100 in OF_COLUMNS:
        name, what = COLUMNS[code // 100][numbers[1]]
        column = f', {name} ({what})'
    return f'row {numbers[0]} under the header of {TABLES[code // 100]}{column}'


# Of each code how its numbers are named: words, and in braces what PARTS has. doomview.exe has them from here too.
NAMED: dict[int, str] = {
    **dict.fromkeys((401, 402, 403), '{wad}'),
    602: '{map lump}',
    604: '{field}',
    605: 'SSECTORS record {number}',
    **dict.fromkeys((606, 607), 'NODES record {number}'),
    **dict.fromkeys((703, 704, 705), '{texture}'),
    **dict.fromkeys((801, 904), '{thing}'),
    802: '{thing}, rotation {second}',
    **dict.fromkeys((803, 907, 1013), '{lump}'),
    **dict.fromkeys((901, 905), '{side}'),
    903: '{sector}',
    908: '{number} entries',
    909: '{number} bytes',
}
# What the parts of these words are, by the scene and the numbers.
PARTS: dict[str, Callable[[Scene, Numbers], object]] = {
    'number': lambda scene, numbers: numbers[0],
    'second': lambda scene, numbers: numbers[1],
    'wad': lambda scene, numbers: scene.wad(numbers[0]),
    'map lump': lambda scene, numbers: doom.MAP_LUMPS[numbers[0]],
    'field': lambda scene, numbers: scene.field(*numbers),
    'texture': lambda scene, numbers: scene.texture(numbers[0]),
    'thing': lambda scene, numbers: scene.thing(numbers[0]),
    'lump': lambda scene, numbers: scene.lump(numbers[0]),
    'side': lambda scene, numbers: scene.side(numbers[0]),
    'sector': lambda scene, numbers: scene.sector(numbers[0]),
}


def names(scene: Scene, code: int, numbers: Numbers) -> str:
    """What the numbers of a refusal mean, as text."""
    try:
        if code in NAMED and numbers:
            return re.sub(r'\{(.*?)\}', lambda part: str(PARTS[part[1]](scene, numbers)), NAMED[code])
        if numbers and code // 100 in TABLES and code % 100 in OF_ROWS:
            return of_row(code, numbers)
    except (IndexError, KeyError, TypeError, struct.error):
        pass
    return ' '.join(map(str, numbers))


def packed_file(scene: Scene, numbers: Numbers) -> Sentences:
    for wad in scene.wads:
        if wads.packed_as(head_of(wad)):
            yield f'{wad} is {wads.packed_as(head_of(wad))}.'


def odd_nodes(scene: Scene, numbers: Numbers) -> Sentences:
    extended = scene.level.extended_nodes()
    if extended:
        yield (f'{extended[0]} has extended nodes ({extended[1]}); build plain ones (zdbsp without -X, -x and -z; in '
               'an editor a builder named normal or vanilla).')
    elif scene.label is not None and levels.has_gl_nodes(scene.lumps, scene.label):
        yield (f'{scene.map_name} has GL nodes alone (GL_SEGS, GL_SSECT, GL_NODES), which are not read; build plain '
               'ones too.')


def deep_nodes(scene: Scene, numbers: Numbers) -> Sentences:
    depth = scene.depth()
    if depth:
        yield (f'the nodes are {depth:,} deep, and {MOST_DEPTH:,} is the most: take a builder that balances them, such '
               'as zdbsp.')


def no_texture(scene: Scene, numbers: Numbers) -> Sentences:
    """Which of the textures of a side is in no list, and why."""
    known = scene.texture_names()
    if not known or not numbers or numbers[0] >= len(scene.level.sides):
        return
    parts = ('upper', 'lower', 'middle')
    missing = {part: getattr(scene.level.sides[numbers[0]], part) for part in parts}
    missing = {part: name for part, name in missing.items() if not name.startswith('-') and name not in known}
    if missing:
        yield f'in no list: {in_words(f"{part} {name}" for part, name in missing.items())}.'
    yield from hidden_list(scene, set(missing.values()))
    used = {name for side in scene.level.sides for name in side[2:5] if not name.startswith('-')}
    if 2 * len(used - known) > len(used):
        yield (f'{len(used - known)} of the {len(used)} textures of the map are in no list: the map may be for another '
               'game.')


def hidden_list(scene: Scene, missing: set[str]) -> Sentences:
    """A list of a WAD that hides the one which has a texture: the last TEXTURE1 counts."""
    having = [wad for wad, lump in zip(scene.places, scene.lumps) if lump.name == 'TEXTURE1']
    for wad in having[:-1]:
        lists = [lump for place, lump in zip(scene.places, scene.lumps) if place == wad]
        try:
            known = {texture.name for texture in art.textures_of(dict(lists))}
        except WadError:
            continue
        for name in sorted(missing & known):
            yield f'{name} is in the TEXTURE1 of {wad}, which that of {having[-1]} hides; put it into the list there.'


def no_flat(scene: Scene, numbers: Numbers) -> Sentences:
    """Which flat of a sector there is not, and why."""
    if not numbers or numbers[0] >= len(scene.level.sectors):
        return
    sector, known = scene.level.sectors[numbers[0]], scene.flats()
    lumps = {lump.name for lump in scene.lumps}
    for part, name in (('floor', sector.floor_flat), ('ceiling', sector.ceiling_flat)):
        if name != doom.SKY and name not in known:
            is_outside = ': there is a lump of that name, but not between F_START and F_END'
            yield f'no flat: {part} {name}{is_outside if name in lumps else ""}.'


def medusa(scene: Scene, numbers: Numbers) -> Sentences:
    """What the original makes of a middle texture of several patches, and where else it stands."""
    yield ('in a game this is the Medusa effect: the original reads the texture as posts, and slows down or ends. '
           'Give the line a middle texture of one patch a column.')
    if not numbers or numbers[0] >= len(scene.level.sides):
        return
    name = scene.level.sides[numbers[0]].middle
    sides = {i for i, side in enumerate(scene.level.sides) if side.middle == name}
    lines = [i for i, line in enumerate(scene.level.lines) if None not in line.sides and sides & {*line.sides}]
    if len(lines) > 1:
        shown = in_words(lines) if len(lines) <= SHOWN_LINES else ', '.join(map(str, lines[:SHOWN_LINES])) + ' ..'
        yield f'lines of two sides with {name}: {shown}.'


# Of each code the checks that find all that is refused for it.
CHECKS = {901: checks.Check.missing_textures, 903: checks.Check.missing_flats, 905: checks.Check.middles,
          801: checks.Check.pictures}


def all_wrong(scene: Scene, code: int) -> Sentences:
    """Sentences on all that is wrong in the way of a refusal, since a run tells the first alone."""
    try:
        of_wads = art.Art(scene.wads)
        if of_wads.textures:
            for finding in CHECKS[code](checks.Check(scene.level, of_wads)):
                yield f'{finding.where}: {finding.told}' + ('' if finding.told.endswith('?') else '.')
    except (Trouble, OSError):
        return


HINTS = {401: packed_file, 402: packed_file, **dict.fromkeys((603, 604, 605, 606), odd_nodes), 607: deep_nodes,
         901: no_texture, 903: no_flat, 905: medusa}


def line_of(path: str, numbers: Numbers) -> str:
    """Where the row of a refusal stands in its file, as an editor counts."""
    try:
        with open(path, newline='', encoding='utf-8-sig') as file:
            reader = csv.reader(file)
            rows = [(reader.line_num, row) for row in reader if row]
        return f', line {rows[numbers[0]][0]} of {path}' if numbers else ''
    except (OSError, IndexError, UnicodeDecodeError, csv.Error):
        return ''


def odd_text(path: str) -> Sentences:
    """What a spreadsheet may have done to a table."""
    try:
        with open(path, 'rb') as file:
            head = file.readline(1000)
    except OSError:
        return
    if head[:2] in (b'\xff\xfe', b'\xfe\xff') or b'\0' in head:
        yield f'{path} is in UTF-16; save it as UTF-8 or plain text.'
    elif b',' not in head and (b';' in head or b'\t' in head):
        yield f'{path} has semicolons or tabs between its fields; export it with commas.'
    elif b', ' in head or b' ,' in head:
        yield f'{path} has spaces beside its commas; take them out.'


def sentences(code: int, numbers: Numbers, words: Words) -> Sentences:
    """Sentences on a refusal of a call."""
    scene = Scene(words)
    if code == NO_MAP and scene.lumps and scene.label is None:
        yield f'{code}: {levels.no_map(scene.map_name, scene.places, scene.lumps)}.'
        return
    wrong, mend = codes().get(code, ('docs/REFUSALS.md has no such code', ''))
    at, table = names(scene, code, numbers), words.value(TABLES.get(code // 100, ''))
    if table and code % 100 != 1:
        at += line_of(table, numbers) if code % 100 in OF_ROWS[:4] else ''
        yield from odd_text(table)
    whose = f' (map of {scene.file})' if scene.file and 602 <= code < 1000 else ''
    yield f'{code}: {wrong}' + (f': {at}' if at else '') + whose + (f'. To mend it: {mend}.' if mend else '.')
    if code in HINTS:
        yield from HINTS[code](scene, numbers)
    if code in CHECKS and scene.label is not None:
        yield from all_wrong(scene, code)
