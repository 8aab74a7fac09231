"""Traces: what painted each pixel of the frames, a record of eight bytes a pixel (docs/FORMATS.md, "Traces")."""
import collections
import functools
import struct
import typing
from collections.abc import Callable, Collection, Iterable, Iterator

from . import differences
from .art import between_marks, palette_of, patch_names, starts, textures_of
from .frames import HEIGHT, SIZE, WIDTH, count_parts
from .trouble import Trouble, WadError
from .wads import read

RECORD = struct.Struct('<BBHHBB')  # kind, kind of source, number, source, colour, 0
VIEW_SIZE = RECORD.size * SIZE
# Of each kind its word, and what its number counts: from 0, but rows of the weapon layers from 1.
NOTHING, WALL, PLANE, SKY, MIDDLE, SPRITE, WEAPON = range(7)
KINDS = {NOTHING: ('nothing', ''), WALL: ('wall', 'fragment'), PLANE: ('plane', 'plane'), SKY: ('sky', 'plane'),
         MIDDLE: ('middle', 'fragment'), SPRITE: ('sprite', 'sprite'), WEAPON: ('weapon', 'row')}
TEXTURED = (WALL, SKY, MIDDLE)  # kinds that paint from a texture
LUMP, COMPOSITE = 1, 2  # kinds of sources
# What kinds paint from.
GROUP_OF = {PLANE: 'flat', SPRITE: 'picture of a sprite', WEAPON: 'picture of a sprite'}
SHOWN_NUMBERS, SHOWN_TEXTURES, SHOWN_PLACES = 6, 3, 12


Record = tuple[int, ...]  # the fields of RECORD


class Painter(typing.NamedTuple):
    """What painted a pixel, without its number in the view: its kind, and the kind and number of what it read."""

    kind: int
    source_kind: int
    source: int


Pixels = dict[Painter, collections.Counter[int]]  # of painters, by their numbers in the view


class Source(typing.NamedTuple):
    """What a painter read: the word for it (texture, patch or lump), its name, and what more is known."""

    word: str
    name: str
    more: str


def count_views(path: str) -> int:
    """The number of views in a file of traces."""
    return count_parts(path, VIEW_SIZE, 'name the whole of what doomview trace wrote')


def record_at(path: str, view: int, x: int, y: int) -> Record:
    """The record of a pixel of a view that the trace has."""
    with open(path, 'rb') as file:
        file.seek(RECORD.size * ((HEIGHT * view + y) * WIDTH + x))
        return RECORD.unpack(file.read(RECORD.size))


class Names:
    """The names of what paints, as far as the WADs are known."""

    def __init__(self, wads: Iterable[str]) -> None:
        lumps = [lump for wad in wads for lump in read(wad)]
        self.lumps = [lump.name for lump in lumps]
        self.textures: list[str] = []
        self.with_patch: dict[str, list[str]] = collections.defaultdict(list)
        newest = dict(lumps)
        try:
            self.add_textures(newest)
        except WadError as error:
            raise Trouble('the lists of textures in the WADs are damaged; leave the WADs out') from error
        self.palette, self.colormaps = palette_of(newest), newest.get('COLORMAP', b'')
        self.checked: set[Painter] = set()  # that the WADs have

    def add_textures(self, lumps: dict[str, bytes]) -> None:
        """Takes the textures of both lists, each with its patches."""
        patches = patch_names(lumps)
        for texture in textures_of(lumps):
            self.textures.append(texture.name)
            for patch in sorted({patches[number] for _, number in texture.patches if number < len(patches)}):
                self.with_patch[patch].append(texture.name)

    def check(self, painter: 'Painter', path: str) -> None:
        """A Trouble where a painter names a lump or a texture that the WADs do not have, or a lump of another kind."""
        kind, source_kind, source = painter
        if not self.lumps or not source_kind:
            return
        names, word = (self.textures, 'texture') if source_kind == COMPOSITE else (self.lumps, 'lump')
        if source >= len(names):
            raise self.other(path, f'the WADs have no {word} {source}, and it has')
        if source_kind == LUMP and source in self.unlike.get(GROUP_OF.get(kind, ''), ()):
            raise self.other(path, f'lump {source} of the WADs is {names[source]}, which is no {GROUP_OF[kind]}, and a '
                                   f'{KINDS[kind][0]} has it')

    def check_all(self, painters: Iterable['Painter'], path: str) -> None:
        """A Trouble where one of some painters is none of these WADs."""
        for painter in painters:
            if painter not in self.checked:
                self.check(painter, path)
                self.checked.add(painter)

    def other(self, path: str, what: str) -> Trouble:
        return Trouble(f'{path} is a trace of other WADs: {what}; name the WADs of the run, in their order')

    @functools.cached_property
    def unlike(self) -> dict[str, set[int]]:
        """Of flats and pictures of sprites the numbers of the lumps that are none, where the WADs mark any."""
        found = {}
        for group, letter in (('flat', 'F'), ('picture of a sprite', 'S')):
            if starts(letter) & {*self.lumps}:
                found[group] = {*range(len(self.lumps))} - {*between_marks(self.lumps, letter)}
        return found

    def source(self, painter: Painter) -> str:
        """The name of what a painter read: of a lump or of a texture."""
        if painter.source_kind == 0:
            return '-'
        names, word = (self.textures, 'texture') if painter.source_kind == COMPOSITE else (self.lumps, 'lump')
        return names[painter.source] if painter.source < len(names) else f'{word} {painter.source}'

    def textures_of(self, painter: Painter) -> list[str]:
        """The names of the textures that have the patch which a painter read; none where it read no patch."""
        if painter.source_kind != LUMP or painter.kind not in TEXTURED:
            return []
        return self.with_patch.get(self.source(painter), [])

    def source_of(self, painter: Painter) -> Source:
        """What a painter read, for a user to know it by: of a patch that one texture alone has, the texture."""
        name, textures = self.source(painter), self.textures_of(painter)
        if painter.source_kind == COMPOSITE:
            return Source('texture', name, '')
        if len(textures) == 1:
            return Source('texture', textures[0], f'patch {name}' if name != textures[0] else '')
        if textures:
            some = ', '.join(textures[:SHOWN_TEXTURES]) + (' ..' if len(textures) > SHOWN_TEXTURES else '')
            return Source('patch', name, f'of {some}')
        return Source('lump', name, '')


def in_words(record: Record, names: Names) -> str:
    """A record in words: painter, number, source and colour."""
    kind, source_kind, number, source, colour, _ = record
    word, thing = KINDS.get(kind, (f'kind {kind}', 'number'))
    if not kind:
        return 'nothing, colour 0'
    parts = [f'{word} {number}' if thing == word else f'{word}, {thing} {number}']
    if source_kind:
        known = names.source_of(Painter(kind, source_kind, source))
        is_number = known.name == f'{known.word} {source}'
        parts.append(known.name if is_number else f'{known.word} {known.name}')
        if known.more:
            parts.append(known.more)
    return ', '.join(parts + [f'colour {colour}'])


def numbers_of(words: str) -> set[int]:
    """The numbers of kinds of painters that words name, with commas between them; a Trouble where there is no such."""
    known = {word: kind for kind, (word, _) in KINDS.items()}
    wrong = [word for word in words.split(',') if word not in known]
    if wrong:
        raise Trouble(f'there is no painter {wrong[0]}; there are {", ".join(known)}')
    return {known[word] for word in words.split(',')}


def marks(values: bytes, wanted: Collection[int]) -> bytes:
    """Of each byte 255 where it is one of some, and else 0."""
    return values.translate(bytes(255 * (value in wanted) for value in range(256)))


def mask(records: bytes, kinds: Collection[int], without: Collection[int] = ()) -> bytes:
    """Of each pixel of a view 255 where what painted it is of one of some kinds, and else 0; 0 too of the sprites with
    some numbers."""
    found = marks(records[::RECORD.size], kinds)
    if not without:
        return found
    sprites = int.from_bytes(marks(records[::RECORD.size], {SPRITE}), 'big')
    numbers = int.from_bytes(marks(records[2::RECORD.size], without), 'big')
    return (int.from_bytes(found, 'big') & ~(sprites & numbers)).to_bytes(len(found), 'big')


def check_records(records: bytes, marks: bytes, ours: bytes, path: str) -> None:
    """A Trouble where the records of a view are not those of doomview's frame, at the places that are marked."""
    place = differences.other_colour(records, ours, marks)
    if place is not None:
        row, column = divmod(place, WIDTH)
        raise Trouble(f'{path} is not the trace of these frames: at row {row} column {column} it has colour '
                      f'{records[RECORD.size * place + differences.COLOUR]} and the frame {ours[place]}; name what doomview '
                      'trace wrote for the same words')


def pixels_of(records: bytes, marks: bytes) -> Pixels:
    """Of each painter of the places of a view that are marked how many pixels each of its numbers has."""
    pixels: Pixels = collections.defaultdict(collections.Counter)
    for key, count in differences.painted(records, marks).items():
        kind, source_kind, number, source, _, _ = RECORD.unpack(key + bytes(RECORD.size - len(key)))
        pixels[Painter(kind, source_kind, source)][number] += count
    return pixels


def painters(pixels: Pixels, names: Names,
             place_of: typing.Optional[Callable[[Painter, int], str]] = None) -> Iterator[str]:
    """Lines on the painters of a view that have some pixels: the most pixels first. `place_of` says of a painter and its
    number where in the map that is; then the lines under a painter have the pixels of each."""
    for painter, numbers in sorted(pixels.items(), key=lambda pair: -sum(pair[1].values())):
        word, thing = KINDS.get(painter.kind, (f'kind {painter.kind}', 'number'))
        known = names.source_of(painter)
        more = f'patch {known.more}' if known.word == 'patch' else known.more
        cells = [f'  {word:8} {known.name:9} {sum(numbers.values()):6}',
                 f'{thing} {some_of(numbers)}' if thing else '', more]
        yield '  '.join(cell for cell in cells if cell)
        yield from map_places(painter, numbers, place_of) if place_of else []


def some_of(numbers: Iterable[int]) -> str:
    """Some of the numbers of a painter in a view."""
    some = sorted(numbers)
    return ' '.join(map(str, some[:SHOWN_NUMBERS])) + (' ..' if len(some) > SHOWN_NUMBERS else '')


def map_places(painter: Painter, numbers: dict[int, int], place_of: Callable[[Painter, int], str]) -> Iterator[str]:
    """Lines on where in the map the pixels of a painter are: the most pixels first."""
    found: collections.Counter[str] = collections.Counter()
    having: dict[str, set[int]] = collections.defaultdict(set)
    for number, count in numbers.items():
        place = place_of(painter, number)
        found[place] += count
        having[place].add(number)
    thing = KINDS.get(painter.kind, ('', 'number'))[1]
    shown = [(place, count) for place, count in found.most_common() if place]
    for place, count in shown[:SHOWN_PLACES]:
        yield f'{count:27}  {place} ({thing} {some_of(having[place])})'
    if len(shown) > SHOWN_PLACES:
        yield f'{sum(count for _, count in shown[SHOWN_PLACES:]):27}  at {len(shown) - SHOWN_PLACES} other places'
