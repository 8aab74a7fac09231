"""The made map of the vectors: what no map of Freedoom shows, and its art, as a PWAD over any game of Doom.

Walls have textures whose width is no power of two, one of a single patch and one of two; between two skies of other
heights lower walls are unpegged; at some places two things have one scale; grates are seen under fixed colormaps.
`pwad()` gives the bytes of vectors/made.wad, which vectors/made.py puts over a game's WAD."""
import struct
import typing

from . import room
from .doom import LAYOUTS, PLAYER_1, SKY
from .levels import EYE_HEIGHT, TURN, UNIT
from .paths import Row
from .wads import wad_of

UPPER_UNPEGGED, LOWER_UNPEGGED = 8, 16  # flags of a line
PLAN = ['###########',
        '#tttttt####',
        '#tttttt#ll#',
        '#ssssssslh#',
        '#sspsssslh#',
        '#ssssssslh#',
        '#ssssss#ll#',
        '#ssuuss####',
        '###########']
NARROW, JOINED, BARS = 'MADE48', 'MADE80', 'MADE16'  # textures, 48 and 48 + 32 wide, and one with holes
SQUARES = {'s': room.Square(0, 224, 'FLOOR4_8', SKY, 200, JOINED), 't': room.Square(40, 136, 'FLOOR0_1', SKY, 168, NARROW),
           'p': room.Square(72, 176, 'FLAT5_4', SKY, 144, NARROW), 'u': room.Square(24, 128, 'FLAT14', 'CEIL1_1', 120, JOINED),
           'l': room.Square(0, 112, 'FLOOR4_8', 'CEIL3_5', 112, NARROW), 'h': room.Square(16, 88, 'FLAT5_4', 'CEIL5_1', 80, JOINED)}
NEEDED = {'TEXTURE1', 'PNAMES', *(flat for square in SQUARES.values() for flat in (square.below, square.above))}  # lumps
UNPEGGED = {frozenset('st'), frozenset('sp')}  # squares between which a lower wall is unpegged
UPPER = {frozenset('su'), frozenset('lh')}  # and an upper one
GRATED = {frozenset('su'): 0, frozenset('lh'): LOWER_UNPEGGED, frozenset('sl'): 0}  # and a grate, with more flags of it
BARREL, LAMP, BONUS, ARMOUR, ALWAYS = 2035, 2028, 2014, 2018, 7
# Column and row in halves of a square, type, angle and skills. Where two are at one place they have one scale.
THINGS = [(6, 11, PLAYER_1, 90, ALWAYS), (8, 7, BARREL, 0, ALWAYS), (8, 7, LAMP, 0, ALWAYS), (11, 9, LAMP, 0, ALWAYS),
          (11, 9, BARREL, 0, ALWAYS), (4, 9, ARMOUR, 0, ALWAYS), (4, 9, BONUS, 0, ALWAYS), (9, 3, LAMP, 0, ALWAYS),
          (17, 7, BARREL, 0, ALWAYS), (17, 7, BONUS, 0, ALWAYS), (17, 11, LAMP, 0, ALWAYS)]
# Of each view the place, in halves of a square from the north-west corner, and the angle in 64ths of a turn.
VIEWS = [(6, 11, 16), (4, 14, 13), (12, 13, 24), (12, 6, 37), (3, 6, 59), (9, 12, 9), (11, 5, 30), (5, 3, 50), (13, 9, 63),
         (16, 9, 6), (17, 12, 18), (16, 6, 33), (7, 8, 21), (3, 13, 4), (11, 12, 41), (10, 7, 2)]
# Of some of them once more the extra light and the colormap.
LIT = {3: (0, 32), 4: (0, 1), 8: (0, 16), 14: (3, 0)}


def narrow(x: int, y: int) -> int:
    """Rows of blocks that are 48 wide, none like another."""
    return 1 if x == 0 or y % 32 == 0 else 16 + (x // 6 * 11 + y // 4 * 7 + x * 3) % 150


def wide(x: int, y: int) -> int:
    return 1 if x == 31 or y % 16 == 0 else 48 + (x // 4 * 13 + y // 8 * 5) % 64


def bars(x: int, y: int) -> typing.Optional[int]:
    return 48 + (x * 5 + y * 3) % 60 if x % 8 < 3 or y % 16 < 4 else None


PATCHES: list[tuple[str, int, int, room.Paint]] = [
    ('MADEP48', 48, 128, narrow), ('MADEP32', 32, 128, wide), ('MADEP16', 16, 64, bars)]


def textures() -> bytes:
    """TEXTURE1 of the made textures, over the patches of the PWAD."""
    def record(name: str, width: int, height: int, *parts: tuple[int, int]) -> bytes:
        head = struct.pack('<8sIhhIH', room.name(name), 0, width, height, 0, len(parts))
        return head + b''.join(struct.pack('<5h', x, 0, patch, 1, 0) for x, patch in parts)
    records = [record(NARROW, 48, 128, (0, 0)), record(JOINED, 80, 128, (0, 0), (48, 1)), record(BARS, 16, 64, (0, 2))]
    places = [4 + 4 * len(records) + sum(map(len, records[:number])) for number in range(len(records))]
    return struct.pack(f'<{1 + len(places)}I', len(places), *places) + b''.join(records)


def lines(level: room.Level) -> bytes:
    """The lines of the level, some of them unpegged."""
    found = []
    for record, pair in zip((record for _, record in level.lines.values()), pairs(level)):
        start, end, flags, *rest = struct.unpack(LAYOUTS['LINEDEFS'], record)
        flags |= LOWER_UNPEGGED * (pair in UNPEGGED) | UPPER_UNPEGGED * (pair in UPPER) | GRATED.get(pair, 0)
        found.append(struct.pack(LAYOUTS['LINEDEFS'], start, end, flags, *rest))
    return b''.join(found)


def pairs(level: room.Level) -> list[frozenset[str]]:
    """Of each line the letters of the squares beside it."""
    kind_of = [level.kinds[struct.unpack(LAYOUTS['SIDEDEFS'], side)[5]] for side in level.sides]
    both = (struct.unpack(LAYOUTS['LINEDEFS'], record)[5:] for _, record in level.lines.values())
    return [frozenset(kind_of[side] for side in of_line if side < len(kind_of)) for of_line in both]


def sides(level: room.Level) -> bytes:
    """The sides of the level, each with other offsets, with walls of made textures alone, and some with a grate."""
    grated = {side for (_, record), pair in zip(level.lines.values(), pairs(level)) if pair in GRATED
              for side in struct.unpack(LAYOUTS['LINEDEFS'], record)[5:]}
    found = []
    for number, record in enumerate(level.sides):
        _, _, upper, lower, middle, sector = struct.unpack(LAYOUTS['SIDEDEFS'], record)
        parts = [part if part.startswith((b'-', b'MADE')) else room.name(NARROW) for part in (upper, lower, middle)]
        parts[2] = room.name(BARS) if number in grated else parts[2]
        found.append(struct.pack(LAYOUTS['SIDEDEFS'], number * 29 % 97 - 40, number * 13 % 31 - 10, *parts, sector))
    return b''.join(found)


def pwad() -> bytes:
    """The bytes of the PWAD: its label, the level, textures, names of patches, and patches."""
    level = room.Level(PLAN, SQUARES, THINGS)
    changed = {'LINEDEFS': lines(level), 'SIDEDEFS': sides(level)}
    patches = [(label, room.patch(width, height, 0, 0, paint)) for label, width, height, paint in PATCHES]
    names = struct.pack('<I', len(patches)) + b''.join(room.name(label) for label, _ in patches)
    return wad_of([*((label, changed.get(label, data)) for label, data in level.lumps()), ('TEXTURE1', textures()),
                   ('PNAMES', names), *patches], b'PWAD')


def rows() -> list[Row]:
    """The views of the map, each with its eye over the floor."""
    found = []
    for x, y, angle in VIEWS:
        square = SQUARES[PLAN[(y - 1) // 2][x // 2]]
        place = room.SIDE * x // 2, room.SIDE * len(PLAN) - room.SIDE * y // 2
        found.append(Row(place[0] * UNIT + 12345, place[1] * UNIT + 5432, (square.floor + EYE_HEIGHT) * UNIT,
                         angle * (TURN // 64)))
    return found + [found[view]._replace(extralight=light, colormap=colormap) for view, (light, colormap) in LIT.items()]
