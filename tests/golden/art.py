"""The art of the levels that are made here: colours, patches, flats, sprites, and the lists of textures.

All of it is by formula, with the features that art may have: patches over one another, above the top and left of the
side, columns without a patch, pictures with holes, walls that are low, tall or of an odd width."""
import struct
import typing
from collections.abc import Callable, Sequence

from wads import Lump, name8

SHADES = 34  # colormaps: 32 from bright to dark, and two more as games have them
Post = tuple[int, bytes]  # its first row and its texels
Texel = Callable[[int, int], typing.Optional[int]]  # of a column and row, None for a hole


def palette() -> bytes:
    return bytes(part for i in range(256) for part in (i, i * 5 & 255, 255 - i))


def colormap(maps: int = SHADES) -> bytes:
    """Each of the first 32 maps is darker than the one before it, the 33rd turns colours round, the 34th is 0."""
    def shade(number: int, colour: int) -> int:
        if number < 32:
            return colour * (40 - number) // 40
        return 255 - colour if number == 32 else 0
    return bytes(shade(number, colour) for number in range(maps) for colour in range(256))


def post(row: int, texels: bytes) -> bytes:
    return bytes([row, len(texels), 0]) + texels + b'\0'


def patch(columns: Sequence[Sequence[Post]], height: int, left: int = 0, top: int = 0) -> bytes:
    """A patch whose columns are lists of posts, each a pair of its first row and its texels."""
    bodies = [b''.join(post(*it) for it in column) + b'\xff' for column in columns]
    offsets, at = [], 8 + 4 * len(columns)
    for body in bodies:
        offsets.append(at)
        at += len(body)
    return struct.pack(f'<4h{len(columns)}I', len(columns), height, left, top, *offsets) + b''.join(bodies)


def runs(texels: Sequence[typing.Optional[int]]) -> list[Post]:
    """The posts of a column of texels, where None is a hole."""
    posts: list[Post] = []
    start = None
    for row, texel in enumerate([*texels, None]):
        if texel is not None and start is None:
            start = row
        elif texel is None and start is not None:
            posts.append((start, bytes(it for it in texels[start:row] if it is not None)))
            start = None
    return posts


def picture(width: int, height: int, texel: Texel, left: int = 0, top: int = 0) -> bytes:
    """A patch of the texels that a function of column and row gives, None for a hole."""
    columns = [runs([texel(x, y) for y in range(height)]) for x in range(width)]
    return patch(columns, height, left, top)


def flat(texel: Callable[[int, int], int]) -> bytes:
    return bytes(texel(x, y) & 255 for y in range(64) for x in range(64))


def texture(name: str, width: int, height: int, *patches: tuple[int, int, int]) -> bytes:
    """A record of a list of textures; a patch is its left column, its top row and its number in PNAMES."""
    placed = b''.join(struct.pack('<hhHHH', x, y, number, 1, 0) for x, y, number in patches)
    return name8(name) + struct.pack('<IhhIH', 0, width, height, 0, len(patches)) + placed


def texture_list(records: Sequence[bytes]) -> bytes:
    """TEXTURE1 or TEXTURE2: count, places, records without gaps."""
    places, at = [], 4 + 4 * len(records)
    for record in records:
        places.append(at)
        at += len(record)
    return struct.pack(f'<I{len(places)}I', len(places), *places) + b''.join(records)


def patch_names(names: Sequence[str]) -> bytes:
    """PNAMES."""
    return struct.pack('<I', len(names)) + b''.join(map(name8, names))


def stone(x: int, y: int) -> int:
    return 20 if y % 16 == 0 or (x + y // 16 % 2 * 16) % 32 == 0 else 60 + (x * 7 + y * 13) % 40


def plank(x: int, y: int) -> int:
    return 110 + (x * 3 ^ y) % 30


def bars(x: int, y: int) -> typing.Optional[int]:
    """Upright bars, and a cross bar in every 32 rows; every eighth column is a hole from top to bottom."""
    if x % 8 == 7:
        return None
    return 150 + (x * 5 + y) % 20 if x % 8 < 3 or y % 32 < 4 else None


def sky(seed: int) -> Callable[[int, int], int]:
    return lambda x, y: (seed + x // 3 + y * 2) & 255


def blob(seed: int, size: int) -> Texel:
    """A round thing with a hole in it."""
    def texel(x: int, y: int) -> typing.Optional[int]:
        far = (2 * x + 1 - size) ** 2 + (2 * y + 1 - size) ** 2
        return seed + (x * 3 + y * 5) % 24 if size * size // 9 < far < size * size else None
    return texel


PATCHES = {
    'STONE': picture(64, 128, stone),
    'PLANK': picture(32, 128, plank),
    'BARS': picture(64, 128, bars),
    'HIGH': picture(32, 240, lambda x, y: 180 + (x + y * 3) % 50),
    'LOW': picture(24, 72, lambda x, y: 90 + (x * x + y) % 16),
    'SKYA': picture(256, 128, sky(30)),
    'SKYB': picture(100, 128, sky(130)),
    'SKYC': picture(256, 160, sky(200)),
}
PATCH_NAMES = list(PATCHES)
NUMBER = {name: number for number, name in enumerate(PATCH_NAMES)}

TEXTURES1 = [
    texture('NONE', 64, 128, (0, 0, NUMBER['STONE'])),
    texture('STONE', 64, 128, (0, 0, NUMBER['STONE'])),
    texture('PLANK', 32, 128, (0, 0, NUMBER['PLANK'])),
    texture('MIX', 64, 128, (0, 0, NUMBER['STONE']), (16, -8, NUMBER['PLANK'])),
    texture('GRATE', 64, 128, (0, 0, NUMBER['BARS'])),
    texture('HIGH', 32, 240, (0, 0, NUMBER['HIGH'])),
    texture('LOW', 24, 72, (0, 0, NUMBER['LOW'])),
    texture('GAP', 128, 128, (0, 0, NUMBER['STONE']), (96, 0, NUMBER['PLANK'])),
    texture('SKY1', 256, 128, (0, 0, NUMBER['SKYA'])),
    texture('SKY2', 100, 128, (0, 0, NUMBER['SKYB'])),
    texture('SKY3', 256, 128, (0, -16, NUMBER['SKYC'])),
]
TEXTURES2 = [
    texture('SHIFT', 64, 128, (-20, -30, NUMBER['STONE']), (12, 70, NUMBER['STONE']), (40, 10, NUMBER['LOW'])),
    texture('WINDOW', 64, 72, (-4, 0, NUMBER['BARS'])),
    texture('STONE', 8, 8, (0, 0, NUMBER['LOW'])),
    texture('SKY4', 64, 128, (0, 0, NUMBER['SKYA']), (0, 40, NUMBER['LOW'])),
]
FLATS = {
    'TILES': flat(lambda x, y: 30 if x % 16 == 0 or y % 16 == 0 else 70 + (x ^ y) % 20),
    'MUD': flat(lambda x, y: 100 + (x * y + x) % 37),
    'BOARDS': flat(lambda x, y: 140 + (x // 8 * 5 + y) % 24),
    'PLATE': flat(lambda x, y: x * 4 + y),
    'SHORT': bytes(1 + i % 200 for i in range(1000)),
}
GUARD_LUMPS = ['GUARA1', 'GUARA2A8', 'GUARA3A7', 'GUARA4A6', 'GUARA5']
SPRITES = {
    **{name: picture(24, 40, blob(10 + 40 * number, 24), 12, 40) for number, name in enumerate(GUARD_LUMPS)},
    'GUARB0': picture(30, 20, blob(220, 20), 15, 18),
    'LAMPA0': picture(16, 48, lambda x, y: 230 + (x + y) % 20 if 4 <= x < 12 or y < 12 else None, 8, 46),
    'HOOKA0': picture(20, 60, blob(60, 20), 10, 60),
    'KEYSA0': picture(14, 16, lambda x, y: 200 + (x ^ y), 7, 15),
    'GUNSA0': picture(70, 60, lambda x, y: 40 + (x * 3 + y) % 60 if x + 2 * y > 60 else None, -125, -110),
    **{f'DISKA{turn}': picture(20, 20, blob(25 * turn, 20), 10, 10) for turn in range(1, 9)},
    'CUBEB1D1': picture(18, 18, blob(130, 18), 30, -6),
    'CUBEB0D0': picture(18, 18, blob(170, 18), -12, 34),
}


def art() -> list[Lump]:
    """All lumps but those of a level."""
    return [('PLAYPAL', palette()), ('COLORMAP', colormap()),
            ('PNAMES', patch_names(PATCH_NAMES)),
            ('TEXTURE1', texture_list(TEXTURES1)), ('TEXTURE2', texture_list(TEXTURES2)),
            *PATCHES.items(),
            ('F_START', b''), *FLATS.items(), ('F_END', b''),
            ('S_START', b''), *SPRITES.items(), ('S_END', b'')]
