"""What differs beside a sprite: where a port draws another picture of a sprite than doomview, or draws it in another place,
pixels differ also where doomview painted the wall or floor behind it. These are the sprite's, and not the wall's.

So it is said where all that differs of a view, but a twentieth, is within the sprites that differ and beside them: as
far to both sides as a sprite is wide, and a quarter of its height above and below."""
import collections
from collections.abc import Collection

from . import differences, traces
from .differences import Box
from .frames import HEIGHT, SIZE, WIDTH
from .traces import MIDDLE, PLANE, SKY, SPRITE, WALL, Painter, Pixels

BEHIND = (WALL, PLANE, SKY, MIDDLE)  # kinds that may be behind a sprite
MOST_BESIDE = 2  # times the pixels of the sprites themselves
LEFT = 20  # of so many pixels beside sprites one may be elsewhere
MARGIN = 2  # pixels


def boxes_of(records: bytes, numbers: Collection[int]) -> dict[int, Box]:
    """The boxes of some sprites of a view, by the pixels that doomview painted of them."""
    kinds = records[differences.KIND::differences.RECORD].translate(bytes(255 * (kind == SPRITE) for kind in range(256)))
    low = records[differences.NUMBER::differences.RECORD]
    found = {}
    for number in numbers:
        own = low.translate(bytes(value == number for value in range(256)))
        both = differences.number_of(own) & differences.number_of(kinds)
        if both:
            found[number] = differences.box_of(differences.bytes_of(both))
    return found


def grown(box: Box) -> Box:
    """A box with what is beside it."""
    top, bottom, left, right = box
    wide, high = right - left + 1 + MARGIN, (bottom - top + 1) // 4 + MARGIN
    return max(0, top - high), min(HEIGHT - 1, bottom + high), max(0, left - wide), min(WIDTH - 1, right + wide)


def behind(records: bytes, marks: bytes) -> bytearray:
    """The marks where doomview painted what may be behind a sprite."""
    kinds = records[differences.KIND::differences.RECORD].translate(bytes(kind in BEHIND for kind in range(256)))
    return bytearray(differences.bytes_of(differences.number_of(kinds) & differences.number_of(marks)))


def taken(marks: bytearray, box: Box) -> bytes:
    """The marks within a box, which are taken from the others."""
    top, bottom, left, right = box
    found = bytearray(SIZE)
    for at in range(WIDTH * top, WIDTH * (bottom + 1), WIDTH):
        found[at + left:at + right + 1] = marks[at + left:at + right + 1]
        marks[at + left:at + right + 1] = bytes(right - left + 1)
    return bytes(found)


def beside(records: bytes, marks: bytes, pixels: Pixels) -> dict[Painter, Pixels]:
    """Of each picture of a sprite the pixels of others that differ beside it, if all that differs is of sprites."""
    sprites = {number: painter for painter, numbers in pixels.items() if painter.kind == SPRITE for number in numbers}
    own = sum(sum(pixels[painter].values()) for painter in {*sprites.values()})
    other = sum(sum(numbers.values()) for painter, numbers in pixels.items() if painter.kind in BEHIND)
    if not own or not 0 < other <= MOST_BESIDE * own:
        return {}
    left = behind(records, marks)
    parts = {number: taken(left, grown(box)) for number, box in boxes_of(records, sprites).items()}
    if LEFT * left.count(1) > other:
        return {}
    found: dict[Painter, Pixels] = collections.defaultdict(lambda: collections.defaultdict(collections.Counter))
    for number, part in parts.items():
        for painter, numbers in (traces.pixels_of(records, part) if 1 in part else {}).items():
            found[sprites[number]][painter].update(numbers)
    return found

