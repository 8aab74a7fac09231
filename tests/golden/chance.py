"""Levels, paths and damages by chance: by numbers that look like chance, and are the same wherever they are made."""
import struct
import typing
from collections.abc import Sequence

from damage import put
from levels import BOTTOM_UNPEGGED, ONE_SIDED, TOP_UNPEGGED, TWO_SIDED, Level, Looks, Point, Squares
from wads import Lump, entries_of

Item = typing.TypeVar('Item')


class Chance:
    """Numbers that look like chance, the same for a seed wherever they are made."""

    def __init__(self, seed: int) -> None:
        self.state = (seed * 0x9e3779b97f4a7c15 + 12345) % 2 ** 64
        self.below(2)

    def below(self, limit: int) -> int:
        self.state = (self.state * 6364136223846793005 + 1442695040888963407) % 2 ** 64
        return (self.state >> 33) % limit

    def between(self, low: int, high: int) -> int:
        return low + self.below(high - low + 1)

    def pick(self, items: Sequence[Item]) -> Item:
        return items[self.below(len(items))]

    def one_in(self, count: int) -> bool:
        return self.below(count) == 0


WALLS = ['STONE', 'PLANK', 'MIX', 'HIGH', 'LOW', 'GAP', 'SHIFT', 'WINDOW'] * 2 + ['NONE', '-']
MIDDLES = ['GRATE', 'LOW', 'PLANK', 'HIGH', 'STONE']
FLAT_NAMES = ['TILES', 'MUD', 'BOARDS', 'PLATE', 'SHORT']
TURNS = [((1, 0), (0, 1)), ((2, 1), (-1, 2)), ((1, -1), (1, 1)), ((0, 1), (-1, 0)), ((2, 0), (1, 1)),
         ((-1, 0), (0, -1))]
KINDS = [10, 11, 12, 13, 14, 15, 99]
SQUARES, UNIT = 8, 96


def chance_sector(level: Level, chance: Chance) -> int:
    floor = chance.between(-5, 6) * 8
    ceiling = floor + chance.pick([0, 40, 64, 96, 112, 128, 128, 160, 200])
    above = 'F_SKY1' if chance.one_in(3) else chance.pick(FLAT_NAMES)
    below = 'F_SKY1' if chance.one_in(12) else chance.pick(FLAT_NAMES)
    return level.sector(floor, ceiling, below, above, chance.pick([0, 16, 40, 100, 128, 160, 200, 255, 270, -5]))


def chance_looks(chance: Chance, is_wall: bool) -> Looks:
    looks: Looks = {'top': chance.pick(WALLS), 'bottom': chance.pick(WALLS)}
    if is_wall:
        looks['middle'] = chance.pick(WALLS)
    elif chance.one_in(3):
        looks['middle'] = chance.pick(MIDDLES)
    if chance.one_in(2):
        looks.update({'x': chance.between(-80, 200), 'y': chance.between(-60, 90)})
    return looks


def chance_level(label: str, seed: int) -> list[Lump]:
    """A level by chance: squares of a few sectors, some solid, some without a line between them."""
    chance = Chance(seed)
    level = Level(*chance.pick(TURNS))
    sectors = [chance_sector(level, chance) for _ in range(chance.between(6, 16))]
    grid = [(x, y) for x in range(SQUARES) for y in range(SQUARES)]
    cells = {square: chance.pick(sectors) for square in grid if not chance.one_in(9)}

    def flags(here: Point, there: typing.Optional[Point]) -> typing.Optional[int]:
        if there and cells[here] == cells[there] and chance.one_in(2):
            return None
        pegs = chance.pick([0, 0, TOP_UNPEGGED, BOTTOM_UNPEGGED, TOP_UNPEGGED | BOTTOM_UNPEGGED])
        return (TWO_SIDED if there else ONE_SIDED) | pegs

    Squares(level, cells, UNIT, flags, lambda here, there: chance_looks(chance, there is None))
    side = SQUARES * UNIT
    for _ in range(chance.between(20, 60)):
        level.thing(chance.below(side), chance.below(side), chance.between(-360, 720), chance.pick(KINDS),
                    chance.pick([7, 7, 7, 1, 2, 4, 6, 23]))
    return level.lumps(label)


def chance_path(seed: int, views: int) -> list[tuple[int, ...]]:
    """The rows of a path through a level by chance: most in it, some on its lines, some anywhere."""
    chance = Chance(seed)
    east, north = chance.pick(TURNS)
    side = SQUARES * UNIT
    rows: list[tuple[int, ...]] = []
    for _ in range(views):
        x, y = chance.below(side * 65536), chance.below(side * 65536)
        z = chance.between(0, 120) * 65536
        if chance.one_in(5):
            x, y = x // (UNIT * 65536) * UNIT * 65536, y // 65536 * 65536
        point = x * east[0] + y * north[0], x * east[1] + y * north[1]
        if chance.one_in(9):
            point = chance.between(-2 ** 31, 2 ** 31 - 1), chance.between(-2 ** 28, 2 ** 28)
            z = chance.pick([z, 2 ** 31 - 1])
        angle = chance.below(2 ** 32) if chance.one_in(2) else chance.below(8) << 29
        rows.append((*point, z, angle, chance.pick([0, 0, 0, 1, 4, 15]), chance.pick([0, 0, 0, 0, 1, 31, 32])))
    return rows


def torn(whole: bytes, seed: int) -> bytes:
    """A copy in which chance changed one to four places: in the level and its lists, at times in any lump or in the
    directory."""
    chance = Chance(seed)
    entries = [entry for entry in entries_of(whole) if entry[1]]
    level = [entry for entry in entries
             if entry[2] in ('THINGS', 'SIDEDEFS', 'VERTEXES', 'SEGS', 'NODES', 'SECTORS', 'TEXTURE1')]
    directory = struct.unpack_from('<I', whole, 8)[0]
    for _ in range(chance.between(1, 4)):
        offset, size, _ = chance.pick(entries if chance.one_in(2) else level)
        if chance.one_in(12):
            offset, size = directory, len(whole) - directory
        at = offset + chance.below(size)
        new = bytes(chance.pick([0, 1, 127, 128, 255, chance.below(256)]) for _ in range(chance.pick([1, 1, 2, 4])))
        whole = put(whole, at, new)[:len(whole)]
    return whole[:chance.between(12, len(whole))] if chance.one_in(12) else whole
