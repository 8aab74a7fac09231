"""Where a player can stand in a level: between its lines, with room, off the walls. Where he gets: player_reach.

A row is a y between two whole numbers, so that no vertex lies on it."""
import bisect
import collections
import struct
import typing
from collections.abc import Iterable, Iterator, Mapping

from .doom import BLOCKS, LAYOUTS, SECTORS, SKY
from .levels import Level, Sector, Vertex, alone

HEIGHT, RADIUS, STEP_UP = 56, 16, 24  # of a player, in map units
BOSS_TAGS = set(SECTORS['boss_tags'])
LINTEL = 4  # what a door that is open keeps of its height below the ceiling beside it
SQUARE, BAND = 128, 16
STEPS = (64, 32, 16, 8)  # of grids on which a place in a sector is looked for

Box = tuple[int, int, int, int]  # x and y of the low corner, and of the high one
Beside = tuple[typing.Optional[int], typing.Optional[int]]  # the sectors in front of a line and behind it, or None
Square = tuple[int, int]


class Crossing(typing.NamedTuple):
    """Where a line crosses a row: its x, the sectors to the left and the right of it, or None, and the line."""

    x: float
    left: typing.Optional[int]
    right: typing.Optional[int]
    line: int


class Plan:
    """A level with what its lines say: the sectors beside each, by their numbers, or None."""

    def __init__(self, level: Level) -> None:
        self.level = level
        for number, line in enumerate(level.lines):
            if max(line.start, line.end) >= len(level.vertexes):
                raise level.error(f'is damaged: a vertex of line {number} is not there')
        self.beside: list[Beside] = [(self.sector_of_side(line.front), self.sector_of_side(line.back))
                                     for line in level.lines]
        self.lines_of: dict[int, list[int]] = collections.defaultdict(list)
        for number, pair in enumerate(self.beside):
            for sector in set(pair):
                if sector is not None:
                    self.lines_of[sector].append(number)
        self.bands: dict[int, list[int]] = collections.defaultdict(list)
        for number in range(len(level.lines)):
            low, high = sorted(vertex.y for vertex in self.ends(number))
            for band in range(low // BAND, high // BAND + 1):
                self.bands[band].append(number)

    def sector_of_side(self, side: typing.Optional[int]) -> typing.Optional[int]:
        if side is None or side >= len(self.level.sides):
            return None
        sector = self.level.sides[side].sector
        return sector if sector < len(self.level.sectors) else None

    def ends(self, number: int) -> tuple[Vertex, Vertex]:
        """Both ends of a line."""
        line = self.level.lines[number]
        return self.level.vertexes[line.start], self.level.vertexes[line.end]

    def box(self) -> Box:
        """The least box of all lines."""
        if not self.level.lines:
            raise self.level.error('has no lines')
        return self.box_around(range(len(self.level.lines)))

    def box_of(self, sector: int) -> Box:
        """The least box of the lines of a sector."""
        return self.box_around(self.lines_of[sector])

    def box_around(self, numbers: Iterable[int]) -> Box:
        xs, ys = zip(*(vertex for number in numbers for vertex in self.ends(number)))
        return min(xs), min(ys), max(xs), max(ys)

    def crossings(self, y: float) -> list[Crossing]:
        """Where lines cross a row, from left to right."""
        found = []
        for number in self.bands.get(int(y // BAND), ()):
            (x1, y1), (x2, y2) = self.ends(number)
            if (y1 > y) == (y2 > y):
                continue
            front, back = self.beside[number]
            left, right = (back, front) if y2 > y1 else (front, back)
            found.append(Crossing(x1 + (x2 - x1) * (y - y1) / (y2 - y1), left, right, number))
        return sorted(found, key=lambda crossing: crossing.x)

    def is_wall(self, number: int) -> bool:
        """Whether a player cannot pass a line, whatever moves beside it."""
        return None in self.beside[number] or bool(self.level.lines[number].flags & BLOCKS)

    def neighbours(self) -> Iterator[tuple[int, int]]:
        """Of each line with a sector on both sides that in front, and that behind."""
        return ((front, back) for front, back in self.beside if front is not None and back is not None)

    def tagged_sectors(self) -> set[int]:
        """The sectors on which a line with a special may act by its tag, or the end of a boss."""
        tags = {line.tag for line in self.level.lines if line.special} - {0} | BOSS_TAGS
        return {number for number, sector in enumerate(self.level.sectors) if sector.tag in tags}

    def rising_sectors(self) -> set[int]:
        """The sectors that may become higher than they are: by their tag, or since they are behind a special."""
        return self.tagged_sectors() | {back for line, (_, back) in zip(self.level.lines, self.beside)
                                if line.special and back is not None}

    def doors(self) -> dict[int, int]:
        """The ceilings that doors have once they are open, by the least one beside each. A door is a shut sector that may
        rise, whose ceiling is no sky."""
        sectors, rising = self.level.sectors, self.rising_sectors()
        least: dict[int, int] = {}
        for pair in self.neighbours():
            for one, other in (pair, pair[::-1]):
                if is_shut(sectors[one]) and not is_shut(sectors[other]):
                    least[one] = min(least.get(one, sectors[other].ceiling), sectors[other].ceiling)
        return {number: ceiling - LINTEL for number, ceiling in least.items()
                if number in rising and sectors[number].ceiling_flat != SKY and ceiling - LINTEL > sectors[number].floor}


def is_shut(sector: Sector) -> bool:
    return sector.ceiling <= sector.floor


def has_height(sector: Sector) -> bool:
    """Whether a player can stand in a sector."""
    return sector.ceiling - sector.floor >= HEIGHT


def is_step(one: Sector, other: Sector) -> bool:
    """Whether a player may step from one sector into another."""
    return (other.floor - one.floor <= STEP_UP
            and min(one.ceiling, other.ceiling) - max(one.floor, other.floor) >= HEIGHT)


def with_ceilings(level: Level, ceilings: Mapping[int, int]) -> bytes:
    """A WAD of the level alone, in which some sectors have other ceilings."""
    data = bytearray(level.lumps['SECTORS'])
    for sector, ceiling in ceilings.items():
        struct.pack_into('<h', data, struct.calcsize(LAYOUTS['SECTORS']) * sector + 2, ceiling)
    return alone(level, {'SECTORS': bytes(data)})


class Walls:
    """The lines that stop a player, by the squares that they come near to: of each its start, and the way to its end."""

    def __init__(self, plan: Plan) -> None:
        self.squares: dict[Square, list[Box]] = collections.defaultdict(list)
        for number in filter(plan.is_wall, range(len(plan.level.lines))):
            (x1, y1), (x2, y2) = plan.ends(number)
            for i in squares(x1, x2):
                for j in squares(y1, y2):
                    self.squares[i, j].append((x1, y1, x2 - x1, y2 - y1))

    def is_near(self, x: float, y: float) -> bool:
        """Whether a player at a place would stand in a wall."""
        return any(distance(x - x1, y - y1, dx, dy) < RADIUS * RADIUS
                   for x1, y1, dx, dy in self.squares.get((int(x // SQUARE), int(y // SQUARE)), ()))


def squares(one: int, other: int) -> range:
    """The squares along an axis that a line comes near to, by the places of its ends there."""
    low, high = sorted((one, other))
    return range((low - RADIUS) // SQUARE, (high + RADIUS) // SQUARE + 1)


def distance(x: float, y: float, dx: float, dy: float) -> float:
    """The square of the distance of a point from a line from the origin."""
    length = dx * dx + dy * dy
    along = max(0, min(1, (x * dx + y * dy) / length)) if length else 0
    return (x - along * dx) ** 2 + (y - along * dy) ** 2


class Ground:
    """The places of a level at which a player can stand."""

    def __init__(self, plan: Plan) -> None:
        self.plan, self.walls = plan, Walls(plan)
        self.rows: dict[float, tuple[list[Crossing], list[float]]] = {}
        # Pairs of lines that face each other, and have other sectors.
        self.doubts: collections.Counter[tuple[int, int]] = collections.Counter()

    def row(self, y: float) -> tuple[list[Crossing], list[float]]:
        """The crossings of a row, and their x."""
        if y not in self.rows:
            row = self.plan.crossings(y)
            self.rows[y] = row, [crossing.x for crossing in row]
        return self.rows[y]

    def is_void(self, x: float, y: float) -> bool:
        """Whether no sector is at a place, by the lines to the left and the right of it."""
        row, xs = self.row(y)
        place = bisect.bisect_right(xs, x)
        if place in (0, len(row)):
            return True
        left, right = row[place - 1], row[place]
        if left.right != right.left:
            self.doubts[min(left.line, right.line), max(left.line, right.line)] += 1
        return left.right is None or right.left is None

    def sector_at(self, x: float, y: float) -> typing.Optional[int]:
        """The sector at a place at which a player has room, or None."""
        number = self.sector_off_walls(x, y)
        return number if number is not None and has_height(self.plan.level.sectors[number]) else None

    def sector_off_walls(self, x: float, y: float) -> typing.Optional[int]:
        """The sector at a place that no wall is near to, or None."""
        if self.is_void(x, y) or self.walls.is_near(x, y):
            return None
        return self.plan.level.sector_at(x, y)

    def place_in(self, number: int) -> typing.Optional[tuple[int, float, int]]:
        """A place of a sector that no wall is near to, with the step of the grid on which it was found; None if a grid
        of 8 units has none."""
        low_x, low_y, high_x, high_y = self.plan.box_of(number)
        for step in STEPS:
            for y in range(low_y + step // 2, high_y, step):
                for x in range(low_x + step // 2, high_x, step):
                    if self.sector_off_walls(x, y + .5) == number:
                        return x, y + .5, step
        return None
