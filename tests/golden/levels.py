"""Levels as lumps, put together record by record: squares of a grid, a room, a hall, a chain of nodes, a court."""
import math
import struct
import typing
from collections.abc import Callable, Iterable, Sequence

from wads import MAP_LUMPS, Lump, name8

NO_SIDE = 0xffff
LEAF = 0x8000
ONE_SIDED, TWO_SIDED, TOP_UNPEGGED, BOTTOM_UNPEGGED = 1, 4, 8, 16
ALWAYS = 7  # the options of a thing that stands in every skill
EDGES = ((-1, 0), (0, 1), (1, 0), (0, -1))  # to the west, north, east and south of a square
Point = tuple[int, int]
Edge = tuple[Point, Point]  # where it begins and ends
Box = tuple[int, int, int, int]  # top, bottom, left, right


class Looks(typing.TypedDict, total=False):
    """What a side shows: its textures and their offsets."""

    top: str
    bottom: str
    middle: str
    x: int
    y: int


# Of a square and the one beside it, or None: the flags of the line between them, or None for no line; and the looks of
# its side.
FlagsOf = Callable[[Point, typing.Optional[Point]], typing.Optional[int]]
LooksOf = Callable[[Point, typing.Optional[Point]], Looks]


def bam16(dx: int, dy: int) -> int:
    """The angle of a direction, 65536 a turn, as segs have it."""
    return round(math.atan2(dy, dx) / math.tau * 65536) & 0xffff


class Level:
    """A level that is put together. Points are turned and stretched by two vectors before they are written, as
    `place` gives them."""

    def __init__(self, east: Point = (1, 0), north: Point = (0, 1)) -> None:
        self.place: Callable[[int, int], Point] = lambda x, y: (x * east[0] + y * north[0], x * east[1] + y * north[1])
        self.numbers: dict[Point, int] = {}
        self.points: list[Point] = []
        self.records: dict[str, list[bytes]] = {name: [] for name in MAP_LUMPS}

    def add(self, lump: str, layout: str, *fields: typing.Union[int, bytes]) -> int:
        self.records[lump].append(struct.pack(layout, *fields))
        return len(self.records[lump]) - 1

    def count(self, lump: str) -> int:
        return len(self.records[lump])

    def vertex(self, x: int, y: int) -> int:
        point = self.place(x, y)
        if point not in self.numbers:
            self.numbers[point] = self.add('VERTEXES', '<hh', *point)
            self.points.append(point)
        return self.numbers[point]

    def sector(self, floor: int, ceiling: int, below: str, above: str, light: int) -> int:
        return self.add('SECTORS', '<hh8s8shHH', floor, ceiling, name8(below), name8(above), light, 0, 0)

    def side(self, sector: int, top: str = '-', bottom: str = '-', middle: str = '-', x: int = 0, y: int = 0) -> int:
        return self.add('SIDEDEFS', '<hh8s8s8sH', x, y, name8(top), name8(bottom), name8(middle), sector)

    def line(self, start: int, end: int, flags: int, front: int, back: int = NO_SIDE) -> int:
        return self.add('LINEDEFS', '<7H', start, end, flags, 0, 0, front, back)

    def seg(self, start: int, end: int, line: int, side: int = 0) -> int:
        (x1, y1), (x2, y2) = self.points[start], self.points[end]
        return self.add('SEGS', '<6H', start, end, bam16(x2 - x1, y2 - y1), line, side, 0)

    def wall(self, start: int, end: int, sector: int, middle: str) -> int:
        """A wall of one side: a side, a line and a seg."""
        line = self.line(start, end, ONE_SIDED, self.side(sector, middle=middle))
        return self.seg(start, end, line)

    def leaf(self, first: int) -> int:
        """A leaf of all segs from that one on."""
        return self.add('SSECTORS', '<HH', self.count('SEGS') - first, first)

    def node(self, line: Edge, boxes: Sequence[Box], children: Sequence[int]) -> int:
        (x1, y1), (x2, y2) = (self.place(*point) for point in line)
        return self.add('NODES', '<4h8h2H', x1, y1, x2 - x1, y2 - y1, *boxes[0], *boxes[1], *children)

    def box(self, left: int, bottom: int, right: int, top: int) -> Box:
        """The box around a rectangle, as nodes have it: top, bottom, left, right."""
        corners = [self.place(x, y) for x in (left, right) for y in (bottom, top)]
        xs, ys = [x for x, _ in corners], [y for _, y in corners]
        return max(ys), min(ys), min(xs), max(xs)

    def thing(self, x: int, y: int, angle: int, kind: int, options: int = ALWAYS) -> int:
        return self.add('THINGS', '<hhhHH', *self.place(x, y), angle, kind, options)

    def lumps(self, label: str) -> list[Lump]:
        return [(label, b''), *((name, b''.join(records)) for name, records in self.records.items())]


class Squares:
    """A grid of squares, each a leaf, with the lines between them.

    `cells` has the sector of each square by column and row; squares that it lacks are solid. Of a square and the one
    beside it, or None, `flags` gives the flags of the line between them, or None where no line is, and `looks` the
    textures and offsets of its side."""

    def __init__(self, level: Level, cells: dict[Point, int], unit: int, flags: FlagsOf, looks: LooksOf) -> None:
        self.level, self.cells, self.unit, self.flags, self.looks = level, cells, unit, flags, looks
        self.lines: dict[Point, int] = {}  # their numbers, by those of the vertexes where they begin and end
        leaves = {square: self.add_leaf(square) for square in cells}
        add_nodes(level, sorted(cells), leaves, unit)

    def add_leaf(self, square: Point) -> int:
        first = self.level.count('SEGS')
        for step in EDGES:
            there = square[0] + step[0], square[1] + step[1]
            self.add_edge(square, there if there in self.cells else None, edge_of(square, step), self.flags)
        if self.level.count('SEGS') == first:
            there = square[0] + EDGES[0][0], square[1]
            self.add_edge(square, there, edge_of(square, EDGES[0]), lambda here, there: TWO_SIDED)
        return self.level.leaf(first)

    def add_edge(self, here: Point, there: typing.Optional[Point], edge: Edge, flags_of: FlagsOf) -> None:
        """The seg of an edge, and its line with the sides, where the square beside it has not added that."""
        start, end = (self.level.vertex(self.unit * x, self.unit * y) for x, y in edge)
        if (end, start) in self.lines:
            self.level.seg(start, end, self.lines[end, start], 1)
            return
        flags = flags_of(here, there)
        if flags is None:
            return
        front = self.level.side(self.cells[here], **self.looks(here, there))
        back = self.level.side(self.cells[there], **self.looks(there, here)) if there else NO_SIDE
        self.lines[start, end] = self.level.line(start, end, flags, front, back)
        self.level.seg(start, end, self.lines[start, end])


def edge_of(square: Point, step: Point) -> Edge:
    """Where an edge of a square begins and ends: clockwise, so that the square lies on its right."""
    x, y = square
    corners = [(x, y), (x, y + 1), (x + 1, y + 1), (x + 1, y)]
    place = EDGES.index(step)
    return corners[place], corners[(place + 1) % 4]


def add_nodes(level: Level, squares: list[Point], leaves: dict[Point, int], unit: int) -> int:
    """The nodes of some squares. The child that leads to them: a leaf, or the last node."""
    if len(squares) == 1:
        return LEAF | leaves[squares[0]]
    spread = [len({square[axis] for square in squares}) for axis in (0, 1)]
    axis = 0 if spread[0] >= spread[1] else 1
    values = sorted({square[axis] for square in squares})
    cut = values[len(values) // 2]
    low = [square for square in squares if square[axis] < cut]
    high = [square for square in squares if square[axis] >= cut]
    if axis == 0:  # the line goes north: the east is in front
        parts, line = (high, low), ((unit * cut, 0), (unit * cut, unit))
    else:  # the line goes east: the south is in front
        parts, line = (low, high), ((0, unit * cut), (unit, unit * cut))
    children = [add_nodes(level, part, leaves, unit) for part in parts]
    return level.node(line, [box_of(level, part, unit) for part in parts], children)


def box_of(level: Level, squares: Sequence[Point], unit: int) -> Box:
    columns, rows = [x for x, _ in squares], [y for _, y in squares]
    return level.box(unit * min(columns), unit * min(rows), unit * (max(columns) + 1), unit * (max(rows) + 1))


def add_walls(level: Level, sector: int, walls: Sequence[str] = ('WALL1',)) -> None:
    """The walls of a room from -256 to 256 both ways, with these textures in turn: east, south, west and north."""
    corners = [level.vertex(x, y) for x, y in ((256, 256), (256, -256), (-256, -256), (-256, 256))]
    for number in range(4):
        level.wall(corners[number], corners[(number + 1) % 4], sector, walls[number % len(walls)])


def room(label: str, below: str = 'FLAT0', above: str = 'FLAT1', walls: Sequence[str] = ('WALL1',), floor: int = 0,
         ceiling: int = 128, light: int = 160, things: Iterable[tuple[int, ...]] = ()) -> list[Lump]:
    """A room of one leaf."""
    level = Level()
    add_walls(level, level.sector(floor, ceiling, below, above, light), walls)
    level.leaf(0)
    for thing in things:
        level.thing(*thing)
    return level.lumps(label)


def hall(label: str, leaves: int) -> list[Lump]:
    """A hall of leaves in a row to the east, each 128 long, 256 wide and 128 high. Leaf c has light c; those from the
    65th on have light 63, and floors that go down by 8."""
    level = Level()
    cells: dict[Point, int] = {}
    for leaf in range(leaves):
        cells[leaf, 0] = level.sector(0 if leaf < 64 else -8 * (leaf - 63), 128, 'FLAT0', 'FLAT0', min(leaf, 63))
    level.place = lambda x, y: (x // 2 - 64, y - 128)  # squares of 256, half as long
    Squares(level, cells, 256, lambda here, there: None if there else ONE_SIDED, lambda here, there: {'middle': 'WALL1'})
    return level.lumps(label)


def chain(label: str, depth: int) -> list[Lump]:
    """A room under a chain of nodes: behind each is the one leaf, in front the node before it."""
    level = Level()
    add_walls(level, level.sector(0, 128, 'FLAT0', 'FLAT1', 160))
    for _ in range(depth + 1):
        level.add('SSECTORS', '<HH', 4, 0)
    boxes = [level.box(-256, -256, 256, 256)] * 2
    for number in range(depth):
        front = LEAF if number == 0 else number - 1
        level.node(((300, 0), (300, 256)), boxes, (front, LEAF | number + 1))
    return level.lumps(label)


# A court under the sky, with rooms around it. Each letter is a square of 64 map units.
COURT = ['################',
         '##aaaa##bbbbbb##',
         '##aaaa1122bbbb##',
         '##aaaa##bbbbbb##',
         '####d######g####',
         '#yyyyyyyyyyyyyy#',
         '#yyyyywwwwyyyyy#',
         '#yyyyywiiwyyyyy#',
         '#yyyyywwwwyyykk#',
         '#yyyyyyyyyyyykk#',
         '###o####gg######',
         '#cccc##eeeee####',
         '#ccccffeeheel###',
         '#cccc##eeeeel###',
         '################']
# Of each letter: floor, ceiling, the flats of both, light, and the texture of walls around it.
COURT_SQUARES = {
    'a': (0, 128, 'TILES', 'BOARDS', 176, 'STONE'), 'b': (24, 152, 'BOARDS', 'PLATE', 128, 'MIX'),
    'c': (-24, 96, 'MUD', 'SHORT', 80, 'LOW'), 'd': (0, 72, 'PLATE', 'PLATE', 144, 'PLANK'),
    'e': (16, 240, 'SHORT', 'BOARDS', 208, 'HIGH'), 'f': (0, 64, 'MUD', 'MUD', 64, 'SHIFT'),
    'g': (8, 120, 'PLATE', 'BOARDS', 160, 'PLANK'), 'h': (120, 200, 'TILES', 'TILES', 255, 'GAP'),
    'i': (64, 192, 'BOARDS', 'F_SKY1', 240, 'PLANK'), 'k': (160, 160, 'TILES', 'F_SKY1', 224, 'STONE'),
    'l': (16, 16, 'TILES', 'TILES', 120, 'WINDOW'), 'o': (-8, 72, 'TILES', 'PLATE', 112, 'STONE'),
    'w': (-20, 192, 'MUD', 'F_SKY1', 216, 'STONE'), 'y': (0, 192, 'TILES', 'F_SKY1', 232, 'STONE'),
    '1': (8, 112, 'BOARDS', 'PLATE', 168, 'PLANK'), '2': (16, 128, 'BOARDS', 'PLATE', 152, 'PLANK')}
COURT_GRATES = {frozenset('by'), frozenset('gy'), frozenset('ge'), frozenset('dy'), frozenset('ew')}
# Column and row in the plan, in halves of a square, and type, angle, options.
COURT_THINGS = [
    (7, 4, 1, 90, 7), (10, 5, 10, 0, 7), (21, 4, 10, 45, 3), (8, 13, 10, 180, 4), (25, 12, 10, 270, 1),
    (15, 15, 11, 0, 7), (16, 14, 11, 100, 6), (5, 25, 12, 0, 7), (20, 23, 13, 135, 7), (22, 25, 13, -45, 7),
    (12, 18, 14, 225, 7), (12, 18, 14, 46, 7), (24, 26, 15, 0, 4), (16, 13, 16, 0, 1), (3, 12, 10, 315, 23),
    (28, 17, 12, 0, 2), (18, 15, 99, 0, 7), (9, 24, 11, 0, 16)]


def court(label: str, east: Point = (1, 0), north: Point = (0, 1)) -> list[Lump]:
    """The court, turned and stretched by two vectors."""
    level = Level(east, north)
    sectors = {letter: level.sector(*looks[:5]) for letter, looks in COURT_SQUARES.items()}
    height = len(COURT)
    letters = {(x, height - 1 - y): letter for y, row in enumerate(COURT) for x, letter in enumerate(row)
               if letter != '#'}

    def flags(here: Point, there: typing.Optional[Point]) -> int:
        pegs = TOP_UNPEGGED * (here[0] % 2) | BOTTOM_UNPEGGED * (here[1] % 2)
        return TWO_SIDED | pegs if there else ONE_SIDED

    def looks(here: Point, there: typing.Optional[Point]) -> Looks:
        own = letters[here]
        texture = COURT_SQUARES[own][5]
        if there is None:
            return {'middle': texture, 'x': 8 * here[0], 'y': 4 * here[1]}
        other = letters[there]
        middle = '-'
        if frozenset((own, other)) in COURT_GRATES:
            middle = 'GRATE' if own in 'ge' else 'LOW'
        return {'top': texture, 'bottom': COURT_SQUARES[other][5], 'middle': middle, 'x': 3 * here[1]}

    Squares(level, {square: sectors[letter] for square, letter in letters.items()}, 64, flags, looks)
    for x, y, kind, angle, options in COURT_THINGS:
        level.thing(32 * x, 64 * height - 32 * y, angle, kind, options)
    return level.lumps(label)
