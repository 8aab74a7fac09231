"""A WAD of one small level, MAP01: what `doomview picture` draws where no WAD is named.

Level and art are made here, so nothing of a game is in it. A letter of a plan is a square of 64 map units of the
floor and ceiling that SQUARES has for it; a # is solid. Each square is a leaf, and lines are between squares."""
import functools
import struct
import typing
from collections.abc import Callable, Sequence

from . import doom
from .doom import COLORMAP_SIZE, COLORMAPS, EVERY_SKILL as ALWAYS, LAYOUTS, NO_SIDE, PLAYER_1, SKY as SKY_FLAT
from .wads import wad_of

PLAN = ['################',
        '######kkkk######',
        '######gggg######',
        '######pppp######',
        '######3333######',
        '###l##2222##.###',
        '###l#.1111.#.###',
        '###ll........###',
        '###ll#.wwww.#.##',
        '####l..wwww..s##',
        '####l#.wwww.#s##',
        '####l..........#',
        '#####.......#.##',
        '######......####',
        '######......####',
        '################']
Place = tuple[int, int]  # column and row of a square
Paint = Callable[[int, int], typing.Optional[int]]  # the colour of a texel, or None for a hole
Lumps = list[tuple[str, bytes]]
SIDE, BLOCK = 64, 128  # of a square, and of a block of BLOCKMAP


class Square(typing.NamedTuple):
    """A letter of a plan, whose squares are one sector: heights in map units, light 0 to 255."""

    floor: int
    ceiling: int
    below: str  # flat
    above: str
    light: int
    wall: str  # texture of the walls around it
    special: int = 0
    tag: int = 0


SQUARES = {'.': Square(0, 160, 'TILES', 'BOARDS', 176, 'BRICKS'), 's': Square(0, 208, 'TILES', SKY_FLAT, 232, 'BRICKS'),
           'w': Square(-16, 208, 'MOSS', SKY_FLAT, 224, 'BRICKS'), 'l': Square(0, 80, 'MOSS', 'BOARDS', 96, 'PANELS'),
           '1': Square(12, 160, 'BOARDS', 'BOARDS', 184, 'PANELS'),
           '2': Square(24, 160, 'BOARDS', 'BOARDS', 192, 'PANELS'),
           '3': Square(36, 160, 'BOARDS', 'BOARDS', 200, 'PANELS'),
           'p': Square(48, 160, 'BOARDS', 'BOARDS', 208, 'BRICKS'),
           'g': Square(48, 192, 'MOSS', SKY_FLAT, 248, 'BRICKS'), 'k': Square(72, 72, 'MOSS', SKY_FLAT, 248, 'BRICKS')}
STAIRS = '123p'  # squares with boards on their steps
GRATED = {'g', 'p'}  # between these two squares stands a grate
LAMP = 2028  # a type of things
HARDER = 6  # the options of a thing that is not in skills 1 and 2
# Column and row of each thing in PLAN, in halves of a square, its type, its angle and its skills.
THINGS = [(16, 26, PLAYER_1, 90, ALWAYS), (13, 15, LAMP, 0, ALWAYS), (19, 15, LAMP, 0, ALWAYS), (13, 7, LAMP, 0, ALWAYS),
          (19, 7, LAMP, 0, ALWAYS), (25, 15, LAMP, 0, ALWAYS), (9, 19, LAMP, 0, ALWAYS), (14, 22, LAMP, 0, HARDER)]

RAMPS = [(255, 255, 255), (255, 190, 140), (255, 210, 120), (150, 255, 150), (140, 190, 255), (255, 240, 170),
         (200, 150, 255), (255, 120, 90)]
STEPS = 32  # colours of a ramp, from bright to dark
GREY, BRICK, WOOD, LEAF, SKY, GLOW = range(0, 6 * STEPS, STEPS)


def shade(ramp: int, dark: float) -> int:
    return ramp + max(0, min(STEPS - 1, int(dark)))


def grain(x: int, y: int) -> int:
    """Roughness of a surface, 0 to 3, that looks like chance."""
    return (x * 7919 ^ y * 104729 ^ (x * y) * 31) % 97 % 4


def bricks(x: int, y: int) -> int:
    column = (x + y // 16 % 2 * 16) // 32
    if y % 16 == 0 or (x + y // 16 % 2 * 16) % 32 == 0:
        return shade(GREY, 20 + grain(x, y))
    return shade(BRICK, 11 + grain(x, y) + (y // 16 * 5 + column * 3) % 5)


def panels(x: int, y: int) -> int:
    if x % 32 == 0 or y % 64 in (0, 63):
        return shade(GREY, 26)
    return shade(WOOD, 10 + grain(x // 3, y // 9) + x // 32 % 2 * 2)


def bars(x: int, y: int) -> typing.Optional[int]:
    return shade(GREY, 8 + abs(x % 16 - 2) * 6) if x % 16 < 5 or y % 64 < 4 else None


def sky(x: int, y: int) -> int:
    ridge = 118 - (x // 4 * 7 % 11 + x // 16 * 5 % 13 + x // 64 * 3 % 9) * 2
    if y >= ridge:
        return shade(LEAF, 18 + (y - ridge) // 8 + grain(x, y) // 2)
    cloud = grain(x // 24, y // 9) * 2 if y < 70 else 0
    return shade(SKY, 18 - y // 8 - cloud)


def lamp(x: int, y: int) -> typing.Optional[int]:
    if 4 <= y < 20 and (x - 16) ** 2 + (y - 12) ** 2 < 64:
        return shade(GLOW, ((x - 14) ** 2 + (y - 10) ** 2) // 8)
    if 19 <= y and abs(x - 16) <= (2 if y < 60 else 7):
        return shade(GREY, 10 + abs(x - 15) * 3)
    return None


def tiles(ramp: int, size: int, dark: int) -> Callable[[int, int], int]:
    return lambda x, y: shade(ramp, dark + 9 if x % size == 0 or y % size == 0 else
                              dark + grain(x, y) + (x // size + y // size) % 2 * 4)


def flat(paint: Callable[[int, int], int]) -> bytes:
    return bytes(paint(x, y) for y in range(64) for x in range(64))


def patch(width: int, height: int, left: int, top: int, paint: Paint) -> bytes:
    """A picture; where paint gives None it has a hole."""
    columns = []
    for x in range(width):
        column, y = b'', 0
        while y < height:
            texels = []
            while y < height and (texel := paint(x, y)) is not None:
                texels.append(texel)
                y += 1
            if texels:
                column += bytes([y - len(texels), len(texels), 0, *texels, 0])
            y += 1
        columns.append(column + b'\xff')
    offsets, at = [], 8 + 4 * width
    for column in columns:
        offsets.append(at)
        at += len(column)
    return struct.pack(f'<4h{width}I', width, height, left, top, *offsets) + b''.join(columns)


def palette() -> bytes:
    return bytes(part * (STEPS + 2 - step) // (STEPS + 2) for ramp in RAMPS for step in range(STEPS) for part in ramp)


def colormap() -> bytes:
    """Each of the 32 maps is a step darker than the one before it."""
    return bytes(shade(c // STEPS * STEPS, c % STEPS + (STEPS - c % STEPS) * dark // 34)
                 for dark in range(COLORMAPS) for c in range(COLORMAP_SIZE))


def name(text: str) -> bytes:
    return text.encode().ljust(8, b'\0')


def textures(patches: Lumps) -> Lumps:
    """TEXTURE1 and PNAMES: a texture of each patch, under its name, and before them one that is never drawn."""
    records = [name('NONE') + struct.pack('<IhhIHhhHI', 0, 64, 128, 0, 1, 0, 0, 0, 0)]
    for number, (label, data) in enumerate(patches):
        width, height = struct.unpack_from('<hh', data)
        records.append(name(label) + struct.pack('<IhhIHhhHI', 0, width, height, 0, 1, 0, 0, number, 0))
    places = [4 + 4 * len(records) + 32 * i for i in range(len(records))]
    return [('TEXTURE1', struct.pack(f'<I{len(places)}I', len(places), *places) + b''.join(records)),
            ('PNAMES', struct.pack('<I', len(patches)) + b''.join(name(label) for label, _ in patches))]


class Level:
    """The lumps of a level, square by square: rows of letters from north to south, what the letters are, and the things
    with their places in halves of a square, counted from the north-west corner."""

    def __init__(self, plan: Sequence[str] = PLAN, squares: dict[str, Square] = SQUARES,
                 things: Sequence[tuple[int, int, int, int, int]] = THINGS) -> None:
        self.plan, self.squares, self.placed = plan, squares, things
        self.kinds = list(squares)
        self.open = [(x, y) for y, row in enumerate(plan) for x, letter in enumerate(row) if letter in squares]
        self.vertices: dict[Place, int] = {}  # by their places in map units
        self.lines: dict[Place, tuple[int, bytes]] = {}  # by the numbers of their ends
        self.sides: list[bytes] = []
        self.segs: list[bytes] = []
        self.nodes: list[bytes] = []
        self.leaves: dict[Place, tuple[int, bytes]] = {}  # by their squares
        for square in self.open:
            self.add_leaf(square, set(self.open))
        self.add_node(self.open)

    def vertex(self, x: int, y: int) -> int:
        return self.vertices.setdefault((SIDE * x, SIDE * (len(self.plan) - y)), len(self.vertices))

    def side(self, here: Place, there: typing.Optional[Place]) -> int:
        """The number of a new side that looks into the square `here`."""
        kind = self.plan[here[1]][here[0]]
        wall = self.squares[kind].wall
        if there is None:
            parts = '-', '-', wall
        else:
            other = self.plan[there[1]][there[0]]
            step = 'PANELS' if other in STAIRS else self.squares[other].wall
            parts = wall, step, 'BARS' if {kind, other} == GRATED else '-'
        top, bottom, middle = map(name, parts)
        self.sides.append(struct.pack(LAYOUTS['SIDEDEFS'], 0, 0, top, bottom, middle, self.kinds.index(kind)))
        return len(self.sides) - 1

    def add_leaf(self, square: Place, others: set[Place]) -> None:
        """A leaf with a seg for each edge of the square, clockwise, so that it lies on their right."""
        x, y = square
        corners = [(x, y + 1), (x, y), (x + 1, y), (x + 1, y + 1)]
        first = len(self.segs)
        for edge, (dx, dy) in enumerate([(-1, 0), (0, -1), (1, 0), (0, 1)]):
            beside = (x + dx, y + dy)
            there = beside if beside in others else None
            start, end = self.vertex(*corners[edge]), self.vertex(*corners[(edge + 1) % 4])
            if (end, start) in self.lines:
                line, direction = self.lines[end, start][0], 1
            else:
                line, direction = len(self.lines), 0
                sides = [self.side(square, there), NO_SIDE if there is None else self.side(there, square)]
                flags = 1 if there is None else doom.TWO_SIDED
                self.lines[start, end] = line, struct.pack(LAYOUTS['LINEDEFS'], start, end, flags, 0, 0, *sides)
            angle = (0x4000, 0, 0xc000, 0x8000)[edge]
            self.segs.append(struct.pack(LAYOUTS['SEGS'], start, end, angle, line, direction, 0))
        self.leaves[square] = len(self.leaves), struct.pack(LAYOUTS['SSECTORS'], 4, first)

    def box(self, squares: list[Place]) -> list[int]:
        columns, rows = [x for x, _ in squares], [y for _, y in squares]
        height = len(self.plan)
        return [SIDE * (height - min(rows)), SIDE * (height - max(rows) - 1),
                SIDE * min(columns), SIDE * (max(columns) + 1)]

    def add_node(self, squares: list[Place]) -> int:
        """The node, or leaf, of these squares, as a child is named."""
        if len(squares) == 1:
            return doom.LEAF | self.leaves[squares[0]][0]
        axis = max((0, 1), key=lambda axis: len({square[axis] for square in squares}))
        values = sorted({square[axis] for square in squares})
        cut = values[len(values) // 2]
        low = [square for square in squares if square[axis] < cut]
        high = [square for square in squares if square[axis] >= cut]
        if axis == 0:  # the line goes north, and the east is in front
            front, back, line = high, low, [SIDE * cut, 0, 0, SIDE * len(self.plan)]
        else:  # the line goes east, and the south is in front
            front, back, line = high, low, [0, SIDE * (len(self.plan) - cut), SIDE * len(self.plan[0]), 0]
        children = self.add_node(front), self.add_node(back)
        self.nodes.append(struct.pack(LAYOUTS['NODES'], *line, *self.box(front), *self.box(back), *children))
        return len(self.nodes) - 1

    def things(self) -> bytes:
        height = len(self.plan)
        return b''.join(
            struct.pack(LAYOUTS['THINGS'], SIDE * x // 2, SIDE * height - SIDE * y // 2, angle, kind, skills)
            for x, y, kind, angle, skills in self.placed)

    def sectors(self) -> bytes:
        return b''.join(
            struct.pack(LAYOUTS['SECTORS'], one.floor, one.ceiling, name(one.below), name(one.above), one.light,
                        one.special, one.tag) for one in self.squares.values())

    def blockmap(self) -> bytes:
        """Of each block of 128 map units the lines that touch it: their numbers between a 0 and a -1."""
        columns, rows = (SIDE * len(part) // BLOCK + 1 for part in (self.plan[0], self.plan))
        lists = [[0] for _ in range(columns * rows)]
        points = list(self.vertices)
        for number, ends in enumerate(self.lines):
            xs, ys = zip(*(points[end] for end in ends))
            for y in range(max(0, (min(ys) - 1) // BLOCK), min(rows, max(ys) // BLOCK + 1)):
                for x in range(max(0, (min(xs) - 1) // BLOCK), min(columns, max(xs) // BLOCK + 1)):
                    lists[y * columns + x].append(number)
        first = 4 + len(lists)
        offsets = [first + sum(len(one) + 1 for one in lists[:number]) for number in range(len(lists))]
        words = [0, 0, columns, rows, *offsets, *(word for one in lists for word in (*one, 0xffff))]
        return struct.pack(f'<{len(words)}H', *words)

    def lumps(self) -> Lumps:
        return [('MAP01', b''), ('THINGS', self.things()),
                ('LINEDEFS', b''.join(line for _, line in self.lines.values())), ('SIDEDEFS', b''.join(self.sides)),
                ('VERTEXES', b''.join(struct.pack(LAYOUTS['VERTEXES'], *point) for point in self.vertices)),
                ('SEGS', b''.join(self.segs)), ('SSECTORS', b''.join(leaf for _, leaf in self.leaves.values())),
                ('NODES', b''.join(self.nodes)), ('SECTORS', self.sectors()),
                ('REJECT', bytes((len(self.squares) ** 2 + 7) // 8)), ('BLOCKMAP', self.blockmap())]


def room() -> bytes:
    """The bytes of the WAD."""
    return with_art(Level().lumps())


@functools.cache
def art() -> tuple[Lumps, Lumps]:
    """The lumps of the room before its level, and those behind it."""
    patches = [('BRICKS', patch(64, 128, 0, 0, bricks)), ('PANELS', patch(64, 128, 0, 0, panels)),
               ('BARS', patch(64, 128, 0, 0, bars)), ('SKY1', patch(256, 128, 0, 0, sky))]
    flats = [('TILES', flat(tiles(GREY, 32, 12))), ('BOARDS', flat(tiles(WOOD, 16, 14))),
             ('MOSS', flat(tiles(LEAF, 8, 14)))]
    return ([('PLAYPAL', palette()), ('COLORMAP', colormap())],
            [*textures(patches), *patches, ('F_START', b''), *flats, ('F_END', b''),
             ('S_START', b''), ('COLUA0', patch(32, 64, 16, 64, lamp)), ('S_END', b'')])


def with_art(level: Lumps) -> bytes:
    """The bytes of a WAD with the lumps of a level, and the art of the room."""
    before, behind = art()
    return wad_of([*before, *level, *behind])
