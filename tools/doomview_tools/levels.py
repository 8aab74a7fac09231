"""Levels: the lumps of a map as records, and what the nodes say of a place.

`read(wads, name)` gives a Level, whose things, lines, sides, vertexes, segs, leaves, nodes and sectors are lists of
records with the fields of docs/FORMATS.md, "Maps". Bytes after the last whole record count for nothing."""
import functools
import struct
import typing
from collections.abc import Mapping, Sequence

from .doom import BUILT_LUMPS, LAYOUTS, LEAF, MAP_LUMPS, NO_SIDE, PLAYER_1, TABLES
from .trouble import WadError
from .wads import BEHIND_MAP, Lump, clean, map_labels, read as read_wad, wad_of

UNIT = 1 << 16  # a map unit in 16.16
TURN = 1 << 32  # a whole turn as an angle
EYE_HEIGHT = 41  # map units above the floor
EXTENDED = [b'XNOD', b'ZNOD', b'XGLN', b'ZGLN', b'XGL2', b'ZGL2', b'XGL3', b'ZGL3', b'gNd2', b'gNd5']

Box = tuple[int, ...]  # top, bottom, left, right


class Thing(typing.NamedTuple):
    """A thing of a map: x and y in map units, its angle in degrees, its type, and the bits of its options."""

    x: int
    y: int
    angle: int
    type: int
    options: int


class Line(typing.NamedTuple):
    """A line of a map: the numbers of its vertexes and of its sides; a side that it does not have is None."""

    start: int
    end: int
    flags: int
    special: int
    tag: int
    front: typing.Optional[int]
    back: typing.Optional[int]

    @property
    def sides(self) -> tuple[typing.Optional[int], typing.Optional[int]]:
        """The sides in their order: that at the front, and that at the back."""
        return self.front, self.back


class Side(typing.NamedTuple):
    """A side of a line: offsets in texels, the names of its textures, and the number of its sector."""

    x_offset: int
    y_offset: int
    upper: str
    lower: str
    middle: str
    sector: int


class Vertex(typing.NamedTuple):
    """An end of a line, in map units."""

    x: int
    y: int


class Seg(typing.NamedTuple):
    """A part of a line: the numbers of its vertexes and of the line, and its side, 0 at the front and 1 at the back."""

    start: int
    end: int
    angle: int
    line: int
    side: int
    offset: int


class Leaf(typing.NamedTuple):
    """A subsector: how many segs it has, and the number of the first."""

    count: int  # type: ignore[assignment]  # in the place of a method of tuples
    first: int


class Node(typing.NamedTuple):
    """A node: a line that cuts the map, and of each of its sides the box and the child."""

    x: int
    y: int
    dx: int
    dy: int
    front_box: Box
    back_box: Box
    front: int
    back: int


class Sector(typing.NamedTuple):
    """A sector: heights in map units, the names of its flats, light 0 to 255, special and tag."""

    floor: int
    ceiling: int
    floor_flat: str
    ceiling_flat: str
    light: int
    special: int
    tag: int


Record = tuple[typing.Any, ...]  # of a lump: numbers and names, as its layout has them


def records(data: bytes, layout: str) -> list[Record]:
    """The whole records of a lump, as tuples."""
    size = struct.calcsize(layout)
    return [struct.unpack_from(layout, data, size * i) for i in range(len(data) // size)]


class Level:
    """A map: its name, the WAD that has it, the bytes of its lumps by name, and the records of eight of them."""

    def __init__(self, name: str, wad: str, lumps: dict[str, bytes]) -> None:
        self.name, self.wad, self.lumps = name, wad, lumps

    def records(self, lump: str) -> list[Record]:
        return records(self.lumps.get(lump, b''), LAYOUTS[lump])

    @functools.cached_property
    def things(self) -> list[Thing]:
        return [Thing(*record) for record in self.records('THINGS')]

    @functools.cached_property
    def lines(self) -> list[Line]:
        return [Line(*record[:5], *(None if side == NO_SIDE else side for side in record[5:]))
                for record in self.records('LINEDEFS')]

    @functools.cached_property
    def sides(self) -> list[Side]:
        return [Side(x, y, clean(upper), clean(lower), clean(middle), sector)
                for x, y, upper, lower, middle, sector in self.records('SIDEDEFS')]

    @functools.cached_property
    def vertexes(self) -> list[Vertex]:
        return [Vertex(*record) for record in self.records('VERTEXES')]

    @functools.cached_property
    def segs(self) -> list[Seg]:
        return [Seg(*record) for record in self.records('SEGS')]

    @functools.cached_property
    def leaves(self) -> list[Leaf]:
        return [Leaf(*record) for record in self.records('SSECTORS')]

    @functools.cached_property
    def nodes(self) -> list[Node]:
        return [Node(x, y, dx, dy, tuple(boxes[:4]), tuple(boxes[4:]), front, back)
                for x, y, dx, dy, *boxes, front, back in self.records('NODES')]

    @functools.cached_property
    def sectors(self) -> list[Sector]:
        return [Sector(floor, ceiling, clean(below), clean(above), *rest)
                for floor, ceiling, below, above, *rest in self.records('SECTORS')]

    def extended_nodes(self) -> typing.Optional[tuple[str, str]]:
        """The lump that has extended nodes, and their letters, or None."""
        for name in reversed(BUILT_LUMPS):
            letters = self.lumps.get(name, b'')[:4]
            if letters in EXTENDED:
                return name, letters.decode()
        return None

    def damage(self, what: str = "is damaged; doomview's job audit says where") -> WadError:
        """The WadError of a level in which a number names nothing, or nodes lead nowhere."""
        extended = self.extended_nodes()
        if extended:
            return self.error('has extended nodes ({1} in {0}); build plain ones'.format(*extended))
        if not self.leaves:
            return self.error('has no nodes (SSECTORS is empty); build them')
        return self.error(what)

    def check_whole(self) -> None:
        """A WadError where a lump seems to be cut short: it ends within a record, or no node leads to some leaves."""
        for name, layout in LAYOUTS.items():
            if len(self.lumps[name]) % struct.calcsize(layout):
                raise self.damage(f'is damaged: {name} ends within a record; it was cut short, or is of another format')
        found, left = set(), [len(self.nodes) - 1 if self.nodes else LEAF]
        while left:
            child = left.pop()
            most = len(self.leaves) if child & LEAF else len(self.nodes)
            if child in found or child & ~LEAF >= most:
                continue
            found.add(child)
            left += [] if child & LEAF else [self.nodes[child].front, self.nodes[child].back]
        reached = sum(child & LEAF != 0 for child in found)
        if reached < len(self.leaves) or not reached:
            raise self.damage(f'is damaged: its nodes lead to {reached} of its {len(self.leaves)} leaves (SSECTORS); '
                              'build them anew')

    def error(self, what: str) -> WadError:
        return WadError(f'{self.name} of {self.wad} {what}')

    def sector_at(self, x: float, y: float) -> int:
        """The number of the sector at a point, in map units, by the nodes (R_PointInSubsector)."""
        try:
            child = len(self.nodes) - 1 if self.nodes else LEAF
            for _ in self.nodes:
                if child & LEAF:
                    break
                node = self.nodes[child]
                child = node.back if is_behind(node, x, y) else node.front
            if not child & LEAF:
                raise self.damage('has nodes that form a circle; build them anew')
            return self.sector_of_leaf(child & ~LEAF)
        except (IndexError, TypeError) as error:
            raise self.damage() from error

    def sector_of_leaf(self, number: int) -> int:
        """The sector of a leaf: that in front of its first seg."""
        seg = self.segs[self.leaves[number].first]
        line = self.lines[seg.line]
        return self.sides[line.sides[seg.side]].sector  # type: ignore[index]  # a TypeError where it has no such side

    def floor_at(self, x: float, y: float) -> int:
        """The height of the floor at a point."""
        sector = self.sector_at(x, y)
        if sector >= len(self.sectors):
            raise self.damage()
        return self.sectors[sector].floor

    def player_start(self) -> Thing:
        """The thing at which the original puts player 1: the last of its type (earlier ones are voodoo dolls)."""
        starts = [thing for thing in self.things if thing.type == PLAYER_1]
        if not starts:
            raise self.error('has no player start (thing of type 1)')
        return starts[-1]


def alone(level: Level, changed: Mapping[str, bytes]) -> bytes:
    """The bytes of a PWAD of a level alone, in which some lumps have other bytes."""
    lumps = {**level.lumps, **changed}
    return wad_of([(level.name, b''), *((name, lumps[name]) for name in MAP_LUMPS)], b'PWAD')


def is_behind(node: Node, x: float, y: float) -> bool:
    """Whether a point is on the back of a node's line (R_PointOnSide)."""
    node_x, node_y, line_x, line_y = node[:4]
    if line_x == 0:
        return line_y > 0 if x <= node_x else line_y < 0
    if line_y == 0:
        return line_x < 0 if y <= node_y else line_x > 0
    if (x, y) == (node_x, node_y):
        return not line_x < 0 < line_y
    return line_y * (x - node_x) <= line_x * (y - node_y)


def no_map(name: str, wads: Sequence[str], lumps: Sequence[Lump]) -> WadError:
    """The WadError of lumps without a map of that name; `wads` has the WAD of each lump, or those without any."""
    names = [lump.name for lump in lumps]
    if name in names:
        label = len(names) - 1 - names[::-1].index(name)
        return WadError(f'{name} of {wads[label]} {why_no_map(names[label + 1:label + BEHIND_MAP])}')
    where = list(dict.fromkeys(wads))
    have = 'has' if len(where) == 1 else 'have'
    maps = ' '.join(sorted(map_labels(lumps))) or 'none'
    return WadError(f'{" and ".join(where)} {have} no map {name}; the maps there: {maps}')


def why_no_map(behind: list[str]) -> str:
    """Why a label is that of no map here, by the names of the lumps behind it."""
    if behind[:1] == ['TEXTMAP']:
        return 'is a UDMF map; save it in Doom format'
    if 'BEHAVIOR' in behind:
        return 'is in Hexen format (it has a BEHAVIOR); save it in Doom format'
    missing = [lump for lump in MAP_LUMPS if lump not in behind[:8]]
    if behind[:2] == MAP_LUMPS[:2] and missing and set(missing) <= set(BUILT_LUMPS):
        alone = ' (it has GL nodes alone, which are not read)' if any(lump.startswith('GL_') for lump in behind) else ''
        return f'has no nodes ({", ".join(BUILT_LUMPS)}){alone}; build them'
    return f'is no map: behind it are {", ".join(behind[:len(MAP_LUMPS)]) or "no lumps"}'


def has_gl_nodes(lumps: Sequence[Lump], label: int) -> bool:
    """Whether GL nodes stand behind a map."""
    first = label + 1 + len(MAP_LUMPS)
    return any(lump.name.startswith('GL_') for lump in lumps[first:first + BEHIND_MAP])


def read(wads: Sequence[str], name: str) -> Level:
    """The level of a map over WADs, given in their order by their paths. The last label of the name counts."""
    lumps, places = [], []
    for wad in wads:
        found = read_wad(wad)
        lumps += found
        places += [wad] * len(found)
    name = name.upper()
    label = map_labels(lumps).get(name)
    if label is None:
        raise no_map(name, places or wads, lumps)
    behind = label + 1 + len(MAP_LUMPS)
    tables = [lump for lump, table in zip(lumps[behind:behind + len(TABLES)], TABLES) if lump.name == table]
    return Level(name, places[label], dict([*lumps[label + 1:behind], *tables]))
