"""A map of the solid walls of a level alone: `list` of it has all of them, since nothing else takes a fragment.

The original takes a wall for solid that has no sector behind it, or one that is shut (R_AddLine). What is seen through a
line of two sides takes no solid range, and nothing at all where both sides are alike, without a middle texture. So all
sectors of the map are alike, and a seg of a line that is shut gets a copy of it with one side. Segs keep their numbers."""
import struct
import typing
from collections.abc import Iterable

from .doom import LAYOUTS, TWO_SIDED
from .levels import Level, Line, Record, Seg, alone

LINE_OF_SEG, FLAGS = Seg._fields.index('line'), Line._fields.index('flags')  # places in a record
FLOOR, CEILING, LIGHT = 0, 128, 160
NO_TEXTURE = b'-'


def solid_segs(level: Level) -> list[bool]:
    """Of each seg of a level whether nothing is seen behind it."""
    sector_of = {seg: level.sector_of_leaf(number) for number, leaf in enumerate(level.leaves)
                 for seg in range(leaf.first, leaf.first + leaf.count)}
    return [is_solid(level, seg, sector_of.get(number)) for number, seg in enumerate(level.segs)]


def is_solid(level: Level, seg: Seg, front: typing.Optional[int]) -> bool:
    """Whether nothing is seen behind a seg of a leaf with a sector."""
    line = level.lines[seg.line]
    behind = line.sides[1 - seg.side]
    if not line.flags & TWO_SIDED or behind is None or front is None:
        return True
    one, other = level.sectors[front], level.sectors[level.sides[behind].sector]
    return other.ceiling <= one.floor or other.floor >= one.ceiling


def walls_alone(level: Level) -> bytes:
    """The bytes of a PWAD of the map of a level's solid walls alone."""
    lines, segs = level.records('LINEDEFS'), level.records('SEGS')
    copies: dict[int, int] = {}  # of the lines with two sides that are shut
    for number, is_one in enumerate(solid_segs(level)):
        line = segs[number][LINE_OF_SEG]
        if is_one and lines[line][FLAGS] & TWO_SIDED:
            segs[number] = with_value(segs[number], LINE_OF_SEG, copies.setdefault(line, len(lines) + len(copies)))
    lines += [with_value(lines[line], FLAGS, lines[line][FLAGS] & ~TWO_SIDED) for line in copies]
    sides: list[Record] = [(*side[:2], NO_TEXTURE, NO_TEXTURE, NO_TEXTURE, side[-1])
                          for side in level.records('SIDEDEFS')]
    flat = level.sectors[0].floor_flat.encode('latin-1')
    sectors: list[Record] = [(FLOOR, CEILING, flat, flat, LIGHT, 0, 0)] * len(level.sectors)
    changed: dict[str, list[Record]] = {
        'LINEDEFS': lines, 'SEGS': segs, 'SIDEDEFS': sides, 'SECTORS': sectors,
        'THINGS': level.records('THINGS')[:1]}
    return alone(level, {name: lump_of(name, records) for name, records in changed.items()})


def lump_of(name: str, records: Iterable[Record]) -> bytes:
    """The bytes of a lump of a map, by its records."""
    return b''.join(struct.pack(LAYOUTS[name], *record) for record in records)


def with_value(record: Record, place: int, value: int) -> Record:
    """A record with another value at a place."""
    return (*record[:place], value, *record[place + 1:])
