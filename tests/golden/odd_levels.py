"""WADs with levels: rooms, halls, crowds, courts, and levels whose records are odd and name only what is there."""
import struct
import typing
from collections.abc import Callable

import art
from damage import half, put, put_each, put_field, put_in, with_lumps
from levels import BOTTOM_UNPEGGED, LEAF, ONE_SIDED, TWO_SIDED, Level, Point, Squares, court, hall, room
from wads import MAP_LUMPS, NamedFiles, beside, lump, name8, offset_of

CELLS = 14  # of a side of the made level of 7
TREE = 2035  # a type of things


def room_files() -> NamedFiles:
    kinds = [10, 11, 12, 13, 14]
    things = [(100, 10, 0, kind) for kind in kinds] + [(180, -40, 90, kind) for kind in kinds]
    rooms = {
        'room': room('MAP02'),
        'sky-room': room('MAP02', 'F_SKY1', 'F_SKY1'),
        'sky-floor-room': room('MAP02', 'F_SKY1', 'FLAT1'),
        'dark-room': room('MAP02', light=0),
        'bright-room': room('MAP02', light=255),
        'flat-room': room('MAP02', floor=41, ceiling=41),
        'bare-room': room('MAP02', walls=('-', 'NOTEX', 'WALL2', 'GRATE')),
        'walls-room': room('MAP01', 'TILES', 'SHORT', ('MIX', 'HIGH', 'GAP', 'SHIFT')),
        'map-named-as-mark': room('F_END'),
        'things-at-one-place': room('MAP01', 'TILES', 'BOARDS', ['STONE'], things=things),
    }
    return {f'{name}.wad': beside(*lumps) for name, lumps in rooms.items()}


def grated_room(*things: Point) -> bytes:
    """Two squares one behind the other, bright, with a grate across at 128 map units, and trees."""
    level = Level()
    cells = {(x, 0): level.sector(0, 128, 'FLAT0', 'FLAT1', 255) for x in range(2)}
    level.place = lambda x, y: (x - 128, y - 128)
    Squares(level, cells, 256, lambda here, there: TWO_SIDED if there else ONE_SIDED,
            lambda here, there: {'middle': 'GRATE' if there else 'WALL1'})
    for x, y in things:
        level.thing(x + 128, y + 128, 0, TREE)
    return beside(*level.lumps('MAP02'))


def grated_files() -> NamedFiles:
    near, far = (64, 0), (192, 0)
    return {'trees-before-grate.wad': grated_room(near, near),
            'trees-around-grate.wad': grated_room((64, 12), far),
            'trees-behind-grate.wad': grated_room(far, far)}


def hanging_files() -> NamedFiles:
    """A room whose walls have a texture of four rows and two patches, the later one two rows above its top; they are
    drawn from the floor up."""
    texture = art.texture('HANG', 64, 4, (0, 0, 0), (0, -2, 1))
    under, over = (art.patch([[(0, texels)]] * 64, 4) for texels in (bytes([11, 12, 13, 14]), b'abcd'))
    lists = [('PNAMES', art.patch_names(['UNDER', 'OVER'])),
             ('TEXTURE1', art.texture_list([art.texture('NOTEX', 64, 4, (0, 0, 0)), texture]))]
    file = beside(*lists, ('UNDER', under), ('OVER', over), *room('MAP02', walls=('HANG',), light=255))
    return {'hanging-room.wad': put_each(file, 'LINEDEFS', 4, lambda number, line: half(ONE_SIDED | BOTTOM_UNPEGGED))}


def hall_file(leaves: int) -> bytes:
    return beside(*hall('MAP02', leaves))


def crowd_file(count: int) -> bytes:
    """A room with so many trees in rows before the eye."""
    things = [(60 + 5 * (k % 37), (0, 30, -30, 45, -45, 15)[k // 37] + k % 5, 0, TREE) for k in range(count)]
    return beside(*room('MAP02', things=things))


def fan_file(slats: int) -> bytes:
    """A room that is parted by so many lines of two sides, one behind the other, across the view."""
    level = Level()
    cells = {(x, 0): level.sector(x % 2 * 8 - 4, 128 - x % 3 * 8, 'TILES', 'BOARDS', 160 + x % 2 * 8)
             for x in range(slats)}
    level.place = lambda x, y: (4 * x - 64, 512 * y - 256)
    Squares(level, cells, 1, lambda here, there: TWO_SIDED if there else ONE_SIDED,
            lambda here, there: {'middle': 'GRATE' if there else 'STONE', 'top': 'PLANK', 'bottom': 'LOW'})
    return beside(*level.lumps('MAP01'))


def court_file(label: str) -> bytes:
    return beside(*court(label))


def court_files() -> NamedFiles:
    turns = {'wide': ((2, 1), (-1, 2)), 'turned': ((-1, -1), (1, -1)), 'lean': ((2, 0), (1, 1))}
    files = {f'court-{name}.wad': beside(*court('MAP01', *turn)) for name, turn in turns.items()}
    return {'court.wad': court_file('MAP01'), **files}


def odd_records(made3: bytes) -> NamedFiles:
    """The made WAD of 3, each time with odd bytes in all records of a lump."""
    def each(name: str, at: int, new: Callable[[int, bytes], bytes]) -> bytes:
        return put_each(made3, name, at, new)

    def more(record: bytes, at: int, by: int) -> bytes:
        return half(struct.unpack_from('<H', record, at)[0] + by)

    return {
        'boxes-empty': each('NODES', 8, lambda number, node: bytes(16)),
        'boxes-small': each('NODES', 8, lambda number, node: b''.join(
            more(node, at, by) for at, by in zip(range(8, 24, 2), (-90, 90, 90, -90) * 2))),
        'partitions-none': each('NODES', 4, lambda number, node: bytes(4)),
        'partitions-turned': each('NODES', 4, lambda number, node: half(3 * number - 40) + half(77)),
        'segs-turned': each('SEGS', 4, lambda number, seg: more(seg, 4, 700)),
        'segs-offset': each('SEGS', 10, lambda number, seg: half(37 * number - 900)),
        'segs-of-no-length': each('SEGS', 0, lambda number, seg: seg[:4] if number % 3 else seg[:2] * 2),
        'lines-two-sided': each('LINEDEFS', 4, lambda number, line: half(TWO_SIDED)),
        'lines-with-flags': each('LINEDEFS', 4, lambda number, line: half(
            struct.unpack_from('<H', line, 4)[0] | (0xffe3 if number % 2 else 0x18))),
        'sides-offset': each('SIDEDEFS', 0, lambda number, side: half(77 * number) + half(-5 * number)),
        'sides-without': each('SIDEDEFS', 12, lambda number, side: name8('-BRICK' if number % 2 else 'NOTEX')),
        'sectors-upside-down': each('SECTORS', 0, lambda number, sector: sector[2:4] + sector[:2] if number % 2
                                    else sector[:4]),
        'sectors-deep': each('SECTORS', 0, lambda number, sector: half(number - 32768) + half(32767 - number)),
        'lights-any': each('SECTORS', 20, lambda number, sector: half(1111 * number - 9999)),
        'sky-below': each('SECTORS', 4, lambda number, sector: name8('F_SKY1' if number % 3 else 'FLAT2')),
        'all-sky': each('SECTORS', 4, lambda number, sector: name8('F_SKY1') * 2),
        'things-outside': each('THINGS', 0, lambda number, thing: half(31000 - 900 * number) + half(17 * number - 300)),
    }


def level_files(made3: bytes) -> NamedFiles:
    nodes = lump(made3, 'NODES')
    apart = struct.pack('<4h8h2H', 0, 0, 0, 128, *[800, -100, -100, 800] * 2, LEAF | 7, LEAF | 8)
    odd = odd_records(made3)
    odd.update({
        'nodes-none': with_lumps(made3, {'NODES': b''}),
        'things-none': with_lumps(made3, {'THINGS': b''}),
        'node-of-itself': with_lumps(made3, {'NODES': put(nodes, 24, half(0) + half(0)) + apart}),
        'leaves-share-segs': put_in(made3, 'SSECTORS', 0, struct.pack('<HHHH', 8, 0, 144, 0)),
        'more-bytes': with_lumps(made3, {name: lump(made3, name) + bytes([9] * 3) for name in MAP_LUMPS}),
    })
    return {f'{name}.wad': data for name, data in odd.items()}


def wall_across(wall: int) -> typing.Optional[int]:
    """The wall on the other side of one in the made level of 7, or None at the rim. The walls of a cell stand to the
    south, west, north and east of it."""
    cell, edge = divmod(wall, 4)
    column, row = cell % CELLS, cell // CELLS
    is_inner = (row > 0, column > 0, row < CELLS - 1, column < CELLS - 1)[edge]
    return wall + (2 - 4 * CELLS, -2, 4 * CELLS - 2, 2)[edge] if is_inner else None


def open_hall(made7: bytes, middle: str) -> bytes:
    """The made WAD of 7 with one hall in the place of its rooms: each inner wall is a line of two sides."""
    for wall in range(4 * CELLS * CELLS):
        across = wall_across(wall)
        if across is not None:
            made7 = put_field(made7, 'LINEDEFS', wall, 4, TWO_SIDED)
            made7 = put_field(made7, 'LINEDEFS', wall, 12, across)
            made7 = put_in(made7, 'SIDEDEFS', 30 * wall + 20, name8(middle))
    return made7


def open_files(made7: bytes) -> NamedFiles:
    return {'open-hall.wad': open_hall(made7, '-'), 'grated-hall.wad': open_hall(made7, 'GRATE')}


def other_art(made: bytes) -> bytes:
    """The made WAD with each byte b of its flats, and of the texels of its pictures, 255 - b."""
    data = bytearray(made)
    for name in ('FLAT0', 'FLAT1', 'FLAT2', 'FLAT3'):
        turn(data, offset_of(made, name), 64 * 64)
    for name in ('WPATA', 'WPATB', 'GRATP', 'SKYP', 'TREEA0'):
        turn_patch(data, offset_of(made, name))
    return bytes(data)


def turn(data: bytearray, at: int, count: int) -> None:
    data[at:at + count] = bytes(255 - byte for byte in data[at:at + count])


def turn_patch(data: bytearray, at: int) -> None:
    for column in range(struct.unpack_from('<h', data, at)[0]):
        place = at + struct.unpack_from('<I', data, at + 8 + 4 * column)[0]
        while data[place] != 255:
            turn(data, place + 3, data[place + 1])
            place += data[place + 1] + 4
