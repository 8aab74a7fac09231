"""WADs that are refused, most of them changed copies of the made WADs, and such as are just taken beside them."""
import struct
import typing
from collections.abc import Sequence

import art
from damage import half, put, put_entry, put_field, put_in, renamed, with_lumps, without, word
from levels import Level, add_walls, chain
from wads import (ENTRY_BYTES, RECORD_BYTES, Lump, NamedFiles, beside, directory_of, lump, lumps_of, name8, number_of,
                  wad)

MOST_RECORDS, MOST_TEXTURES = 65535, 32767
COLORMAP_BYTES, PLAYPAL_BYTES = 8192, 768
# Offsets of fields in a record.
LINE_FRONT, LINE_BACK = 10, 12
SIDE_TOP, SIDE_BOTTOM, SIDE_MIDDLE, SIDE_SECTOR = 4, 12, 20, 28
SEG_START, SEG_END, SEG_LINE, SEG_SIDE = 0, 2, 6, 8
LEAF_COUNT, LEAF_FIRST = 0, 2
NODE_FRONT, NODE_BACK = 24, 26
SECTOR_FLOOR, SECTOR_CEILING = 4, 12
TEXTURE_WIDTH, TEXTURE_HEIGHT, TEXTURE_PATCHES, FIRST_PATCH = 12, 14, 20, 22 + 4
WALL2, SKY1 = 2, 4  # numbers in the made list of textures
SECOND_NAME = 12  # offset in PNAMES


def tiny() -> bytes:
    """PLAYPAL and the flat TILE of the bytes 1 to 10: 854 bytes."""
    palette = bytes(part & 255 for i in range(256) for part in (i, 255 - i, 7 * i))
    return wad([('PLAYPAL', palette), ('F_START', b''), ('TILE', bytes(range(1, 11))), ('F_END', b'')])


def tiny_files() -> NamedFiles:
    whole = tiny()
    lumps = lumps_of(whole)
    small = {'PLAYPAL': 'playpal', 'TILE': 'tile', 'F_START': 'f_start', 'F_END': 'f_End'}
    return {
        'tiny.wad': whole,
        'tiny-pwad.wad': put(whole, 0, b'PWAD'),
        'tiny-small-letters.wad': renamed(whole, small),
        'tiny-853.wad': whole[:853],
        'tiny-12.wad': whole[:12],
        'tiny-11.wad': whole[:11],
        'empty.wad': b'',
        'other-letters.wad': put(whole, 0, b'X'),
        'zip.wad': b'PK\x03\x04' * 10,
        'far-directory.wad': put(whole, 8, word(0xfffffff0)),
        'many-entries.wad': put(whole, 4, word(0xffffffff)),
        'no-entries.wad': b'IWAD' + word(0) + word(12),
        'no-entries-far.wad': b'IWAD' + word(0) + word(13),
        'lump-past-end.wad': put_entry(whole, 'TILE', size=75),
        'lump-to-end.wad': put_entry(whole, 'TILE', size=74),
        'lump-far.wad': put_entry(whole, 'TILE', offset=0xffffffff),
        'mark-far.wad': put_entry(whole, 'F_START', offset=0xffffffff),
        'palette-767.wad': put_entry(whole, 'PLAYPAL', size=PLAYPAL_BYTES - 1),
        'palette-none.wad': renamed(whole, {'PLAYPAL': 'PALETTE'}),
        'two-tiles.wad': wad([*lumps, ('FF_START', b''), ('TILE', b'\x07\x08'), ('FF_END', b'')]),
        'tile-outside.wad': wad([*lumps, ('TILE', b'\x07\x08')]),
        'tile-whole.wad': with_lumps(whole, {'TILE': art.FLATS['PLATE'] + b'more'}),
        'open-group.wad': wad(lumps[:-1]),
        'end-alone.wad': wad([('F_END', b''), *lumps]),
        'mark-in-group.wad': wad([*lumps[:2], ('F1_START', b'\x05'), ('F_START', b'\x06'), *lumps[2:]]),
    }


def many_lumps(count: int) -> bytes:
    """A WAD of so many empty lumps."""
    return b'PWAD' + word(count) + word(12) + struct.pack('<II8s', 12, 0, b'NOTHING') * count


def colour_files(made: bytes) -> NamedFiles:
    return {
        'no-colormap.wad': renamed(made, {'COLORMAP': 'COLORMAX'}),
        'colormap-8191.wad': put_entry(made, 'COLORMAP', size=COLORMAP_BYTES - 1),
        'no-playpal.wad': without(made, 'PLAYPAL'),
        'playpal-767.wad': put_entry(made, 'PLAYPAL', size=PLAYPAL_BYTES - 1),
        'lump-behind-end.wad': put_entry(made, 'WPATA', offset=len(made)),
        'no-colours.wad': without(made, 'PLAYPAL', 'COLORMAP'),
    }


def map_files(made: bytes) -> NamedFiles:
    lumps = lumps_of(made)
    label = number_of(made, 'MAP01')
    vertices = lump(made, 'VERTEXES')

    def records(name: str, count: int) -> bytes:
        return bytes(RECORD_BYTES[name] * count)

    return {
        'label-alone.wad': wad([*lumps, ('MAP01', b'')]),
        'lumps-swapped.wad': renamed(made, {'THINGS': 'LINEDEFS', 'LINEDEFS': 'THINGS'}),
        'no-nodes.wad': without(made, 'NODES'),
        'behavior.wad': wad([*lumps, ('REJECT', b''), ('BLOCKMAP', b''), ('BEHAVIOR', b'')]),
        'behavior-12th.wad': wad([*lumps, ('REJECT', b''), ('BLOCKMAP', b''), ('SCRIPTS', b''), ('BEHAVIOR', b'')]),
        'textmap.wad': wad([*lumps[:label + 1], ('TEXTMAP', b'namespace = "doom";'), ('ENDMAP', b'')]),
        'map-begins.wad': wad(lumps[:label + 4]),
        'map-goes-on.wad': beside(*lumps[label + 4:]),
        'small-letters.wad': wad([(name.lower(), body) for name, body in lumps]),
        'things-65536.wad': with_lumps(made, {'THINGS': records('THINGS', MOST_RECORDS + 1)}),
        'lines-65536.wad': with_lumps(made, {'LINEDEFS': records('LINEDEFS', MOST_RECORDS + 1)}),
        'vertexes-65536.wad': with_lumps(made, {'VERTEXES': records('VERTEXES', MOST_RECORDS + 1)}),
        'vertexes-65535.wad': with_lumps(made, {'VERTEXES': vertices.ljust(4 * MOST_RECORDS + 3, b'\0')}),
        'two-lumps-too-large.wad': with_lumps(made, {name: records(name, MOST_RECORDS + 1)
                                                     for name in ('VERTEXES', 'THINGS')}),
        'no-leaves.wad': with_lumps(made, {'SSECTORS': b''}),
        'leaf-of-3-bytes.wad': with_lumps(made, {'SSECTORS': b'\1\0\0'}),
        'extended-nodes.wad': with_lumps(made, {'NODES': b'XNOD' + bytes(52), 'SSECTORS': b''}),
    }


def record_files(made: bytes) -> NamedFiles:
    """Records of the made WAD of 1 that name what is not there. It has 9 vertices, 16 lines, sides and segs, 4 leaves
    and sectors, and 3 nodes."""
    two_faults = put_field(made, 'SEGS', 0, SEG_START, 99), put_field(made, 'NODES', 0, NODE_FRONT, 99)
    one_sided = put_field(made, 'LINEDEFS', 0, LINE_BACK, 0xffff)
    return {
        'line-front.wad': put_field(made, 'LINEDEFS', 0, LINE_FRONT, 9999),
        'line-back.wad': put_field(made, 'LINEDEFS', 3, LINE_BACK, 16),
        'side-sector.wad': put_field(made, 'SIDEDEFS', 5, SIDE_SECTOR, 4),
        'seg-start.wad': put_field(made, 'SEGS', 2, SEG_START, 25),
        'seg-end.wad': put_field(made, 'SEGS', 2, SEG_END, 0xffff),
        'seg-line.wad': put_field(made, 'SEGS', 15, SEG_LINE, 16),
        'seg-side-2.wad': put_field(made, 'SEGS', 7, SEG_SIDE, 2),
        'seg-side-missing.wad': put_field(one_sided, 'SEGS', 0, SEG_SIDE, 1),
        'leaf-first.wad': put_field(made, 'SSECTORS', 1, LEAF_FIRST, 13),
        'leaf-count.wad': put_field(made, 'SSECTORS', 3, LEAF_COUNT, 5),
        'leaf-empty.wad': put_field(made, 'SSECTORS', 0, LEAF_COUNT, 0),
        'leaf-empty-and-far.wad': put_in(made, 'SSECTORS', 4, half(0) + half(9999)),
        'node-front.wad': put_field(made, 'NODES', 0, NODE_FRONT, 3),
        'node-back-leaf.wad': put_field(made, 'NODES', 1, NODE_BACK, 0x8004),
        'node-twice.wad': put_field(made, 'NODES', 2, NODE_FRONT, 2),
        'node-shared.wad': put_field(made, 'NODES', 2, NODE_FRONT, 1),
        'line-before-seg.wad': put_field(two_faults[0], 'LINEDEFS', 15, LINE_FRONT, 99),
        'leaf-before-node.wad': put_field(two_faults[1], 'SSECTORS', 0, LEAF_COUNT, 0),
    }


def list_of(count: int) -> bytes:
    """A list of so many textures without a patch; all share one record."""
    return word(count) + word(4 + 4 * count) * count + art.texture('OTHER', 8, 8)


def texture_place(made: bytes, number: int) -> int:
    """Where the record of a texture begins in TEXTURE1."""
    return struct.unpack_from('<I', lump(made, 'TEXTURE1'), 4 + 4 * number)[0]


def list_files(made: bytes) -> NamedFiles:
    names, first = lump(made, 'PNAMES'), lump(made, 'TEXTURE1')
    second = art.texture_list([art.texture('MORE', 64, 128, (0, 0, 0))])
    wall2, sky1 = texture_place(made, WALL2), texture_place(made, SKY1)
    many = with_lumps(made, {'TEXTURE2': put(second, 0, word(9999))})
    return {
        'no-pnames.wad': without(made, 'PNAMES'),
        'pnames-5.wad': put_in(made, 'PNAMES', 0, word(5)),
        'pnames-3-bytes.wad': with_lumps(made, {'PNAMES': names[:3]}),
        'pnames-huge.wad': put_in(made, 'PNAMES', 0, word(0xffffffff)),
        'no-texture1.wad': without(made, 'TEXTURE1'),
        'texture1-3-bytes.wad': with_lumps(made, {'TEXTURE1': first[:3]}),
        'texture1-count.wad': put_in(made, 'TEXTURE1', 0, word(49)),
        'textures-32768.wad': with_lumps(made, {'TEXTURE1': list_of(MOST_TEXTURES + 1)}),
        'texture2-count.wad': many,
        'textures-32767.wad': with_lumps(made, {'TEXTURE2': list_of(MOST_TEXTURES - 5)}),
        'texture2-one-too-many.wad': with_lumps(made, {'TEXTURE2': list_of(MOST_TEXTURES - 4)}),
        'texture2-count-and-texture1-place.wad': put_in(many, 'TEXTURE1', 4, word(0xfffffff0)),
        'texture-far.wad': put_in(made, 'TEXTURE1', 4, word(0xfffffff0)),
        'texture-width-0.wad': put_in(made, 'TEXTURE1', wall2 + TEXTURE_WIDTH, half(0)),
        'texture-height-0.wad': put_in(made, 'TEXTURE1', wall2 + TEXTURE_HEIGHT, half(0)),
        'texture-cut.wad': with_lumps(made, {'TEXTURE1': first[:-1]}),
        'texture-many-patches.wad': put_in(made, 'TEXTURE1', sky1 + TEXTURE_PATCHES, half(2)),
        'texture2-width-0.wad': with_lumps(made, {'TEXTURE2': put(second, 8 + TEXTURE_WIDTH, half(0))}),
        'patch-number.wad': put_in(made, 'TEXTURE1', wall2 + FIRST_PATCH, half(4)),
        'composite-65536.wad': put_in(made, 'TEXTURE1', wall2 + TEXTURE_HEIGHT, half(2048)),
        'composite-65568.wad': put_in(made, 'TEXTURE1', wall2 + TEXTURE_HEIGHT, half(2049)),
    }


def patch_files(made: bytes) -> NamedFiles:
    marked = put_in(made, 'PNAMES', SECOND_NAME, name8('S_END'))
    return {
        'patch-missing.wad': without(made, 'WPATB'),
        'patch-is-mark.wad': marked,
        'patch-named-as-mark-before.wad': put_entry(marked, 'WPATB', rename=name8('S_END')),
        'patch-is-colormap.wad': put_in(made, 'PNAMES', SECOND_NAME, name8('COLORMAP')),
        'patch-7-bytes.wad': put_entry(made, 'WPATB', size=7),
        'patch-width-0.wad': put_in(made, 'WPATB', 0, half(0)),
        'patch-width-negative.wad': put_in(made, 'WPATA', 0, half(-1)),
        'patch-columns-cut.wad': put_entry(made, 'WPATB', size=8 + 4 * 32 - 1),
        'patch-columns-alone.wad': put_entry(made, 'WPATB', size=8 + 4 * 32),
        'first-column-far.wad': put_in(made, 'WPATA', 8, word(0xffffffff)),
        'unwanted-patch-missing.wad': without(made, 'GRATP', 'SKYP'),
    }


def name_files(made: bytes) -> NamedFiles:
    """Names of sides and sectors that nothing has."""
    def side(data: bytes, number: int, at: int, name: str) -> bytes:
        return put_in(data, 'SIDEDEFS', RECORD_BYTES['SIDEDEFS'] * number + at, name8(name))

    def sector(number: int, at: int, name: str) -> bytes:
        return put_in(made, 'SECTORS', RECORD_BYTES['SECTORS'] * number + at, name8(name))

    return {
        'side-top.wad': side(made, 4, SIDE_TOP, 'NOWALL'),
        'side-bottom.wad': side(made, 3, SIDE_BOTTOM, ''),
        'side-middle.wad': side(made, 15, SIDE_MIDDLE, 'WALL1XYZ'),
        'two-sides.wad': side(side(made, 9, SIDE_TOP, 'X'), 7, SIDE_MIDDLE, 'X'),
        'floor-flat.wad': sector(2, SECTOR_FLOOR, 'WPATA'),
        'ceiling-flat.wad': sector(0, SECTOR_CEILING, 'NOFLAT'),
        'no-flats.wad': without(made, 'F_START'),
    }


def sprite_files(made: bytes) -> NamedFiles:
    tree, lumps, at = lump(made, 'TREEA0'), lumps_of(made), number_of(made, 'TREEA0')

    def trees(*pictures: typing.Union[str, Lump]) -> bytes:
        named = [it if isinstance(it, tuple) else (it, tree) for it in pictures]
        return wad([*lumps[:at], *named, *lumps[at + 1:]])

    return {
        'no-tree.wad': trees(),
        'tree-b.wad': trees('TREEB0'),
        'tree-9.wad': trees('TREEA9', 'TREE@0', 'TREE^0'),
        'tree-1.wad': trees('TREEA1'),
        'tree-1-2-8.wad': trees('TREEA1', 'TREEA2A8'),
        'tree-1-2-8-0.wad': trees('TREEA1', 'TREEA2A8', 'TREEA0'),
        'tree-0-1.wad': trees('TREEA0', 'TREEA1'),
        'tree-0-and-all.wad': trees('TREEA0', 'TREEA1A5', 'TREEA2A6', 'TREEA3A7', 'TREEA4A8'),
        'tree-all-but-6.wad': trees(*(f'TREEA{turn}' for turn in (1, 2, 3, 4, 5, 7, 8))),
        'tree-bad-5.wad': trees(*((f'TREEA{turn}', tree[:20] if turn == 5 else tree) for turn in range(1, 9))),
        'tree-7-bytes.wad': put_entry(made, 'TREEA0', size=7),
        'tree-outside.wad': renamed(made, {'S_START': 'S_STOP'}),
    }


def masked_files(made2: bytes) -> NamedFiles:
    """The made WAD of 2, where the grate and the sky are seen, with other textures in their place."""
    walls = [art.texture('NOTEX', 64, 128, (0, 0, 0)), art.texture('WALL1', 64, 128, (0, 0, 0)),
             art.texture('WALL2', 64, 128, (0, 0, 0), (16, -8, 1))]

    def textures(sky: str = 'SKY1', *patches: tuple[int, int, int]) -> bytes:
        last = [art.texture('GRATE', 64, 128, *patches), art.texture(sky, 256, 128, (0, 0, 3))]
        return with_lumps(made2, {'TEXTURE1': art.texture_list(walls + last)})

    return {
        'grate-of-two.wad': textures('SKY1', (0, 0, 2), (-63, 0, 2)),
        'grate-with-gap.wad': textures('SKY1', (-2, 0, 2)),
        'grate-above.wad': textures('SKY1', (0, -50, 2)),
        'no-sky.wad': textures('SKY2', (0, 0, 2)),
        'no-grate-patch.wad': without(made2, 'GRATP'),
    }


def large_files() -> NamedFiles:
    return {'entries-65536.wad': many_flats(65500, 12, 19), 'bytes-over-4-gib.wad': many_flats(32768, 131072, 1)}


def many_flats(count: int, size: int, patches: int) -> bytes:
    """A level whose sectors name so many flats of that size, which all lie at one place of the file. So many of them
    are patches too, of the texture of the level's walls."""
    names = [f'F{number}' for number in range(count)]
    level = Level()
    for number in range(0, count, 2):
        level.sector(0, 128, names[number], names[number + 1], 160)
    add_walls(level, 0, ['WALL'])
    level.leaf(0)
    wall = art.texture('WALL', 64, 2, *((number, 0, number) for number in range(patches)))
    return with_copies(wad([
        ('PLAYPAL', art.palette()), ('COLORMAP', art.colormap(32)), ('PNAMES', art.patch_names(names[:patches])),
        ('TEXTURE1', art.texture_list([art.texture('NONE', 8, 8), wall])), *level.lumps('MAP01'),
        ('F_START', b''), ('FLAT', art.patch([[]], 1).ljust(size, b'\xff'))]), names)


def with_copies(data: bytes, names: Sequence[str]) -> bytes:
    """A WAD whose last lump stands again under each of these names, at the same place of the file, and then F_END."""
    directory, count = directory_of(data)
    place, size = struct.unpack_from('<II', data, directory + ENTRY_BYTES * (count - 1))
    entries = b''.join(struct.pack('<II8s', place, size, name8(name)) for name in names)
    return put(data + entries + struct.pack('<II8s', place, 0, name8('F_END')), 4, word(count + len(names) + 1))


def chain_file(depth: int) -> bytes:
    return beside(*chain('MAP02', depth))


# Faults of the made WAD of 2, each judged after those above it.
FAULTS = [
    lambda data: put_entry(data, 'COLORMAP', size=1),
    lambda data: put_entry(data, 'PLAYPAL', size=1),
    lambda data: renamed(data, {'NODES': 'NODUS'}),
    lambda data: with_lumps(data, {'SSECTORS': b''}),
    lambda data: put_field(data, 'SIDEDEFS', 0, SIDE_SECTOR, 999),
    lambda data: put_field(data, 'SSECTORS', 0, LEAF_COUNT, 0),
    lambda data: put_field(data, 'NODES', 14, NODE_BACK, 15),
    lambda data: put_in(data, 'PNAMES', 0, word(99)),
    lambda data: with_lumps(data, {'TEXTURE2': word(7)}),
    lambda data: put_in(data, 'TEXTURE1', 4, word(0xfffffff0)),
    lambda data: put_in(data, 'SIDEDEFS', 7 * RECORD_BYTES['SIDEDEFS'] + SIDE_TOP, name8('NOWALL')),
    lambda data: put_in(data, 'TEXTURE1', texture_place(data, SKY1), name8('SKYX')),
    lambda data: put_in(data, 'SECTORS', RECORD_BYTES['SECTORS'] + SECTOR_FLOOR, name8('NOFLAT')),
    lambda data: put_entry(data, 'WPATB', size=7),
    lambda data: put_in(data, 'TEXTURE1', texture_place(data, WALL2) + TEXTURE_HEIGHT, half(9999)),
    lambda data: put_entry(data, 'TREEA0', rename=name8('TREEA1')),
]


def faulty(made2: bytes, first: int) -> bytes:
    """The made WAD of 2 with all faults from that one on."""
    for fault in reversed(FAULTS[first:]):
        made2 = fault(made2)
    return made2
