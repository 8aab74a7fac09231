"""WADs that stand behind the made WAD of 1, and bring art, lists or a map of their own."""
import art
from levels import room
from wads import NamedFiles, beside, lump, lumps_of, number_of


def more_files(made1: bytes, made2: bytes) -> NamedFiles:
    flats = [lump(made1, f'FLAT{number}') for number in range(4)]
    tree, sky, patch = lump(made1, 'TREEA0'), lump(made1, 'SKYP'), lump(made1, 'WPATB')
    label = number_of(made2, 'MAP01')
    map_lumps = lumps_of(made2)[label + 1:label + 9]
    narrow = art.patch([[(0, bytes(range(60)))]] * 9, 60, 4, 60)
    start, end = ('S_START', b''), ('S_END', b'')
    return {
        'other-flat0.wad': beside(('F_START', b''), ('FLAT0', flats[1]), ('F_END', b'')),
        'other-flat0-again.wad': beside(('FF_START', b''), ('FLAT0', flats[3]), ('FF_END', b'')),
        'other-wpata.wad': beside(('WPATA', sky)),
        'other-wpata-again.wad': beside(('wpata', patch)),
        'patch-named-as-mark.wad': beside(('S_END', patch)),
        'other-tree.wad': beside(start, ('TREEA0', narrow), end),
        'other-tree-outside.wad': beside(('TREEA0', narrow)),
        'other-tree-cut.wad': beside(('TREEA0', tree[:7]), start, ('TREEA0', tree[:-100]), end),
        'other-palette.wad': beside(('PLAYPAL', bytes(768))),
        'other-colormap.wad': beside(('COLORMAP', bytes(255 - k % 256 for k in range(8192)))),
        'other-map.wad': beside(('MAP01', b''), *map_lumps),
        'map-of-4.wad': beside(('MAP04', b''), *map_lumps),
        'map-named-as-patch.wad': beside(('WPATA', patch), *room('WPATA')[1:]),
        'other-lists.wad': beside(
            ('PNAMES', art.patch_names(['WPATB', 'WPATA', 'GRATP', 'SKYP'])),
            ('TEXTURE1', lump(made1, 'TEXTURE1')), ('TEXTURE2', art.texture_list([art.texture('WALL1', 8, 8)]))),
        'label-behind.wad': beside(('MAP01', b'')),
        'behavior-behind.wad': beside(('REJECT', b''), ('BLOCKMAP', b''), ('BEHAVIOR', b'')),
        'nothing.wad': beside(),
        'open-flats.wad': beside(('F_START', b''), ('FLAT0', flats[2])),
        'flat0-alone.wad': beside(('FLAT0', flats[3]), ('F_END', b'')),
    }
