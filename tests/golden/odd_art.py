"""WADs with odd art, each to stand between the art and the court: patches, textures, flats, sprites and colours."""
from collections.abc import Callable

import art
from damage import half, put, word
from wads import Lump, NamedFiles, beside, wad

# Patches that stand in the place of BARS too, the grate's.
IN_GRATES = ['cut', 'holed', 'low-post', 'overlapping-posts', 'narrow']


def flats(*lumps: Lump) -> tuple[Lump, ...]:
    return ('F_START', b''), *lumps, ('F_END', b'')


def sprites(*lumps: Lump) -> tuple[Lump, ...]:
    return ('S_START', b''), *lumps, ('S_END', b'')


def columns(count: int, posts: Callable[[int], list[art.Post]], left: int = 0, top: int = 0) -> bytes:
    """A patch of so many columns; `posts` gives those of each."""
    return art.patch([posts(x) for x in range(count)], 128, left, top)


def stone_column(x: int, rows: int = 128) -> bytes:
    return bytes(art.stone(x, y) for y in range(rows))


def odd_patches() -> dict[str, bytes]:
    """Patches in the place of STONE, which stands alone, under others, and beside gaps."""
    whole = art.PATCHES['STONE']
    return {
        'cut': whole[:len(whole) // 2],
        'cut-to-places': whole[:8 + 4 * 64],
        'column-far': put(whole, 8, word(0xffffffff) * 3),
        'column-in-head': put(whole, 8 + 4 * 5, word(0) + word(8) + word(40)),
        'column-shared': put(whole, 8 + 4 * 8, whole[8:12] * 8),
        'no-posts': art.patch([[]] * 64, 128),
        'empty-posts': art.patch([[(0, b''), (40, b''), (60, bytes([99] * 20))]] * 64, 128),
        'overlapping-posts': columns(64, lambda x: [(0, stone_column(x, 60)), (30, bytes([x] * 50))]),
        'rising-posts': columns(64, lambda x: [(90, bytes([x] * 20)), (10, bytes([200 - x] * 30))]),
        'low-post': columns(64, lambda x: [(254, stone_column(x, 255))]),
        'high-post': columns(64, lambda x: [(0, stone_column(x, 255))]),
        'no-end': columns(64, lambda x: [(0, stone_column(x))])[:-1],
        'narrow': columns(5, lambda x: [(0, stone_column(x))]),
        'one-column': columns(1, lambda x: [(3, stone_column(x, 90))]),
        'wide': columns(300, lambda x: [(0, stone_column(x))]),
        'offset': columns(64, lambda x: [(0, stone_column(x))], -700, 900),
        'of-height-0': put(whole, 2, half(0)),
        'holed': art.picture(64, 128, lambda x, y: None if (x // 8 + y // 8) % 2 else art.stone(x, y)),
    }


def odd_textures() -> dict[str, dict[str, bytes]]:
    """Records in the place of those of TEXTURE1, by the name that they take."""
    number = art.NUMBER
    stone, plank, high, low = number['STONE'], number['PLANK'], number['HIGH'], number['LOW']
    by_turns = [(64 * k, k, (stone, plank)[k % 2]) for k in range(16)]
    return {
        'width-1': {'STONE': art.texture('STONE', 1, 128, (0, 0, stone))},
        'width-3': {'STONE': art.texture('STONE', 3, 128, (0, 0, stone))},
        'width-1000': {'STONE': art.texture('STONE', 1000, 128, *by_turns)},
        'height-1': {'MIX': art.texture('MIX', 64, 1, (0, 0, stone), (16, -8, plank))},
        'height-1000': {'MIX': art.texture('MIX', 64, 1000, (0, 0, stone), (16, 500, plank), (20, 990, stone))},
        'no-patches': {'MIX': art.texture('MIX', 64, 128), 'PLANK': art.texture('PLANK', 32, 128)},
        'far-patches': {'MIX': art.texture('MIX', 64, 128, (-32768, 0, stone), (32767, 0, stone), (0, -32768, stone),
                                           (0, 32767, stone), (10, 5, plank), (12, -100, plank))},
        'same-patch': {'PLANK': art.texture('PLANK', 64, 128, *[(0, 7 * k, plank) for k in range(9)])},
        'above-top': {'MIX': art.texture('MIX', 64, 128, (0, 0, plank), (0, -3, stone), (20, -127, stone),
                                         (40, -128, stone), (50, -129, stone))},
        'below-bottom': {'MIX': art.texture('MIX', 64, 128, (0, 64, stone), (0, 127, plank), (16, 128, plank))},
        'holes-over-stone': {'MIX': art.texture('MIX', 64, 128, (0, 0, stone), (0, 0, number['BARS']), (5, 30, low))},
        'tall-in-low': {'MIX': art.texture('MIX', 32, 60, (0, 0, high), (4, -100, high))},
        'sky-first': {'NONE': art.texture('SKY1', 256, 128, (0, 0, number['SKYC']))},
        'sky-of-two': {'SKY1': art.texture('SKY1', 64, 100, (0, 0, number['SKYA']), (10, 20, low))},
        'sky-of-none': {'SKY1': art.texture('SKY1', 256, 128)},
        'sky-narrow': {'SKY1': art.texture('SKY1', 7, 128, (0, 0, number['SKYB']))},
        'names-twice': {'GAP': art.texture('STONE', 64, 128, (0, 0, plank)), 'NONE': art.texture('HIGH', 8, 8),
                        'LOW': art.texture('gap', 24, 72, (0, 0, low)),
                        'HIGH': art.texture('LOW', 32, 240, (0, 0, high))},
    }


def texture_file(records: dict[str, bytes]) -> bytes:
    """TEXTURE1 with other records in the place of those of these names."""
    named = {record[:8].rstrip(b'\0').decode(): record for record in art.TEXTURES1}
    return beside(('TEXTURE1', art.texture_list([records.get(name, record) for name, record in named.items()])))


def odd_flats() -> dict[str, tuple[Lump, ...]]:
    plate = art.FLATS['PLATE']
    return {
        'flat-none': flats(('TILES', b'')),
        'flat-of-1': flats(('TILES', b'\x77')),
        'flat-4095': flats(('TILES', plate[:4095])),
        'flat-long': (('FF_START', b''), ('TILES', plate + plate), ('FF_END', b'')),
        'flat-outside': (('TILES', plate),),
        'flat-behind-end': (*flats(), ('TILES', plate)),
        'flat-in-open-group': (('F_START', b''), ('TILES', plate)),
        'flat-in-other-marks': (('FF_START', b''), ('TILES', plate), ('F_END', b''), ('MUD', plate)),
        'flat-twice': flats(('TILES', art.FLATS['MUD']), ('TILES', plate)),
        'flat-small-letters': (('f_start', b''), ('tiles', plate), ('f_end', b'')),
        'flat-in-sprites': (('S_START', b''), ('F_START', b''), ('TILES', plate), ('S_END', b''), ('F_END', b'')),
        'flat-named-as-sky': flats(('F_SKY1', plate)),
    }


def odd_sprites() -> dict[str, tuple[Lump, ...]]:
    lamp, disk = art.SPRITES['LAMPA0'], art.SPRITES['DISKA3']
    narrow = art.patch([[(0, bytes(range(100, 160)))]], 60, 0, 60)
    return {
        'lamp-of-one-column': sprites(('LAMPA0', narrow)),
        'lamp-far-left': sprites(('LAMPA0', put(lamp, 4, half(2000) + half(46)))),
        'lamp-far-right': sprites(('LAMPA0', put(lamp, 4, half(-2000) + half(46)))),
        'lamp-high': sprites(('LAMPA0', put(lamp, 6, half(150)))),
        'lamp-under-floor': sprites(('LAMPA0', put(lamp, 6, half(-20)))),
        'lamp-cut': sprites(('LAMPA0', lamp[:200])),
        'lamp-outside': (('LAMPA0', disk),),
        'lamp-in-other-marks': (('SS_START', b''), ('LAMPA0', disk), ('SS_END', b'')),
        'lamp-turned': sprites(*((f'LAMPA{turn}', art.SPRITES[f'DISKA{turn}']) for turn in range(1, 9))),
        'lamp-all-round-later': sprites(('LAMPA1', disk), ('LAMPA0', narrow)),
        'lamp-flipped': sprites(('LAMPB0A0', art.SPRITES['CUBEB0D0'])),
        'lamp-other-pair': sprites(('LAMPA0A9', disk), ('LAMPA0Z', lamp)),
        'guard-half-new': sprites(('GUARA2', disk), ('GUARA5', narrow)),
        'disk-of-one': sprites(('DISKA1A5', lamp), ('DISKA2A6', narrow)),
    }


def odd_colours() -> dict[str, tuple[Lump, ...]]:
    whole = art.colormap()
    return {
        'colormap-32': (('COLORMAP', whole[:8192]),),
        'colormap-33-less': (('COLORMAP', whole[:8192 + 100]),),
        'colormap-100': (('COLORMAP', whole * 3),),
        'colormap-flat': (('COLORMAP', bytes(range(256)) * 34),),
        'playpal-long': (('PLAYPAL', bytes(reversed(art.palette())) + art.palette() * 13),),
        'colours-small-letters': (('playpal', bytes(768)), ('colormap', whole[256:] + bytes(256))),
    }


def art_files() -> NamedFiles:
    patches = odd_patches()
    files = {f'stone-{name}.wad': beside(('STONE', patch)) for name, patch in patches.items()}
    files.update({f'bars-{name}.wad': beside(('BARS', patches[name])) for name in IN_GRATES})
    files.update({f'texture-{name}.wad': texture_file(records) for name, records in odd_textures().items()})
    for named in (odd_flats(), odd_sprites(), odd_colours()):
        files.update({f'{name}.wad': beside(*lumps) for name, lumps in named.items()})
    files['no-texture2.wad'] = wad([lump for lump in art.art() if lump[0] != 'TEXTURE2'])
    return files
