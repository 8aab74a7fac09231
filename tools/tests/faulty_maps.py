"""Maps with a mistake each, one for each kind of finding of lint: triples of what is wrong, the map, and more lumps of its PWAD, or
None for a map over a game without them."""
from collections.abc import Iterator

import test_lint_kinds as kinds
from made_files import name
from made_maps import NO_SIDE, Map
from doomview_tools import room, wads

ART = kinds.ART


def changed(made: Map, lump: str, number: int, **fields) -> Map:
    made.change(lump, number, **fields)
    return made


def with_line(**fields) -> Map:
    """A hall whose first line is wrong."""
    made = Map('..')
    return changed(made, 'LINEDEFS', made.lines('.')[0], **fields)


def step_with(**fields) -> Map:
    """A hall and a step, whose first line between them is wrong."""
    made = Map('..x', x={'floor': 16})
    return changed(made, 'LINEDEFS', made.lines('.', 'x')[0], **fields)


def closed_by_own_line() -> Map:
    """A sector whose gap is closed by a line that has another one on both sides."""
    made = Map('....', '.xx.', '.xx.', '....')
    line, sides = made.records('LINEDEFS')[made.lines('.', 'x')[0]], made.records('SIDEDEFS')
    for side in (line['front'], line['back']):
        made.change('SIDEDEFS', side, sector=made.letters.index('.'))
    assert sides != made.records('SIDEDEFS')
    return made


def hole(**more) -> Map:
    """A hall and a step without a texture."""
    made = Map('..x', x={'wall': 'PANELS', **more})
    for side, record in enumerate(made.records('SIDEDEFS')):
        if record['middle'].startswith(b'PANELS'):
            made.change('SIDEDEFS', side, middle='-')
    return made


def low_wall(floor: int, **fields) -> Map:
    made = Map('..x', x={'floor': floor, 'wall': 'LOW', 'ceiling': floor + 16})
    for side, record in enumerate(made.records('SIDEDEFS')):
        if record['lower'].startswith(b'LOW'):
            made.change('SIDEDEFS', side, middle='-', upper='BRICKS', **fields)
    return made


def grate(texture: str) -> Map:
    made = Map('..x', x={'floor': 16, 'ceiling': 128})
    line = made.records('LINEDEFS')[made.lines('.', 'x')[0]]
    return changed(made, 'SIDEDEFS', line['front'], middle=texture)


def things(*rows) -> Map:
    return Map('....', things=rows)


def of_lines() -> Iterator[tuple]:
    """Wrong lines, sides and specials."""
    special = kinds.with_special
    yield 'a side that is not there', with_line(back=999), []
    yield 'a front side that is not there', with_line(front=998), []
    yield 'no front side', with_line(front=NO_SIDE), []
    yield 'two-sided without a back side', with_line(flags=4), []
    yield 'two sides, not two-sided', step_with(flags=1), []
    yield 'no length', step_with(end=Map('..x').records('LINEDEFS')[Map('..x').lines('.', 'x')[0]]['start']), []
    yield 'scrolling', special(Map('.' * 33), '.', lines=65, special=kinds.SCROLL), []
    yield 'a door without a back side', special(Map('..'), '.', lines=1, special=kinds.DOOR), []
    yield 'a tag of no sector', special(Map('..x'), '.', 'x', special=kinds.LIFT, tag=7), []
    yield 'no tag', special(Map('..x'), '.', 'x', special=kinds.LIFT), []
    yield 'a teleport', special(Map('..x', x={'tag': 7}), '.', 'x', special=kinds.TELEPORT, tag=7), []


def of_textures() -> Iterator[tuple]:
    """Wrong textures, flats and lists."""
    low = room.patch(64, 16, 0, 0, room.bricks)
    lower = [*room.textures([(label, ART[label]) for label in kinds.PATCHES] + [('LOW', low)]), ('LOW', low)]
    narrow = [*room.textures([(label, ART[label]) for label in kinds.PATCHES] + [('THIN', low[:2] + low[2:])])]
    own = {'.': {'below': 'MYFLAT'}}
    side = Map('....').records('SIDEDEFS')[-1]
    yield 'a texture', Map('....', **{'.': {'wall': 'BRICK'}}), []
    yield 'an empty name', changed(Map('....'), 'SIDEDEFS', 0, middle=''), []
    lone = Map('....')
    lone.lumps['SIDEDEFS'] += b''.join((b'\0' * 4, name('NOSUCH'), name('-'), name('-'), side['sector'].to_bytes(2, 'little')))
    yield 'a side of no line', lone, []
    yield 'a hidden TEXTURE1', Map('....'), room.textures([('OTHER', ART['BRICKS'])]) + [('OTHER', ART['BRICKS'])]
    yield 'a hidden PNAMES', Map('....'), [('PNAMES', b'\1\0\0\0' + name('MINE'))]
    yield 'a missing patch', Map('....'), [*kinds.lists('ABSENT'), ('MINE', ART['BRICKS'])]
    yield 'a flat', Map('....', **{'.': {'below': 'TILE'}}), []
    yield 'a flat outside of its marks', Map('....', **{'.': {'above': 'BARS'}}), []
    yield 'flats before F_START', Map('....', **own), kinds.own_flat('F_START', 'F_END')
    yield 'a flat after F_END', Map('....', **own), kinds.own_flat('FF_START', 'FF_END')
    yield 'a hole', hole(), []
    yield 'a hole in front of a low sector', hole(floor=110), []
    yield 'a hole to which no way leads', hole(floor=100, ceiling=260), []
    yield 'tutti-frutti', low_wall(40), lower
    yield 'tutti-frutti with an offset', low_wall(8, y_offset=12), lower
    yield 'Medusa', grate('LOW'), [*room.textures([(label, ART[label]) for label in kinds.PATCHES] + [('LOW', low)]), ('LOW', room.patch(32, 16, 0, 0, room.bricks))]
    yield 'a grate of the first list', grate('BARS'), narrow


def of_rest() -> Iterator[tuple]:
    """Wrong sectors, things and tables."""
    yield 'a ceiling below the floor', Map('..x', x={'floor': 32, 'ceiling': 16}), []
    yield 'not closed', with_wrong_side(), []
    yield 'a gap closed by a line of another sector', closed_by_own_line(), []
    yield 'a special of a sector', Map('..xx', x={'special': 6}), []
    yield 'a negative special', Map('..xx', x={'special': -1}), []
    yield 'a special where none comes', Map('..xx', x={'special': 6, 'floor': 99}), []
    yield 'no start', Map('....', start=None), []
    yield 'an unknown thing', things((7, 3, 999, 0, 7)), []
    yield 'an unknown thing that never appears', things((7, 3, 999, 0, 8)), []
    yield 'no thing', things((7, 3, 0, 0, 7)), []
    yield 'a thing without its picture', things((7, 3, 3004, 0, 7), (5, 3, 3004, 0, 7)), []
    yield 'a thing outside', things((1, 1, kinds.LAMP, 0, 8)), []
    yield 'no REJECT in it', kinds.with_lumps(Map('.abc'), REJECT=b''), []
    yield 'a short REJECT', kinds.with_lumps(Map('.abc'), REJECT=b'\0'), []
    yield 'an empty BLOCKMAP', kinds.with_lumps(Map('....'), BLOCKMAP=b''), []
    yield 'no tables', kinds.with_lumps(Map('....'), REJECT=None, BLOCKMAP=None), []
    yield 'damage', kinds.with_lumps(Map('....'), SSECTORS=b''), []
    yield 'many lines at once', Map('.' * 20, **{'.': {'wall': 'ZZZ'}}), []


def with_wrong_side() -> Map:
    made = Map('..x')
    return changed(made, 'SIDEDEFS', made.records('LINEDEFS')[made.lines('.')[0]]['front'], sector=1)


def faulty_maps() -> Iterator[tuple]:
    for part in (of_lines, of_textures, of_rest):
        yield from part()


def pwad(made: Map, lumps) -> bytes:
    """The bytes of a PWAD of a map with more lumps."""
    return wads.wad_of([*made.lumps.items(), *lumps], b'PWAD')
