"""The tables of rows of the cases: thing tables, camera paths and weapon layers, good ones and such as are refused."""
import typing
from collections.abc import Iterable, Mapping, Sequence

from chance import chance_path
from levels import COURT, Point

THINGS = 'type,sprite,frame,bright,hang,shadow'
PATH = 'x,y,z,angle'
LIT_PATH = 'x,y,z,angle,extralight,colormap'
WEAPON = 'view,sprite,frame,bright,sx,sy'
TREE = '2035,TREE,A,0,0,0'
MOST_BYTES = 1048576  # of a table
UNIT = 65536  # of a place: whole map units, or pixels
Row = tuple[int, ...]  # of a path: numbers, four or six

# Column and row in the plan of the court, in halves of a square, height in map units, and degrees.
COURT_VIEWS = [(8, 8, 41, 90), (20, 18, 41, 180), (14, 15, 90, 45), (5, 25, 20, 0), (19, 25, 60, 90), (3, 4, 41, 0),
               (22, 4, 70, 270), (28, 12, 60, 200), (10, 9, 41, 300), (14, 6, 41, 30), (17, 24, 57, 0), (8, 16, 41, 20)]
YARD_VIEWS = [COURT_VIEWS[7], COURT_VIEWS[4]]


def table(head: str, *rows: str) -> str:
    return ''.join(f'{row}\n' for row in (head, *rows))


def path(rows: Sequence[Row]) -> str:
    """A camera path of rows of numbers, four or six each."""
    return table(PATH if len(rows[0]) == 4 else LIT_PATH, *(','.join(map(str, row)) for row in rows))


def bam(degrees: int) -> int:
    return degrees * 2 ** 32 // 360 % 2 ** 32


def court_path(views: Iterable[tuple[int, int, int, int]], east: Point = (1, 0), north: Point = (0, 1),
               light: Row = ()) -> str:
    """The rows of these views of the court, turned and stretched as it is."""
    rows = []
    for column, row, height, degrees in views:
        x, y = 32 * column, 64 * len(COURT) - 32 * row
        place = x * east[0] + y * north[0], x * east[1] + y * north[1]
        rows.append((place[0] * UNIT, place[1] * UNIT, height * UNIT, bam(degrees), *light))
    return path(rows)


def at(x: int, y: int, z: int, degrees: int, *light: int) -> Row:
    """A row of a path, in whole map units and degrees."""
    return x * UNIT, y * UNIT, z * UNIT, bam(degrees), *light


# The things of the levels that are made here.
KINDS = table(THINGS, '10,GUAR,A,0,0,0', '11,LAMP,A,1,0,0', '12,DISK,A,0,0,0', '13,CUBE,B,0,0,0', '14,GUAR,B,0,0,0',
              '15,HOOK,A,0,60,0', '16,KEYS,A,1,0,0')

GOOD = {
    'kinds.csv': KINDS,
    'bright-tree.csv': table(THINGS, '2035,TREE,A,1,0,0'),
    'hanging-tree.csv': table(THINGS, '2035,TREE,A,0,80,0'),
    'flipped-kinds.csv': table(THINGS, '10,CUBE,D,0,0,0', '11,CUBE,B,1,0,0', '12,DISK,A,1,0,0', '13,GUAR,A,0,100,0'),
    'no-things.csv': table(THINGS),
    'other-things.csv': table(THINGS, '1,TREE,A,0,0,0'),
    'shadow-of-none.csv': table(THINGS, TREE, '9,TREE,A,0,0,1'),
    'middle.csv': path([at(0, 0, 41, 0)]),
    'around.csv': path([at(0, 0, 41, 45 * turn) for turn in range(8)]),
    'corners.csv': path([at(-250, -250, 8, 45), at(250, 250, 120, 225), at(256, 256, 41, 200), at(-300, 0, 64, 0)]),
    'bright-middle.csv': path([at(0, 0, 41, 0, 1, 0)]),
    'fixed-middle.csv': path([at(0, 0, 41, 0, 0, 5)]),
    'above.csv': path([at(0, 0, 128, 0), at(0, 0, 129, 0), at(0, 0, 0, 0), at(0, 0, -1, 0), at(0, 0, 2000, 90)]),
    'along.csv': path([at(0, 0, 41, 0)]),
    'nearer.csv': path([at(128, 0, 41, 0)]),
    'along-and-back.csv': path([at(4000, 0, 41, 180), at(0, 0, 41, 0), at(1000, 60, 100, 10)]),
    'no-rows.csv': table(PATH),
    'vertex.csv': table(PATH, '0,0,4718592,536870912'),
    'wild.csv': path([(-2 ** 31, -2 ** 31, -2 ** 31, 0), (2 ** 31 - 1, 2 ** 31 - 1, 2 ** 31 - 1, 2 ** 32 - 1),
                      (0, 2 ** 31 - 1, 0, 2 ** 31), (16777216, 16777217, 4718592, 1), (-1, -1, -1, 3 << 30),
                      (2 ** 30, -2 ** 30, 1, 1 << 29), (8388608, 8388608, 0, 305419896), (65535, 1, 65536, 4096)]),
    'three-views.csv': table(PATH, '2621440,2621440,4718592,2147483648', '2621440,2621440,4718592,536870912',
                             '2621440,2621440,4718592,1073741824'),
    'one-direction.csv': table(PATH, *['2621440,2621440,4718592,536870912'] * 2),
    'court.csv': court_path(COURT_VIEWS),
    'yard.csv': court_path(YARD_VIEWS),
    'wide-court.csv': court_path(COURT_VIEWS, (2, 1), (-1, 2)),
    'turned-court.csv': court_path(COURT_VIEWS, (-1, -1), (1, -1)),
    'lean-court.csv': court_path(COURT_VIEWS, (2, 0), (1, 1)),
    'mixed-lights.csv': path([at(32 * x, 64 * len(COURT) - 32 * y, z, a, k % 5 * 3, k * 7 % 34)
                              for k, (x, y, z, a) in enumerate(COURT_VIEWS[:5])]),
}

GOOD.update({
    'each-extralight.csv': path([at(32 * 28, 64 * len(COURT) - 32 * 12, 60, 200, light, 0) for light in range(16)]),
    'each-colormap.csv': path([at(32 * 28, 64 * len(COURT) - 32 * 12, 60, 200, 0, number) for number in range(33)]),
    'made-each-extralight.csv': path([at(77, 93, 72, 24, light, 0) for light in range(16)]),
    'made-each-colormap.csv': path([at(77, 93, 72, 24, 0, number) for number in range(33)]),
})

# Tables that are taken though they are written oddly. What a spreadsheet or another system makes of a table.
ODDLY_WRITTEN = {
    'things-marked.csv': '\ufeff' + table(THINGS, TREE),
    'things-quoted.csv': table('"type",sprite,"frame",bright,hang,shadow', '"2035","TREE",A,"0",0,0'),
    'things-crlf.csv': table(THINGS, TREE).replace('\n', '\r\n'),
    'things-cr.csv': table(THINGS, TREE).replace('\n', '\r'),
    'things-blank-lines.csv': '\n\r\n' + table(THINGS, '', TREE, '', ''),
    'things-no-last-end.csv': table(THINGS, TREE).rstrip('\n'),
    'things-small-letters.csv': table(THINGS, '2035,tree,a,0,0,0'),
    'things-zeros.csv': table(THINGS, '0000002035,TREE,A,00,-0,0000000000'),
    'things-edges.csv': table(THINGS, '0,!!!!,A,0,0,0', '65535,~~~~,],1,32767,0', TREE),
    'things-4096.csv': table(THINGS, *(f'{kind},TREE,A,0,0,0' for kind in range(4096))),
    'things-full.csv': table(THINGS, TREE).ljust(MOST_BYTES, '\n'),
    'path-quoted.csv': '"x","y",z,"angle"\r\n"2621440",2621440,"4718592",0\r\n',
    'path-zeros.csv': table(PATH, '0002621440,0002621440,4718592,-0'),
    'path-10000.csv': table(PATH, *['2621440,2621440,4718592,0'] * 10000),
    'path-full.csv': table(PATH, '2621440,2621440,4718592,0').ljust(MOST_BYTES, '\n'),
    'weapon-marked.csv': '\ufeff' + table(WEAPON, '0,tree,a,1,"10485760",6553600').replace('\n', '\r\n'),
    'weapon-20000.csv': table(WEAPON, *['9999,TREE,A,1,0,0'] * 20000),
    'weapon-edges.csv': table(WEAPON, '0,TREE,A,0,-2147483648,-2147483648', '9999,TREE,A,1,2147483647,2147483647'),
}


def faults(name: str, head: str, row: str, bad_rows: Mapping[str, list[str]]) -> dict[str, typing.Union[str, bytes]]:
    """Tables that are refused, each with one fault: of the header, and of the rows that are given by a name."""
    files: dict[str, typing.Union[str, bytes]] = {
        f'{name}-empty.csv': '',
        f'{name}-other-header.csv': table(head.replace(',', ';'), row),
        f'{name}-spaced-header.csv': table(head.replace(',', ', '), row),
        f'{name}-capital-header.csv': table(head.upper(), row),
        f'{name}-longer-header.csv': table(head + ',more', row),
        f'{name}-wide.csv': ('\ufeff' + table(head, row)).encode('utf-16-le'),
        f'{name}-too-long.csv': table(head, row).ljust(MOST_BYTES + 1, '\n'),
        f'{name}-few-fields.csv': table(head, row, row.rpartition(',')[0]),
        f'{name}-many-fields.csv': table(head, row + ',0'),
        f'{name}-open-quote.csv': table(head, '"' + row),
    }
    files.update({f'{name}-{fault}.csv': table(head, *rows) for fault, rows in bad_rows.items()})
    return files


BAD_THINGS = faults('things', THINGS, TREE, {
    'type-letter': ['x,TREE,A,0,0,0'], 'type-plus': ['+1,TREE,A,0,0,0'], 'type-space': ['1 ,TREE,A,0,0,0'],
    'type-empty': [',TREE,A,0,0,0'], 'type-11-digits': ['00000002035,TREE,A,0,0,0'],
    'hang-point': ['1,TREE,A,0,1.5,0'],
    'type-65536': ['65536,TREE,A,0,0,0'], 'type-negative': ['-1,TREE,A,0,0,0'], 'sprite-3-letters': ['1,TRE,A,0,0,0'],
    'sprite-5-letters': ['1,TREES,A,0,0,0'], 'sprite-delete': ['1,TRE\x7f,A,0,0,0'],
    'frame-at': ['1,TREE,@,0,0,0'], 'frame-roof': ['1,TREE,^,0,0,0'],
    'bright-2': ['1,TREE,A,2,0,0'], 'hang-32768': ['1,TREE,A,0,32768,0'],
    'hang-negative': ['1,TREE,A,0,-1,0'], 'shadow-2': ['1,TREE,A,0,0,2'],
    'twice': [TREE, TREE], 'twice-later': [TREE, '1,TREE,A,0,0,0', '02035,LEAF,B,1,5,1'],
    '4097': [f'{kind},TREE,A,0,0,0' for kind in range(4097)],
    '4097-bad': [*(f'{kind},TREE,A,0,0,0' for kind in range(4096)), 'x'],
    'two-faults': ['x,TR,A,0,0,0'], 'fault-below-fault': ['1,TREE,A,0,0,9', 'x,TREE,A,0,0,0'],
    'fields-before-number': ['x,TREE,A,0,0'], 'range-before-twice': [TREE, '2035,TREE,A,7,0,0'],
    'shadow': ['2035,TREE,A,0,0,1'], 'frame-b': ['2035,TREE,B,0,0,0']})
BAD_PATHS = faults('path', PATH, '1,2,3,4', {
    'x-letter': ['x,2,3,4'], 'z-letter': ['1,2,x,4'], 'angle-empty': ['1,2,3,'],
    'x-too-great': ['2147483648,2,3,4'], 'y-too-small': ['1,-2147483649,3,4'], 'angle-too-great': ['1,2,3,4294967296'],
    'angle-negative': ['1,2,3,-1'], '10001': ['1,2,3,4'] * 10001,
    '10001-bad': [*['1,2,3,4'] * 10000, 'x'], 'two-faults': ['1,2,3,4', '1,x,9999999999,4']})
BAD_PATHS.update({
    'path-extralight-16.csv': table(LIT_PATH, '1,2,3,4,16,0'), 'path-colormap-33.csv': table(LIT_PATH, '1,2,3,4,0,33'),
    'path-extralight-letter.csv': table(LIT_PATH, '1,2,3,4,a,0'), 'path-lit-short.csv': table(LIT_PATH, '1,2,3,4'),
    'path-half-header.csv': table(PATH + ',extralight', '1,2,3,4,0')})
BAD_WEAPONS = faults('weapon', WEAPON, '0,TREE,A,1,0,0', {
    'view-letter': ['a,TREE,A,1,0,0'],
    'view-10000': ['10000,TREE,A,1,0,0'], 'view-negative': ['-1,TREE,A,1,0,0'], 'sprite-long': ['0,TREES,A,1,0,0'],
    'frame-small': ['0,TREE,@,1,0,0'], 'sx-too-great': ['0,TREE,A,1,2147483648,0'],
    'sy-too-small': ['0,TREE,A,1,0,-2147483649'], '20001': ['0,TREE,A,1,0,0'] * 20001,
    'frame-b': ['0,TREE,B,0,0,0'], 'frame-b-second': ['0,TREE,A,0,0,0', '7,TREE,B,0,0,0']})

# Weapon layers: sprite, frame and bright, and the place in whole pixels.
GUN = 'TREE,A'


def weapon(*rows: tuple[int, str, int, int, int]) -> str:
    """A file of weapon layers; places are whole pixels."""
    return table(WEAPON, *(f'{view},{picture},{bright},{sx * UNIT},{sy * UNIT}'
                           for view, picture, bright, sx, sy in rows))


WEAPONS = {
    'gun.csv': weapon((0, GUN, 1, 160, 100)),
    'dark-gun.csv': weapon((0, GUN, 0, 160, 100)),
    'gun-left.csv': weapon((0, GUN, 1, 0, 100)),
    'gun-off-left.csv': weapon((0, GUN, 1, -40, 100)),
    'gun-off-right.csv': weapon((0, GUN, 1, 400, 100)),
    'gun-above.csv': weapon((0, GUN, 1, 160, 30)),
    'gun-off-above.csv': weapon((0, GUN, 1, 160, -80)),
    'gun-below.csv': weapon((0, GUN, 1, 160, 190)),
    'gun-off-below.csv': weapon((0, GUN, 1, 160, 300)),
    'gun-corner.csv': weapon((0, GUN, 1, 315, 205)),
    'gun-between-pixels.csv': table(WEAPON, '0,TREE,A,1,10518528,6586368', '1,TREE,A,1,10485761,6553599'),
    'gun-far-off.csv': table(WEAPON, '0,TREE,A,1,2147483647,2147483647', '1,TREE,A,1,-2147483648,-2147483648',
                             '2,TREE,A,1,2147483647,-2147483648', '2,TREE,A,0,-2147483648,2147483647'),
    'gun-far-below.csv': table(WEAPON, '0,TREE,A,1,10485760,2147483647', '1,TREE,A,1,10485760,-2147483648'),
    'three-guns.csv': weapon((0, GUN, 1, 160, 100), (0, GUN, 0, 170, 110), (0, GUN, 1, 150, 95)),
    'guns-in-turn.csv': weapon((2, GUN, 1, 160, 100), (0, GUN, 0, 100, 90), (1, GUN, 1, 30, 120), (0, GUN, 1, 110, 80)),
    'gun-twice.csv': weapon((1, GUN, 0, 160, 100), (1, GUN, 0, 160, 100)),
    'gun-of-view-3.csv': weapon((3, GUN, 1, 160, 100)),
    'gun-of-view-9999.csv': weapon((9999, GUN, 1, 160, 100)),
    'no-guns.csv': table(WEAPON),
    'flipped.csv': weapon((0, 'CUBE,B', 1, 160, 100), (1, 'CUBE,D', 1, 160, 100)),
    'turned-weapons.csv': weapon((0, 'GUAR,A', 1, 160, 150), (1, 'DISK,A', 0, 100, 100)),
    'guns.csv': weapon((0, 'GUNS,A', 1, 1, 32), (1, 'GUNS,A', 0, -40, 60), (2, 'GUNS,A', 0, 100, 10)),
    'court-weapons.csv': weapon(*((view, picture, view % 2, 40 + 25 * view, 60 + 12 * view)
                                  for view in range(12) for picture in ('LAMP,A', 'CUBE,D', 'GUAR,B')),
                                  *((view, 'GUNS,A', 1 - view % 2, 1, 32 + view) for view in range(12))),
    'small-letters-weapon.csv': table(WEAPON, '0,tree,a,1,10485760,6553600'),
}

TEXTS: dict[str, typing.Union[str, bytes]] = {**GOOD, **ODDLY_WRITTEN, **BAD_THINGS, **BAD_PATHS, **BAD_WEAPONS,
                                              **WEAPONS}


def chance_text(seed: int) -> str:
    return path(chance_path(seed, 8))


def extralight_text(number: int) -> str:
    return court_path(YARD_VIEWS, light=(number, 0))


def colormap_text(number: int) -> str:
    return court_path(YARD_VIEWS, light=(0, number))
