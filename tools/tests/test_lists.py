"""Tests lists of views: read from lines that are made here, and what pixel, compare and why-limit say by them."""
import os
import re
import struct
import unittest

import pages_shown
from made_files import Tools, name, wad
from test_compare import painted, texture_of_patches, traced
from doomview_tools import levels, list_files, map_places, traces
from doomview_tools.trouble import Trouble

TESTED = os.environ.get('DOOMVIEW_TESTED', '')
FLAT, LAMP, P1, P2, P3, P4 = range(6)  # lumps of the WAD
# View 0 has all kinds of items; view 1 is over a limit; view 2 is empty.
LINES = '''view 0 fragment 0 seg 0 first 0 last 99
view 0 fragment 1 seg 1 first 100 last 199
view 0 fragment 2 seg 2 first 200 last 319
view 0 plane 0 height 0 flat 0 light 160 leaf 0 columns 320
view 0 plane 1 height 8388608 flat 0 light 160 leaf 0 columns 90
view 0 plane 2 height 0 flat sky light 0 leaf 1 columns 9
view 0 plane 3 height 0 flat 0 light 160 fragment 2 columns 20
view 0 plane 4 height 0 flat 0 light 160 leaf 2 columns 0
view 0 sprite 0 thing 1 lump 1 first -4 last 7
view 0 fragments 3 of 3 planes 5 openings 12 sprites 1 of 1
view 1 over planes 129
view 2 fragments 0 of 0 planes 0 openings 0 sprites 0 of 0
'''
SIDES = [('UP', 'LOW', 'GRATE', 0), ('-', '-', '-', 1), ('-', '-', 'WALL', 0), ('SAME', 'SAME', '-', 0),
         ('-', '-', '-', 1), ('-', '-', 'WALL', 2)]
LISTING = '''#!/usr/bin/env python3
import sys
words = sys.argv[1:]
if 'MAP02' in words:
    sys.exit(print('doomview: refused 603', file=sys.stderr) or 2)
with open(words[words.index('--path') + 1]) as file:
    rows = list(file)[1:]
assert words[0] == 'list' and ' --planes 1024 --openings 245760 ' in ' '.join(words)
alone = ['view 0 fragment 0 seg 1 first 100 last 199', 'view 0 fragment 1 seg 2 first 200 last 319',
         'view 0 fragments 2 of 2 planes 0 openings 0 sprites 0 of 0']  # of the solid walls
for view, row in enumerate(rows):
    for line in alone if any(word.endswith('walls.wad') for word in words) else LINES:
        print(line.replace('view 0 ', f'view {view} '))
'''


def level_lumps():
    """A room, a step under the sky in it, and a door that is shut: each a sector with a leaf of its own."""
    lines = [(0, 1, 4, 0, 0, 0, 1), (1, 2, 1, 0, 0, 2, 0xffff), (2, 3, 4, 0, 0, 3, 4), (3, 0, 1, 0, 0, 5, 0xffff)]
    segs = [(0, 1, 0, 0, 0, 0), (1, 2, 0, 1, 0, 0), (2, 3, 0, 2, 0, 0), (1, 0, 0, 0, 1, 0), (3, 0, 0, 3, 0, 0)]
    sectors = [(0, 128, 'FLAT1', 'FLAT1', 160), (24, 96, 'FLAT1', 'F_SKY1', 160), (0, 0, 'FLAT1', 'FLAT1', 160)]
    return [('THINGS', struct.pack('<10h', 0, 0, 90, 1, 7, 64, -32, 0, 2028, 7)),
            ('LINEDEFS', b''.join(struct.pack('<7H', *line) for line in lines)),
            ('SIDEDEFS', b''.join(struct.pack('<hh8s8s8sH', 0, 0, *map(name, side[:3]), side[3]) for side in SIDES)),
            ('VERTEXES', struct.pack('<8h', 0, 0, 0, 256, 256, 256, 256, 0)),
            ('SEGS', b''.join(struct.pack('<6H', *seg) for seg in segs)),
            ('SSECTORS', struct.pack('<6H', 3, 0, 1, 3, 1, 4)), ('NODES', NODES),
            ('SECTORS', b''.join(struct.pack('<hh8s8shhh', *it[:2], *map(name, it[2:4]), it[4], 0, 0)
                                 for it in sectors))]


# Of three leaves, the first at all places west of 30000.
NODES = b''.join(struct.pack('<12h2H', 30000, 0, 0, 1, *[0] * 8, *children) for children in [(0x8001, 0x8002), (0, 0x8000)])


def level_wad(labels=('MAP01',)):
    textures = texture_of_patches([('UP', ['P1']), ('LOW', ['P2']), ('GRATE', ['P3']), ('WALL', ['P2', 'P3']),
                                   ('SAME', ['P4']), ('SKY1', ['P1'])])
    lumps = [(it, b'') for it in ('FLAT1', 'COLUA0', 'P1', 'P2', 'P3', 'P4')] + textures + [('PLAYPAL', bytes(768))]
    return wad(lumps + [lump for label in labels for lump in [(label, b''), *level_lumps()]])


class Lists(Tools):
    def setUp(self):
        super().setUp()
        self.write('level.wad', level_wad())
        self.write('list.txt', LINES.encode())

    def test_read(self):
        """The items of each view by kind and number."""
        found = list_files.ListFile(self.at('list.txt'))
        view = found.view(0)
        self.assertEqual(found.count, 3)
        self.assertEqual(view.fragments[1], list_files.Fragment(1, 100, 199))
        self.assertEqual(view.planes[2:4], [list_files.Plane(0, None, 0, 'leaf', 1, 9),
                                            list_files.Plane(0, 0, 160, 'fragment', 2, 20)])
        self.assertEqual(view.sprites, [list_files.Sprite(1, 1, -4, 7)])
        self.assertEqual(view.sums, list_files.Sums(3, 3, 5, 12, 1, 1))
        self.assertEqual(found.view(1), list_files.View([], [], [], None, ('planes', 129)))
        self.assertEqual(found.view(2).sums.openings, 0)
        self.write('none.txt', b'')
        self.assertEqual(list_files.ListFile(self.at('none.txt')).count, 0)

    def test_wrong_lines(self):
        """A line that is wrong is named by its number."""
        lines = LINES.splitlines(keepends=True)
        for number, part, text in [
                (1, 'no line of a list', '\0' * 1000), (3, 'no line of a list', lines[:2] + ['view 0 wall 2\n']),
                (12, 'no line of a list', LINES[:-1]), (2, 'fragment 2 stands where fragment 1', lines[:1] + lines[2:]),
                (5, 'fragment 2 stands where', lines[:2] + lines[3:5] + lines[2:3] + lines[5:]),
                (1, 'view 1 stands where view 0 should', lines[10:]),
                (9, 'the sums of view 0 are not those of its lines', lines[:8] + lines[9:]),
                (9, 'the file ends within a view', lines[:8]),
                (9, 'the line of view 0 that has its sums is missing', lines[:8] + lines[10:]),
                (8, 'view 0 has no fragment 3', LINES.replace('leaf 2 columns 0', 'fragment 3 columns 0')),
                (4, 'view 0 has items, and passes a limit', lines[:3] + ['view 0 over planes 129\n'])]:
            self.write('bad.txt', ''.join(text).encode())
            with self.assertRaises(Trouble) as found:
                list_files.ListFile(self.at('bad.txt'))
            self.assertIn(f'bad.txt, line {number}: ', str(found.exception))
            self.assertIn(part, str(found.exception))

    def test_pixel(self):
        """Line, side and part of a wall; the sectors and the maker of a plane; the thing of a sprite."""
        floors = 'plane, floor of sectors 0, 2 at height 0, flat FLAT1, light 160'
        spots = [((1, 1, 0, P1), 'wall, line 0, front side, upper texture UP, sector 0, light 160 (fragment 0, seg 0), patch P1'),
                 ((1, 1, 0, P2), 'wall, line 0, front side, lower texture LOW, sector 0, light 160 (fragment 0, seg 0), patch P2'),
                 ((4, 2, 0, 2), 'middle, line 0, front side, middle texture GRATE, sector 0, light 160 (fragment 0, seg 0)'),
                 ((1, 1, 1, P3), 'wall, line 1, front side, middle texture WALL, sector 0, light 160 (fragment 1, seg 1), patch P3'),
                 ((1, 1, 2, P4), 'wall, line 2, front side, upper or lower texture SAME, sector 0, light 160 (fragment 2, seg 2), patch P4'),
                 ((2, 1, 0, FLAT), f'{floors} (plane 0, made by leaf 0 of sector 0)'),
                 ((2, 1, 1, FLAT), 'plane, ceiling of sector 0 at height 128, flat FLAT1, light 160 '
                                   '(plane 1, made by leaf 0 of sector 0)'),
                 ((3, 2, 2, 5), 'sky of sector 1, texture SKY1 (plane 2, made by leaf 1 of sector 1)'),
                 ((2, 1, 3, FLAT), f'{floors} (plane 3, split by fragment 2 of line 2)'),
                 ((2, 1, 4, FLAT), f'{floors} (plane 4, made by leaf 2 of sector 2)'),
                 ((5, 1, 0, LAMP), 'sprite, thing 1 of type 2028 at 64,-32, lump COLUA0 (sprite 0)'),
                 ((6, 1, 1, LAMP), 'weapon, row 1, lump COLUA0')]
        records = [(0, x, (*record, 6, 0)) for x, (record, _) in enumerate(spots)]
        self.write('trace.bin', traced(*records) + traced() * 2)
        told_of = [f'{told}, colour 6' for _, told in spots] + ['nothing, colour 0']
        for x, told in enumerate(told_of):
            done = self.run_tool('pixel', '0', str(x), '0', 'trace.bin', 'level.wad', '--list', 'list.txt')
            self.assertEqual(done, (0, f'view 0 column {x} row 0: {told}\n'.encode(), ''))
        plain = self.run_tool('pixel', '0', '0', '0', 'trace.bin', 'level.wad')[1]
        self.assertEqual(plain, b'view 0 column 0 row 0: wall, fragment 0, patch P1, of UP, SKY1, colour 6\n')

    def test_compare(self):
        """The pixels that differ by lines, sectors and things, in the text and on the page."""
        wall, step, other = (1, 1, 1, P2, 6, 0), (1, 1, 0, P2, 6, 0), (2, 1, 3, FLAT, 6, 0)
        floor, lamp = (2, 1, 0, FLAT, 6, 0), (5, 1, 0, LAMP, 6, 0)
        records = [wall, wall, step, floor, other, lamp]
        self.write('trace.bin', traced(*((0, x, record) for x, record in enumerate(records))) + traced() * 2)
        self.write('ours.bin', painted(*((0, x, 6) for x in range(6))) + painted() * 2)
        self.write('port.bin', painted() * 3)
        words = ['compare', 'ours.bin', 'port.bin', '--trace', 'trace.bin', '--wad', 'level.wad']
        status, output, error = self.run_tool(*words, '--list', 'list.txt', '--map', 'map01', '--html', 'page.html')
        self.assertEqual((status, error), (1, ''))
        floors = 'floor of sectors 0, 2 at height 0, flat FLAT1, light 160'
        places = ['line 1, front side, middle texture WALL, sector 0, light 160',
                  'line 0, front side, lower texture LOW, sector 0, light 160', floors,
                  'thing 1 of type 2028 at 64,-32, lump COLUA0']
        self.assertEqual(output.decode().splitlines()[3:-1], [
            '  wall     P2             3  fragment 0 1  patch of LOW, WALL',
            f'                          2  {places[0]} (fragment 1)',
            f'                          1  {places[1]} (fragment 0)',
            '  plane    FLAT1          2  plane 0 3', f'                          2  {places[2]} (plane 0 3)',
            '  sprite   COLUA0         1  sprite 0', f'                          1  {places[3]} (sprite 0)'])
        view, = pages_shown.data_of(self.at('page.html'))['views']
        self.assertEqual([it[4] for it in view['painters'][:6]], [*places[:2], floors, floors, places[3], ''])
        plain = [line for line in output.decode().splitlines() if not line.startswith(' ' * 12)]
        self.assertIn('; by light: 160 100 %', plain[1])  # of the list alone
        plain[1] = plain[1].partition(';')[0]
        self.assertEqual(self.run_tool(*words)[1].decode().splitlines(), plain)
        if pages_shown.BROWSER:
            found = pages_shown.shown(self.at('page.html'), 'compare_places')
            self.assertEqual(found[0], 'view 0 column 0 row 0: ours 6, port 5  DIFFERS; painted by wall P2, fragment 1, of LOW, '
                         'WALL, line 1, front side, middle texture WALL, sector 0, light 160')
            self.assertEqual(found[1], 3)
            self.assertEqual({it.split(':')[0] for it in found[2]}, set(places))
            self.assertEqual(found[3:], [found[2][0].split(':')[0], False])

    def test_light(self):
        """The light of a plane is in the list; that of a wall and of a thing is that of its sector."""
        view = list_files.ListFile(self.at('list.txt')).view(0)
        wad = self.at('level.wad')
        places = map_places.Places(levels.read([wad], 'MAP01'), traces.Names([wad]), 'list.txt')
        places.level.sectors[:] = [sector._replace(light=light) for sector, light in zip(places.level.sectors, (10, 20, 30))]
        for kind, number, light in ((traces.WALL, 0, 10), (traces.MIDDLE, 0, 10), (traces.PLANE, 1, 160), (traces.SPRITE, 0, 10),
                                    (traces.SKY, 2, None), (6, 1, None)):
            self.assertEqual(places.light(view, kind, number), light, kind)

    def test_narrow(self):
        """Sprites of few columns, but for those that an edge of the screen may cut."""
        columns = [(5, 5), (5, 6), (0, 0), (-4, 0), (319, 319), (318, 318), (1, 1), (7, 6)]
        view = list_files.View([], [], [list_files.Sprite(0, LAMP, *both) for both in columns], None, None)
        for least, found in ((1, set()), (2, {0, 5, 6}), (3, {0, 1, 5, 6})):
            self.assertEqual(list_files.narrow(view, least), found)

    def test_least_width(self):
        """Pixels of sprites that have too few columns in the list do not count; the line on the pixels says so."""
        self.write('trace.bin', traced((0, 5, (5, 1, 0, LAMP, 6, 0)), (0, 9, (1, 1, 0, P2, 6, 0))) + traced() * 2)
        self.write('ours.bin', painted((0, 5, 6), (0, 9, 6)) + painted() * 2)
        self.write('port.bin', painted((0, 9, 6)) + painted() * 2)
        self.write('thin.txt', LINES.replace('first -4 last 7', 'first 5 last 5').encode())
        words = ['compare', 'ours.bin', 'port.bin', '--trace', 'trace.bin', '--wad', 'level.wad', '--list']
        counted = b'of sprite alone, of sprites of 2 and more columns: 0 of 192000 pixels\n'
        whole = b'views 3 same 3 different 0 pixels 0\n'
        self.assertEqual(self.run_tool(*words, 'thin.txt', '--only', 'sprite', '--least-width', '2'), (0, counted + whole, ''))
        kinds = b'of nothing, wall, plane, sky, middle, sprite, weapon alone, of sprites of 2 and more columns: 191999 of 192000'
        self.assertEqual(self.run_tool(*words, 'thin.txt', '--least-width', '2'), (0, kinds + b' pixels\n' + whole, ''))
        for listed, more in (('list.txt', ['--least-width', '2']), ('thin.txt', [])):
            self.assertEqual(self.run_tool(*words, listed, '--only', 'sprite', *more)[0], 1)

    def test_wrong(self):
        """A list that does not fit the trace, the WADs or the map."""
        self.write('trace.bin', traced((0, 0, (1, 1, 0, P1, 6, 0)), (0, 1, (1, 1, 3, P1, 6, 0)),
                                       (0, 2, (1, 1, 1, P1, 6, 0)), (0, 3, (5, 1, 0, P1, 6, 0)),
                                       (0, 4, (2, 1, 0, P1, 6, 0)), (0, 5, (2, 1, 0, FLAT, 6, 0)),
                                       (0, 6, (5, 1, 0, LAMP, 6, 0))) + traced() * 2)
        self.write('short.txt', LINES.splitlines(keepends=True)[-1].replace('view 2', 'view 0').encode())
        self.write('two.wad', level_wad(['MAP01', 'MAP02']))
        pixel = ['pixel', '0', '0', '0', 'trace.bin']
        for part, words in [
                ('short.txt is the list of 1 views, and trace.bin the trace of 3',
                 ['level.wad', '--list', 'short.txt']),
                ('has no map MAP07; the maps there: MAP01', ['level.wad', '--list', 'list.txt', '--map', 'MAP07']),
                ('the WADs have 2 maps; name that of the list by --map', ['two.wad', '--list', 'list.txt']),
                ('--list needs the WADs', ['--list', 'list.txt']),
                ('cannot read absent', ['--list', 'absent', 'level.wad']),
                ('name that by --list', ['level.wad', '--map', 'MAP01']),
                ('trace.bin, line 1: this is no line of a list', ['level.wad', '--list', 'trace.bin'])]:
            self.refuses(part, *pixel, *words)
        self.assertEqual(self.run_tool(*pixel, 'two.wad', '--list', 'list.txt', '--map', 'MAP02')[0], 0)
        for x, part in [(1, 'the trace has fragment 3, and the list has 3'),
                        (2, 'line 1, front side has no part with P1'),
                        (3, 'sprite 0 has another picture'), (4, 'plane 0 has another flat')]:
            self.refuses(f'list.txt does not fit: {part}', 'pixel', '0', str(x), '0', 'trace.bin', 'level.wad',
                         '--list', 'list.txt')
        for x, part, old, new in [(0, 'has no seg 9', 'fragment 0 seg 0', 'fragment 0 seg 9'),
                                  (5, 'sector 0 has no floor or ceiling', 'height 8388608', 'height 65536'),
                                  (5, 'the WADs have no lump 99', 'height 8388608 flat 0', 'height 8388608 flat 99'),
                                  (5, 'has no leaf 9', 'leaf 2', 'leaf 9'),
                                  (6, 'has no thing 5', 'thing 1', 'thing 5')]:
            self.write('other.txt', LINES.replace(old, new).encode())
            self.refuses(part, 'pixel', '0', str(x), '0', 'trace.bin', 'level.wad', '--list', 'other.txt')
        self.write('ours.bin', painted() * 3)
        self.refuses('--list needs the trace', 'compare', 'ours.bin', 'ours.bin', '--wad', 'level.wad', '--list',
                     'list.txt')


class WhyLimit(Tools):
    def setUp(self):
        super().setUp()
        self.write('level.wad', level_wad(['MAP01', 'MAP02']))
        self.listing = self.stand_in('listing', LISTING.replace('LINES', repr(LINES.splitlines()[:10])))

    def runs(self, *words):
        return self.run_tool('why-limit', 'level.wad', 'MAP01', *words, doomview=self.listing)

    def test_table(self):
        """The planes by height, flat and light, the most first, and the lines that split them."""
        status, output, error = self.runs('-64.5,32,90')
        self.assertEqual((status, error), (0, ''))
        self.assertEqual(output.decode(), '''\
view 0: x -64.5 y 32 eye 41 angle 90, row -4227072,2097152,2686976,1073741824
  the place is outside the level: no player sees this view
  5 planes of 128; 12 openings of 20480; 3 fragments of 256; 1 sprites of 128; 3 solid ranges of 32

  planes  splits  columns  flat   of       height  light  sectors
       3       1      340  FLAT1  floor         0    160  sectors 0, 2
       1       0       90  FLAT1  ceiling     128    160  sector 0
       1       0        9  -      sky           -      -  sector 1

  splits  line  side   sectors  what differs                                            of
       1     2  front  0 | 1    floor 0 / 24, ceiling 128 / 96, ceiling FLAT1 / F_SKY1  floor FLAT1 at 0

  fragments  sector  lines
          3       0  0, 1, 2

  sprites  type  what  places
        1  2028  -     thing 1 at 64,-32

  solid range of line  columns
                    1  100 to 199
''')
        self.assertNotIn('outside', self.runs('64.5,64,90')[1].decode())

    def test_views(self):
        """Views as in an editor, as rows, and by their numbers in a path."""
        self.write('path.csv', b'x,y,z,angle\n' + b''.join(b'%d,0,0,0\n' % (x << 16) for x in range(4)))
        for words, told in [(['-65536,0,2686976,0'], ['0: x -1 y 0 eye 41']),
                            (['1,2,0', '3,4,-90'], ['0: x 1 y 2', '1: x 3 y 4']),
                            (['--path', 'path.csv', '2', '0'], ['2: x 2 y 0 eye 0', '0: x 0 y 0']),
                            (['--path', 'path.csv'], [f'{x}: x {x} ' for x in range(4)])]:
            status, output, error = self.runs(*words)
            self.assertEqual((status, error), (0, ''))
            heads = re.findall('^view (.*)', output.decode(), re.M)
            self.assertEqual([head[:len(part)] for head, part in zip(heads, told)], told)
            self.assertEqual(len(heads), len(told))
        self.assertIn('angle 270, row 196608,262144,2686976,3221225472', self.runs('3,4,-90')[1].decode())

    def test_open(self):
        """--open puts a WAD with the doors open behind the others, and names planes by it."""
        lumps = dict(level_lumps())
        lines = bytearray(lumps['LINEDEFS'])
        struct.pack_into('<HHHH', lines, 14 * 2 + 6, 1, 0, 3, 5)  # with a special, which makes a door of sector 2
        self.write('door.wad', wad([('MAP01', b''), *{**lumps, 'LINEDEFS': bytes(lines)}.items()]))
        copying = LISTING.replace('LINES', repr(LINES.splitlines()[:10])) + '''
import shutil
shutil.copy(next(word for word in words if word.endswith('open.wad')), 'seen.wad')
'''
        words = ['why-limit', '--iwad', 'level.wad', 'door.wad', 'MAP01', '0,0,0', '--open']
        status, _, error = self.run_tool(*words, doomview=self.stand_in('copying', copying))
        self.assertEqual((status, error), (0, ''))
        sectors = levels.read([self.at('seen.wad')], 'MAP01').sectors
        self.assertEqual([sector.ceiling for sector in sectors], [128, 96, 124])

    def test_over(self):
        """A view over a limit is status 1; what is past the 256th fragment is counted."""
        lines = LINES.splitlines()[:9] + ['view 0 fragments 3 of 300 planes 5 openings 12 sprites 1 of 1']
        over = self.stand_in('over', LISTING.replace('LINES', repr(lines)))
        status, output, _ = self.run_tool('why-limit', 'level.wad', 'MAP01', '0,0,0', doomview=over)
        self.assertEqual(status, 1)
        self.assertIn('; 300 fragments, 44 over 256; ', output.decode())
        self.assertIn('\n  fragments: the first 3 are drawn, 297 past them are not\n', output.decode())
        over = self.stand_in('over', LISTING.replace('LINES', repr(['view 0 over planes 1025'])))
        status, output, _ = self.run_tool('why-limit', 'level.wad', 'MAP01', '0,0,0', doomview=over)
        told = '  more than 1024 planes, the most that doomview counts'
        self.assertEqual((status, output.decode().splitlines()[1:]), (1, [told]))

    def test_wrong(self):
        self.write('path.csv', b'x,y,z,angle\n0,0,0,0\n')
        for part, words in [('name a view', []), ('1,2 is no view', ['1,2']), ('a,b,c is no view', ['a,b,c']),
                            ('99999,0,0 is no view', ['99999,0,0']), ('0,0,0,-1 is no view', ['0,0,0,-1']),
                            ('has 1 views, counted from 0, and none of number 1', ['--path', 'path.csv', '1']),
                            ('cannot read absent', ['--path', 'absent'])]:
            self.refuses(part, 'why-limit', 'level.wad', 'MAP01', *words, doomview=self.listing)
        self.refuses('level.wad has no map MAP09', 'why-limit', 'level.wad', 'MAP09', '0,0,0', doomview=self.listing)
        status, output, error = self.run_tool('why-limit', 'level.wad', 'MAP02', '0,0,0', doomview=self.listing)
        self.assertEqual((status, output), (2, b''))
        self.assertTrue(error.startswith('doomview: refused 603\nexplain: 603: '), error)


@unittest.skipUnless(TESTED, 'no program is named')
class Program(Tools):
    """With the program, over the made room."""

    def test_room(self):
        """Every item that a trace has is in the list, and has a place in the map."""
        self.run_tool('room', '-o', 'room.wad')
        self.run_tool('places', 'room.wad', 'MAP01', '4', '-o', 'path.csv')
        for job, out in [('trace', 'trace.bin'), ('list', 'list.txt')]:
            done = self.run_tool(job, 'MAP01', 'room.wad', '--path', 'path.csv', '-o', out, doomview=TESTED)
            self.assertEqual(done, (0, b'', ''))
        files = [self.at('room.wad')]
        names = traces.Names(files)
        placing = map_places.Placing(self.at('list.txt'), 5, files, None, names, 'trace.bin')
        with open(self.at('trace.bin'), 'rb') as file:
            for view in range(placing.list.count):
                records = file.read(traces.VIEW_SIZE)
                for record in {records[at:at + 8] for at in range(0, len(records), 8)}:
                    kind, source_kind, number, source, _, _ = traces.RECORD.unpack(record)
                    place = placing.places.place(placing.view(view), traces.Painter(kind, source_kind, source), number)
                    self.assertEqual(bool(place), bool(kind))
        told = self.run_tool('pixel', '0', '77', '78', 'trace.bin', 'room.wad', '--list', 'list.txt')[1].decode()
        level = levels.read(files, 'MAP01')
        number, kind = map(int, re.search(r'thing (\d+) of type (\d+)', told).groups())
        self.assertEqual(level.things[number].type, kind)
        words = ['why-limit', 'room.wad', 'MAP01', '--path', 'path.csv', '0']
        status, output, error = self.run_tool(*words, doomview=TESTED)
        self.assertEqual((status, error), (0, ''))
        table = re.findall(r'^ +(\d+) +(\d+) +\d+  \S+ +(?:floor|ceiling|sky) ', output.decode(), re.M)
        planes = placing.view(0).planes
        self.assertEqual([sum(map(int, it)) for it in zip(*table)],
                         [len(planes), sum(plane.maker == 'fragment' for plane in planes)])


if __name__ == '__main__':
    unittest.main()
