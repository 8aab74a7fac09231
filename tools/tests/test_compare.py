"""Tests the tools compare and pixel on frames, traces and WADs that are made here."""
import json
import os
import pty
import struct
import subprocess
import unittest
import xml.etree.ElementTree as xml
import zlib

import pages_shown
from made_files import COMMAND, Tools, name, pixels_of, wad
from doomview_tools import compare_page, png, progress, traces

FRAME, WIDTH = 64000, 320


def texture_list(names):
    """A TEXTURE1 of textures without patches."""
    places = [4 + 4 * len(names) + 22 * i for i in range(len(names))]
    records = b''.join(name(it) + struct.pack('<IhhIH', 0, 64, 128, 0, 0) for it in names)
    return struct.pack(f'<I{len(places)}I', len(places), *places) + records


def texture_of_patches(names):
    """A TEXTURE1 and PNAMES of textures, each a pair of a name and the names of its patches."""
    patches = sorted({patch for _, found in names for patch in found})
    records = [name(it) + struct.pack('<IhhIH', 0, 64, 128, 0, len(found))
               + b''.join(struct.pack('<hhHI', 0, 0, patches.index(patch), 0) for patch in found)
               for it, found in names]
    places, at = [], 4 + 4 * len(records)
    for record in records:
        places.append(at)
        at += len(record)
    return [('TEXTURE1', struct.pack(f'<I{len(places)}I', len(places), *places) + b''.join(records)),
            ('PNAMES', struct.pack('<I', len(patches)) + b''.join(map(name, patches)))]


def painted(*spots):
    """A frame of colour 5 with other colours at (row, column)."""
    frame = bytearray([5]) * FRAME
    for row, column, colour in spots:
        frame[WIDTH * row + column] = colour
    return bytes(frame)


def traced(*spots):
    """A trace of nothing, with records at (row, column)."""
    trace = bytearray(8 * FRAME)
    for row, column, record in spots:
        struct.pack_into('<BBHHBB', trace, 8 * (WIDTH * row + column), *record)
    return bytes(trace)


class Compare(Tools):
    def test_same(self):
        self.write('ours.bin', painted() * 3)
        done = self.run_tool('compare', 'ours.bin', 'ours.bin')
        self.assertEqual(done, (0, b'views 3 same 3 different 0 pixels 0\n', ''))

    def test_different(self):
        self.write('ours.bin', painted() + painted((3, 7, 9), (60, 2, 1)) + painted((199, 319, 200)))
        self.write('port.bin', painted() + painted((60, 2, 4)) + painted())
        status, output, error = self.run_tool('compare', 'ours.bin', 'port.bin')
        self.assertEqual((status, error), (1, ''))
        self.assertEqual(output.decode().splitlines(), [
            '2 of 3 views differ',
            'view 1 pixels 2 rows 3 to 60 columns 2 to 7 first at row 3 column 7: 9, port 5',
            'view 2 pixels 1 rows 199 to 199 columns 319 to 319 first at row 199 column 319: 200, port 5',
            'views 3 same 1 different 2 pixels 3'])
        most = self.run_tool('compare', 'ours.bin', 'port.bin', '--most', '1')[1].decode().splitlines()
        self.assertEqual([most[1][:6], most[2:]], ['view 1', ['views 3 same 1 different 2 pixels 3']])

    def test_some_views(self):
        """--views compares some views alone; -q prints nothing."""
        self.write('ours.bin', painted() * 12)
        self.write('port.bin', painted() + painted((1, 1, 9)) + painted() * 5 + painted((2, 2, 8)) * 2 + painted() * 3)
        words = ['compare', 'ours.bin', 'port.bin']
        status, output, error = self.run_tool(*words, '--views', '0,3,7-10', '--most', '0')
        self.assertEqual((status, error), (1, ''))
        self.assertEqual(output.decode().splitlines()[0], '2 of 6 views differ')
        self.assertEqual(output.decode().splitlines()[-1], 'views 6 same 4 different 2 pixels 2')
        self.assertEqual(self.run_tool(*words, '--views', '3,9-11,3'), (0, b'views 4 same 4 different 0 pixels 0\n', ''))
        self.assertEqual(self.run_tool(*words, '-q'), (1, b'', ''))
        self.assertEqual(self.run_tool(*words, '--quiet', '--views', '0'), (0, b'', ''))
        for views, part in (('12', '--views 12: there are 12 views, from 0 to 11'), ('3-', 'and not 3-'), ('a', 'and not a'),
                            ('5-12', '--views 5-12: there are 12 views'), ('9-3', '--views 9-3: there are 12'),
                            ('', '--views are numbers and ranges of views, as 3,7-9')):
            self.refuses(part, *words, '--views', views, ends=2)

    def test_reports(self):
        """What was found as JSON and as JUnit has it: all views that differ, also those that are not listed."""
        self.write('ours.bin', painted() + painted((3, 7, 9), (60, 2, 1)) + painted((199, 319, 200)))
        self.write('port.bin', painted() + painted((60, 2, 4)) + painted())
        self.write('trace.bin', traced() + traced((3, 7, (1, 2, 4, 0, 9, 0)), (60, 2, (5, 1, 2, 3, 1, 0)))
                   + traced((199, 319, (2, 1, 6, 3, 200, 0))))
        words = ['compare', 'ours.bin', 'port.bin', '--trace', 'trace.bin', '--most', '0', '--json', 'a.json', '--junit', 'a.xml']
        self.assertEqual(self.run_tool(*words)[0], 1)
        found = json.loads(self.read('a.json'))
        self.assertEqual((found['views'], found['same'], found['different'], found['pixels']), (3, 1, 2, 3))
        self.assertEqual(found['sentences'][0], '2 of 3 views differ')
        self.assertEqual({(it['kind'], it['pixels']) for it in found['shares']}, {('wall', 1), ('sprite', 1), ('plane', 1)})
        view = found['differing'][0]
        self.assertEqual((view['view'], view['pixels'], view['rows'], view['columns']), (1, 2, [3, 60], [2, 7]))
        self.assertEqual(view['first'], {'row': 3, 'column': 7, 'ours': 9, 'port': 5})
        self.assertEqual([(it['kind'], it['name'], it['pixels'], it['numbers']) for it in view['painters']],
                         [('wall', 'texture 0', 1, [4]), ('sprite', 'lump 3', 1, [2])])
        suite = xml.parse(self.at('a.xml')).getroot()
        self.assertEqual((suite.get('tests'), suite.get('failures')), ('3', '2'))
        cases = {case.get('name'): case.find('failure') for case in suite}
        self.assertIsNone(cases['view 0'])
        self.assertEqual(cases['view 2'].get('message'), 'view 2 pixels 1 rows 199 to 199 columns 319 to 319 first at row 199 '
                                                         'column 319: 200, port 5')
        self.assertIn('  plane    lump 3         1  plane 6', cases['view 2'].text)
        self.write('port.bin', painted())
        self.assertEqual(self.run_tool(*words)[0], 1)
        suite = xml.parse(self.at('a.xml')).getroot()
        self.assertEqual([case.find('failure').get('message') for case in suite if case.find('failure') is not None],
                         ['ours.bin has 3 views, port.bin 1'])
        self.refuses('there is no folder absent', *words[:3], '--json', 'absent/a.json', ends=2)

    def test_many_views(self):
        """Many views are compared in parts, by several processes where there are several: in their order, and as few are."""
        count = 230
        self.write('ours.bin', painted() * count)
        self.write('port.bin', b''.join(painted(*[(view % 200, view, 9)] * (view % 3 > 0)) for view in range(count)))
        traces = [traced((view % 200, view, (0, 0, 0, 0, 5, 0))) for view in range(count)]
        self.write('trace.bin', b''.join(traces))
        status, output, error = self.run_tool('compare', 'ours.bin', 'port.bin', '--trace', 'trace.bin')
        self.assertEqual((status, error), (1, ''))
        lines = output.decode().splitlines()
        self.assertEqual(lines[:2], ['153 of 230 views differ', 'of the pixels that differ: 100 % nothing'])
        views = [line for line in lines if line.startswith('view ')]
        self.assertEqual(views, [f'view {view} pixels 1 rows {view % 200} to {view % 200} columns {view} to {view} first at row '
                                 f'{view % 200} column {view}: 5, port 9' for view in range(count) if view % 3])
        self.assertEqual(lines[-1], 'views 230 same 77 different 153 pixels 153')
        traces[229] = traced((29, 229, (1, 2, 4, 1, 6, 0)))
        self.write('trace.bin', b''.join(traces))
        self.refuses('trace.bin is not the trace of these frames: at row 29 column 229 it has colour 6 and the frame 5', 'compare',
                     'ours.bin', 'port.bin', '--trace', 'trace.bin', ends=2)

    def test_progress(self):
        """A terminal shows how far a comparison is; the line goes at the end."""
        self.write('ours.bin', painted() * 60)
        main, other = pty.openpty()
        env = self.surroundings()
        run = subprocess.Popen([COMMAND, 'compare', 'ours.bin', 'ours.bin'], cwd=self.folder, env=env, stdout=subprocess.PIPE,
                               stderr=other)
        output = run.communicate()[0]
        os.close(other)
        shown = os.read(main, 10000).decode()
        os.close(main)
        self.assertEqual(output, b'views 60 same 60 different 0 pixels 0\n')
        self.assertIn('60 of 60 views, 0 s left', shown)
        self.assertEqual(shown[-1], '\r')
        self.assertEqual(progress.in_words(61.6), '1 min 2 s')

    def test_fewer_views(self):
        self.write('ours.bin', painted() * 3)
        self.write('port.bin', painted() * 2)
        status, output, _ = self.run_tool('compare', 'ours.bin', 'port.bin')
        self.assertEqual(status, 1)
        self.assertEqual(output, b'views 2 same 2 different 0 pixels 0\nours.bin has 3 views, port.bin 2\n')

    def test_painters(self):
        """What painted the pixels, by name, the most pixels first."""
        self.write('ours.bin', painted((1, 1, 6), (1, 2, 6), (5, 5, 8), (9, 9, 0)))
        self.write('port.bin', painted())
        wall, sprite = (1, 2, 4, 1, 6, 0), (5, 1, 2, 1, 8, 0)
        self.write('trace.bin', traced((1, 1, wall), (1, 2, wall), (5, 5, sprite)))
        lists = ('TEXTURE1', texture_list(['NONE', 'STONE']))
        self.write('names.wad', wad([('PLAYPAL', bytes(768)), ('TROOA1', b''), lists]))
        words = ['compare', 'ours.bin', 'port.bin', '--trace', 'trace.bin']
        status, output, error = self.run_tool(*words, '--wad', 'names.wad')
        self.assertEqual((status, error), (1, ''))
        self.assertEqual(output.decode().splitlines()[1], 'of the pixels that differ: 50 % wall (STONE), 25 % sprite (TROO), '
                                                          '25 % nothing')
        self.assertEqual(output.decode().splitlines()[3:-1], ['  wall     STONE          2  fragment 4',
                                                              '  sprite   TROOA1         1  sprite 2',
                                                              '  nothing  -              1'])
        self.assertIn('  wall     texture 1      2  fragment 4\n', self.run_tool(*words)[1].decode())

    def test_pixel(self):
        """The painter of one pixel, by name."""
        spots = [(1, 7, (1, 2, 4, 1, 6, 0)), (2, 319, (5, 1, 2, 1, 8, 0)), (199, 0, (6, 1, 1, 1, 3, 0))]
        self.write('trace.bin', traced() + traced(*spots))
        lists = ('TEXTURE1', texture_list(['NONE', 'STONE']))
        self.write('names.wad', wad([('PLAYPAL', bytes(768)), ('TROOA1', b''), lists]))
        for words, told in [('1 7 1', 'wall, fragment 4, texture STONE, colour 6'),
                            ('1 319 2', 'sprite 2, lump TROOA1, colour 8'),
                            ('1 0 199', 'weapon, row 1, lump TROOA1, colour 3'), ('0 0 0', 'nothing, colour 0')]:
            view, x, y = words.split()
            done = self.run_tool('pixel', view, x, y, 'trace.bin', 'names.wad')
            self.assertEqual(done, (0, f'view {view} column {x} row {y}: {told}\n'.encode(), ''))
        for part, words in [('has 2 views', '2 0 0 trace.bin'), ('X: a number from 0 to 319', '0 320 0 trace.bin'),
                            ('Y: a number from 0 to 199', '0 0 200 trace.bin'), ('VIEW: a number', 'x 0 0 trace.bin'),
                            ('cannot read absent', '0 0 0 absent'),
                            ('and a view has 512000; name the whole of what doomview trace', '0 0 0 names.wad'),
                            ('is no WAD', '0 0 0 trace.bin trace.bin'),
                            ('--help shows its words', '0 0')]:
            self.refuses(part, 'pixel', *words.split(), ends=2)

    def test_textures_of_patches(self):
        """A wall that is read from a patch bears the name of the one texture that has it, or of several."""
        lists = texture_of_patches([('FIREBLU2', ['W65B_2', 'W65B_1']), ('ONE', ['SHARED']), ('TWO', ['SHARED']),
                                    ('SAME', ['SAME']), ('A', ['MANY']), ('B', ['MANY']), ('C', ['MANY']),
                                    ('D', ['MANY'])])
        self.write('names.wad', wad([(patch, b'') for patch in ('W65B_2', 'SHARED', 'SAME', 'MANY', 'FLAT1')] + lists))
        spots = [(0, x, (1, 1, 4, x, 6, 0)) for x in range(4)]
        spots += [(0, 4, (2, 1, 0, 4, 6, 0)), (0, 5, (5, 1, 0, 1, 6, 0))]
        self.write('trace.bin', traced(*spots))
        self.write('ours.bin', painted(*((0, x, 6) for x in range(6))))
        self.write('port.bin', painted())
        for x, told in enumerate(['wall, fragment 4, texture FIREBLU2, patch W65B_2',
                                  'wall, fragment 4, patch SHARED, of ONE, TWO', 'wall, fragment 4, texture SAME',
                                  'wall, fragment 4, patch MANY, of A, B, C ..', 'plane 0, lump FLAT1',
                                  'sprite 0, lump SHARED']):
            done = self.run_tool('pixel', '0', str(x), '0', 'trace.bin', 'names.wad')
            self.assertEqual(done, (0, f'view 0 column {x} row 0: {told}, colour 6\n'.encode(), ''))
        words = ['compare', 'ours.bin', 'port.bin', '--trace', 'trace.bin', '--wad', 'names.wad']
        self.assertEqual(self.run_tool(*words)[1].decode().splitlines()[3:-1], [
            '  wall     FIREBLU2       1  fragment 4  patch W65B_2',
            '  wall     SHARED         1  fragment 4  patch of ONE, TWO',
            '  wall     SAME           1  fragment 4', '  wall     MANY           1  fragment 4  patch of A, B, C ..',
            '  plane    FLAT1          1  plane 0', '  sprite   SHARED         1  sprite 0'])
        damaged = [(label, data[:-1] if label == 'TEXTURE1' else data) for label, data in lists]
        self.write('names.wad', wad(damaged[:1] + [('TEXTURE2', struct.pack('<I', 9))]))
        self.refuses('the lists of textures in the WADs are damaged', 'pixel', '0', '0', '0', 'trace.bin', 'names.wad', ends=2)

    def test_pictures(self):
        self.write('ours.bin', painted((0, 0, 255)))
        self.write('port.bin', painted())
        self.assertEqual(self.run_tool('compare', 'ours.bin', 'port.bin', '--png', 'out')[0], 1)
        self.assertEqual(os.listdir(self.at('out')), ['view00000.png'])
        pixels = pixels_of(self.at('out', 'view00000.png'))
        self.assertEqual(len(pixels), 3 * 3 * FRAME)
        self.assertEqual([pixels[3 * 320 * k:3 * 320 * k + 3] for k in range(3)],
                         [b'\xff\xff\xff', b'\x05\x05\x05', b'\xff\x00\x00'])

    def test_only(self):
        """Pixels count, and decide the status, where doomview painted some kinds alone."""
        wall, plane, sprite = (1, 2, 4, 1, 6, 0), (2, 1, 0, 1, 7, 0), (5, 1, 2, 1, 8, 0)
        self.write('trace.bin', traced((1, 1, wall), (5, 5, sprite)) + traced((2, 2, plane), (9, 9, sprite)))
        self.write('ours.bin', painted((1, 1, 6), (5, 5, 8)) + painted((2, 2, 7), (9, 9, 8)))
        self.write('port.bin', painted((1, 1, 1), (5, 5, 8)) + painted((2, 2, 1), (9, 9, 8)))
        words = ['compare', 'ours.bin', 'port.bin', '--trace', 'trace.bin']
        self.assertEqual(self.run_tool(*words, '--only', 'sprite,weapon'),
                         (0, b'of sprite, weapon alone: 2 of 128000 pixels\nviews 2 same 2 different 0 pixels 0\n', ''))
        status, output, _ = self.run_tool(*words, '--but', 'plane', '--png', 'out')
        self.assertEqual((status, output.decode().splitlines()[0]), (1, '1 of 2 views differ'))
        self.assertEqual(output.decode().splitlines()[2:4], [
            'of nothing, wall, sky, middle, sprite, weapon alone: 127999 of 128000 pixels',
            'view 0 pixels 1 rows 1 to 1 columns 1 to 1 first at row 1 column 1: 6, port 1'])
        self.assertEqual(os.listdir(self.at('out')), ['view00000.png'])
        self.run_tool(*words, '--only', 'wall', '--html', 'page.html')
        data = pages_shown.data_of(self.at('page.html'))
        self.assertIn('of wall alone: 1 of 128000 pixels, elsewhere the port is shown with', data['head'])
        self.assertEqual([view['view'] for view in data['views']], [0])
        self.assertEqual(self.run_tool(*words, '--but', 'plane,wall')[0], 0)
        for part, more in (('there is no painter floor; there are nothing, wall', ['--only', 'floor']),
                           ('name --only or --but, and not both', ['--only', 'sky', '--but', 'sky'])):
            self.refuses(part, *words, *more, ends=2)
        self.refuses('--only and --but need the trace', *words[:3], '--only', 'sky', ends=2)
        self.refuses('--least-width needs the list', *words, '--only', 'sky', '--least-width', '2', ends=2)
        self.refuses('--least-width: a number from 1 to 320', *words, '--least-width', '0', ends=2)

    def test_mask(self):
        """Pixels of kinds, but of the sprites with some numbers; a fragment of the same number counts."""
        records = traced((0, 0, (5, 1, 2, 1, 8, 0)), (0, 1, (5, 1, 3, 1, 8, 0)), (0, 2, (1, 2, 2, 1, 6, 0)))
        for kinds, without, found in (({5}, (), [255, 255, 0]), ({1, 5}, {2}, [0, 255, 255]), ({1, 5}, {2, 3}, [0, 0, 255]),
                                      ({1}, {3}, [0, 0, 255])):
            mask = traces.mask(records, kinds, without)
            self.assertEqual(([*mask[:3]], {*mask[3:]}), (found, {0}))

    def test_every_view(self):
        """What differs in every view is said once: rows and columns, and painters."""
        wall, other = (1, 2, 4, 1, 6, 0), (1, 2, 5, 0, 6, 0)
        self.write('ours.bin', b''.join(painted((row, 100, 6), (row, 7, 6)) for row in range(20, 23)))
        self.write('port.bin', b''.join(painted((row, 7, 5 + row % 2)) for row in range(20, 23)))
        self.write('trace.bin', b''.join(traced((row, 100, wall), (row, 7, other)) for row in range(20, 23)))
        output = self.run_tool('compare', 'ours.bin', 'port.bin', '--trace', 'trace.bin', '--most', '0')[1]
        self.assertEqual(output.decode().splitlines(), [
            '3 of 3 views differ', 'of the pixels that differ: 100 % wall (texture 1 60 %, texture 0 40 %)', 'column 100 in 3 of 3 views: 3 of the 5 pixels that differ',
            'in each of these 3 views: wall texture 1, 3 pixels', 'views 3 same 0 different 3 pixels 5'])

    def test_other_traces(self):
        """A trace of other frames, or of other WADs, is refused where that shows."""
        self.write('ours.bin', painted((1, 1, 6)))
        self.write('port.bin', painted())
        lumps = [('PLAYPAL', bytes(768)), ('S_START', b''), ('TROOA1', b''), ('S_END', b''), ('F_START', b''),
                 ('FLAT1', b''), ('F_END', b''), ('TEXTURE1', texture_list(['NONE', 'STONE']))]
        self.write('names.wad', wad(lumps))
        words = ['compare', 'ours.bin', 'port.bin', '--trace', 'trace.bin', '--wad', 'names.wad']
        for record, part in (((2, 1, 0, 99, 6, 0), 'the WADs have no lump 99, and it has'),
                             ((1, 2, 0, 2, 6, 0), 'the WADs have no texture 2'),
                             ((2, 1, 0, 2, 6, 0), 'lump 2 of the WADs is TROOA1, which is no flat, and a plane has it'),
                             ((5, 1, 0, 5, 6, 0), 'lump 5 of the WADs is FLAT1, which is no picture of a sprite, and a'),
                             ((2, 1, 0, 5, 7, 0), 'at row 1 column 1 it has colour 7 and the frame 6; name what')):
            self.write('trace.bin', traced((1, 1, record)))
            self.refuses(part, *words, ends=2)
            if record[4] == 6:
                self.refuses('a trace of other WADs', 'pixel', '0', '1', '1', 'trace.bin', 'names.wad', ends=2)
        self.write('trace.bin', traced((1, 1, (2, 1, 0, 5, 6, 0))))
        self.assertEqual(self.run_tool(*words)[0], 1)

    def test_ppm(self):
        """Both files may be what render --format ppm writes."""
        palette = bytes(part for i in range(256) for part in (i, i // 2, 9))
        self.write('names.wad', wad([('PLAYPAL', palette)]))
        views = [painted(), painted((3, 3, 9))]
        ppm = b''.join(b'P6\n320 200\n255\n' + b''.join(palette[3 * it:3 * it + 3] for it in view) for view in views)
        self.write('ours.bin', b''.join(views))
        self.write('ours.ppm', ppm)
        self.write('frames', ppm[:192015] + ppm[:192015])
        same, other = b'views 2 same 2 different 0 pixels 0\n', b'1 of 2 views differ\nview 1 pixels 1 '
        for ours, port, found in (('ours.ppm', 'ours.bin', same), ('ours.bin', 'ours.ppm', same),
                                  ('ours.ppm', 'ours.ppm', same), ('ours.bin', 'frames', other)):
            status, output, error = self.run_tool('compare', ours, port, '--wad', 'names.wad')
            self.assertEqual((status, error), (int(found is other), ''))
            self.assertTrue(output.startswith(found), output)
        self.refuses('name it by --wad', 'compare', 'ours.ppm', 'ours.bin', ends=2)
        self.write('ours.ppm', ppm[:-1])
        self.refuses('ours.ppm has 384029 bytes, and a PPM of doomview 192015', 'compare', 'ours.ppm', 'ours.bin',
                     '--wad', 'names.wad', ends=2)

    @unittest.skipUnless(pages_shown.BROWSER, 'no Chromium here')
    def test_page(self):
        """The page shows the frames, names the painter of a pixel, and its keys work."""
        self.write('ours.bin', painted() + painted((1, 1, 6), (5, 5, 8)) + painted((9, 9, 7)))
        self.write('port.bin', painted() * 3)
        wall, sprite = (1, 2, 4, 1, 6, 0), (5, 1, 2, 1, 8, 0)
        self.write('trace.bin', traced() + traced((1, 1, wall), (5, 5, sprite)) + traced((9, 9, (*sprite[:4], 7, 0))))
        lists = ('TEXTURE1', texture_list(['NONE', 'STONE']))
        self.write('names.wad', wad([('PLAYPAL', bytes(range(256)) * 3), ('</A>', b''), lists]))
        words = ['ours.bin', 'port.bin', '--wad', 'names.wad', '--trace', 'trace.bin', '--html', 'page.html']
        self.assertEqual(self.run_tool('compare', *words)[0], 1)
        found = pages_shown.shown(self.at('page.html'), 'compare_painters')
        self.assertEqual(found[0], 'ours.bin and port.bin: views 3 same 1 different 2 pixels 3')
        self.assertEqual(found[1], 'view 1 column 1 row 1: ours 6, port 5  DIFFERS; painted by wall STONE, fragment 4')
        self.assertEqual(found[2], ['sprite </A>: 2 in 2 views', 'wall STONE: 1 in 1 view'])
        self.assertEqual(found[3], 'view 1 column 5 row 5: ours 8, port 5  DIFFERS; painted by sprite </A>, sprite 2')
        self.assertEqual(found[4], 'view 2 column 9 row 9: ours 7, port 5  DIFFERS; painted by sprite </A>, sprite 2')
        self.assertEqual(found[5], 'view 2 column 8 row 9: ours 5, port 5; painted by nothing')
        self.assertEqual(found[6][0], 3)
        self.assertEqual(found[7], [False, False])
        self.assertEqual(found[8:10], ['port, in the place of ours', 'ours'])
        self.assertEqual(found[10], [False, True])
        self.assertEqual(found[11], found[1])
        self.refuses('there is no folder absent', 'compare', *words[:-1], 'absent/page.html', ends=2)

    @unittest.skipUnless(pages_shown.BROWSER, 'no Chromium here')
    def test_page_of_known_views(self):
        """The views of which nothing is known can be shown alone; where there are too many, they are kept."""
        page = compare_page.ComparePage(traces.Names([]))
        frames = [(painted((view, view, 6)), painted()) for view in range(compare_page.MOST_VIEWS + 5)]
        for view, pair in enumerate(frames):
            page.add(view, f'view {view}', 'packed spans' if view > 2 else '', pair, [WIDTH * view + view], b'')
        with open(self.at('page.html'), 'wb') as file:
            file.write(page.page('head'))
        found = pages_shown.shown(self.at('page.html'), 'compare_unknown')
        count = compare_page.MOST_VIEWS
        self.assertEqual(found, ['neither packed spans nor a known departure in 3 views', count, [0, 1, 2], count])

    def test_port_pictures(self):
        """PNG and PCX by their colours, or by their entries where the palette is the same."""
        palette = bytes(part for i in range(256) for part in (i, i // 2, 9))
        twice = palette[:30] + palette[24:27] + palette[33:]
        frame = painted((1, 1, 6), (5, 5, 8))
        self.write('ours.bin', frame * 4)
        self.write('names.wad', wad([('PLAYPAL', palette)]))
        self.write('twice.wad', wad([('PLAYPAL', twice)]))
        os.mkdir(self.at('shots'))
        rgb = b''.join(palette[3 * it:3 * it + 3] for it in frame)
        self.write('shots/view2.png', png.png(320, 200, rgb))
        self.write('shots/view10.png', png.indexed_png(320, 200, painted((1, 1, 6)), palette))
        head = struct.pack('<4B4H', 10, 5, 1, 8, 0, 0, 319, 199).ljust(65, b'\0') + struct.pack('<BH', 1, 320)
        body = b''.join(bytes([0xc1, it]) for it in frame)
        self.write('shots/view3.PCX', head.ljust(128, b'\0') + body + b'\x0c' + palette)
        lines, above = b'', bytes(960)
        for row in range(200):  # each filter of a PNG in turn
            line, kind = rgb[960 * row:960 * row + 960], row % 3
            before = (bytes(960), bytes(3) + line[:-3], above)[kind]
            lines += bytes([kind]) + bytes((a - b) & 255 for a, b in zip(line, before))
            above = line
        head = png.chunk(b'IHDR', struct.pack('>IIBBBBB', 320, 200, 8, 2, 0, 0, 0))
        chunks = head + png.chunk(b'IDAT', zlib.compress(lines))
        self.write('shots/view4.png', png.SIGNATURE + chunks)
        status, output, error = self.run_tool('compare', 'ours.bin', 'shots', '--wad', 'names.wad')
        self.assertEqual((status, error), (1, ''))
        self.assertEqual(output.decode().splitlines(), [
            '1 of 4 views differ', 'view 3 pixels 1 rows 5 to 5 columns 5 to 5 first at row 5 column 5: 8, port 5',
            'views 4 same 3 different 1 pixels 1'])
        self.write('one.bin', frame)
        words = ['compare', 'one.bin', 'shots/view2.png']
        done = self.run_tool(*words, '--wad', 'twice.wad')
        self.assertEqual(done[:2], (0, b'views 1 same 1 different 0 pixels 0\n'
                                       b'entries of the palette with the same colour: 8 and 10; where ours has one of them, the port counts as having it too\n'))
        self.refuses('name it by --wad', *words, ends=2)
        self.write('other.wad', wad([('PLAYPAL', bytes(768))]))
        self.refuses('the colour 5,2,9 at row 0 column 0 is in no entry of the palette', *words, '--wad', 'other.wad', ends=2)
        self.write('wide.png', png.png(2, 1, bytes(6)))
        self.refuses('wide.png is 2 by 1', 'compare', 'one.bin', 'wide.png', '--wad', 'names.wad', ends=2)
        self.write('cut.png', png.SIGNATURE + chunks[:300])
        self.refuses('cut.png is no PNG, PCX or PPM', 'compare', 'one.bin', 'cut.png', '--wad', 'names.wad', ends=2)

    def test_full_output(self):
        """What cannot be written is told."""
        self.write('ours.bin', painted())
        self.write('trace.bin', traced())
        for words in (['compare', 'ours.bin', 'ours.bin'], ['pixel', '0', '0', '0', 'trace.bin'], ['--help']):
            with open('/dev/full', 'wb') as full:
                status, _, error = self.run_tool(*words, stdout=full)
            self.assertEqual((status, error), (2, 'doomview: cannot write the output: No space left on device\n'))
        self.write('out', b'')
        self.write('port.bin', painted((0, 0, 1)))
        self.refuses('out: File exists', 'compare', 'ours.bin', 'port.bin', '--png', 'out', ends=2)

    def test_folder(self):
        """The port's frames may be files of a folder, in the order of their numbers."""
        self.write('ours.bin', painted() * 4)
        os.mkdir(self.at('theirs'))
        for place, frames in [('2.raw', painted()), ('10.raw', painted((0, 0, 1)) + painted()), ('1.raw', painted()),
                              ('.hidden', b'')]:
            self.write(f'theirs/{place}', frames)
        status, output, error = self.run_tool('compare', 'ours.bin', 'theirs')
        self.assertEqual((status, error), (1, ''))
        self.assertRegex(output.decode(), '^1 of 4 views differ\nview 2 pixels 1 .*: 5, port 1\nviews 4 same 3 different 1 pixels 1\n$')
        self.write('theirs/3.raw', b'odd')
        self.refuses('theirs/3.raw has 3 bytes, and a view has 64000', 'compare', 'ours.bin', 'theirs', ends=2)

    def test_wrong(self):
        self.write('ours.bin', painted())
        self.write('short.bin', painted()[:-1])
        os.mkdir(self.at('empty'))
        for part, words in [('no file absent', ['absent']), ('has 63999 bytes, and a view has 64000', ['short.bin']),
                            ('empty has no frames, neither pictures whose names end in .png, .pcx, .ppm nor', ['empty']),
                            ('and a view has 512000', ['ours.bin', '--trace', 'ours.bin']),
                            ('is not the trace of 1 views', ['ours.bin', '--trace', 'trace']),
                            ('is no WAD', ['ours.bin', '--wad', 'ours.bin']), ('--help shows its words', []),
                            ('--most: a number', ['ours.bin', '--most', 'x']),
                            ('there is no WAD absent', ['ours.bin', '--wad', 'absent'])]:
            self.write('trace', traced() * 2)
            status, output, error = self.run_tool('compare', 'ours.bin', *words)
            self.assertEqual((status, output), (2, b''))
            self.assertIn(part, error)
            self.assertNotIn('Traceback', error)


if __name__ == '__main__':
    unittest.main()
