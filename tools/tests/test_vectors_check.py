"""Tests `vectors/check` and `vectors/ci` on frames, pictures and vectors that are made here."""
import hashlib
import json
import os
import shutil
import signal
import sys
import time
import unittest
import xml.etree.ElementTree as xml

from made_files import TOOLS, Tools, wad
from test_vectors import CHECK, FRAME, changed, frame, vector
from doomview_tools import beside_vectors, png, vectors

games = beside_vectors.module('games')

# Draws views of one colour: of the size, of the number of the row's x, of whether there are weapon layers. With skill 2
# it ends with an error and draws nothing; with skill 4 it crashes once all is drawn, and with 5 it goes on for long.
PORT = '''#!PYTHON
import os, sys
env = os.environ
rows = open(env['ROWS']).read().splitlines()[1:]
views = [bytes([int(env['SIZE']) + (16 if env['WEAPON'] else 0) + int(row.split(',')[0]) % 7]) * 64000 for row in rows]
if env['SKILL'] == '2':
    sys.exit('no such skill')
if env.get('AS') == 'pictures':
    sys.path.insert(0, TOOLS)
    from doomview_tools import png
    os.mkdir(env['OUT'])
    for i, view in enumerate(views):
        png.write_png(f'{env["OUT"]}/{i}.png', 320, 200, bytes(part for _ in view for part in (view[0], 0, 0)))
else:
    with open(env['OUT'], 'wb') as out:
        for view in views:
            if env.get('AS') == 'ppm':
                out.write(b'P6\\n320 200\\n255\\n' + bytes(part for _ in view for part in (view[0], 0, 0)))
            else:
                out.write(view)
if env['SKILL'] == '4':
    os.abort()
if env['SKILL'] == '5':
    import subprocess
    print('still here', flush=True)
    subprocess.run([sys.executable, '-c', 'import time; time.sleep(600)'])
'''


class Check(Tools):
    """`vectors/check`, on four views of a map: the third departs from the original, and the fourth has a size."""

    def setUp(self):
        super().setUp()
        self.ours = [frame(colour) for colour in (1, 2, 3, 4)]
        self.packed = [frame(colour) for colour in (11, 12, 13, 14)]
        rows = [vector(i, self.ours[i], self.packed[i]) for i in range(2)]
        rows += [vector(2, self.ours[2], self.packed[2], 'memory', frame(23))]
        rows += [vector(0, self.ours[3], self.packed[3], kind='sizes')._replace(size=5)]
        rows += [vector(0, frame(7), frame(8), name='MAP02')]
        self.write('made.csv', vectors.text(rows).encode())
        os.mkdir(self.at('port'))

    def check(self, *frames, words=('--maps', 'MAP01'), place='port/MAP01.bin'):
        """The status and the lines of a check of frames. Where it is not 0, sentences say what to do."""
        if frames:
            self.write(place, b''.join(frames))
        status, output, self.error = self.run_command(CHECK, 'made.csv', 'port', *words)
        self.assertEqual(bool(self.error), bool(status))
        self.assertTrue(all(line.startswith('check: ') for line in self.error.splitlines()))
        return status, output.decode().splitlines()

    def test_same(self):
        self.assertEqual(self.check(*self.ours[:3]), (0, ['MAP01 near same 3', 'all same 3']))

    def test_packed(self):
        """Each kind of spans is right where it is asked for, and wrong where the other is."""
        self.assertEqual(self.check(*self.packed[:3])[0], 1)
        self.assertIn('--spans packed takes it as right', self.error)
        for word in (['--spans', 'packed'], ['--packed'], ['--spans', 'either']):
            self.assertEqual(self.check(words=('--maps', 'MAP01', *word)), (0, ['MAP01 near packed 3', 'all packed 3']))
        words = ('--maps', 'MAP01', '--spans', 'packed')
        self.assertEqual(self.check(*self.ours[:2], self.packed[2], words=words),
                         (1, ['MAP01 near packed 1 full 2', 'all packed 1 full 2']))
        self.assertIn('--spans full takes it as right', self.error)
        self.assertEqual(self.check(*self.ours[:2], frame(23), words=words)[1][0], 'MAP01 near full 3')
        either = ('--maps', 'MAP01', '--spans', 'either')
        self.assertEqual(self.check(*self.ours[:2], self.packed[2], words=either)[1][0], 'MAP01 near same 2 packed 1')

    def test_asked_first(self):
        """A frame that is right in the spans that were asked for is so, whatever else it is too."""
        rows = [vector(0, frame(1), frame(23), 'memory', frame(23)), vector(1, frame(2), frame(2))]
        self.write('made.csv', vectors.text(rows).encode())
        lines = ['MAP01 near same 1 original 1', 'all same 1 original 1']
        self.assertEqual(self.check(frame(23), frame(2)), (0, lines))
        words = ('--maps', 'MAP01', '--spans', 'packed')
        self.assertEqual(self.check(words=words), (0, ['MAP01 near packed 2', 'all packed 2']))

    def test_rows_of_packed(self):
        """The rows that differ are those of the frame that was asked for."""
        mixed = bytes(320 * 100) + bytes([9]) * (320 * 100)
        rows = [vector(0, frame(9), mixed)]
        self.write('made.csv', vectors.text(rows).encode())
        wrong = changed(mixed, 0, 5)
        line = '  view 0 wrong at 0,0,2686976,0: rows '
        self.assertEqual(self.check(wrong)[1][1], f'{line}0-19 20-39 40-59 60-79 80-99')
        for spans in ('packed', 'either'):
            self.assertEqual(self.check(words=('--maps', 'MAP01', '--spans', spans))[1][1], f'{line}0-19')
        old = [row._replace(packedbands='') for row in rows]
        text = '\n'.join(line.rpartition(',')[0] for line in vectors.text(old).splitlines())
        self.write('made.csv', text.encode())
        self.assertEqual(self.check(wrong, words=('--maps', 'MAP01', '--spans', 'packed'))[1][1], line.rstrip())

    def test_wrong(self):
        frames = changed(b''.join(self.ours[:3]), 1, 45)
        self.assertEqual(self.check(frames), (1, ['MAP01 near same 2 wrong 1', '  view 1 wrong at 65536,0,2686976,0: '
                                                  'rows 40-59', 'all same 2 wrong 1']))
        self.assertEqual(self.error.count('\n'), 1)
        self.assertIn('the port draws something else', self.error)
        both = changed(changed(frames, 1, 199), 0, 0)
        self.assertEqual(self.check(both)[1][1:3], ['  view 0 wrong at 0,0,2686976,0: rows 0-19',
                                                    '  view 1 wrong at 65536,0,2686976,0: rows 40-59 180-199'])
        self.assertEqual(len(self.check(both, words=('--maps', 'MAP01', '--most', '1'))[1]), 3)

    def test_departure(self):
        """At a view at which doomview departs from the original, the original's frame is right."""
        self.assertEqual(self.check(*self.ours[:2], frame(23)), (0, ['MAP01 near same 2 original 1',
                                                                    'all same 2 original 1']))
        self.assertEqual(self.check(*self.ours[:2], frame(99))[1][0], 'MAP01 near same 2 departs 1')
        packed = ('--maps', 'MAP01', '--spans', 'packed')
        self.assertEqual(self.check(*self.packed[:2], self.ours[2], words=packed),
                         (0, ['MAP01 near packed 2 departs 1', 'all packed 2 departs 1']))

    def test_missing(self):
        self.assertEqual(self.check(*self.ours[:2], b'cut'), (1, ['MAP01 near same 2 missing 1',
                                                                 'all same 2 missing 1']))
        self.assertEqual(self.check(*self.ours[:3], words=())[1][1:], ['MAP02 near missing 1', 'all same 3 missing 1'])
        self.assertEqual(self.error, 'check: port lacks views; --maps and --sets say which to check\n')
        more = self.check(*self.ours)
        self.assertEqual((more[0], more[1][1]), (1, '  MAP01.bin has 256000 bytes, and 3 views have 192000'))

    def test_sets(self):
        words = ('--maps', 'MAP01', '--sets', 'sizes')
        self.assertEqual(self.check(self.ours[3], words=words, place='port/MAP01-sizes.bin'),
                         (0, ['MAP01 sizes same 1', 'all same 1']))
        self.assertEqual(self.check(frame(0), words=words, place='port/MAP01-sizes.bin')[1][1].split(':')[0],
                         '  view 0 wrong at 0,0,2686976,0 size 5')

    def test_accepted(self):
        """A known difference is green by its sum, and a new one is red."""
        wrong = changed(b''.join(self.ours[:3]), 1, 45)
        words = ('--maps', 'MAP01', '--differences', 'known.csv')
        self.assertEqual(self.check(wrong, words=words)[0], 1)
        sum_of_wrong = vectors.sum_of(wrong[FRAME:2 * FRAME])
        self.assertEqual(self.read('known.csv'), f'map,set,view,sum\nMAP01,near,1,{sum_of_wrong}\n')
        words = ('--maps', 'MAP01', '--accept', 'known.csv')
        self.assertEqual(self.check(wrong, words=words), (0, ['MAP01 near same 2 accepted 1', 'all same 2 accepted 1']))
        self.assertEqual(self.check(changed(wrong, 1, 46), words=words)[1][0], 'MAP01 near same 2 wrong 1')
        self.assertEqual(self.check(changed(wrong, 0, 46), words=words)[1][0], 'MAP01 near same 1 wrong 1 accepted 1')
        self.write('other.csv', b'map,view\n')
        self.assertEqual(self.check(words=(*words[:3], 'other.csv'))[0], 2)
        self.assertIn('other.csv is no file of accepted differences', self.error)

    def test_reports(self):
        """JSON and JUnit's XML have each view."""
        words = ('--maps', 'MAP01', '--json', 'found.json', '--junit', 'found.xml')
        self.check(changed(b''.join(self.ours[:2]), 1, 45) + frame(99), words=words)
        found = json.loads(self.read('found.json'))
        self.assertEqual((found['vectors'], found['spans']), ('made.csv', 'full'))
        self.assertEqual([(it['map'], it['view'], it['word'], it['wrong'], it['rows']) for it in found['views']],
                         [('MAP01', 0, 'same', False, []), ('MAP01', 1, 'wrong', True, [[40, 59]]),
                          ('MAP01', 2, 'departs', False, [])])
        suite, = xml.fromstring(self.read('found.xml').encode())
        self.assertEqual(suite.attrib, {'name': 'MAP01 near', 'tests': '3', 'failures': '1', 'skipped': '1'})
        self.assertEqual([[part.tag for part in case] for case in suite], [[], ['failure'], ['skipped']])
        self.assertEqual(suite[1][0].get('message'), 'view 1 wrong at 65536,0,2686976,0: rows 40-59')
        self.assertEqual(self.check(words=(*words[:3], 'absent/found.json', *words[4:]))[0], 2)

    def test_path(self):
        reading, writing = os.pipe()
        os.close(reading)
        with open(writing, 'wb') as pipe:  # which nobody reads
            status, _, error = self.run_command(CHECK, 'made.csv', '--path', 'MAP01', stdout=pipe)
        self.assertEqual((status, error), (-signal.SIGPIPE, ''))
        status, output, _ = self.run_command(CHECK, 'made.csv', '--path', 'MAP01')
        self.assertEqual((status, output), (0, b'x,y,z,angle\n0,0,2686976,0\n65536,0,2686976,0\n131072,0,2686976,0\n'))

    def test_path_of_a_set(self):
        """The rows of a set come with what they need besides."""
        status, output, error = self.run_command(CHECK, 'made.csv', '--path', 'MAP01', '--sets', 'sizes')
        self.assertEqual((status, output), (0, b'x,y,z,angle\n0,0,2686976,0\n'))
        self.assertEqual(error, 'check: rows 0 to 0 are drawn with size 5\n')

    def test_paths(self):
        """A path for each run, with its weapon layers."""
        rows = [vector(0, frame(1), frame(1), kind='sizes')._replace(size=5),
                vector(1, frame(1), frame(1), kind='sizes')._replace(size=6),
                vector(0, frame(1), frame(1), kind='weapons')._replace(weapon='PISG A 0 1 2;PISF A 1 3 4'),
                vector(1, frame(1), frame(1), kind='weapons')._replace(extralight=2)]
        self.write('made.csv', vectors.text(rows).encode())
        status, output, error = self.run_command(CHECK, 'made.csv', '--paths', 'out', '--sets', 'all')
        self.assertEqual((status, error), (0, ''))
        self.assertEqual(output.decode().splitlines(), ['MAP01 sizes 3 5 1 MAP01-sizes-0',
                                                        'MAP01 sizes 3 6 1 MAP01-sizes-1',
                                                        'MAP01 weapons 3 11 2 MAP01-weapons'])
        self.assertEqual(self.read('out/MAP01-sizes-1.csv'), 'x,y,z,angle\n65536,0,2686976,0\n')
        self.assertEqual(self.read('out/MAP01-weapons.csv'),
                         'x,y,z,angle,extralight,colormap\n0,0,2686976,0,0,0\n65536,0,2686976,0,2,0\n')
        self.assertEqual(self.read('out/MAP01-weapons.weapon.csv'),
                         'view,sprite,frame,bright,sx,sy\n0,PISG,A,0,1,2\n0,PISF,A,1,3,4\n')
        self.assertEqual(sorted(os.listdir(self.at('out'))), ['MAP01-sizes-0.csv', 'MAP01-sizes-1.csv',
                                                             'MAP01-weapons.csv', 'MAP01-weapons.weapon.csv'])

    def test_end(self):
        """A view at which the original ends has a run of its own, and no verdict where the port ends there too."""
        ended = vector(1, frame(1), frame(1), 'ended')._replace(frame='-', packed='-', original='-', bands='-')
        rows = [vector(0, frame(1), frame(1)), ended, vector(2, frame(3), frame(3))]
        self.write('made.csv', vectors.text(rows).encode())
        status, output, _ = self.run_command(CHECK, 'made.csv', '--paths', 'out')
        self.assertEqual((status, output.decode().splitlines()), (0, [
            'MAP01 near 3 11 1 MAP01-0', 'MAP01 near 3 11 1 MAP01-1 ends', 'MAP01 near 3 11 1 MAP01-2']))
        self.write('port/MAP01-0.bin', frame(1))
        right = (0, ['MAP01 near same 2 departs 1', 'all same 2 departs 1'])
        self.assertEqual(self.check(frame(3), place='port/MAP01-2.bin'), right)
        self.assertEqual(self.check(frame(77), place='port/MAP01-1.bin'), right)

    def test_wads(self):
        """A WAD that the vectors are not of is called so, and not the port wrong."""
        self.write('game.wad', b'IWAD' + bytes(8))
        self.write('later.wad', b'PWAD' + bytes(8))
        own, later = (hashlib.sha256(kind + bytes(8)).hexdigest() for kind in (b'IWAD', b'PWAD'))
        self.write('wads.csv', f'vectors,wad,version,sha256\nmade.csv,game.wad,Game 1.0,{own}\n'
                               f',game.wad,Game 1.1,{later}\n'.encode())
        needs = f'made.csv are of game.wad of Game 1.0 (SHA-256 {own})\n'
        for name, part in (('later.wad', f'later.wad is game.wad of Game 1.1, with the SHA-256 {later}; {needs}'),
                           ('made.wad', 'made.wad is another WAD, with the SHA-256 ')):
            status, output, error = self.run_command(CHECK, 'made.csv', 'port', '--wad', name)
            self.assertEqual((status, output), (3, b''))
            self.assertTrue(error.startswith(f'check: {part}') and error.endswith(needs), error)
        self.write('port/MAP01.bin', b''.join(self.ours[:3]))
        words = ['made.csv', 'port', '--maps', 'MAP01', '--wad', 'game.wad']
        status, _, error = self.run_command(CHECK, *words)
        self.assertEqual((status, error), (2, 'check: game.wad is no WAD with a PLAYPAL\n'))
        self.assertEqual(self.run_command(CHECK, '--wad', 'absent.wad')[0], 2)

    def test_wads_are_found_where_ports_look(self):
        os.makedirs(self.at('wads', 'more'))
        self.write('wads/game.wad', b'IWAD' + bytes(9))
        self.write('wads.csv', b'vectors,wad,version,sha256\n')
        self.write('made.csv', vectors.text([vector(0, frame(1), frame(2))]).encode())
        for name, place in (('game.wad', {'DOOMWADDIR': self.at('wads')}), ('GAME', {'DOOMWADPATH': f':{self.at("wads")}'})):
            status, output, error = self.run_command(CHECK, '--wad', name, **place)
            self.assertEqual((status, output), (3, b''))
            self.assertTrue(error.startswith(f'check: {self.at("wads", "game.wad")} is another WAD, with the SHA-256'), error)
        for name, place in (('game.wad', {}), ('more/game.wad', {'DOOMWADDIR': self.at('wads')})):
            status, output, error = self.run_command(CHECK, '--wad', name, **place)
            self.assertEqual((status, error), (2, f'check: cannot read {name}: No such file or directory\n'))

    def test_trouble(self):
        self.write('other.csv', b'x,y\n1,2\n')
        for part, words in [('cannot read absent.csv', ['absent.csv', 'port']),
                            ('name a file of vectors, or a WAD by --wad', []),
                            ("invalid choice: 'half'", ['made.csv', 'port', '--spans', 'half']),
                            ('other.csv is no file of vectors', ['other.csv', 'port']),
                            ('name the folder', ['made.csv']), ('there is no folder absent', ['made.csv', 'absent']),
                            ('has no MAP09; it has MAP01, MAP02', ['made.csv', 'port', '--maps', 'MAP09']),
                            ('has no light', ['made.csv', 'port', '--sets', 'light'])]:
            status, output, error = self.run_command(CHECK, *words)
            self.assertEqual((status, output), (2, b''))
            self.assertIn(part, error)
            self.assertNotIn('Traceback', error)


class Pictures(Tools):
    """`vectors/check` on pictures, by a palette of which entries 3 and 200 have one colour."""

    def setUp(self):
        super().setUp()
        colours = [(i, 255 - i, 7) for i in range(256)]
        colours[200] = colours[3]
        self.palette = bytes(part for colour in colours for part in colour)
        self.write('game.wad', wad([('PLAYPAL', self.palette)]))
        self.frames = [frame(1), bytes(range(200)) * 320, frame(3)]
        self.write('made.csv', vectors.text(vector(i, it, frame(9)) for i, it in enumerate(self.frames)).encode())
        os.makedirs(self.at('port/MAP01'))

    def rgb(self, view):
        return b''.join(self.palette[3 * it:3 * it + 3] for it in view)

    def check(self, *words):
        status, output, self.error = self.run_command(CHECK, 'made.csv', 'port', *words)
        return status, output.decode().splitlines()

    def test_right(self):
        """PNG files of each kind in the order of their numbers, and PPMs in one file."""
        self.write('port/MAP01/view2.png', png.png(320, 200, self.rgb(self.frames[0])))
        self.write('port/MAP01/view9.png', png.indexed_png(320, 200, self.frames[1], self.palette))
        self.write('port/MAP01/view10.ppm', b'P6\n# made\n320 200 255\n' + self.rgb(frame(200)))
        self.assertEqual(self.check('--wad', 'game.wad'), (0, ['MAP01 near same 3', 'all same 3']))
        self.write('port/MAP01.ppm', b''.join(b'P6\n320 200\n255\n' + self.rgb(it) for it in self.frames))
        self.assertEqual(self.check('--wad', 'game.wad'), (0, ['MAP01 near same 3', 'all same 3']))
        self.assertEqual(self.check()[0], 2)
        self.assertIn('the colours of pictures are those of the palette of a WAD; name it by --wad', self.error)
        self.write('port/MAP01.ppm', b'P6\n640 400\n255\n')
        self.assertEqual(self.check('--wad', 'game.wad')[0], 2)
        self.assertIn('does not begin as a PPM of 320 by 200 does', self.error)

    def test_wrong(self):
        """What is wrong with a picture is said in the line of its view."""
        strange = bytearray(self.rgb(self.frames[0]))
        strange[3 * 321:3 * 323] = bytes([1, 1, 1, 2, 2, 2])
        self.write('port/MAP01/1.png', png.png(320, 200, bytes(strange)))
        self.write('port/MAP01/2.png', png.png(2, 1, bytes(6)))
        self.write('port/MAP01/3.png', png.png(320, 200, self.rgb(self.frames[0])))
        self.write('port/MAP01/4.png', b'')
        status, lines = self.check('--wad', 'game.wad')
        self.assertEqual((status, lines[0]), (1, 'MAP01 near wrong 3'))
        self.assertEqual([line.partition(': ')[2] for line in lines[1:4]], [
            '2 colours are in no entry of the palette, the first 1,1,1 at row 1 column 1',
            'port/MAP01/2.png is 2 by 1, or of a kind that is not read: a frame is 320 by 200, of 8 bits a colour',
            'rows ' + ' '.join(f'{20 * i}-{20 * i + 19}' for i in range(10))])
        self.assertEqual(lines[4], '  MAP01 has 4 pictures, and there are 3 views')
        self.assertIn('turn off gamma', self.error)


class Ci(Tools):
    """`vectors/ci`, beside vectors of its own, with a stand-in for a port."""

    def setUp(self):
        super().setUp()
        left_out = shutil.ignore_patterns('*.csv', '__pycache__')
        shutil.copytree(os.path.dirname(CHECK), self.at('vectors'), ignore=left_out)
        self.write('game.wad', wad([('PLAYPAL', bytes(part for i in range(256) for part in (i, 0, 0)))]))
        kinds = [('near', 11, '', 11), ('near', 11, '', 13), ('sizes', 4, '', 4), ('sizes', 5, '', 6),
                 ('weapons', 11, '', 27), ('weapons', 11, 'PISG A 0 1 2', 28)]
        rows = [vector(i, frame(colour), frame(99), kind=kind)._replace(size=size, weapon=weapon)
                for i, (kind, size, weapon, colour) in enumerate(kinds)]
        xs = (0, 2, 0, 1, 0, 1)
        self.rows = [row._replace(x=x, view=i % 2) for i, (x, row) in enumerate(zip(xs, rows))]
        self.put(self.rows)
        self.port = self.stand_in('port', PORT.replace('PYTHON', sys.executable).replace('TOOLS', repr(TOOLS)))

    def put(self, rows):
        self.write('vectors/made.csv', vectors.text(rows).encode())
        with open(self.at('game.wad'), 'rb') as file:
            sum_of_wad = hashlib.sha256(file.read()).hexdigest()
        self.write('vectors/wads.csv', b'vectors,wad,version,sha256\n'
                                       + f'made.csv,game.wad,Game 1.0,{sum_of_wad}\n'.encode())

    def ci(self, *words, **more):
        status, output, self.error = self.run_command(self.at('vectors', 'ci'), *words, **{'PORT': './port', **more})
        return status, output.decode().splitlines()

    def test_green(self):
        """Frames in one file a run, as indices, PPMs or pictures; each run with its size and weapon."""
        right = (0, ['MAP01 near same 2', 'MAP01 sizes same 2', 'MAP01 weapons same 2', 'all same 6'])
        for form in ('indices', 'ppm', 'pictures'):
            self.assertEqual(self.ci('game.wad', AS=form), right, self.error)
        self.assertEqual(self.error, 'game.wad is game.wad of Game 1.0; its vectors are in made.csv\n')
        self.assertEqual(self.ci('game.wad', '--', '--sets', 'sizes')[1], ['MAP01 sizes same 2', 'all same 2'])

    def test_kept(self):
        """WORK keeps the paths and the frames, REPORTS gets the reports."""
        self.assertEqual(self.ci('game.wad', WORK=self.at('work'), REPORTS=self.at('reports'))[0], 0)
        self.assertEqual(sorted(os.listdir(self.at('reports'))), ['made.json', 'made.xml'])
        self.assertEqual(self.read('work/made/found.json'), self.read('reports/made.json'))
        self.assertEqual(self.read('work/made/vectors.csv'), self.read('vectors/made.csv'))
        self.assertEqual(os.path.getsize(self.at('work/made/MAP01.bin')), 2 * FRAME)
        self.assertEqual(os.path.getsize(self.at('work/made/MAP01-sizes-1.bin')), FRAME)
        self.assertTrue(os.path.isfile(self.at('work/made/paths/MAP01-weapons.weapon.csv')))

    def test_red(self):
        self.put([self.rows[0]._replace(frame='0' * 16), *self.rows[1:]])
        status, lines = self.ci('game.wad')
        self.assertEqual((status, lines[0]), (1, 'MAP01 near same 1 wrong 1'))
        self.assertEqual(self.ci('game.wad', '--', '--spans', 'packed')[0], 1)
        self.put([self.rows[0]._replace(skill=2), *self.rows[1:]])
        status, lines = self.ci('game.wad')
        self.assertEqual((status, lines[0]), (1, 'MAP01 near same 1 missing 1'))
        said = 'ci: the port ended with the status 1 at MAP01, set near, skill 2, size 11; it said:\nno such skill'
        self.assertIn(said, self.error)

    def test_crash(self):
        """A port that crashes is red though all its frames are right; but not where the original ends too."""
        self.put([row._replace(skill=4) for row in self.rows])
        status, lines = self.ci('game.wad', '--', '--sets', 'near', GITHUB_ACTIONS='true')
        self.assertEqual((status, lines[1:]), (1, ['MAP01 near same 2', 'all same 2']))
        told = 'the port crashed (signal 6, SIGABRT) at MAP01, set near, skill 4, size 11'
        self.assertIn(f'ci: {told}', self.error)
        self.assertTrue(lines[0].startswith(f'::error title=the port::{told}.'), lines[0])
        ended = vector(2, frame(1), frame(1), 'ended')._replace(frame='-', packed='-', original='-', bands='-', skill=4)
        self.put([*self.rows[:2], ended])
        self.assertEqual(self.ci('game.wad'), (0, ['MAP01 near same 2 departs 1', 'all same 2 departs 1']))
        self.assertNotIn('crashed', self.error)

    def test_time(self):
        """A port that goes on for too long is ended with what it started, and red; after the third no more are drawn."""
        self.put([row._replace(skill=5) for row in self.rows])
        begun = time.monotonic()
        status, lines = self.ci('game.wad', TIMEOUT='1.5', PORT='./port; true')
        self.assertEqual((status, lines), (1, ['MAP01 near same 2', 'MAP01 sizes same 2', 'MAP01 weapons missing 2',
                                              'all same 4 missing 2']))
        self.assertLess(time.monotonic() - begun, 60)
        self.assertIn('ci: the port took more than 1.5 seconds and was ended at MAP01, set sizes, skill 5, size 4; it said:'
                      '\nstill here\n', self.error)
        self.assertIn('ci: 3 runs of the port took more than 1.5 seconds, so no more were drawn; TIMEOUT', self.error)
        for seconds in ('0', 'long', 'inf'):
            self.assertEqual(self.ci('game.wad', TIMEOUT=seconds)[0], 2)
            self.assertIn(f'TIMEOUT is a number of seconds, such as 300, and {seconds} is none', self.error)

    def test_versions(self):
        """The vectors are chosen by the WAD: by its own sum, or by that of all lumps but the version and the title."""
        def built(version, title, more=b''):
            return wad([('PLAYPAL', bytes(768)), ('FREEDOOM', version), ('TITLEPIC', title), ('OTHER', more)])
        for name, data in (('one.wad', built(b'1-1', b'A')), ('again.wad', built(b'1-2', b'BB')),
                           ('two.wad', built(b'2-1', b'A', b'more'))):
            self.write(name, data)
        self.put(self.rows[:1])
        sums = [(games.sum_of(self.at(name)), games.sum_of_lumps(self.at(name))) for name in ('one.wad', 'game.wad')]
        self.write('vectors/one.csv', vectors.text([vector(0, frame(11), frame(99))._replace(x=0)]).encode())
        self.write('vectors/wads.csv', '\n'.join([
            'vectors,wad,version,sha256,lumps', f'one.csv,one.wad,Game 1,{",".join(sums[0])}',
            f'made.csv,game.wad,Game 2,{",".join(sums[1])}']).encode())
        for name, sentence in (('one.wad', 'one.wad is one.wad of Game 1; its vectors are in one.csv\n'),
                               ('again.wad', 'again.wad is another build of one.wad of Game 1; its vectors are in one.csv\n'),
                               ('game.wad', 'game.wad is game.wad of Game 2; its vectors are in made.csv\n')):
            done = self.ci(name)
            self.assertEqual((done, self.error), ((0, ['MAP01 near same 1', 'all same 1']), sentence))
        self.assertEqual(self.ci('two.wad')[0], 3)
        self.assertIn(f'the vectors here are of one.wad of Game 1 (SHA-256 {sums[0][0]}) or game.wad of Game 2 '
                      f'(SHA-256 {sums[1][0]})', self.error)
        check = self.at('vectors/check')
        status, _, error = self.run_command(check, 'vectors/made.csv', 'vectors', '--wad', 'again.wad')
        self.assertEqual(status, 3)
        self.assertTrue(error.endswith('; the vectors of again.wad are in one.csv\n'), error)
        status, output, _ = self.run_command(check, '--wad', 'again.wad', '--path', 'MAP01')
        self.assertEqual((status, output), (0, b'x,y,z,angle\n0,0,2686976,0\n'))
        os.mkdir(self.at('drawn'))
        self.write('drawn/MAP01.bin', frame(11))
        status, output, _ = self.run_command(check, 'drawn', '--wad', 'again.wad')
        self.assertEqual((status, output), (0, b'MAP01 near same 1\nall same 1\n'))

    def test_found(self):
        """A WAD is found where ports look for it."""
        os.mkdir(self.at('wads'))
        os.rename(self.at('game.wad'), self.at('wads/game.wad'))
        self.assertEqual(self.ci('game.wad', DOOMWADDIR=self.at('wads'))[0], 0)
        self.assertEqual(self.ci('game.wad')[0], 2)
        self.assertIn('there is no WAD game.wad', self.error)
        status, output, _ = self.run_command(self.at('vectors/check'), '--wad', 'game.wad', DOOMWADDIR=self.at('wads'))
        self.assertEqual((status, output.decode()), (0, f'{self.at("wads/game.wad")} is game.wad of Game 1.0; its vectors '
                                                        'are in made.csv\n'))

    def test_errors(self):
        """In a workflow of GitHub a line for each map and set that is red, of which it shows ten."""
        def lines(count):
            wrong = [vector(0, frame(1), frame(1), name=f'MAP{i:02}')._replace(x=3) for i in range(1, count + 1)]
            self.put(wrong)
            return [line for line in self.ci('game.wad', GITHUB_ACTIONS='true')[1] if line.startswith('::')]
        rows = ' '.join(f'{20 * i}-{20 * i + 19}' for i in range(10))
        self.assertEqual(lines(1), ['::error title=made.csv MAP01 near::1 of 1 views are wrong; view 0 wrong at '
                                    f'3,0,2686976,0: rows {rows}'])
        self.assertEqual(len(lines(10)), 10)
        found = lines(13)
        self.assertEqual((len(found), found[-1]), (10, '::error title=made.csv::4 more maps and sets have wrong views'))

    def test_help(self):
        status, output, error = self.run_command(self.at('vectors/ci'), '--help')
        self.assertEqual((status, error), (0, ''))
        self.assertIn('TIMEOUT is how many seconds', output.decode())

    def test_trouble(self):
        """Nothing is drawn where it cannot begin, or where a WAD is another."""
        self.assertEqual(self.ci('game.wad', 'made.wad'), (3, []))
        self.assertIn('ci: made.wad is another WAD', self.error)
        for part, words, more in (('PORT is the command', ['game.wad'], {'PORT': ''}), ('name a WAD', [], {}),
                                  ('there is no WAD absent.wad', ['absent.wad'], {}),
                                  ('the command of PORT is not there', ['game.wad'], {'PORT': './absent'}),
                                  ('has no MAP09', ['game.wad', '--', '--maps', 'MAP09'], {})):
            self.assertEqual(self.ci(*words, **more)[0], 2, part)
            self.assertIn(part, self.error)


if __name__ == '__main__':
    unittest.main()
