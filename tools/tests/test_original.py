"""Tests the scripts of the folder original, and bench/measure.py, with stand-ins for the programs, on files that are
made here."""
import csv
import glob
import hashlib
import os
import re
import shutil
import subprocess
import sys
import unittest

from made_files import TOP, Tools, wad
from made_maps import Map
from doomview_tools import grid_paths, levels, vectors
from doomview_tools.levels import TURN, UNIT

# Draws a frame of its row's number for each row of the path; counts a view; ends view 3 for want of planes.
DOOMVIEW = '''#!PYTHON
import sys
rows = open(sys.argv[sys.argv.index('--path') + 1]).read().splitlines()[1:]
for k, row in enumerate(rows):
    if sys.argv[1] == 'limits':
        print(f'view {k} over planes 129' if k == 3 else f'view {k} planes 1')
    else:
        sys.stdout.buffer.write(bytes([sum(map(ord, row)) % 251]) * 64000)
'''
# The same, but for view 1 without zeros behind memory, and for view 2 but as NAME has it.
STILL = '''#!PYTHON
import os, sys
word = dict(zip(sys.argv[1:], sys.argv[2:]))
name = os.path.basename(sys.argv[0])
if '-time' in word:
    print('views 1 mean 2000 least 1000 ns a view')
rows = open(word['-path']).read().splitlines()[1:]
odd = open(os.path.join(os.path.dirname(sys.argv[0]), 'odd')).read().split()
with open(word['-out'], 'wb') as out, open(word.get('-counts', os.devnull), 'w') as counts:
    for k, row in enumerate(rows):
        first = len(rows) > 3
        colour = sum(map(ord, row)) % 251
        if first and k == 1 and '-zerotail' not in sys.argv:
            colour = 255
        if (first and k == 2 or not first and row == open('row2').read()) and odd[0] not in name:
            colour = 254
        if first and k == 2:
            open('row2', 'w').write(row)
        out.write(bytes([colour]) * 64000)
        counts.write(f'view {k} error R_FindPlane' if first and k == 3 else f'view {k} planes 1 openings 2')
        counts.write('\\n')
'''


ORIGINAL = 'clone/tools/original'
FOLDER = os.path.join(TOP, 'tools', 'original')
SOURCE = ''.join(glob.glob(os.path.join(FOLDER, 'source', 'chocolate-doom-3*', 'src', 'doom')))
# A port that draws each view in the colour that its name ends with.
DAMAGED = '''#!PYTHON
import sys
word = dict(zip(sys.argv[1:], sys.argv[2:]))
count = len(open(word['-path']).read().splitlines()) - 1
open(word['-out'], 'wb').write(bytes([int(sys.argv[0][-1])]) * 64000 * count)
'''


class Original(Tools):
    def setUp(self):
        super().setUp()
        self.clone()
        for name in ('build', 'measure'):
            self.assertTrue(os.access(self.at(ORIGINAL, name), os.X_OK))
        shutil.copy(os.path.join(TOP, 'tools/original/still.c'), self.at(ORIGINAL))
        self.doomview = self.stand_in('doomview', DOOMVIEW.replace('PYTHON', sys.executable))
        self.write('room.wad', self.run_tool('room')[1])

    def originals(self, odd):
        """Stand-ins for what build makes; view 2 is explained by the rule `odd`."""
        for rule in ('', '-mark', '-tangent', '-back', '-all'):
            self.stand_in(f'{ORIGINAL}/still{rule}', STILL.replace('PYTHON', sys.executable))
        self.write(f'{ORIGINAL}/odd', odd.encode())

    def measured(self, *words):
        status, output, error = self.run_command(self.at(ORIGINAL, 'measure'), 'room.wad', '--places', '5',
                                                '--sets', 'near', *words, doomview=self.doomview)
        self.assertEqual(error, '')
        return status, output.decode().splitlines()

    def test_measure(self):
        """Each view that differs is put down to a rule."""
        self.originals('tangent')
        status, lines = self.measured('--keep', 'kept')
        self.assertEqual((status, lines[:2]), (0, ['near MAP01 view 1: memory, pixels 64000',
                                                   'near MAP01 view 2: tangent, pixels 64000']))
        self.assertEqual(lines[-1], '| near | 6 | 1 | 3 | 1 | 0 | 1 | 0 | 0 | 0 | 0 | 128000 |')
        self.assertEqual(os.path.getsize(self.at('kept/near-MAP01/ours.bin')), 128000)
        self.assertEqual(self.measured('--maps', 'MAP01')[1][-1], lines[-1])

    def test_grid(self):
        """Of a room of 256 by 128 units a grid of 64 has 8 places, and so 16 views in two directions."""
        self.originals('tangent')
        self.write('room.wad', Map('aaaa', 'aaaa').wad())
        status, output, error = self.run_command(self.at(ORIGINAL, 'measure'), 'room.wad', '--sets', 'grid', '--step', '64',
                                                '--directions', '2', doomview=self.doomview)
        self.assertEqual((status, error), (0, ''))
        lines = output.decode().splitlines()
        self.assertEqual(lines[0], 'grid MAP01 view 1: memory, pixels 64000')
        self.assertEqual(lines[2], 'grid MAP01: views 16 ended 1 same 13 memory 1 tangent 1')
        self.assertEqual(lines[-1], '| grid | 16 | 1 | 13 | 1 | 0 | 1 | 0 | 0 | 0 | 0 | 128000 |')
        self.refuses('--step and --directions are 1 or more', 'room.wad', '--step', '0',
                     command=self.at(ORIGINAL, 'measure'), doomview=self.doomview)

    def test_unexplained(self):
        self.originals('none')
        status, lines = self.measured()
        self.assertEqual((status, lines[1]), (1, 'near MAP01 view 2: unexplained, pixels 64000'))

    def test_wrong(self):
        measure = self.at(ORIGINAL, 'measure')
        for part, words in [('there is no program still', ['room.wad']),
                            ('there is no set far', ['room.wad', '--sets', 'far']),
                            ('usage', ['--places'])]:
            self.refuses(part, *words, command=measure, doomview=self.doomview)
        status, output, error = self.run_command(measure)
        self.assertEqual((status, output, error[:6]), (2, b'', 'usage:'))
        self.originals('none')
        self.refuses('there is no WAD absent.wad', 'absent.wad', command=measure, doomview=self.doomview)
        self.refuses('there is no map MAP09 in', 'room.wad', '--maps', 'MAP09', command=measure, doomview=self.doomview)
        self.refuses('there is no program', 'room.wad', command=measure, doomview=self.at('absent'))
        self.stand_in('fails', '#!/bin/sh\necho doomview: refused 601 >&2\nexit 2\n')
        status, output, _ = self.run_command(measure, 'room.wad', '--sets', 'near', doomview=self.at('fails'))
        self.assertEqual(status, 1)
        self.assertIn('near MAP01: fails: doomview: refused 601', output.decode())
        self.refuses('gcc is not installed', self.at('source'), command=self.at(ORIGINAL, 'build'))

    def test_build_help(self):
        os.symlink(shutil.which('sed'), self.at('bin/sed'))
        status, output, error = self.run_command(self.at(ORIGINAL, 'build'), '--help')
        self.assertEqual((status, error), (0, ''))
        self.assertTrue(output.startswith(b'usage: build [FOLDER]'))
        self.assertIn(b'DAMAGE=N build', output)
        self.assertTrue(output.endswith(b'installs.\n'))
        status, output, error = self.run_command(self.at(ORIGINAL, 'build'), '-x')
        self.assertEqual((status, output, error), (2, b'', 'build: there is no option -x; build --help says what it takes\n'))

    def test_speed(self):
        """bench/measure.py has the original beside the programs where it is built."""
        shutil.copytree(os.path.join(TOP, 'bench'), self.at('clone/bench'))
        words = [self.at('clone/bench/measure.py'), 'room.wad', '--programs', self.doomview, '--rounds', '1',
                 '--repeat', '2']
        self.refuses('none of these maps', *words[1:], '--maps', 'MAP02', command=words[0])
        for ratio in ('', r' \| -?[0-9.]+'):
            status, output, error = self.run_command(*words)
            self.assertEqual((status, error), (0, ''))
            first = r' \| 1\.0' if ratio else ''
            self.assertRegex(output.decode(), rf'MAP01{first} \| -?[0-9.]+{ratio} \|\n'
                                              rf'\| mean{first} \| -?[0-9.]+{ratio} \|\n$')
            self.originals('none')


class Damages(Tools):
    """The ports with a mistake each."""

    def rows(self):
        with open(os.path.join(FOLDER, 'damages.tsv'), newline='', encoding='utf-8') as file:
            return list(csv.DictReader(file, delimiter='\t', quoting=csv.QUOTE_NONE))

    def test_list(self):
        """The list is numbered from 1, no mistake is there twice, and the page says of each how it was seen."""
        rows = self.rows()
        self.assertEqual([row['number'] for row in rows], [str(i + 1) for i in range(len(rows))])
        self.assertGreaterEqual(len(rows), 32)
        for field in ('edit', 'what'):
            self.assertEqual(len({(row['file'], row[field]) for row in rows}), len(rows))
        with open(os.path.join(TOP, 'vectors', 'SEEN.md'), encoding='utf-8') as file:
            seen = [line.split(' | ') for line in file.read().splitlines() if re.match(r'\| \d', line)]
        self.assertEqual([[line[0][2:], line[1]] for line in seen], [[row['number'], row['what']] for row in rows])
        for line in seen:
            self.assertTrue(any(int(count.rstrip(' |')) for count in line[2:]), line)

    @unittest.skipUnless(SOURCE, 'tools/original/build has not been run')
    def test_edits(self):
        """Each edit changes the source."""
        for row in self.rows():
            path = os.path.join(SOURCE, f'{row["file"]}.c')
            done = subprocess.run(['sed', row['edit'], path], stdout=subprocess.PIPE, stderr=subprocess.PIPE, check=True)
            with open(path, 'rb') as file:
                self.assertNotEqual(done.stdout, file.read(), row)

    def test_seen(self):
        """The views that are wrong are counted by set; a mistake that no view shows is red."""
        self.clone()
        shutil.copytree(os.path.join(TOP, 'vectors'), self.at('clone/vectors'),
                        ignore=shutil.ignore_patterns('*.csv', '__pycache__'))
        self.write('game.wad', wad([('PLAYPAL', bytes(768))]))
        with open(self.at('game.wad'), 'rb') as file:
            sum_of_wad = hashlib.sha256(file.read()).hexdigest()
        self.write('clone/vectors/wads.csv', f'vectors,wad,version,sha256\nmade.csv,game.wad,,{sum_of_wad}\n'.encode())
        drawn = vectors.sum_of(bytes([2]) * 64000)
        row = vectors.Vector('near', 'MAP01', 0, 3, 11, '', 0, 0, 0, 0, 0, 0, drawn, drawn, 'same', '', '', '')
        rows = [row, row._replace(view=1), row._replace(set='light', colormap=1)]
        self.write('clone/vectors/made.csv', vectors.text(rows).encode())
        self.write(f'{ORIGINAL}/damages.tsv', b'number\tfile\tedit\twhat\n1\tr_draw\ts/a/b/\tone colour\n'
                                              b'2\tr_draw\ts/b/a/\tnone\n')
        for number in '12':
            self.stand_in(f'{ORIGINAL}/still-damaged-{number}', DAMAGED.replace('PYTHON', sys.executable))
        status, output, error = self.run_command(self.at(ORIGINAL, 'seen'), 'game.wad')
        self.assertEqual((status, error), (1, ''))
        self.assertEqual(output.decode().splitlines()[2:], ['| 1 | one colour | 2 | 0 | 0 | 1 | 0 | 0 |',
                                                            '| 2 | none | 0 | 0 | 0 | 0 | 0 | 0 |'])
        self.assertEqual(self.run_command(self.at(ORIGINAL, 'seen'), 'game.wad', '--damages', '1')[0], 0)
        os.remove(self.at(f'{ORIGINAL}/still-damaged-1'))
        self.refuses('there is no program still-damaged-1', 'game.wad', command=self.at(ORIGINAL, 'seen'))


class Grid(Tools):
    def test_places(self):
        """The places of a grid are those 16 units off the walls, and each has its directions evenly apart."""
        level = levels.read([self.write('two.wad', Map('aaaa', 'aaaa').wad())], 'MAP01')
        found = grid_paths.rows(level, 16, 3, 1)
        places = list(dict.fromkeys((row.x, row.y) for row in found))
        self.assertEqual((len(places), len(found)), (14 * 6, 3 * 14 * 6))
        self.assertEqual({row.z for row in found}, {41 * UNIT})
        for first, second, third in zip(found[::3], found[1::3], found[2::3]):
            self.assertEqual([(it.angle - first.angle) % TURN for it in (second, third)], [TURN // 3, TURN * 2 // 3])
        self.assertGreater(len({row.angle for row in found[::3]}), 80)
        self.assertEqual(grid_paths.rows(level, 16, 3, 1), found)
        self.assertNotEqual(grid_paths.rows(level, 16, 3, 2), found)


if __name__ == '__main__':
    unittest.main()
