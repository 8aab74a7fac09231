"""Tests that compare finds a wrong set-up by drawing our side again: a stand-in for the program draws of each row and its
words a frame that is like no other, and the port's frames are those of a set-up that is changed here by hand."""
import sys
import unittest

from made_files import Tools, made_wad
from doomview_tools import setup_trials
from doomview_tools.paths import Row

# Draws of each row half of a frame by the row, and half by the skill (1 and 2 as one, 4 and 5 too), the size and the spans.
PROGRAM = f'''#!{sys.executable}
import csv, random, sys
words = sys.argv[1:]
words = words[words.index('render'):]
given = dict(zip(words, words[1:]))
open(sys.argv[0] + '.runs', 'a').write('run\\n')
skill = {{'1': '2', '5': '4'}}.get(given.get('--skill', '3'), given.get('--skill', '3'))
base = [skill, given.get('--size', '11'), given.get('--spans', 'full')]
layers = list(csv.reader(open(given['--weapon'])))[1:] if '--weapon' in given else []
rows = list(csv.reader(open(given['--path'])))[1:]
for view, row in enumerate(rows):
    held = [layer[1:] for layer in layers if layer[0] == str(view)]
    row = [*row, '0', '0'][:6]
    for part in (row, base + held):
        sys.stdout.buffer.write(random.Random(str([row, part])).randbytes(32000))
'''
UNIT = 65536
ROWS = [Row(x * UNIT + 77, -x * UNIT - 5, 41 * UNIT, (x * 123456789 + 99) % 2 ** 32) for x in range(1, 8)]
# What the port makes of a row, and what is said of that.
CAUSES = {
    'the eye 41 higher': (lambda row: row._replace(z=row.z + 41 * UNIT), 'it adds 41 to z, which is the height of the eye already'),
    'the eye 41 lower': (lambda row: row._replace(z=row.z - 41 * UNIT), 'it takes 41 from z, which is the height of the eye'),
    'the eye 1 higher': (lambda row: row._replace(z=row.z + UNIT), 'its eye is 1 higher than z'),
    'the eye 1 lower': (lambda row: row._replace(z=row.z - UNIT), 'its eye is 1 lower than z'),
    'angles 90 degrees more': (lambda row: row._replace(angle=(row.angle + 2 ** 30) % 2 ** 32), 'an angle is counted from east'),
    'angles 180 degrees more': (lambda row: row._replace(angle=(row.angle + 2 ** 31) % 2 ** 32), 'an angle is counted from east'),
    'angles 270 degrees more': (lambda row: row._replace(angle=(row.angle - 2 ** 30) % 2 ** 32), 'an angle is counted from east'),
    'angles clockwise': (lambda row: row._replace(angle=-row.angle % 2 ** 32), 'an angle is counted counterclockwise'),
    'angles clockwise from north': (lambda row: row._replace(angle=(2 ** 30 - row.angle) % 2 ** 32), 'an angle is counted from'),
    'angles cut to 16 bits': (lambda row: row._replace(angle=row.angle >> 16 << 16), 'an angle has 32 bits'),
    'x and y cut to whole units': (lambda row: row._replace(x=row.x >> 16 << 16, y=row.y >> 16 << 16), 'x and y are 16.16'),
    'x and y cut to whole units towards 0': (lambda row: row._replace(x=row.x >> 16 << 16, y=-(-row.y >> 16 << 16)),
                                             'x and y are 16.16'),
    '1 more of extra light': (lambda row: row._replace(extralight=1), 'it has extra light'),
    'the eye 41 higher and angles 90 degrees more': (
        lambda row: row._replace(z=row.z + 41 * UNIT, angle=(row.angle + 2 ** 30) % 2 ** 32),
        'it adds 41 to z, which is the height of the eye already, and an angle is counted from east'),
    'x and y cut to whole units and angles cut to 16 bits': (
        lambda row: row._replace(x=row.x >> 16 << 16, y=row.y >> 16 << 16, angle=row.angle >> 16 << 16),
        'x and y are 16.16, and it takes whole map units, and an angle has 32 bits'),
}


class SetUps(Tools):
    def setUp(self):
        super().setUp()
        self.program = self.stand_in('program', PROGRAM)
        self.write('made.wad', made_wad())
        self.draw('ours.bin', ROWS)

    def path(self, name, rows):
        self.write(name, ('x,y,z,angle,extralight,colormap\n' + ''.join(','.join(map(str, row)) + '\n' for row in rows)).encode())

    def draw(self, name, rows, *words):
        self.path('drawn.csv', rows)
        done = self.run_command(self.program, 'render', 'MAP01', 'made.wad', '--path', 'drawn.csv', *words)
        self.assertEqual((done[0], done[2]), (0, ''))
        self.write(name, done[1])

    def said(self, *words, path=ROWS):
        """The sentences on the set-up."""
        self.path('path.csv', path)
        status, output, error = self.run_tool('compare', 'ours.bin', 'port.bin', '--wad', 'made.wad', '--map', 'MAP01',
                                              '--path', 'path.csv', *words, doomview=self.program)
        self.assertEqual((status, error), (1, ''))
        return [line for line in output.decode().splitlines() if line.startswith('set-up: ')]

    def test_rows(self):
        for drawn, (change, cause) in CAUSES.items():
            self.draw('port.bin', [change(row) for row in ROWS])
            said = self.said()
            self.assertEqual(len(said), 1, drawn)
            self.assertTrue(said[0].startswith(f"set-up: drawn with {drawn} all of 7 views tried are the port's: {cause}"), said)

    def test_words(self):
        """Skill and spans are tried also where less than half differs, a size where more does."""
        for words, part in ((['--skill', '1'], 'skill 1 or 2 all of 7'), (['--skill', '5'], 'skill 4 or 5 all of 7'),
                            (['--spans', 'packed'], "packed spans all of 7 views tried are the port's: its floors are those of "
                                                    'Chocolate Doom and the DOS program: --spans packed')):
            self.draw('port.bin', ROWS, *words)
            self.assertTrue(self.said()[0].startswith(f'set-up: drawn with {part}'), words)
        self.draw('port.bin', [CAUSES['the eye 41 higher'][0](row) for row in ROWS], '--size', '10')
        self.assertTrue(self.said()[0].startswith("set-up: drawn with the eye 41 higher and size 10 all of 7 views tried"), self.said())

    def test_words_of_the_run(self):
        """The words of our run are those of the trials, weapon layers and light too."""
        lit = [row._replace(colormap=9 * (i % 2)) for i, row in enumerate(ROWS)]
        self.write('weapon.csv', b'view,sprite,frame,bright,sx,sy\n' + b''.join(b'%d,PISG,A,0,%d,2\n' % (i, i) for i in range(7)))
        words = ['--skill', '4', '--weapon', 'weapon.csv']
        self.draw('ours.bin', lit, *words)
        self.draw('port.bin', [row._replace(angle=-row.angle % 2 ** 32) for row in lit], *words)
        self.assertIn('set-up: drawn with angles clockwise all', self.said(*words, path=lit)[0])
        self.draw('port.bin', lit, '--skill', '4')
        self.assertEqual(self.said(*words, path=lit), [
            "set-up: drawn with no weapon all of 7 views tried are the port's: it draws no weapon"])
        self.draw('port.bin', ROWS, *words)
        self.assertIn("set-up: drawn with no fixed colormap all of 3 views tried are the port's: it leaves out the colormap",
                      self.said(*words, path=lit)[0])
        self.draw('port.bin', ROWS)
        self.assertEqual(self.said('--skill', '4', path=lit), [
            'set-up: the words of the comparison do not draw our frames; name those of their run (--skill, --size, --spans, '
            '--weapon, --things, and all WADs), so that other set-ups can be tried'])

    def test_nothing(self):
        """Where no set-up makes the frames the port's there is no sentence, and where a part is left it says so."""
        self.draw('port.bin', [Row(1, 2, 3, 4)] * 7)
        self.write('port.bin', bytes(range(256)) * 1750)
        self.assertEqual(self.said(), [])
        self.draw('port.bin', [CAUSES['angles clockwise'][0](row) for row in ROWS])
        with open(self.at('port.bin'), 'r+b') as file:
            file.seek(64000 * 6)
            data = file.read(100)
            file.seek(64000 * 6)
            file.write(bytes(byte ^ 1 for byte in data))
        self.assertEqual(self.said(), ["set-up: drawn with angles clockwise 6 of 7 views tried are the port's; 100 pixels of the "
                                       'others differ: an angle is counted counterclockwise'])

    def test_runs(self):
        """All changes of rows are drawn in one run: eight runs at most where nothing is found, and none without a path."""
        self.write('port.bin', bytes(range(256)) * 1750)
        runs = self.read('program.runs').count('run')
        self.said()
        self.assertLessEqual(self.read('program.runs').count('run') - runs, 9)
        self.assertGreaterEqual(len(setup_trials.OF_ROWS), 60)
        runs = self.read('program.runs')
        self.run_tool('compare', 'ours.bin', 'port.bin', '--wad', 'made.wad', doomview=self.program)
        self.assertEqual(self.read('program.runs'), runs)

    def test_wrong(self):
        self.write('port.bin', bytes(64000 * 7))
        self.path('path.csv', ROWS[:3])
        words = ['compare', 'ours.bin', 'port.bin', '--path', 'path.csv']
        self.refuses('--path needs --map and --wad too', *words, ends=2)
        self.refuses('path.csv has 3 rows, and ours.bin 7 views; name the path of the run', *words, '--map', 'MAP01', '--wad',
                     'made.wad', ends=2)
        self.refuses('--skill is a word of the run whose path is named by --path FILE', *words[:3], '--skill', '3', ends=2)
        self.refuses('--map is the map of a list', *words[:3], '--map', 'MAP01', ends=2)


if __name__ == '__main__':
    unittest.main()
