"""Tests what the command says of words and of files that are accepted and may be a mistake, with a stand-in for the
program; and places as editors show them."""
import os
import shutil
import unittest

from made_files import COMMAND, Tools, made_wad
from test_command import LEVEL, Command
from doomview_tools import call_words, job_options, word_checks

PATH = 'x,y,z,angle\n'
UNIT, QUARTER = 65536, 1 << 30
ENDING = '''#!/bin/sh
echo "$@" >>"$WORDS"
echo written
echo "doomview: $SAID" >&2
exit $ENDS
'''


class Why(Tools):
    """Where a job fails, sentences say why, after one run."""

    def setUp(self):
        super().setUp()
        self.program = self.stand_in('program', ENDING)
        for place in ('tables.bin', 'things.csv'):
            self.write(place, b'')
        self.write('path.csv', f'{PATH}{64 * UNIT},0,{65 * UNIT},{QUARTER}\n'.encode())
        self.words = [*LEVEL, '--tables', 'tables.bin', '--things', 'things.csv']

    def ends(self, line, status, *words, ended=None):
        """The sentences behind the line of a run that ends so; the command ends so too, or with another status."""
        more = {'SAID': line, 'ENDS': str(status), 'WORDS': self.at('words')}
        done = self.run_command(COMMAND, *words, doomview=self.program, **more)
        self.assertEqual(done[:2], (ended or status, b'' if '-o' in words else b'written\n'))
        self.assertEqual(len(self.read('words').splitlines()), 1)
        os.remove(self.at('words'))
        first, *said = done[2].splitlines()
        self.assertEqual(first, f'doomview: {line}')
        return said

    def test_statuses(self):
        """Each status but 0 has its sentence, with no second run, also where the output goes into a file."""
        for line, status, part in [('usage', 1, 'audit takes no --format'),
                                   ('refused 901 0', 2, '901: '),
                                   ('read fault', 3, 'absent.csv cannot be read: No such file'),
                                   ('write fault', 4, 'the output could not be written'),
                                   ('limit view 0 planes 129', 5, 'view 0, row 1 under the header of the path '
                                    '(x 64 y 0 eye 65 angle 90, row 4194304,0,4259840,1073741824), needs more than 128'),
                                   ('zone full wanted 8 widest 4', 6, 'the zone is too small'),
                                   ('out of memory', 7, 'memory ran out')]:
            words = ['audit' if status == 1 else 'render', *self.words]
            words += ['--format', 'ppm'] if status == 1 else ['--weapon', 'absent.csv'] if status == 3 else []
            for more in ([], ['-o', 'out']):
                said = self.ends(line, status, *words, *more)
                self.assertTrue(said and said[0].startswith(f'explain: {part}'), f'{part}: {said}')

    def test_no_remarks(self):
        """What is no cause of the failure is left to explain."""
        self.assertEqual(len(self.ends('refused 605 0', 2, 'render', *self.words)), 1)

    def test_unknown(self):
        """A word that is near to one is named."""
        for word, part in [('rendr', 'there is no job or tool rendr; did you mean render?'),
                           ('compair', 'there is no job or tool compair; did you mean compare?'),
                           ('xyz', 'there is no job or tool xyz; doomview --help has them all')]:
            self.assertEqual(self.ends('usage', 1, word, 'it', ended=64), [f'explain: {part}'])
        said = self.ends('usage', 1, 'render', *self.words[:2], '--pth', 'path.csv')
        self.assertEqual(said[0], 'explain: render takes no --pth; did you mean --path?')
        self.refuses('unrecognized arguments: --trcae x; did you mean --trace?; doomview compare --help', 'compare', 'a',
                     'b', '--trcae', 'x')
        self.assertEqual(word_checks.guess('--skil', job_options.options()), '; did you mean --skill?')

    def test_not_built(self):
        """Where nothing is built an unknown word builds nothing, and is answered too."""
        status, _, error = self.run_command(self.clone(), 'rendr', doomview='')
        self.assertEqual(status, 64)
        self.assertTrue(error.startswith('doomview: usage\n'))
        self.assertTrue(error.endswith('explain: there is no job or tool rendr; did you mean render?\n'))


class Orders(Command):
    def test_jobs(self):
        """A map and its WADs in either order, where the words tell."""
        self.write('mine.wad', b'PWAD' + made_wad()[4:])
        for words, found in [(['made.wad', 'MAP01'], ['MAP01', 'made.wad']),
                             (['made.wad', 'MAP01', 'mine.wad'], ['MAP01', 'made.wad', 'mine.wad']),
                             (['made.wad', 'mine.wad', 'TITLE'], ['TITLE', 'made.wad', 'mine.wad']),
                             (['MAP01', 'made.wad'], ['MAP01', 'made.wad']),
                             (['made.wad', 'mine.wad'], ['made.wad', 'mine.wad']),
                             (['a', 'b'], ['a', 'b'])]:
            self.assertEqual(self.hands_on('audit', *words, '--path=p')[5:], [*found, '--path=p'])
        self.assertEqual(self.hands_on('flat', 'made.wad', 'FLAT1'), ['flat', 'FLAT1', 'made.wad'])
        self.assertEqual(self.runs('render', 'made.wad', '--path', 'p', 'MAP01', '-o', 'out'), (0, b'', ''))
        self.assertEqual(self.words()[-4:], ['MAP01', '--path', 'p', 'made.wad'])
        self.write('MAP01', b'')
        self.assertEqual(self.hands_on('audit', 'made.wad', 'MAP01', '--path=p')[5:7], ['MAP01', 'made.wad'])

    def test_spans(self):
        """The same words serve render, trace and list; of other jobs --spans is no option."""
        for job in ('render', 'trace', 'list'):
            self.assertEqual(self.hands_on(job, *LEVEL, '--spans', 'packed')[-2:], ['--spans', 'packed'])
            words = [job, *LEVEL, '--tables', 't', '--things', 't', '--spans', 'packed']
            self.assertEqual(word_checks.wrong_words(call_words.Words(words)), [])
        self.assertEqual(word_checks.wrong_words(call_words.Words(['limits', *LEVEL, '--spans', 'full']))[0].partition(';')[0],
                         'limits takes no --spans')

    def test_tools(self):
        for words in (['places'], ['turn'], ['path', '--at', '0,0,0']):
            both = [self.runs(*words, *order)[:2] for order in (['made.wad', 'MAP01'], ['MAP01', 'made.wad'])]
            self.assertEqual(both[0], both[1])
            self.assertEqual(both[0][0], 0)

    def test_help(self):
        """help JOB and help TOOL are the pages; help alone is the overview."""
        for name in ('render', 'compare'):
            self.assertEqual(self.runs('help', name), self.runs(name, '--help'))
        self.assertEqual(self.runs('help'), self.runs('--help'))
        self.assertEqual(self.runs('help', 'rendr'),
                         (64, b'', 'doomview: there is no job or tool rendr; did you mean render?\n'))


class Warnings(Command):
    def warned(self, rows, *wads):
        self.write('path.csv', (PATH + ''.join(','.join(map(str, row)) + '\n' for row in rows)).encode())
        status, _, error = self.runs('render', 'MAP01', *(wads or ['made.wad']), '--path', 'path.csv')
        self.assertEqual(status, 0)
        return error.splitlines()

    def test_paths(self):
        """Map units in the place of 16.16, degrees in that of BAMs, and z at the feet. The floors are at 24 and -8."""
        east, west = (100 * UNIT, 0, 65 * UNIT, QUARTER), (-100 * UNIT, 0, 33 * UNIT, 0)
        self.assertEqual(self.warned([east, west]), [])
        self.assertEqual(self.warned([(0, 0, 65 * UNIT, 0)]), [])
        self.assertEqual(self.warned([(100, 0, 65, 0), (-100, 50, 33, 0)]), [
            'doomview: warning: all x and y of path.csv are within one map unit of 0: they are 16.16, 65536 a map unit. '
            'doomview path writes rows of numbers as an editor shows them'])
        self.assertEqual(self.warned([(*east[:3], 90), (*west[:3], 360)]), [
            'doomview: warning: all angles of path.csv are less than 361: they are BAMs, 2^32 a turn, and no degrees. '
            'doomview path writes rows of degrees'])
        self.assertEqual(len(self.warned([(100, 0, 65, 90)])), 2)
        on_floor = [(*east[:2], 24 * UNIT, 0), (*west[:2], -8 * UNIT, 0)]
        self.assertEqual(self.warned(on_floor), [
            'doomview: warning: all eyes of path.csv are on the floor: z is the height of the eye, 41 units above the feet '
            'of a player who stands'])
        self.assertEqual(self.warned([*on_floor, east]), [])

    def test_iwad(self):
        """An IWAD behind its PWAD; explain says it too."""
        self.write('mine.wad', b'PWAD' + made_wad()[4:])
        row = (100 * UNIT, 0, 65 * UNIT, 0)
        self.write('other.wad', made_wad())
        for wads in (['made.wad', 'mine.wad'], ['made.wad', 'other.wad']):
            self.assertEqual(self.warned([row], *wads), [])
        said = self.warned([row], 'mine.wad', 'made.wad')
        self.assertEqual(len(said), 1)
        self.assertTrue(said[0].startswith('doomview: warning: made.wad is an IWAD and comes behind mine.wad'))
        self.assertIn('explain: made.wad is an IWAD and comes behind mine.wad',
                      self.runs('explain', 'render', 'MAP01', 'mine.wad', 'made.wad', '--path', 'path.csv')[2])


class Places(Tools):
    def row(self, *places):
        words = [part for place in places for part in ('--at', place)]
        status, output, error = self.run_tool('path', 'made.wad', 'MAP01', *words)
        self.assertEqual((status, error), (0, ''))
        return [tuple(map(int, line.split(','))) for line in output.decode().splitlines()[1:]]

    def test_path(self):
        """Places as an editor shows them: the eye 41 above the floor, or at a height; and the line of idmypos."""
        self.assertEqual(self.row('100,-2.5,90'), [(100 * UNIT, -2 * UNIT - UNIT // 2, 65 * UNIT, QUARTER)])
        self.assertEqual(self.row('-100,0,-90,7.25', '1,1,0,0'),
                         [(-100 * UNIT, 0, 7 * UNIT + UNIT // 4, 3 * QUARTER), (UNIT, UNIT, 0, 0)])
        self.assertEqual(self.row('ang=0x40000000;x,y=(0xff9c0000,0x8000)'),
                         [(-100 * UNIT, UNIT // 2, 33 * UNIT, QUARTER)])
        for place in ('1,2', '1,2,x', '99999,0,0', 'nan,0,0', '1,2,3,4,5', 'ang=0x1;x,y=(0x1,0x100000000)'):
            self.refuses(f'{place} is no place: X,Y,DEGREES or X,Y,DEGREES,Z in map units', 'path', 'made.wad', 'MAP01',
                         '--at', place)
        self.refuses('the following arguments are required: --at', 'path', 'made.wad', 'MAP01')

    def test_picture(self):
        """picture --at draws another place than the start."""
        program = self.stand_in('drawing', '''#!/bin/sh
while [ "$1" != --path ]; do shift; done
cat "$2" >"$(dirname "$0")/rows"
printf 'P6\\n320 200\\n255\\n'
head -c 192000 /dev/zero
''')
        os.symlink(shutil.which('head'), self.at('bin', 'head'))
        done = self.run_tool('picture', 'made.wad', 'MAP01', 'out.png', '--at', '-100,0,180', doomview=program)
        self.assertEqual(done, (0, b'', ''))
        self.assertEqual(self.read('rows').splitlines()[1:], [f'{-100 * UNIT},0,{33 * UNIT},{2 * QUARTER}'])
        self.refuses('x is no place', 'picture', 'made.wad', 'MAP01', 'out.png', '--at', 'x', doomview=program)

    def test_said(self):
        """limits --places and pixel --path say where a view is in both forms."""
        self.write('path.csv', f'{PATH}{100 * UNIT},0,{65 * UNIT},{QUARTER}\n0,{UNIT // 2},0,0\n'.encode())
        told = [f'x 100 y 0 eye 65 angle 90, row {100 * UNIT},0,{65 * UNIT},{QUARTER}', 'x 0 y 0.5 eye 0 angle 0, row '
                f'0,{UNIT // 2},0,0']
        program = self.stand_in('limits', '#!/bin/sh\necho view 0 planes 1\necho view 1 over planes 129\n')
        words = ['limits', 'made.wad', 'MAP01', '--places', '--path', 'path.csv']
        lines = f'view 0 planes 1; {told[0]}\nview 1 over planes 129; {told[1]}\n'
        for order in (words, ['--places', *words[:3], *words[4:]]):
            self.assertEqual(self.run_tool(*order, doomview=program), (0, lines.encode(), ''))
        self.assertEqual(self.run_tool(*words, '-o', 'out', doomview=program), (0, b'', ''))
        self.assertEqual(self.read('out'), lines)
        self.write('trace.bin', bytes(2 * 512000))
        done = self.run_tool('pixel', '1', '0', '0', 'trace.bin', '--path', 'path.csv')
        self.assertEqual(done, (0, f'view 1 column 0 row 0: nothing, colour 0\nview 1: {told[1]}\n'.encode(), ''))
        self.write('trace.bin', bytes(512000))
        self.refuses('path.csv has 2 rows, and trace.bin 1 views', 'pixel', '0', '0', '0', 'trace.bin', '--path', 'path.csv')


if __name__ == '__main__':
    unittest.main()
