"""Tests draw-all over camera paths, with a stand-in for the program that draws of each row a frame of one colour."""
import os
import pty
import signal
import subprocess
import sys
import time
import unittest

from made_files import COMMAND, Tools, made_wad
from test_command import heed_interrupts

# Draws of each row a frame of the colour that x is; ends at a row whose x is 200 or more, which is over a limit, and with
# a refusal at one whose x is below 0. With SLOW it draws some frames and a part of one, and waits.
PROGRAM = f'''#!{sys.executable}
import os, sys, time
words = sys.argv[1:]
open(sys.argv[0] + '.words', 'a').write(' '.join(words[words.index('render'):]) + '\\n')
rows = [line.split(',') for line in open(words[words.index('--path') + 1]).read().splitlines()[1:]]
slow = int(os.environ.get('SLOW', 0))
for view, row in enumerate(rows):
    if int(row[0]) >= 200:
        print(f'doomview: limit view {{view}} planes {{row[0]}}', file=sys.stderr)
        sys.exit(5)
    if int(row[0]) < 0:
        print('doomview: refused 901 3', file=sys.stderr)
        sys.exit(2)
    if slow and view == slow:
        os.write(1, b'part')
        time.sleep(60)
    os.write(1, bytes([int(row[0])]) * 64000)
'''
# Runs each line, as GNU parallel does.
PARALLEL = '''#!/bin/sh
if [ "$1" = --version ]; then echo 'GNU parallel 1'; exit; fi
echo "$@" >>"$CALLS"
while read -r line || [ -n "$line" ]; do
    [ -n "$SKIPS" ] || sh -c "$line" >>"$CALLS"
done
'''


class Paths(Tools):
    def setUp(self):
        super().setUp()
        self.program = self.stand_in('program', PROGRAM)
        os.mkdir(self.at('paths'))
        self.path('MAP01.csv', 1, 2, 3)
        self.path('MAP02-far.csv', 4, 5)

    def path(self, name, *xs):
        self.write(f'paths/{name}', ('x,y,z,angle\n' + ''.join(f'{x},0,0,0\n' for x in xs)).encode())

    def draw(self, *words, **more):
        return self.run_tool('draw-all', 'made.wad', 'out', '--paths', 'paths', *words, doomview=self.program, **more)

    def frames(self, name):
        """The colour of each frame of a path."""
        with open(self.at('out', name), 'rb') as file:
            data = file.read()
        self.assertEqual(len(data) % 64000, 0)
        found = [data[at:at + 64000] for at in range(0, len(data), 64000)]
        self.assertTrue(all(len(set(frame)) == 1 for frame in found))
        return [frame[0] for frame in found]

    def words(self):
        """The words of each run since the last call."""
        found = self.read('program.words').splitlines() if os.path.exists(self.at('program.words')) else []
        self.write('program.words', b'')
        return found

    def test_paths(self):
        self.assertEqual(self.draw('--skill', '4'), (0, b'paths 2 views 5 over a limit 0 drawn before 0\n', ''))
        self.assertEqual((self.frames('MAP01.bin'), self.frames('MAP02-far.bin')), ([1, 2, 3], [4, 5]))
        self.assertEqual(sorted(os.listdir(self.at('out'))), ['MAP01.bin', 'MAP01.drawn', 'MAP02-far.bin', 'MAP02-far.drawn',
                                                              'drawn.csv'])
        self.assertEqual(self.read('out/drawn.csv'), 'path,map,views,over,views over a limit\nMAP01,MAP01,3,0,\nMAP02-far,MAP02,2,0,\n')
        words = sorted(self.words())
        self.assertEqual(len(words), 2)
        self.assertRegex(words[0], '^render --tables .* MAP01 .*made.wad --path .* --skill 4$')
        self.assertRegex(words[1], ' MAP02 ')

    def test_views_over_a_limit(self):
        """Views behind one over a limit are drawn, two of them in a row too; they are marked, and the status says it."""
        self.path('MAP01.csv', 201, 7, 250, 260, 8)
        status, output, error = self.draw()
        self.assertEqual((status, error), (1, ''))
        self.assertEqual(output.decode().splitlines(), ['MAP01 views 5 over 3: 0 planes 201; 2 planes 250; 3 planes 260',
                                                        'paths 2 views 7 over a limit 3 drawn before 0'])
        self.assertEqual(self.frames('MAP01.bin'), [0, 7, 0, 0, 8])
        self.assertIn('\nMAP01,MAP01,5,3,0 planes 201; 2 planes 250; 3 planes 260\n', self.read('out/drawn.csv'))
        self.path('MAP01.csv', 1, 200)
        self.assertEqual((self.draw()[0], self.frames('MAP01.bin')), (1, [1, 0]))

    def test_again(self):
        """What is drawn and whole is left; what is of another path or other words, or is cut, is drawn anew."""
        self.draw()
        self.words()
        self.assertEqual(self.draw(), (0, b'paths 2 views 5 over a limit 0 drawn before 5\n', ''))
        self.assertEqual(self.words(), [])
        self.path('MAP01.csv', 1, 2, 9)
        self.assertEqual(self.draw()[1], b'paths 2 views 5 over a limit 0 drawn before 2\n')
        self.assertEqual((self.frames('MAP01.bin'), len(self.words())), ([1, 2, 9], 1))
        os.truncate(self.at('out/MAP02-far.bin'), 64000)
        self.assertEqual(self.draw()[1], b'paths 2 views 5 over a limit 0 drawn before 3\n')
        self.assertEqual((self.frames('MAP02-far.bin'), len(self.words())), ([4, 5], 1))
        self.assertEqual(self.draw('--skill', '2')[1], b'paths 2 views 5 over a limit 0 drawn before 0\n')
        self.write('made.wad', made_wad() + b'more')
        self.assertEqual(self.draw('--skill', '2')[1], b'paths 2 views 5 over a limit 0 drawn before 0\n')

    def test_interrupted(self):
        """A call that is ended ends its runs, and goes on in the middle of a path, behind its whole frames."""
        for number in (signal.SIGINT, signal.SIGTERM):
            self.path('MAP01.csv', 200, *range(1, 20))
            env = self.surroundings(doomview=self.program, SLOW='7')
            words = [COMMAND, 'draw-all', 'made.wad', f'out{number}', '--paths', 'paths/MAP01.csv']
            run = subprocess.Popen(words, cwd=self.folder, env=env, stdout=subprocess.PIPE, stderr=subprocess.PIPE,
                                   preexec_fn=heed_interrupts)
            part = self.at(f'out{number}', '.MAP01.bin.part')
            for _ in range(500):
                if os.path.exists(part) and os.path.getsize(part) == 64000 * 8 + 4:
                    break
                time.sleep(0.02)
            begun = time.monotonic()
            run.send_signal(number)
            self.assertEqual((run.communicate(), run.returncode), ((b'', b''), 128 + number))
            self.assertLess(time.monotonic() - begun, 20)
            self.words()
            done = self.run_command(*words, doomview=self.program)
            self.assertEqual(done, (1, b'MAP01 views 20 over 1: 0 planes 200\npaths 1 views 20 over a limit 1 drawn before 0\n', ''))
            self.assertEqual(len(self.words()), 1)
            os.rename(self.at(f'out{number}'), self.at('out'))
            self.assertEqual(self.frames('MAP01.bin'), list(range(20)))
            self.assertEqual([name for name in os.listdir(self.at('out')) if 'part' in name], [])
            os.rename(self.at('out'), self.at(f'gone{number}'))

    def test_troubles(self):
        """A path that cannot be drawn is told, and the others are drawn."""
        self.path('MAP01.csv', 1, -1, 2)
        status, output, error = self.draw()
        self.assertEqual((status, output), (1, b'paths 1 views 2 over a limit 0 drawn before 0\n'))
        self.assertEqual(error, 'doomview draw-all: MAP01: doomview: refused 901 3\n')
        self.assertEqual(self.frames('MAP02-far.bin'), [4, 5])
        self.write('paths/MAP01.csv', b'no path\n')
        self.refuses('MAP01.csv is no camera path', 'draw-all', 'made.wad', 'out', '--paths', 'paths', doomview=self.program, ends=2)
        self.path('MAP77.csv', 1)
        self.refuses('paths/MAP77.csv is named after no map of the WAD', 'draw-all', 'made.wad', 'out', '--paths', 'paths',
                     doomview=self.program, ends=2)
        os.mkdir(self.at('none'))
        for place in ('none', 'absent'):
            self.refuses(f'{place} has no camera paths; their names are those of maps', 'draw-all', 'made.wad', 'out', '--paths',
                         place, doomview=self.program, ends=2)

    def test_machines(self):
        """On other machines each path is drawn by a call of its own, and GNU parallel keeps a log of these."""
        self.stand_in('bin/parallel', PARALLEL)
        words = ['--machines', '8/one', '--jobs', '2', '--skill', '4']
        self.assertEqual(self.draw(*words, CALLS=self.at('calls')), (0, b'paths 2 views 5 over a limit 0 drawn before 5\n', ''))
        self.assertEqual(self.frames('MAP02-far.bin'), [4, 5])
        call, *said = self.read('calls').splitlines()
        self.assertRegex(call, '^--jobs 2 --sshlogin 8/one --joblog out/parallel-[0-9a-f]{16}.log --resume$')
        self.assertEqual(said, ['paths 1 views 3 over a limit 0 drawn before 0', 'paths 1 views 2 over a limit 0 drawn before 0'])
        self.assertIn('MAP01,MAP01,3,0,', self.read('out/drawn.csv'))
        self.path('MAP01.csv', 9)
        status, output, error = self.draw(*words, CALLS=self.at('calls'), SKIPS='1')
        self.assertEqual((status, output), (1, b'paths 1 views 2 over a limit 0 drawn before 2\n'))
        self.assertEqual(error, 'doomview draw-all: MAP01: it is not drawn; what its machine said says why\n')

    def test_progress(self):
        """A terminal shows how far it is."""
        main, other = pty.openpty()
        run = subprocess.Popen([COMMAND, 'draw-all', 'made.wad', 'out', '--paths', 'paths'], cwd=self.folder, stderr=other,
                               stdout=subprocess.PIPE, env=self.surroundings(doomview=self.program))
        run.communicate()
        os.close(other)
        shown = os.read(main, 10000).decode()
        os.close(main)
        self.assertRegex(shown, r'\r5 of 5 views, 0 s left\s*\r')


if __name__ == '__main__':
    unittest.main()
