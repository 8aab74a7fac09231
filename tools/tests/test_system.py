"""Tests that the command works on a system that lacks what Windows lacks: some signals, and the count of processors."""
import os
import subprocess
import sys
import unittest

from made_files import DOOMVIEW, DRAWING, FRAME, TOOLS, Tools, pixels_of

# The command in a Python without them; Windows itself is not here.
LACKING = '''import os, runpy, signal, sys
for name in ('SIGHUP', 'SIGPIPE', 'SIGXFSZ', 'SIGALRM', 'SIGUSR1'):
    delattr(signal, name)
del os.sched_getaffinity
sys.argv[0] = %r
sys.path.insert(0, os.path.dirname(sys.argv[0]))
runpy.run_path(sys.argv[0], run_name='__main__')
'''

# The command where the path has the library alone, in the order in which that package has it.
EMBEDDED = '''import os, runpy, sys
library = os.path.dirname(os.__file__)
sys.path[:] = [library, os.path.join(library, 'lib-dynload')]
for name in [name for name in sys.modules if name.split('.')[0] in ('argparse', 'tempfile', 'json', 'csv', 'zlib')]:
    del sys.modules[name]
script, sys.argv = %r, %r
runpy.run_path(script, run_name='__main__')
'''


class System(Tools):
    def lacking(self, *words, **more):
        """Status and outputs of the command there."""
        script = LACKING % os.path.join(TOOLS, 'doomview_tools', '__main__.py')
        done = subprocess.run([sys.executable, '-B', '-c', script, *words], cwd=self.folder, stdin=subprocess.DEVNULL,
                              capture_output=True, env=self.surroundings(**more))
        return done.returncode, done.stdout.decode(errors='replace'), done.stderr.decode()

    def test_tools(self):
        for words in (['--help'], ['render', '--help'], ['limits-map', '--help'], ['draw-all', '--help'],
                      ['vectors', '--help'], ['compare', '--help']):
            status, output, error = self.lacking(*words)
            self.assertEqual((status, error), (0, ''), words)
            self.assertIn('usage: doomview', output)
        self.assertEqual(self.lacking('maps', self.wad)[:2], (0, 'MAP01\nMAP02\nMAP03\nMAP04\nMAP07\n'))
        self.assertEqual(self.lacking('places', self.wad, 'MAP01', '3', '-o', 'path.csv'), (0, '', ''))
        self.assertEqual(self.read('path.csv').count('\n'), 5)

    def test_embedded(self):
        """The package of Python for Windows that needs no installation has its library first in the path, and no folder of
        the script."""
        script = os.path.join(TOOLS, 'doomview_tools', '__main__.py')
        for words, output in ((['maps', self.wad], b'MAP01\nMAP02\nMAP03\nMAP04\nMAP07\n'), (['--version'], b'doomview ')):
            code = EMBEDDED % (script, [script, *words])
            done = subprocess.run([sys.executable, '-I', '-B', '-c', code], cwd=self.folder, env=self.surroundings(), capture_output=True)
            self.assertEqual((done.returncode, done.stderr), (0, b''))
            self.assertTrue(done.stdout.startswith(output))

    def test_program(self):
        """The program is run to its end, its files are found, and its status is kept."""
        program = self.stand_in('doomview', DOOMVIEW)
        self.write('path.csv', b'x,y,z,angle\n')
        words = ['audit', 'MAP01', self.wad, '--path', 'path.csv']
        self.assertEqual(self.lacking(*words, doomview=program), (0, 'accepted enough 1 roomy 2\n', ''))
        status, output, error = self.lacking('audit', 'MAP02', self.wad, '--path', 'path.csv', doomview=program)
        self.assertEqual((status, output), (2, ''))
        self.assertIn('doomview: refused 901 3', error)
        self.assertEqual(self.lacking('audit', 'MAP01', 'absent.wad', '--path', 'path.csv', doomview=program)[0], 0)
        self.write('frame', FRAME)
        drawing = self.stand_in('drawing', DRAWING)
        self.assertEqual(self.lacking('picture', self.wad, 'out.png', doomview=drawing), (0, '', ''))
        self.assertEqual(len(pixels_of(self.at('out.png'))), 192000)


if __name__ == '__main__':
    unittest.main()
