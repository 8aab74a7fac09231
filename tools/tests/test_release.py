"""Tests the release: what is packed, and that it works alone, without the repository and without a kit.

Where DOOMVIEW_TESTED names the program that is built, the commands of README are run in the release too. There the program
is packed as it was built, but for the tests of the static one."""
import glob
import hashlib
import os
import re
import shutil
import subprocess
import sys
import tarfile
import unittest

from made_files import DRAWING, FRAME, TOOLS, TOP, Tools, pixels_of
from test_pages import anchors, read
from doomview_tools import installation
from systems import static

TESTED = os.environ.get('DOOMVIEW_TESTED', '')
HEADING = '## 2.1, 2026\n'
PLACES = ['README.md', 'CHANGELOG.md', 'doomview', 'doomview.cmd', 'out/doomview', 'bin/doomview', 'share/man/man1/doomview.1',
          'share/bash-completion/completions/doomview', 'docs/REFUSALS.md', 'docs/FREEDOOM.txt', 'docs/doomview.1', 'vectors/check',
          'tools/doomview_tools/__main__.py', 'tools/data/things.csv', 'tools/data/version', 'tools/original/build',
          'crates/doom_run/src/top.rt']


LICENCE = '/usr/share/common-licenses/LGPL-2.1'
# Kits of stand-ins: a linker that takes the program that is built, and one that makes what needs a loader.
KIT = '#!/bin/sh\ncase $1 in doc) echo "$(dirname "$0")/../kit/START-HERE.md" ;; *) echo kit logic 0123 ;; esac\n'
LINKER = '#!/bin/sh\nexec python3 -c "import shutil, sys; shutil.copy({program!r}, sys.argv[-1])" "$@"\n'
OBJECT = os.path.join(TOP, 'crates/doomview/out/doomview.o')


class Packing(Tools):
    """A clone, in which releases are packed and unpacked."""

    def setUp(self):
        super().setUp()
        self.clone()
        shutil.rmtree(self.at('clone/docs'))
        for page in ('README.md', 'doomview.cmd', 'docs', 'vectors', 'bench'):
            (shutil.copytree if os.path.isdir(os.path.join(TOP, page)) else shutil.copy)(
                os.path.join(TOP, page), self.at('clone', page))
        shutil.copy(os.path.join(TOOLS, 'original/still.c'), self.at('clone/tools/original'))
        shutil.rmtree(self.at('clone/crates/doomview'))
        for crate in os.listdir(os.path.join(TOP, 'crates')):
            os.symlink(os.path.join(TOP, 'crates', crate), self.at('clone/crates', crate))
        os.mkdir(self.at('clone/out'))
        if TESTED:
            shutil.copy(TESTED, self.at('clone/out/doomview'))
            os.utime(self.at('clone/out/doomview'))
        else:
            self.stand_in('clone/out/doomview', DRAWING)
            self.write('frame', FRAME)
        for name in ('still', 'still-mark-wide'):
            self.write(f'clone/tools/original/{name}', b'')
        self.known('2.1', HEADING)

    def known(self, version, changes):
        self.write('clone/CHANGELOG.md', b'# Changes\n\n' + changes.encode())
        self.write('clone/tools/data/version', f'version {version}\nlogic 0123\n'.encode())

    def pack(self, *words, **more):
        return self.run_command(self.at('clone/tools/release'), '--as-built', *words, doomview='', **more)

    def unpacked(self):
        """The folder of the release, unpacked where nothing else is."""
        path = self.pack()[1].decode().strip()
        os.mkdir(self.at('alone'))
        with tarfile.open(path) as tar:
            tar.extractall(self.at('alone'))
        shutil.rmtree(self.at('clone'))
        return self.at('alone/doomview-2.1')


class Release(Packing):
    def test_package(self):
        """The package has program, tools, manual and pages, and the same bytes each time."""
        status, output, error = self.pack()
        path = os.path.realpath(self.at('clone/out/doomview-2.1.tar.gz'))
        self.assertEqual((status, os.path.realpath(output.decode().strip()), error), (0, path, ''))
        with tarfile.open(path) as tar:
            names = tar.getnames()
            modes = [tar.getmember(f'doomview-2.1/{it}').mode
                     for it in ('doomview', 'out/doomview', 'README.md')]
        self.assertEqual(modes, [0o755, 0o755, 0o644])
        self.assertEqual([it for it in PLACES if f'doomview-2.1/{it}' not in names], [])
        odd = 'pycache|/still(-|$)|source$|tools/(tests|systems)/|portable|build.py|/(proofs|out)/.*[.]|crates.txt'
        self.assertEqual([name for name in names if re.search(odd, name)], [])
        with open(path, 'rb') as file:
            before = hashlib.sha256(file.read()).digest()
        os.utime(self.at('clone/README.md'), (1, 1))
        self.assertEqual(self.pack(self.folder)[0], 0)
        with open(self.at('doomview-2.1.tar.gz'), 'rb') as file:
            self.assertEqual(hashlib.sha256(file.read()).digest(), before)

    def test_versions(self):
        self.known('2.2', '## 2.2, not released yet\n')
        self.assertIn(b'doomview-2.2-unreleased.tar.gz', self.pack()[1])
        for version, changes in [('2.2', 'nothing\n'), ('2.3', '## 2.2\n')]:
            self.known(version, changes)
            status, output, error = self.pack()
            self.assertEqual((status, output), (2, b''))
            self.assertIn(f'the first heading of CHANGELOG.md is not that of version {version}', error)
        self.known('2.2', '## 2.2\n')
        self.assertIn('there is no folder absent', self.pack('absent')[2])
        self.assertNotEqual(self.pack('one', 'two')[0], 0)
        self.stand_in('bin/rt', '#!/bin/sh\necho kit logic 4567\n')
        self.assertIn('the kit here has logic 4567, and data/version says 0123', self.pack()[2])
        self.stand_in('bin/rt', '#!/bin/sh\necho kit logic 0123\n')
        self.assertEqual(self.pack()[0], 0)

    def test_pages_refused(self):
        """A page that has a comment, or a link to what is not packed, is refused, and nothing is written."""
        page = self.read('clone/docs/PORT.md').encode('latin-1')
        for more, said in [(b'<!-- later -->\n', 'a comment (<!--)'),
                           (b'[crates](../crates.txt)\n', 'a link to ../crates.txt, which is not packed')]:
            self.write('clone/docs/PORT.md', page + more)
            status, output, error = self.pack()
            self.assertEqual((status, output), (2, b''))
            self.assertIn(f'docs/PORT.md has {said}', error)
            self.assertEqual(os.listdir(self.at('clone/out')), ['doomview'])

    def test_links(self):
        """Each link of a page of the release leads to a file or folder, and to a heading where it names one."""
        folder, count = self.unpacked(), 0
        for page in glob.glob(os.path.join(folder, '**/*.md'), recursive=True):
            for link in re.findall(r'\]\(([^)]+)\)', read(page)):
                path, _, anchor = link.partition('#')
                if '://' in link:
                    continue
                to = os.path.join(os.path.dirname(page), path) if path else page
                self.assertTrue(os.path.exists(to), f'{page}: {link}')
                self.assertTrue(not anchor or anchor in anchors(to), f'{page}: {link}')
                count += 1
        self.assertGreater(count, 100)

    def test_not_built(self):
        """A program that cannot be built is not packed."""
        os.remove(self.at('clone/out/doomview'))
        status, output, error = self.pack()
        self.assertEqual((status, output), (70, b''))
        self.assertEqual(glob.glob(self.at('clone/out/*.gz')), [])

    def alone(self, folder, *words):
        """Status and outputs of the command of a release on a machine without a kit."""
        env = {'PATH': '/usr/bin:/bin', 'HOME': self.folder}
        if not shutil.which('python3', path=env['PATH']):
            env['PATH'] += ':' + os.path.dirname(sys.executable)
        done = subprocess.run([os.path.join(folder, 'doomview'), *words], cwd=self.folder, env=env,
                              stdin=subprocess.DEVNULL, capture_output=True)
        return done.returncode, done.stdout, done.stderr.decode()

    def test_alone(self):
        folder = self.unpacked()
        if not TESTED:
            self.write('alone/doomview-2.1/out/frame', FRAME)
        self.assertEqual(self.alone(folder, '--version'), (0, b'doomview 2.1\nlogic 0123\n', ''))
        status, output, error = self.alone(folder, '--help')
        self.assertEqual((status, error), (0, ''))
        manual = re.search('man -l (.*)', output.decode())[1]
        self.assertEqual(manual, os.path.join(folder, 'docs/doomview.1'))
        for place in ('bin/doomview', 'share/man/man1/doomview.1'):
            self.assertTrue(os.path.isfile(os.path.join(folder, place)), place)
        told = b'doomview: this is a release: the program is built already\n'
        self.assertEqual(self.alone(folder, '--build')[:2], (0, told))
        self.assertEqual(self.alone(folder, '--built'), (0, b'', ''))
        if shutil.which('man'):
            done = subprocess.run(['man', '-l', manual], capture_output=True, env={**os.environ, 'MANWIDTH': '80'})
            self.assertEqual((done.returncode, done.stderr), (0, b''))
            self.assertIn(b'DOOMVIEW(1)', done.stdout)
        self.assertEqual(self.alone(folder, 'picture', 'first.png'), (0, b'', ''))
        self.assertEqual(len(pixels_of(self.at('first.png'))), 192000)
        for words in (['room', '-o', 'room.wad'], ['places', 'room.wad', 'MAP01', '3', '-o', 'path.csv'],
                      ['render', 'MAP01', 'room.wad', '--path', 'path.csv', '-o', 'ours.bin'], ['maps', 'room.wad'],
                      ['render', '--help'], ['explain', 'doomview: refused 905 1'], ['picture', '--help']):
            status, _, error = self.alone(folder, *words)
            self.assertEqual((status, error.count('Traceback')), (0, 0), words)
        self.assertIn('explain: 905: a column', self.alone(folder, 'explain', 'doomview: refused 905 1')[2])

    @unittest.skipUnless(TESTED, 'the program is not built')
    def test_port(self):
        """A frame compared, and who painted a pixel."""
        folder = self.unpacked()
        for words in (['room', '-o', 'room.wad'], ['places', 'room.wad', 'MAP01', '3', '-o', 'path.csv'],
                      ['render', 'MAP01', 'room.wad', '--path', 'path.csv', '-o', 'ours.bin'],
                      ['trace', 'MAP01', 'room.wad', '--path', 'path.csv', '-o', 'trace.bin']):
            self.assertEqual(self.alone(folder, *words), (0, b'', ''))
        self.assertEqual(self.alone(folder, 'compare', 'ours.bin', 'ours.bin'),
                         (0, b'views 4 same 4 different 0 pixels 0\n', ''))
        self.assertRegex(self.alone(folder, 'pixel', '0', '77', '78', 'trace.bin', 'room.wad')[1],
                         b'^view 0 column 77 row 78: sprite 0, lump COLUA0, colour 163\n$')

    @unittest.skipUnless(TESTED, 'the program is not built')
    def test_pages(self):
        """The commands of README, in the release."""
        folder = self.unpacked()
        words = [os.path.join(TOOLS, 'check_pages'), '--command', os.path.join(folder, 'bin/doomview'), '--pages',
                 'README.md', '--', os.path.join(folder, 'out/doomview')]
        done = subprocess.run([sys.executable, '-B', *words], cwd=self.folder, capture_output=True, text=True)
        self.assertEqual(done.returncode, 0, done.stdout + done.stderr)


class Static(Packing):
    """The release whose program is linked statically, by a linker that is a stand-in."""

    def setUp(self):
        super().setUp()
        os.remove(self.at('clone/crates/doomview'))
        os.makedirs(self.at('clone/crates/doomview/out'))
        os.mkdir(self.at('kit'))
        os.mkdir(self.at('kit/c'))
        for place in ('kit/START-HERE.md', 'kit/c/libos_c.a', 'kit/c/liblibc_c.a', 'clone/crates/doomview/out/doomview.o'):
            self.write(place, place.encode())
        self.stand_in('bin/rt', KIT)
        self.stand_in('bin/getconf', '#!/bin/sh\necho glibc 9.9\n')

    def release(self, *words):
        return self.run_command(self.at('clone/tools/release'), *words, doomview='')

    def refused(self, said):
        status, output, error = self.release()
        self.assertEqual((status, output), (2, b''))
        self.assertIn(said, error)
        self.assertEqual(glob.glob(self.at('clone/out/*.gz')), [])

    def test_refused(self):
        self.refused('there is no command cc')
        self.stand_in('bin/cc', '#!/bin/sh\necho cannot find -lc >&2\nexit 1\n')
        self.refused('cannot find -lc')
        self.stand_in('bin/cc', '#!/bin/sh\nexec true\n')
        os.remove(self.at('kit/c/libos_c.a'))
        self.refused('the kit has no')
        os.remove(self.at('clone/crates/doomview/out/doomview.o'))
        self.refused('build the program first')
        os.remove(self.at('bin/rt'))
        self.refused('build the program first')
        self.assertEqual(self.release('--as-built')[0], 0)

    def test_loader(self):
        """A program that needs a loader is not packed, nor what is no program."""
        self.stand_in('bin/cc', LINKER.format(program='/bin/sh'))
        self.refused('made a program that needs a loader')
        self.stand_in('bin/cc', LINKER.format(program=self.at('bin/rt')))
        self.refused('wrote no ELF file')

    @unittest.skipUnless(TESTED and os.path.exists(OBJECT) and shutil.which('cc') and shutil.which('rt')
                         and os.path.exists(LICENCE), 'no object file is built, or there is no cc, rt or licence')
    def test_static(self):
        """The true program, of the object file of this checkout: it needs no loader, and runs with no variable set."""
        shutil.rmtree(self.at('clone/crates/doomview'))
        os.symlink(os.path.join(TOP, 'crates/doomview'), self.at('clone/crates/doomview'))
        self.write('clone/tools/data/version', f'version 2.1\nlogic {installation.version()["logic"]}\n'.encode())
        os.utime(self.at('clone/crates.txt'), (1, 1))
        status, output, error = self.run_command(self.at('clone/tools/release'), doomview='', PATH=os.environ['PATH'])
        self.assertEqual((status, error), (0, ''))
        with tarfile.open(output.decode().strip()) as tar:
            names = tar.getnames()
            tar.extractall(self.at('alone'))
        linked = [os.path.basename(name) for name in names if '/out/linked/' in name]
        self.assertEqual(sorted(linked), ['LGPL-2.1.txt', 'LINKED.txt', 'doomview.o', 'liblibc_c.a', 'libos_c.a'])
        program = self.at('alone/doomview-2.1/out/doomview')
        with open(program, 'rb') as file:
            self.assertFalse(static.needs_loader(file.read()))
        for words in (['exercise', '3'], ['make', 'wad', '2'], ['render']):
            runs = [subprocess.run([path, *words], env={}, capture_output=True) for path in (program, TESTED)]
            self.assertEqual(*[(run.returncode, run.stdout, run.stderr) for run in runs])


if __name__ == '__main__':
    unittest.main()
