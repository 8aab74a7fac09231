"""Tests the jobs of docs/CI.md: their steps, run in a shell from an unpacked release, end green, and red where they have to.

doomview itself is the port, and leaves out a lamp where it is to be wrong."""
import os
import re
import shutil
import struct
import subprocess
import unittest

from made_files import TOP
from test_release import TESTED, Packing
from doomview_tools import levels, wads

FREEDOOM = '/usr/share/games/doom/freedoom2.wad'
MISTAKE = 'NOTHERE'  # a texture that is in no list
PORT = '''#!/bin/sh
exec doomview/doomview render "$2" "$1" --path "$3" -o "$4" --skill {skill} --size "$8" ${{10:+--weapon "${{10}}"}} \\
    --spans packed
'''


def page():
    with open(os.path.join(TOP, 'docs', 'CI.md'), encoding='utf-8') as file:
        return file.read()


def job(name):
    """The variables of a job and the lines of its steps, each a name, its condition and a script."""
    text = next(block for block in re.findall(r'^```yaml\n(.*?)^```', page(), re.M | re.S) if f'name: {name}\n' in block)
    variables = dict(re.findall(r'^      ([A-Z]+): (\S.*)$', text, re.M))
    steps = re.findall(r'^      - name: ([^\n]*)\n(?:        if: ([^\n]*)\n)?        run: \|\n((?:          [^\n]*\n)+)', text, re.M)
    return variables, [(head, condition, re.sub(r'^ {10}', '', script, flags=re.M)) for head, condition, script in steps]


@unittest.skipUnless(TESTED, 'the program is not built')
class Pipeline(Packing):
    def setUp(self):
        super().setUp()
        shutil.copy(self.pack()[1].decode().strip(), self.at('doomview-2.1.tar.gz'))
        shutil.rmtree(self.at('clone'))

    def run_job(self, name, some=(), **others):
        """The name of the step at which a job ends red, or None; what follows a failure alone is run then. `some` are
        words of a step and what takes their place, so that it is not run over all maps."""
        variables, steps = job(name)
        env = {'PATH': os.environ['PATH'], 'HOME': self.folder, 'XDG_CACHE_HOME': self.at('cache'), **variables,
               'RELEASE': 'doomview-2.1.tar.gz', **others}
        self.assertEqual(variables['RELEASE'], f'doomview-{self.version()}.tar.gz')
        red = None
        for head, condition, script in steps:
            if condition and (condition == 'failure()') != bool(red) or red and not condition:
                continue
            script = re.sub(r'^sudo .*$', '', script, flags=re.M)
            for words, others_of in some:
                script = script.replace(words, others_of)
            done = subprocess.run(['bash', '-e', '-c', script], cwd=self.folder, env=env, stdin=subprocess.DEVNULL,
                                  capture_output=True, text=True)
            self.said = done.stdout + done.stderr
            if done.returncode:
                self.assertEqual(done.returncode, 1, f'{head}: {self.said}')
                self.assertIsNone(red, self.said)
                red = head
        return red

    def version(self):
        """The version that the page names, which is that of the file data/version."""
        with open(os.path.join(TOP, 'tools/data/version'), encoding='utf-8') as file:
            return re.search(r'version (\S+)', file.read())[1]

    @unittest.skipUnless(os.path.exists(FREEDOOM), 'Freedoom is not installed')
    def test_port(self):
        some = [('freedoom1.wad freedoom2.wad -- --spans packed', 'freedoom2.wad -- --spans packed --maps MAP01,MAP26')]
        self.assertIn(some[0][0], job('frames')[1][1][2])
        self.stand_in('port-views', PORT.format(skill='"$6"'))
        self.assertIsNone(self.run_job('frames', some), getattr(self, 'said', ''))
        self.assertEqual(sorted(os.listdir(self.at('reports'))), ['freedoom2.json', 'freedoom2.xml'])
        self.stand_in('port-views', PORT.format(skill='1'))
        self.assertEqual(self.run_job('frames', some), 'frames are right')
        self.assertIn('thing 66 of type 3004 at 416,176', self.said)
        for name in ('explained.html', 'explained.txt'):
            self.assertTrue(os.path.getsize(self.at('work', name)))

    def made_map(self, mistake):
        """A small map, in whose first wall a texture may be in no list."""
        env = {'PATH': os.environ['PATH'], 'HOME': self.folder}
        subprocess.run([os.path.join(TOP, 'doomview'), 'room', '-o', 'mymap.wad'], cwd=self.folder, env=env, check=True)
        if mistake:
            lumps = [[name, bytearray(data)] for name, data in wads.read(self.at('mymap.wad'))]
            sides = next(data for name, data in lumps if name == 'SIDEDEFS')
            struct.pack_into('8s', sides, 20, MISTAKE.encode())
            self.write('mymap.wad', wads.wad_of(lumps))
            self.assertEqual(levels.read([self.at('mymap.wad')], 'MAP01').sides[0].middle, MISTAKE)

    def test_map(self):
        for mistake, red in ((False, None), (True, 'no mistakes')):
            self.made_map(mistake)
            self.assertEqual(self.run_job('map', IWAD=''), red, getattr(self, 'said', ''))
        self.assertIn(MISTAKE, self.said)
        self.made_map(False)
        steps = job('map')[1]
        self.assertEqual([head for head, *_ in steps], ['doomview and Freedoom', 'no mistakes', 'no view over a limit'])

    def test_limit(self):
        """A map that comes to a limit ends red: here one of as many planes as a view of the room has."""
        self.made_map(False)
        self.assertIsNone(self.run_job('map', IWAD=''))
        with open(self.at('limits.json'), encoding='utf-8') as file:
            self.assertIn('"over": false', file.read())


class Steps(unittest.TestCase):
    def test_container(self):
        """The recipe of the image takes the release of this version, and puts its command in PATH."""
        with open(os.path.join(TOP, 'docs', 'Containerfile'), encoding='utf-8') as file:
            text = file.read()
        with open(os.path.join(TOP, 'tools/data/version'), encoding='utf-8') as file:
            named = 'doomview-' + re.search(r'version (\S+)', file.read())[1]
        file, folder = re.search(r'^ADD (\S+) (\S+)$', text, re.M).groups()
        self.assertEqual(file, f'{named}.tar.gz')
        self.assertIn(f'PATH={folder}/{named}/bin:', text)


if __name__ == '__main__':
    unittest.main()
