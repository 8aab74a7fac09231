"""Tests the vectors: `doomview vectors` with stand-ins for the programs on a made room; and where Freedoom, the original
or the program that DOOMVIEW_TESTED names are there, the files of the repository."""
import hashlib
import os
import shutil
import subprocess
import sys
import tempfile
import unittest

import pages_shown
from made_files import TOP, Tools, wad
from doomview_tools import beside_vectors, original, vectors, vectors_map, wads, weapons
from test_original import DOOMVIEW

# Draws what the stand-in for doomview does, but view 1 of many without zeros behind memory, and with packed spans
# another colour; ends view 3 of many.
STILL = '''#!PYTHON
import sys
word = dict(zip(sys.argv[1:], sys.argv[2:]))
rows = open(word['-path']).read().splitlines()[1:]
with open(word['-out'], 'wb') as out, open(word['-counts'], 'w') as counts:
    for k, row in enumerate(rows):
        is_other = '-dosspan' in sys.argv or len(rows) > 3 and k == 1 and '-zerotail' not in sys.argv
        out.write(bytes([(sum(map(ord, row)) + is_other) % 251]) * 64000)
        is_ended = len(rows) > 3 and k == 3
        counts.write(f'view {k} error R_FindPlane\\n' if is_ended else f'view {k} planes 1 openings 2\\n')
'''
CHECK, CI = (os.path.join(TOP, 'vectors', name) for name in ('check', 'ci'))
TESTED = os.environ.get('DOOMVIEW_TESTED', '')
GAMES = {'freedoom1': ['E1M1', 'E4M2'], 'freedoom2': ['MAP01', 'MAP26']}
# Files of vectors, and maps to draw again.
FREEDOOM = {game + version: maps for version in ('', '-0.13.0') for game, maps in GAMES.items()}
MOST_BYTES = 850000
FRAME = 64000
HEAD = ','.join(vectors.Vector._fields)


def frame(colour):
    return bytes([colour]) * FRAME


def changed(data, view, row, column=0):
    """Frames with one pixel of a view changed."""
    at = FRAME * view + 320 * row + column
    return data[:at] + bytes([data[at] ^ 1]) + data[at + 1:]


def vector(view, ours, packed, answer='same', full=None, kind='near', name='MAP01'):
    return vectors.Vector(kind, name, view, 3, 11, '', 65536 * view, 0, 2686976, 0, 0, 0, vectors.sum_of(ours),
                          vectors.sum_of(packed), answer, vectors.sum_of(full) if full else '', vectors.bands_of(ours),
                          vectors.bands_of(packed))


class Made(Tools):
    """`doomview vectors` on a made room, with stand-ins: the original departs in view 1, and both end view 3."""

    def setUp(self):
        super().setUp()
        self.clone()
        left_out = shutil.ignore_patterns('*.csv', '__pycache__')
        shutil.copytree(os.path.dirname(CHECK), self.at('clone/vectors'), ignore=left_out)
        self.doomview = self.stand_in('doomview', DOOMVIEW.replace('PYTHON', sys.executable))
        self.write('room.wad', self.run_tool('room')[1])

    def vectors(self, *words):
        return self.run_command(self.at('clone/doomview'), 'vectors', *words, doomview=self.doomview)

    def originals(self):
        for rule in ('', '-mark', '-tangent', '-back', '-all'):
            self.stand_in(f'clone/tools/original/still{rule}', STILL.replace('PYTHON', sys.executable))

    def test_make_and_draw(self):
        self.originals()
        self.assertEqual(self.vectors('make', 'room.wad', '-o', 'out', '--jobs', '2'), (0, b'', ''))
        found = vectors.read(self.at('out/room.csv'))
        self.assertEqual({kind: sum(it.set == kind for it in found) for kind in vectors.SETS},
                         {'near': 21, 'sizes': 24, 'skills': 12, 'light': 16, 'weapons': 26, 'made': 0})
        near = found[:21]
        self.assertEqual([it.answer for it in near[:5]], ['same', 'memory', 'same', 'ended', 'same'])
        self.assertEqual([bool(it.original) for it in near[:5]], [False, True, False, True, False])
        self.assertEqual((near[3].frame, near[3].packed), ('-', '-'))
        self.assertEqual([it.view for it in found if it.set == 'sizes'], list(range(24)))
        words = ['out/room.csv', 'room.wad', '-o', 'ours', '--maps', 'MAP01']
        self.assertEqual(self.vectors('draw', *words), (0, b'', ''))
        self.assertEqual(sorted(os.listdir(self.at('ours'))), ['MAP01-light.bin', 'MAP01-sizes.bin', 'MAP01-skills.bin',
                                                              'MAP01-weapons.bin', 'MAP01.bin'])
        self.write('out/room2.wad', self.run_tool('room')[1])
        status, output, error = self.run_command(CHECK, 'out/room.csv', 'ours', '--wad', 'room.wad')
        self.assertEqual((status, output), (0, b'MAP01 near same 20 departs 1\nall same 20 departs 1\n'), error)
        self.vectors('make', 'room.wad', '-o', 'out', '--jobs', '2')
        lumps = beside_vectors.asked('games', 'sum_of_lumps', self.at('room.wad'))
        self.assertEqual(self.read('out/wads.csv').splitlines(), ['vectors,wad,version,sha256,lumps', 'room.csv,room.wad,,'
                         + f'{hashlib.sha256(self.run_tool("room")[1]).hexdigest()},{lumps}'])
        self.vectors('make', 'room.wad', '-o', 'out', '--jobs', '2', '--name', 'other')
        self.assertEqual([line.split(',')[:2] for line in self.read('out/wads.csv').splitlines()[1:]],
                         [['room.csv', 'room.wad'], ['other.csv', 'room.wad']])
        self.assertEqual(self.read('out/other.csv'), self.read('out/room.csv'))
        self.other_wad()

    def other_wad(self):
        """draw refuses a WAD that the vectors are not of, with both sums."""
        self.write('other.wad', wad([('PLAYPAL', bytes(768))]))
        status, output, error = self.vectors('draw', 'out/room.csv', 'other.wad', '-o', 'ours')
        self.assertEqual((status, output), (2, b''))
        for name in ('other.wad', 'room.wad'):
            self.assertIn(beside_vectors.asked('games', 'sum_of', self.at(name)), error)

    def test_spans(self):
        """draw draws with the spans that are named, with the WAD and the vectors in either order."""
        self.write('near.csv', vectors.text([vector(0, frame(1), frame(2))]).encode())
        spans = self.stand_in('spans', DOOMVIEW.replace('PYTHON', sys.executable).replace(
            "bytes([sum(map(ord, row)) % 251])", "bytes([sys.argv.index('--spans') and 'packed' in sys.argv])"))
        for words, colour in (([], 0), (['--spans', 'packed'], 1), (['--spans', 'full'], 0)):
            done = self.run_tool('vectors', 'draw', 'room.wad', 'near.csv', '-o', 'ours', *words, doomview=spans)
            self.assertEqual(done, (0, b'', ''))
            self.assertEqual(self.read('ours/MAP01.bin').encode(), frame(colour))

    def test_trouble(self):
        self.write('near.csv', vectors.text([vector(0, frame(1), frame(2))]).encode())
        for part, words in [('make takes one WAD', ['make', 'room.wad', 'room.wad']),
                            ('draw takes a file', ['draw', 'room.wad']),
                            ("there is no program still; tools/original/build makes it, of Debian's source package of "
                             'chocolate-doom', ['make', 'room.wad']),
                            ('make takes no --spans', ['make', 'room.wad', '--spans', 'full']),
                            ('there is no map MAP09', ['make', 'room.wad', '--maps', 'MAP09']),
                            ('there is no set far', ['draw', 'near.csv', 'room.wad', '--sets', 'far']),
                            ('room.wad is no file of vectors', ['draw', 'room.wad', 'room.wad']),
                            ('invalid choice', ['take', 'room.wad'])]:
            status, output, error = self.vectors(*words)
            self.assertEqual((status, output), (2, b''), words)
            self.assertIn(part, error)

    def test_layers(self):
        """Layers as a word and as a file."""
        for layers in vectors.HELD:
            self.assertEqual(weapons.of_word(weapons.word(layers)), layers)
        self.assertEqual(weapons.text([vectors.PISTOL, ()]),
                         'view,sprite,frame,bright,sx,sy\n0,PISG,A,0,65536,2097152\n')

    def test_known(self):
        """What is the original's in the spans of doomview's frame comes first."""
        found = vector(0, frame(1), frame(2), 'memory', frame(3))
        self.assertEqual([vectors.rule_of(found, frame(1), frame(colour)) for colour in (2, 3, 4)],
                         ['packed spans', "the original's frame (memory)", ''])
        self.assertEqual([vectors.rule_of(found, frame(9), frame(colour)) for colour in (1, 2, 3, 4)],
                         ['full spans', "the original's frame (memory)", 'full spans', ''])
        same = vector(0, frame(1), frame(1), 'mark', frame(1))
        self.assertEqual(vectors.rule_of(same, frame(1), frame(1)), "the original's frame (mark)")


class Compare(Tools):
    def test_known(self):
        """`compare --vectors` names what is known of a frame that differs."""
        ours, full = [frame(colour) for colour in (1, 2, 3)], frame(23)
        rows = [vector(0, ours[0], frame(11)), vector(1, ours[1], frame(12), 'memory', full),
                vector(2, ours[2], ours[2])]
        self.write('made.csv', vectors.text(rows).encode())
        self.write('ours.bin', b''.join(ours))
        self.write('MAP01.bin', frame(11) + full + frame(4))
        status, output, error = self.run_tool('compare', 'ours.bin', 'MAP01.bin', '--vectors', 'made.csv')
        self.assertEqual((status, error), (1, ''))
        known = ['packed spans', "the original's frame (memory)", '']
        lines = [line for line in output.decode().splitlines() if line.startswith('view ')]
        self.assertEqual([line.partition('; ')[2] for line in lines], known)
        self.run_tool('compare', 'ours.bin', 'MAP01.bin', '--vectors', 'made.csv', '--html', 'page.html')
        views = pages_shown.data_of(self.at('page.html'))['views']
        self.assertEqual([view['told'].partition('; ')[2] for view in views], known)
        self.assertEqual([view['known'] for view in views], [True, True, False])
        self.refuses('no vectors of ours.bin', 'compare', 'ours.bin', 'ours.bin', '--vectors', 'made.csv', ends=2)


def game(name):
    """The WAD of a file of vectors, or None where it is not installed, or another version is."""
    path = wads.find_or_none(f'{name.partition("-")[0]}.wad')
    return path if path and beside_vectors.asked('games', 'vectors_of', path) == f'{name}.csv' else None


def games():
    """The files of vectors whose WAD is there, and their maps to draw again."""
    there = {name: maps for name, maps in FREEDOOM.items() if game(name)}
    if not there:
        raise unittest.SkipTest('no WAD of these vectors is there (package: freedoom)')
    return there


class Freedoom(unittest.TestCase):
    """The files of the repository, and some maps drawn again."""

    def files(self):
        return {name: vectors.read(os.path.join(TOP, 'vectors', f'{name}.csv')) for name in FREEDOOM}

    def test_files(self):
        """All maps, each with its places and the player start, in the order of the numbers; none unexplained."""
        folder = os.path.join(TOP, 'vectors')
        self.assertLess(sum(os.path.getsize(os.path.join(folder, name)) for name in os.listdir(folder)), MOST_BYTES)
        for name, count in zip(FREEDOOM, (36, 32, 36, 32)):
            found = self.files()[name]
            maps = list(dict.fromkeys(it.map for it in found))
            self.assertEqual((len(maps), sorted(maps)), (count, maps))
            for of_map in maps:
                for kind in vectors.SETS:
                    views = [it.view for it in found if (it.map, it.set) == (of_map, kind)]
                    self.assertEqual(views, list(range(len(views))))
                    self.assertEqual(bool(views), of_map in ('E1M1', 'MAP01') if kind == vectors.MADE else
                                     kind == 'near' or of_map in vectors.MORE)
            self.assertLessEqual({it.answer for it in found}, {'same', 'memory', 'mark', 'tangent', 'back', 'several',
                                                               'ranges', 'ended'})

    def draw(self, name, folder, maps):
        words = [os.path.join(TOP, 'doomview'), 'vectors', 'draw', os.path.join(TOP, 'vectors', f'{name}.csv'),
                 game(name), '-o', folder, '--maps', ','.join(maps), '--sets', 'near,weapons', '--jobs', '1']
        subprocess.run(words, check=True, env={**os.environ, 'DOOMVIEW': TESTED})

    def check(self, name, folder, maps, *words):
        done = subprocess.run([CHECK, os.path.join(TOP, 'vectors', f'{name}.csv'), folder, '--maps', ','.join(maps),
                               *words], stdout=subprocess.PIPE, stderr=subprocess.PIPE, text=True)
        return done.returncode, done.stdout.splitlines()

    @unittest.skipUnless(TESTED, 'the program is not built')
    def test_drawn_again(self):
        for name, maps in games().items():
            folder = tempfile.mkdtemp()
            self.addCleanup(shutil.rmtree, folder)
            self.draw(name, folder, maps)
            status, lines = self.check(name, folder, maps)
            self.assertEqual((status, lines[-1]), (0, 'all same 42'))
            self.assertEqual(self.check(name, folder, maps[:1], '--sets', 'weapons')[1][-1], 'all same 26')
            self.wrong_pixel(name, folder, maps)

    def wrong_pixel(self, name, folder, maps):
        """A frame with one pixel changed is found, with its view and its rows."""
        path = os.path.join(folder, f'{maps[1]}.bin')
        with open(path, 'rb') as file:
            data = changed(file.read(), 4, 130, 17)
        with open(path, 'wb') as file:
            file.write(data)
        status, lines = self.check(name, folder, maps)
        self.assertEqual((status, lines[-1]), (1, 'all same 41 wrong 1'))
        self.assertRegex(lines[2], r'^  view 4 wrong at \S+: rows 120-139$')

    def ci(self, wad, port, *words, folder=''):
        """The status, the last line and what is said of `vectors/ci` over a WAD."""
        env = {**os.environ, 'PORT': port, 'WORK': folder, 'DOOMVIEW': TESTED}
        done = subprocess.run([CI, wad, '--', *words], env=env, stdout=subprocess.PIPE, stderr=subprocess.PIPE, text=True)
        return done.returncode, (done.stdout.splitlines() or [''])[-1], done.stderr

    @unittest.skipUnless(game('freedoom2'), 'freedoom2.wad is not there (package: freedoom)')
    def test_wrong_wad(self):
        """A WAD in which one byte is another is called so, and nothing is drawn."""
        folder = tempfile.mkdtemp()
        self.addCleanup(shutil.rmtree, folder)
        other = os.path.join(folder, 'freedoom2.wad')
        with open(game('freedoom2'), 'rb') as file, open(other, 'wb') as out:
            out.write(file.read()[:-1] + b'!')
        status, line, error = self.ci(other, 'false')
        self.assertEqual((status, line), (3, ''))
        self.assertIn('is another WAD, with the SHA-256 ', error)

    @unittest.skipUnless(TESTED and game('freedoom2'), 'the program or freedoom2.wad (package: freedoom) is not there')
    def test_ci(self):
        """doomview as a port is right with either kind of spans, and wrong with a byte changed or the other spans."""
        port = (f'"{os.path.join(TOP, "doomview")}" render "$MAP" "$WAD" --path "$ROWS" -o "$OUT" --skill "$SKILL" '
                '--size "$SIZE" ${WEAPON:+--weapon "$WEAPON"}')
        maps = ['--maps', 'MAP07']
        self.assertEqual(self.ci(game('freedoom2'), port, *maps)[:2], (0, 'all same 99'))
        near = [*maps, '--sets', 'near', '--spans']
        self.assertEqual(self.ci(game('freedoom2'), port + ' --spans packed', *near, 'packed')[:2], (0, 'all packed 21'))
        self.assertEqual(self.ci(game('freedoom2'), port, *near, 'packed')[0], 1)
        damaged = port + '; printf x | dd of="$OUT" bs=1 seek=70000 conv=notrunc'
        self.assertEqual(self.ci(game('freedoom2'), damaged, *near, 'full')[:2], (1, 'all same 20 wrong 1'))

    def test_made(self):
        """The made map of the repository is the one that its module makes, and over a game's WAD it is whole."""
        with open(os.path.join(TOP, 'vectors', 'made.wad'), 'rb') as file:
            self.assertEqual(file.read(), vectors_map.pwad())
        for name in games():
            folder = tempfile.mkdtemp()
            self.addCleanup(shutil.rmtree, folder)
            path = beside_vectors.asked('made', 'write', game(name), folder)
            own, more = ({lump.name: lump.data for lump in wads.read(it)} for it in (game(name), path))
            changed = {label for label in own if own[label] != more[label]}
            self.assertEqual(changed, {'TEXTURE1', 'PNAMES', *wads.MAP_LUMPS, 'REJECT', 'BLOCKMAP'})
            self.assertEqual(set(more) - set(own), {'MADEP48', 'MADEP32', 'MADEP16'})
            self.assertEqual(more['PNAMES'][4:4 + len(own['PNAMES']) - 4], own['PNAMES'][4:])

    @unittest.skipUnless(TESTED and game('freedoom2'), 'the program or freedoom2.wad (package: freedoom) is not there')
    def test_made_drawn(self):
        """doomview draws the made map as the vectors have it, and a port sees its WAD in WAD."""
        folder = tempfile.mkdtemp()
        self.addCleanup(shutil.rmtree, folder)
        words = [os.path.join(TOP, 'doomview'), 'vectors', 'draw', os.path.join(TOP, 'vectors', 'freedoom2.csv'),
                 game('freedoom2'), '-o', folder, '--maps', 'MAP01', '--sets', 'made', '--spans', 'packed']
        subprocess.run(words, check=True, env={**os.environ, 'DOOMVIEW': TESTED})
        self.assertEqual(self.check('freedoom2', folder, ['MAP01'], '--sets', 'made', '--spans', 'packed'),
                         (0, ['MAP01 made packed 20', 'all packed 20']))
        port = (f'"{os.path.join(TOP, "doomview")}" render "$MAP" "$WAD" --path "$ROWS" -o "$OUT" --spans packed')
        self.assertEqual(self.ci(game('freedoom2'), port, '--sets', 'made', '--spans', 'packed')[:2], (0, 'all packed 20'))

    @unittest.skipIf(original.missing(), 'tools/original/build has not been run')
    def test_originals(self):
        """The original's frames of all views, with full and with packed spans, are right where they are asked for, and
        wrong where the others are, on each map; and rows with a pixel changed are named."""
        for name in games():
            for spans, words, other in (('full', '', 'packed'), ('packed', '-dosspan', 'full')):
                folder = tempfile.mkdtemp()
                self.addCleanup(shutil.rmtree, folder)
                still = os.path.join(original.FOLDER, 'still')
                port = (f'"{still}" -iwad "$WAD" -map "$MAP" -path "$ROWS" -out "$OUT" -skill "$SKILL" -size "$SIZE" '
                        f'${{WEAPON:+-weapon "$WEAPON"}} {words}')
                self.assertEqual(self.ci(game(name), port, '--spans', spans, folder=folder)[0], 0)
                folder = os.path.join(folder, name)
                self.both_ways(name, folder, spans, other)
                self.four_pixels(name, folder, spans)

    def both_ways(self, name, folder, spans, other):
        vectors_of = os.path.join(TOP, 'vectors', f'{name}.csv')
        status, lines = self.run_check(vectors_of, folder, '--sets', 'all', '--spans', spans)
        self.assertEqual(status, 0, lines[-1])
        right = 'packed [0-9]+' if spans == 'packed' else 'same [0-9]+( original [0-9]+)?'
        for line in lines:
            self.assertRegex(line, f'^(all|[A-Z0-9]+ [a-z]+) {right}( departs [0-9]+)?$')
        status, lines = self.run_check(vectors_of, folder, '--spans', other)
        self.assertEqual(status, 1)
        self.assertEqual([line for line in lines if f' {spans if other == "full" else "full"} ' not in line], [])

    def run_check(self, *words):
        done = subprocess.run([CHECK, *words], stdout=subprocess.PIPE, stderr=subprocess.PIPE, text=True)
        return done.returncode, done.stdout.splitlines()

    def four_pixels(self, name, folder, spans):
        """One pixel changed in each of four rows."""
        path = os.path.join(folder, f'{FREEDOOM[name][0]}.bin')
        with open(path, 'rb') as file:
            data = file.read()
        for row in (5, 47, 121, 199):
            data = changed(data, 2, row, 100)
        with open(path, 'wb') as file:
            file.write(data)
        lines = self.check(name, folder, FREEDOOM[name][:1], '--spans', spans)[1]
        self.assertRegex(lines[1], '^  view 2 wrong at .*: rows 0-19 40-59 120-139 180-199$')


if __name__ == '__main__':
    unittest.main()
