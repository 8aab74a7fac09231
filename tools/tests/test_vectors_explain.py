"""Tests `doomview vectors explain`: on what `vectors/ci` leaves, made here; and on a test of doomview as a port, where the
program that DOOMVIEW_TESTED names and Freedoom are there."""
import json
import os
import shutil
import subprocess
import tempfile
import unittest

import pages_shown
from made_files import TOP, Tools, wad
from test_vectors import CI, TESTED, frame, game, vector
from doomview_tools import beside_vectors, vectors, vectors_explained, wrong_views
from doomview_tools.trouble import Trouble

PORT = ('"{top}/doomview" render "$MAP" "$WAD" --path "$ROWS" -o "$OUT" --size "$SIZE" --spans packed '
        '${{WEAPON:+--weapon "$WEAPON"}} {more}')
ENDED = {'frame': '-', 'packed': '-', 'original': '-', 'bands': '-'}


class Work(Tools):
    """A folder WORK that is made here: of MAP01 three views, the last without a verdict, and two sizes; of MAP02 one."""

    def setUp(self):
        super().setUp()
        self.write('game.wad', wad([('PLAYPAL', bytes(range(256)) * 3)]))
        rows = [vector(i, frame(i), frame(i), *more) for i, more in enumerate([(), (), ('memory', frame(9))])]
        rows += [vector(0, frame(3), frame(3), kind='sizes')._replace(size=4),
                 vector(1, frame(4), frame(4), kind='sizes')._replace(size=5)]
        rows += [vector(0, frame(5), frame(5), name='MAP02')]
        os.makedirs(self.at('work/made/said'))
        self.write('work/made/vectors.csv', vectors.text(rows).encode())
        self.write('work/made/runs', b'MAP01 near 3 11 3 MAP01\nMAP01 sizes 3 4 1 MAP01-sizes-0\n'
                                     b'MAP01 sizes 3 5 1 MAP01-sizes-1\nMAP02 near 3 11 1 MAP02\n')
        self.put(['wrong', 'wrong', 'departs', 'wrong', 'same', 'missing'], rows)
        self.write('work/made/MAP01.bin', frame(10) + frame(11) + frame(12))
        self.write('work/made/MAP01-sizes-0.bin', frame(13))
        self.write('work/made/said/MAP02.txt', b'begin\nno such map\n')

    def put(self, words, rows, sum_of_wad=None):
        views = [{'map': row.map, 'set': row.set, 'view': row.view, 'word': word, 'wrong': word not in ('same', 'departs')}
                 for word, row in zip(words, rows)]
        found = {'vectors': 'made.csv', 'wad': self.at('game.wad'), 'spans': 'packed', 'views': views,
                 'sum': sum_of_wad or beside_vectors.asked('games', 'sum_of', self.at('game.wad'))}
        self.write('work/made/found.json', json.dumps(found).encode())

    def test_chosen(self):
        """The first wrong view of each map and set comes first, and each has the frame of its run."""
        test, = wrong_views.tests(self.at('work'))
        self.assertEqual([view.name for view in test.chosen(2)], ['MAP01 near view 0', 'MAP01 sizes view 0'])
        chosen = test.chosen(9)
        self.assertEqual([view.name for view in chosen], ['MAP01 near view 0', 'MAP01 near view 1', 'MAP01 sizes view 0'])
        self.assertEqual(test.frames(chosen), [frame(10), frame(11), frame(13)])
        self.assertEqual([len(part) for part in vectors_explained.parts_of(chosen)], [2, 1])

    def test_head(self):
        test, = wrong_views.tests(self.at('work'))
        self.assertEqual(list(vectors_explained.head(test)), [
            'game.wad by made.csv, packed spans: 3 of 6 views are wrong',
            'by set: near 2 of 4, sizes 1 of 2; on 1 of 2 maps: MAP01',
            '1 view is missing: MAP02 near view 0', 'at MAP02 the port said: no such map',
            'without a verdict, since doomview departs from the original there: MAP01 near view 2 (memory)'])

    def test_spans(self):
        """Views that are right but for their spans are counted, and not compared."""
        rows = vectors.read(self.at('work/made/vectors.csv'))
        self.put(['full', 'full', 'same', 'full', 'same', 'same'], rows)
        test, = wrong_views.tests(self.at('work'))
        text, page = vectors_explained.explain(test, 9, self.folder)
        self.assertEqual((text.splitlines(), page), ([
            'game.wad by made.csv, packed spans: 0 of 6 views are wrong',
            '3 views are right but for the spans, which are full (--spans full takes them as right): near 2 of 4, sizes '
            '1 of 2'], ''))

    def test_trouble(self):
        rows = vectors.read(self.at('work/made/vectors.csv'))
        self.put(['same'] * 6, rows, '0' * 64)
        with self.assertRaisesRegex(Trouble, 'has the SHA-256 [0-9a-f]{64}; the frames were drawn of a WAD with 0{64}'):
            wrong_views.tests(self.at('work'))
        os.remove(self.at('game.wad'))
        with self.assertRaisesRegex(Trouble, 'game.wad is not there any more, and no game.wad is installed'):
            wrong_views.tests(self.at('work'))
        for part, words in (('there is no folder absent', ['absent']), ('bin has no test of a port', ['bin']),
                            ('explain takes the folder WORK', ['work', 'work'])):
            self.refuses(part, 'vectors', 'explain', *words, ends=2)
        self.write('work/made/found.json', b'{}')
        self.refuses('found.json is not what vectors/ci writes', 'vectors', 'explain', 'work', ends=2)


@unittest.skipUnless(TESTED and game('freedoom2'), 'the program or freedoom2.wad (package: freedoom) is not there')
class Explained(unittest.TestCase):
    """doomview as a port, with things of skill 1 alone, on maps of which one has a view that departs (BROKA0)."""

    def setUp(self):
        self.work = tempfile.mkdtemp()
        self.addCleanup(shutil.rmtree, self.work)

    def run_port(self, more, *words):
        env = {**os.environ, 'PORT': PORT.format(top=TOP, more=more), 'WORK': self.work, 'DOOMVIEW': TESTED}
        done = subprocess.run([CI, game('freedoom2'), '--', '--spans', 'packed', '--maps', 'MAP01,MAP26', *words], env=env,
                              stdout=subprocess.PIPE, stderr=subprocess.PIPE)
        said = subprocess.run([os.path.join(TOP, 'doomview'), 'vectors', 'explain', self.work], env=env,
                              stdout=subprocess.PIPE, stderr=subprocess.PIPE, text=True)
        self.assertEqual((said.returncode, said.stderr), (0, ''))
        return done.returncode, said.stdout

    def test_red(self):
        status, text = self.run_port('--skill 1')
        self.assertEqual(status, 1)
        self.assertIn('MAP26 near view 16 (memory)', text.split('\n\n')[0])
        self.assertNotIn('BROKA0', text)
        self.assertIn('thing 66 of type 3004 at 416,176, lump POSSA3A7', text)
        with open(os.path.join(self.work, 'explained.txt'), encoding='utf-8') as file:
            self.assertEqual(file.read(), text)

    @unittest.skipUnless(pages_shown.BROWSER, 'Chromium is not installed')
    def test_page(self):
        self.run_port('--skill 1', '--sets', 'near')
        found = pages_shown.shown(os.path.join(self.work, 'explained.html'), 'vectors_explained')
        self.assertEqual(found, ['freedoom2.wad by freedoom2.csv, packed spans: 8 of 42 views are wrong', True])

    def test_green(self):
        status, text = self.run_port('--skill "$SKILL"')
        self.assertEqual((status, text.splitlines()[0]),
                         (0, 'freedoom2.wad by freedoom2.csv, packed spans: 0 of 140 views are wrong'))


if __name__ == '__main__':
    unittest.main()
