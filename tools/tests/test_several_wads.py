"""Tests tools over several WADs: --iwad and --file in the order of loading, and what is said where one is missing."""
import os
import unittest

from made_files import Tools
from made_maps import Map
from doomview_tools import cli, room, wads
from doomview_tools.commands import lint

TESTED = os.environ.get('DOOMVIEW_TESTED', '')
TEXTURES = ['BRICKS', 'PANELS', 'BARS', 'SKY1']
# Writes its words down, but for the tables.
WRITING = '''#!/bin/sh
echo "$@" >>"$(dirname "$0")/words"
[ "$1" = render ] && cat "$(dirname "$0")/frame"
exit 0
'''


class Several(Tools):
    def setUp(self):
        super().setUp()
        art = dict(part for parts in room.art() for part in parts)
        self.write('game.wad', room.room())
        lists = room.textures([(label, art[label]) for label in TEXTURES] + [('MINE', art['BRICKS'])])
        self.write('art.wad', wads.wad_of([*lists, ('MINE', art['BRICKS'])], b'PWAD'))
        self.write('more.wad', wads.wad_of([('FF_START', b''), ('MYFLAT', bytes(4096)), ('F_END', b'')], b'PWAD'))
        made = Map('....', **{'.': {'wall': 'MINE', 'below': 'MYFLAT'}})
        made.lumps = {'MAP07' if label == 'MAP01' else label: data for label, data in made.lumps.items()}
        self.write('mine.wad', made.alone())
        self.writing = self.stand_in('writing', WRITING)

    def order(self, *words):
        """The WADs of some words, in the order in which they are loaded."""
        parser = cli.parser_of(lint)
        with_folder = [self.at(word) if word.endswith('.wad') else word for word in words]
        return [path[len(self.folder) + 1:] for path in cli.wads_of(parser.parse(with_folder))]

    def test_order(self):
        """The IWAD first, then the files as they are named, then the WAD of the map."""
        both = ['--file', 'more.wad', '--file', 'art.wad']
        self.assertEqual(self.order('--iwad', 'game.wad', 'mine.wad', 'MAP07', *both),
                         ['game.wad', 'more.wad', 'art.wad', 'mine.wad'])
        self.assertEqual(self.order('game.wad', 'MAP01', *both), ['game.wad', 'more.wad', 'art.wad'])
        self.assertEqual(self.order(*both, 'mine.wad', 'MAP07'), ['more.wad', 'art.wad', 'mine.wad'])

    def test_lint(self):
        """Textures and flats of two WADs between the game and the map; without them each is missing."""
        words = ['lint', '--iwad', 'game.wad', 'mine.wad', 'MAP07']
        both = ['--file', 'more.wad', '--file', 'art.wad']
        self.assertEqual(self.run_tool(*words, *both, doomview=self.writing), (0, b'', ''))
        status, output, _ = self.run_tool(*words, doomview=self.writing)
        self.assertEqual((status, output.count(b'error ')), (1, 2))

    def test_tools(self):
        """Each tool hands all WADs to the program, in their order."""
        self.write('frame', b'P6\n320 200\n255\n' + bytes(192000))
        both = ['--iwad', 'game.wad', '--file', 'more.wad', '--file', 'art.wad', 'mine.wad']
        for tool, words in [('picture', ['MAP07', 'out.png']), ('audit-all', []), ('why-limit', ['MAP07', '100,100,0'])]:
            self.write('words', b'')
            self.run_tool(tool, *both, *words, doomview=self.writing)
            self.assertIn(' MAP07 game.wad more.wad art.wad mine.wad ', self.read('words'), tool)
        self.write('path.csv', b'x,y,z,angle\n')
        self.write('words', b'')
        self.run_tool('explain', '--file', 'mine.wad', 'audit', 'MAP07', 'game.wad', '--path', 'path.csv',
                      doomview=self.writing)
        self.assertRegex(self.read('words'), r'^audit .* MAP07 game\.wad --path path\.csv mine\.wad\n')
        status, output, _ = self.run_tool('places', *both, 'MAP07', '3')
        self.assertEqual((status, len(output.splitlines())), (0, 5))

    def two_maps(self):
        """A WAD with two maps, whose textures and flats are in two others."""
        lumps = Map('....', **{'.': {'wall': 'MINE', 'below': 'MYFLAT'}}).lumps
        named = [('MAP07' if label == 'MAP01' else label, data) for label, data in lumps.items()]
        return self.write('two.wad', wads.wad_of([*named, *((label.replace('07', '09'), data) for label, data in named)], b'PWAD'))

    def test_all_maps(self):
        """audit-all looks at each map of the own WAD with all WADs in their order, and places has rows of each."""
        self.two_maps()
        both = ['--iwad', 'game.wad', '--file', 'more.wad', '--file', 'art.wad', 'two.wad']
        self.write('words', b'')
        status, output, _ = self.run_tool('audit-all', *both, doomview=self.writing)
        self.assertEqual((status, [line.split()[0] for line in output.decode().splitlines()]), (0, ['MAP07', 'MAP09']))
        for name, words in zip(('MAP07', 'MAP09'), self.read('words').splitlines()[-2:]):
            self.assertIn(f' {name} game.wad more.wad art.wad two.wad ', words)
        rows = [self.run_tool('places', *both, name, '5')[1] for name in ('MAP07', 'MAP09')]
        self.assertEqual((rows[0], len(rows[0].splitlines())), (rows[1], 7))

    @unittest.skipUnless(TESTED, 'no program is named')
    def test_program(self):
        """With the program: maps with textures of two WADs are accepted with these, and refused without."""
        self.two_maps()
        both = ['--file', 'more.wad', '--file', 'art.wad']
        for files, expected in [(both, (0, ['accepted'] * 2)), (both[2:], (1, ['doomview:'] * 2))]:
            status, output, _ = self.run_tool('audit-all', '--iwad', 'game.wad', *files, 'two.wad', doomview=TESTED)
            self.assertEqual((status, [line.split()[1] for line in output.decode().splitlines()]), expected)
        self.run_tool('places', '--iwad', 'game.wad', *both, 'two.wad', 'MAP09', '3', '-o', 'path.csv')
        words = ['MAP09', 'game.wad', 'art.wad', 'two.wad', '--path', 'path.csv']
        status, _, error = self.run_tool('explain', 'limits', *words, doomview=TESTED)
        self.assertEqual((status, 'MYFLAT' in error), (2, True))
        status, output, _ = self.run_tool('explain', '--file', 'more.wad', 'limits', *words, doomview=TESTED)
        self.assertEqual((status, len(output.splitlines())), (0, 4))

    def test_no_game(self):
        """Where the WAD of the game is needed and none is named that is said alone."""
        for tool, *words in [('lint', 'mine.wad', 'MAP07'), ('limits-map', 'mine.wad', 'MAP07'), ('audit-all', 'mine.wad'),
                             ('why-limit', 'mine.wad', 'MAP07', '0,0,0'), ('picture', 'mine.wad', 'out.png')]:
            status, output, error = self.run_tool(tool, *words, '--file', 'art.wad', doomview=self.writing)
            self.assertEqual((status, output), (2, b''))
            self.assertEqual(error, f'doomview {tool}: mine.wad is a PWAD, and needs the WAD of its game; name that by '
                             '--iwad, as in --iwad freedoom2.wad\n')

    def test_map_of_game(self):
        """A map that is only in the IWAD, while a PWAD is named."""
        for tool, *words in [('lint', 'MAP01'), ('why-limit', 'MAP01', '512,192,90'), ('places', 'MAP01'),
                             ('picture', 'MAP01', 'out.png'), ('limits-map', 'MAP01')]:
            status, output, error = self.run_tool(tool, '--iwad', 'game.wad', 'mine.wad', *words, doomview=self.writing)
            self.assertEqual((status, output), (2, b''), tool)
            self.assertIn('MAP01 is in game.wad alone; the maps of mine.wad: MAP07', error)
        self.assertEqual(self.run_tool('places', 'game.wad', 'MAP01', '--file', 'mine.wad')[0], 0)

    def test_packed(self):
        """A zip or a PK3 says so in every tool."""
        for head, what in [(b'PK\3\4', 'a zip, as a PK3 is'), (b'7z\xbc\xaf', 'a 7z file'), (b'\x1f\x8b\x08', 'a gzip')]:
            self.write('mine.pk3', head + bytes(99))
            for tool, *words in [('lint', 'MAP01'), ('limits-map', 'MAP01'), ('why-limit', 'MAP01', '0,0,0'), ('audit-all',),
                                 ('places', 'MAP01'), ('picture', 'out.png'), ('maps',)]:
                self.refuses(f'mine.pk3 is {what}', tool, 'mine.pk3', *words, doomview=self.writing)


if __name__ == '__main__':
    unittest.main()
