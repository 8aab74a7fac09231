"""Tests that lint has a line for a map of each kind that is wrong, and none for maps that are right."""
import struct
import unittest

from made_files import Tools, name
from made_maps import NO_SIDE, Map
from doomview_tools import art, checks, levels, room, wads
from doomview_tools.commands import lint

DOOR, SCROLL, LIFT, TELEPORT, DONUT, STAIRS = 1, 48, 62, 97, 9, 8  # specials of lines
DESTINATION, LAMP = 14, 2028  # types of things
FLAT, PATCHES = bytes(4096), ['BRICKS', 'PANELS', 'BARS', 'SKY1']
ART = dict(lump for part in room.art() for lump in part)


def own_flat(start, end):
    """Lumps of a PWAD with a flat of its own between two marks."""
    return [(start, b''), ('MYFLAT', FLAT), (end, b'')]


def lists(*patches):
    """TEXTURE1 and PNAMES with the textures of the room, and more patches of its bricks."""
    return room.textures([(patch, ART.get(patch, ART['BRICKS'])) for patch in (*PATCHES, *patches)])


def with_special(made, *letters, lines=None, **fields):
    """A map with a special on the lines between sectors, or on some of them."""
    for number in made.lines(*letters)[:lines]:
        made.change('LINEDEFS', number, **fields)
    return made


def with_lumps(made, **lumps):
    """A map with other lumps; without those that are None."""
    made.lumps.update(lumps)
    made.lumps = {label: data for label, data in made.lumps.items() if data is not None}
    return made


class Kinds(Tools):
    def setUp(self):
        super().setUp()
        self.iwad = self.write('game.wad', room.room())

    def findings(self, made, *lumps):
        """What lint finds in a map of a PWAD over the room's art, with more lumps there."""
        files = [self.iwad, self.write('made.wad', wads.wad_of([*made.lumps.items(), *lumps], b'PWAD'))]
        found = list(checks.findings(levels.read(files, 'MAP01'), files))
        return [lint.line_of(finding) for finding in found], lint.status_of(found), lint.status_of(found, True)

    def finds(self, made, start, *parts, lumps=(), count=1, status=1):
        """A map has some lines of a kind, and no other."""
        found, plain, strict = self.findings(made, *lumps)
        self.assertEqual((len(found), plain, strict), (count, status, 1), found)
        for line in found:
            self.assertTrue(line.startswith(start), line)
        for part in parts:
            self.assertTrue(any(part in line for line in found), found)

    def test_flats(self):
        """Flats that doomview draws and the original does not find."""
        made = Map('....', **{'.': {'below': 'MYFLAT'}})
        self.finds(made, f'error flat: sector 0: BOARDS comes before the F_START of {self.at("made.wad")}, with which',
                   'call that mark FF_START. The original ends there', lumps=own_flat('F_START', 'F_END'))
        self.finds(made, 'error flat: sector 0: MYFLAT comes after the last F_END', 'between FF_START and F_END',
                   lumps=own_flat('FF_START', 'FF_END'))

    def test_things(self):
        self.finds(Map('....', things=[(7, 3, 999, 0, 7)]), 'error thing: thing 1: type 999 at 224, 96 is none of the')
        self.finds(Map('....', things=[(7, 3, 999, 0, 8)]), 'odd thing: thing 1: type 999 ', 'never appears', status=0)
        self.finds(Map('....', things=[(7, 3, 0, 0, 7)]), 'odd thing: thing 1: type 0 ', status=0)
        self.finds(Map('....', things=[(1, 1, LAMP, 0, 8)]), 'fault thing: thing 1: type 2028 at 32, 160 is outside')

    def test_specials_of_sectors(self):
        for special in (6, 15, 18, -1):
            self.finds(Map('..xx', x={'special': special}), f'error sector: sector 1: special {special} is none of')
        self.finds(Map('..xx', x={'special': 6, 'floor': 99}), 'odd sector: sector 1: special 6', 'none comes', status=0)

    def test_specials_of_lines(self):
        wide = '.' * 33
        self.finds(with_special(Map(wide), '.', lines=65, special=SCROLL),
                   'error line: lines 0 1 3 4 6 7 9 10 and 57 more (the first 64,64 to 64,128)', '65 lines')
        self.finds(with_special(Map('..'), '.', lines=1, special=DOOR), 'error door: line 0 (64,64 to 64,128): special 1')
        self.finds(with_special(Map('..x'), '.', 'x', special=LIFT, tag=7), 'fault tag: line ', 'acts on tag 7, which')
        self.finds(with_special(Map('..x'), '.', 'x', special=LIFT), 'fault tag: line ', 'has no tag')
        self.finds(with_special(Map('..x', x={'tag': 7}), '.', 'x', special=TELEPORT, tag=7),
                   'fault teleport: line ', 'leads to tag 7, and no sector of that has a destination')

    def test_tables(self):
        for reject in (b'', b'\0'):
            self.finds(with_lumps(Map('.abc'), REJECT=reject), f'fault table: map: its REJECT has {len(reject)} bytes',
                       '4 sectors need 2')
        self.finds(with_lumps(Map('....'), BLOCKMAP=b''), 'error table: map: its BLOCKMAP has 0 bytes: nothing stops')
        self.finds(with_lumps(Map('....'), REJECT=None, BLOCKMAP=None), 'error table: map: has no ', count=2)

    def test_lines(self):
        self.finds(with_special(Map('..'), '.', lines=1, flags=4), 'fault line: line 0 (64,64 to 64,128): is two-sided')
        made = Map('..x')
        made.change('SIDEDEFS', made.records('LINEDEFS')[made.lines('.')[0]]['front'], sector=1)
        self.finds(made, 'fault sector: sector', 'is not closed: its lines end at', count=2)

    def test_closing_line(self):
        """A sector is named whose gap a line closes that has one other sector on both sides, and no bridge."""
        for rows in (['....', '.xx.', '.xx.', '....'], ['..x', '...', '...']):
            made = Map(*rows)
            line = made.records('LINEDEFS')[made.lines('.', 'x')[0]]
            sides = made.records('SIDEDEFS')
            for side in (line['front'], line['back']):
                if sides[side]['sector'] == made.letters.index('x'):
                    made.change('SIDEDEFS', side, sector=made.letters.index('.'))
            self.finds(made, f'fault sector: sector {made.letters.index("x")}: is not closed: its lines end at')

    def test_lists(self):
        """A PNAMES that hides the game's, and a patch that there is not."""
        names = struct.pack('<I', 1) + name('MINE')
        self.finds(Map('....'), f'error list: {self.at("made.wad")}: its PNAMES hides that of {self.iwad}, on which '
                   'TEXTURE1 counts: NONE needs the patch BRICKS, and gets MINE', lumps=[('PNAMES', names)])
        missing = [*lists('ABSENT'), ('MINE', ART['BRICKS'])]
        self.finds(Map('....'), 'error patch: ABSENT: no WAD has this patch of the texture ABSENT', lumps=missing)

    def test_tutti_frutti(self):
        patch = room.patch(64, 16, 0, 0, room.bricks)
        low = [*room.textures([(label, ART[label]) for label in PATCHES] + [('LOW', patch)]), ('LOW', patch)]
        made = Map('..x', x={'floor': 8, 'wall': 'LOW', 'ceiling': 24})
        for side, record in enumerate(made.records('SIDEDEFS')):
            if record['lower'].startswith(b'LOW'):
                made.change('SIDEDEFS', side, y_offset=12, middle='-', upper='BRICKS')
        found = [line for line in self.findings(made, *low)[0] if 'lower' in line]
        self.assertEqual(len(found), 1, found)
        self.assertIn('lower LOW is 16 high and the wall 8, and begins in row 12 (row offset 12): rows of', found[0])

    def test_holes(self):
        """A hole is odd in front of which no player can be."""
        for floor, high, start, status, part in [(0, 160, 'hole texture: line', 1, 'high'),
                                                 (110, 160, 'odd texture: line', 0, 'sector 1 in front of it is 50 high'),
                                                 (100, 260, 'odd texture: line', 0, 'no way leads to sector 1 in front')]:
            made = Map('..x', x={'floor': floor, 'ceiling': high, 'wall': 'PANELS'})
            for side, record in enumerate(made.records('SIDEDEFS')):
                if record['middle'].startswith(b'PANELS'):
                    made.change('SIDEDEFS', side, middle='-')
            self.finds(made, start, part, count=3, status=status)

    def right(self):
        """Maps that are right, by what they have: pairs of a map and more lumps of its PWAD."""
        door = with_special(Map('..d..', d={'ceiling': 0}), '.', 'd', special=DOOR)
        for number in door.lines('.', 'd'):
            line = door.records('LINEDEFS')[number]
            if door.records('SIDEDEFS')[line['front']]['sector'] == 1:  # a door is behind its lines
                door.change('LINEDEFS', number, **{key: line[other] for key, other in (
                    ('start', 'end'), ('end', 'start'), ('front', 'back'), ('back', 'front'))})
        teleport = Map('..t#x', t={}, x={'tag': 7}, things=[(11, 3, DESTINATION, 0, 7)])
        stairs = Map('..12', **{letter: {'floor': 16, 'below': 'MOSS', 'tag': 3 * (letter == '1')} for letter in '12'})
        gl_nodes = [(label, b'1234') for label in ('GL_MAP01', 'GL_VERT', 'GL_SEGS', 'GL_SSECT', 'GL_NODES')]
        yield 'a plain hall', Map('....'), []
        yield 'a door', door, []
        yield 'a lift', with_special(Map('..l', l={'floor': 64, 'tag': 2}), '.', lines=1, special=LIFT, tag=2), []
        yield 'a teleport', with_special(teleport, '.', 't', special=TELEPORT, tag=7), []
        yield 'stairs', with_special(stairs, '.', lines=1, special=STAIRS, tag=3), []
        yield 'a donut', with_special(Map('..r', 'rrt', t={'tag': 4}), '.', lines=1, special=DONUT, tag=4), []
        yield '64 lines that scroll', with_special(Map('.' * 33), '.', lines=64, special=SCROLL), []
        yield 'all specials of sectors', Map('.abcdefghijklmn', **{
            letter: {'special': special} for letter, special in zip(
                'abcdefghijklmn', [1, 2, 3, 4, 5, 7, 8, 9, 10, 11, 12, 13, 14, 17])}), []
        yield 'GL nodes beside plain ones', Map('....'), gl_nodes
        merged = [*lists('MINE'), ('MINE', ART['BRICKS'])]
        sky = {'.': {'above': 'F_SKY1'}, 's': {'above': 'F_SKY1', 'ceiling': 96}}
        water, pit = {'floor': -32, 'below': 'MOSS'}, {'floor': -64}
        yield 'textures of its own, merged', Map('....', **{'.': {'wall': 'MINE'}}), merged
        yield 'flats of its own', Map('....', **{'.': {'below': 'MYFLAT'}}), own_flat('FF_START', 'F_END')
        yield 'a long REJECT', with_lumps(Map('.abc'), REJECT=bytes(99)), []
        yield 'a second player and a voodoo doll', Map('....', things=[(5, 3, 1, 0, 7), (7, 3, 2, 0, 7)]), []
        yield 'sky over different heights', Map('..s', **sky), []
        yield 'a bars in a window', Map('..w', w={'floor': 32, 'ceiling': 128}), []
        yield 'a pit of water', Map('..w', w={'floor': -64, 'below': 'MOSS', 'special': 7}), []
        yield 'a niche, too low for a player', Map('..n', n={'floor': 40, 'ceiling': 80}), []
        yield 'a sector of two parts', Map('.x..x.'), []
        yield 'a hall that is not reached', Map('..#xx'), []
        yield 'a sector of its own on both sides', self_referencing('.....', '..x#.', '.....'), []
        yield 'deep water', self_referencing('......', '..xxx#', '..xxx#', '......', x=water), []
        yield 'a bridge that is not seen', self_referencing('pppppp', '..bb#.', 'pppppp', start=(3, 5), p=pit), []

    def test_right(self):
        count = 0
        for what, made, lumps in self.right():
            with self.subTest(map=what):
                self.assertEqual(self.findings(made, *lumps)[0], [])
            count += 1
        self.assertGreaterEqual(count, 20)

    def test_strict(self):
        """What is odd counts for the status if that is asked for; a PWAD alone is told apart."""
        self.write('odd.wad', wads.wad_of(Map('....', things=[(7, 3, 999, 0, 8)]).lumps.items(), b'PWAD'))
        words = ['--iwad', 'game.wad', 'odd.wad', 'MAP01']
        accepting = self.stand_in('accepting', '#!/bin/sh\nexit 0\n')
        self.assertEqual(self.run_tool('lint', *words, doomview=accepting)[0], 0)
        self.assertEqual(self.run_tool('lint', *words, '--strict', doomview=accepting)[0], 1)

    def test_art(self):
        """Which flats the original does not find: by the last marks and the last lump of a name."""
        game = [('F_START', b''), ('ONE', FLAT), ('F1_END', b''), ('TWO', FLAT), ('F_END', b'')]
        for own, lost in [([], ([], [])), ([('ONE', FLAT)], ([], ['ONE'])),
                          (own_flat('F_START', 'F_END'), (['ONE', 'TWO'], [])), (own_flat('FF_START', 'F_END'), ([], [])),
                          (own_flat('FF_START', 'FF_END'), ([], ['MYFLAT']))]:
            files = [self.write('one.wad', wads.wad_of(game)), self.write('two.wad', wads.wad_of(own, b'PWAD'))]
            names = {'ONE', 'TWO', 'F_SKY1', *([] if len(own) < 2 else ['MYFLAT'])}
            self.assertEqual(art.Art(files).lost_flats(names), lost, own)


def self_referencing(*rows, **more):
    """A map whose lines around one sector have that sector on both sides, as of deep water and of bridges."""
    made = Map(*rows, **more)
    number = len(made.letters) - 1
    lines = made.records('LINEDEFS')
    for line in (line for letter in made.letters[:-1] for line in made.lines(letter, made.letters[-1])):
        for side in (lines[line]['front'], lines[line]['back']):
            if side != NO_SIDE:
                made.change('SIDEDEFS', side, sector=number)
    return made


if __name__ == '__main__':
    unittest.main()
