"""Tests the tool lint: the made room has no mistake, and each planted one is found; and what explain takes from it."""
import re
import struct
import unittest

from made_files import Tools, name, wad
from doomview_tools import checks, levels, room, wads
from doomview_tools.commands import lint

COORDINATES = re.compile(r' \((the first )?-?\d+,-?\d+ to -?\d+,-?\d+\)')
OFFSETS = {'SIDEDEFS': 30, 'SECTORS': 26, 'LINEDEFS': 14, 'THINGS': 10}  # bytes of a record


class Lint(Tools):
    def setUp(self):
        super().setUp()
        self.write('whole.wad', room.room())
        self.lumps = dict(wads.read(self.at('whole.wad')))
        self.accepting = self.stand_in('accepting', '#!/bin/sh\nexit 0\n')

    def records(self, lump, layout):
        return list(struct.iter_unpack(layout, self.lumps[lump]))

    def planted(self, lump=None, record=0, at=0, data=b'', **whole):
        """The lines on the room with one mistake: bytes of a record, or whole lumps."""
        lumps = {**self.lumps, **{label: data for label, data in whole.items()}}
        if lump:
            start = OFFSETS[lump] * record + at
            lumps[lump] = lumps[lump][:start] + data + lumps[lump][start + len(data):]
        files = [self.write('made.wad', wad(lumps.items()))]
        found = list(checks.findings(levels.read(files, 'MAP01'), files))
        return lint.status_of(found), [lint.line_of(it) for it in found]

    def finds(self, part, *words, status=1, **more):
        """A part is in a line on a planted mistake, where the coordinates of lines are left out."""
        found = self.planted(*words, **more)
        lines = [COORDINATES.sub('', line) for line in found[1]]
        self.assertTrue(any(part in line for line in lines), f'{part!r} is not in {found[1]}')
        self.assertEqual(found[0], status)

    def line_of_two_sides(self, wanted):
        """The number of the first line of two sides for which something holds of the floors and ceilings beside it."""
        sides, sectors = self.records('SIDEDEFS', '<hh8s8s8sH'), self.records('SECTORS', '<hh8s8shhh')
        return next(i for i, line in enumerate(self.records('LINEDEFS', '<7H')) if line[6] != 0xffff
                    and wanted(sectors[sides[line[5]][5]], sectors[sides[line[6]][5]]))

    def test_whole(self):
        self.assertEqual(self.planted(), (0, []))
        self.assertEqual(self.run_tool('lint', 'whole.wad', 'MAP01', doomview=self.accepting), (0, b'', ''))

    def test_names(self):
        """Textures and flats that there are not, with what may be meant."""
        sides, sectors = self.records('SIDEDEFS', '<hh8s8s8sH'), self.records('SECTORS', '<hh8s8shhh')
        one_sided, side = next((i, line[5]) for i, line in enumerate(self.records('LINEDEFS', '<7H'))
                               if line[6] == 0xffff and sides[line[5]][4].startswith(b'BRICKS')
                               and sectors[sides[line[5]][5]][1] > sectors[sides[line[5]][5]][0])
        self.finds(f'error texture: line {one_sided}: middle BRICK is in no list of textures; is it BRICKS?',
                   'SIDEDEFS', side, 20, name('BRICK'))
        self.finds('the name is empty; write -', 'SIDEDEFS', side, 20, name(''))
        self.finds(f'hole texture: line {one_sided} front: needs a texture: middle, ', 'SIDEDEFS', side, 20, name('-'))
        self.finds('error flat: sector 0: floor TILE is no flat; is it TILES?', 'SECTORS', 0, 4, name('TILE'))
        self.finds('error flat: sector 1: ceiling BARS is no flat: there is a lump of that name, but not between '
                   'F_START', 'SECTORS', 1, 12, name('BARS'))

    def test_lines(self):
        lines = self.records('LINEDEFS', '<7H')
        one_sided = next(i for i, line in enumerate(lines) if line[6] == 0xffff)
        step = self.line_of_two_sides(lambda front, back: front[0] < back[0])
        self.finds(f'error line: line {one_sided}: has no front side', 'LINEDEFS', one_sided, 10, b'\xff\xff')
        self.finds(f'error line: line {one_sided}: its back side, or the sector of that, is not there', 'LINEDEFS',
                   one_sided, 12, b'\x99\x09')
        beyond = struct.pack('<7H', 0, 1, 1, 0, 0, 0x999, 0xffff)
        self.finds(f'error line: lines {len(lines)} {len(lines) + 1}: its front side, or the sector of that, is not '
                   'there', LINEDEFS=self.lumps['LINEDEFS'] + beyond * 2)
        self.finds(f'fault line: line {one_sided}: is two-sided and has no back side', 'LINEDEFS', one_sided, 4, b'\4')
        self.finds(f'odd line: line {step}: has two sides and is not two-sided', 'LINEDEFS', step, 4, b'\1')
        self.finds(f'odd line: line {step}: has no length', 'LINEDEFS', step, 2, struct.pack('<H', lines[step][0]))
        self.finds(f'hole texture: line {step} front: needs a texture: lower', 'SIDEDEFS', lines[step][5], 12,
                   name('-'))

    def test_textures(self):
        """Textures that end before the wall, and those of several patches."""
        grate = self.records('SIDEDEFS', '<hh8s8s8sH')
        numbers = [i for i, side in enumerate(grate) if side[4].startswith(b'BARS')]
        lumps = dict(self.lumps)
        low = room.patch(64, 72, 0, 0, room.bricks)
        lists = dict(room.textures([('BRICKS', low), ('PANELS', lumps['PANELS']), ('BARS', lumps['BARS']),
                                    ('SKY1', lumps['SKY1'])]))
        self.finds('middle BRICKS is 72 high and the wall 160: rows of other pictures show', status=0, BRICKS=low,
                   **lists)
        narrow = room.patch(32, 128, 0, 0, room.bars)
        self.finds('middle BARS has no patches in column 32: the Medusa effect', BARS=narrow)
        self.assertGreater(len(numbers), 0)

    def test_sectors(self):
        sectors = self.records('SECTORS', '<hh8s8shhh')
        self.finds('odd sector: sector 0: its ceiling -9 is below its floor 0', 'SECTORS', 0, 2, struct.pack('<h', -9),
                   status=0)
        sides = self.records('SIDEDEFS', '<hh8s8s8sH')
        line = next(it for it in self.records('LINEDEFS', '<7H') if it[6] == 0xffff)
        other = (sides[line[5]][5] + 1) % len(sectors)
        found = self.planted('SIDEDEFS', line[5], 28, struct.pack('<H', other))[1]
        self.assertEqual(sum('is not closed: its lines end at' in it for it in found), 2, found)

    def test_things(self):
        self.finds('fault thing: thing 1: type 2028 at -500, 0 is outside', 'THINGS', 1, 0, struct.pack('<hh', -500, 0))
        self.finds('error thing: thing 1: type 3004 needs the picture POSSA, which no WAD has', 'THINGS', 1, 6,
                   struct.pack('<H', 3004))
        self.finds('error thing: map: has no start of player 1', 'THINGS', 0, 6, struct.pack('<H', 2))

    def test_hidden_list(self):
        """A PWAD whose TEXTURE1 takes the place of the game's."""
        lists = room.textures([('OTHER', self.lumps['BRICKS'])])
        level = [(label, self.lumps[label]) for label in ('MAP01', *wads.MAP_LUMPS)]
        self.write('patch.wad', wads.wad_of([*level, *lists, ('OTHER', self.lumps['BRICKS'])], b'PWAD'))
        status, output, _ = self.run_tool('lint', '--iwad', 'whole.wad', 'patch.wad', 'MAP01', doomview=self.accepting)
        self.assertEqual(status, 1)
        self.assertIn('error list: patch.wad: its TEXTURE1 hides that of whole.wad, which has BRICKS', output.decode())

    def test_wrong(self):
        """What cannot be read is refused with status 2; and what the audit says stands behind the findings."""
        for part, lumps in [('has no nodes (SSECTORS is empty)', {'SSECTORS': b''}),
                            ('has extended nodes (XNOD in NODES)', {'NODES': b'XNOD'}),
                            ('a vertex of line 0 is not there', {'VERTEXES': b''}),
                            ('TEXTURE1 is damaged', {'TEXTURE1': b'\xff\0\0\0'})]:
            self.write('made.wad', wad({**self.lumps, **lumps}.items()))
            self.refuses(part, 'lint', 'made.wad', 'MAP01', doomview=self.accepting)
        self.refuses('has no map MAP02; the maps there: MAP01', 'lint', 'whole.wad', 'MAP02', doomview=self.accepting)
        ending = self.stand_in('ending', "#!/bin/sh\necho 'doomview: refused 606 3' >&2\nexit 2\n")
        status, _, error = self.run_tool('lint', 'whole.wad', 'MAP01', doomview=ending)
        self.assertEqual(status, 2)
        self.assertIn('explain: 606: ', error)

    def test_explain(self):
        """explain lists all that is wrong in the way of a refusal."""
        ending = self.stand_in('ending', '#!/bin/sh\necho "doomview: refused $REFUSED" >&2\nexit 2\n')
        self.write('path.csv', b'x,y,z,angle\n')
        flats = self.lumps['SECTORS'].replace(name('TILES'), name('TILED')).replace(name('MOSS'), name('MUSS'))
        things = self.lumps['THINGS'].replace(struct.pack('<H', 2028), struct.pack('<H', 3004), 2)
        sides = self.lumps['SIDEDEFS'].replace(name('BRICKS'), name('BRICK')).replace(name('PANELS'), name('PANNELS'))
        for refused, lump, data, parts in [
                ('903 0', 'SECTORS', flats, ['TILED is no flat; is it TILES?', 'MUSS is no flat; is it MOSS?']),
                ('801 1', 'THINGS', things, ['things 1 2: type 3004 needs the picture POSSA']),
                ('901 0', 'SIDEDEFS', sides,
                 ['BRICK is in no list of textures; is it BRICKS?', 'PANNELS is in no list']),
                ('905 0', 'BARS', room.patch(32, 128, 0, 0, room.bars), ['middle BARS has no patches in column 32'])]:
            self.write('made.wad', wad({**self.lumps, lump: data}.items()))
            error = self.run_tool('explain', 'audit', 'MAP01', 'made.wad', '--path', 'path.csv', doomview=ending,
                                  REFUSED=refused)[2]
            for part in parts:
                self.assertIn(part, error)


if __name__ == '__main__':
    unittest.main()
