"""Tests the what-ifs of why-limit, and solid ranges, with the program that DOOMVIEW_TESTED names."""
import os
import re
import struct
import unittest

from made_files import Tools
from made_maps import NO_SIDE, RECORDS, Map
from doomview_tools import counting, levels, list_counts, list_files, paths, program, walls

TESTED = os.environ.get('DOOMVIEW_TESTED', '')
LIMIT, SIDE = 128, 20  # planes; squares of a side of a hall
FIELDS = {'light': 'light', 'floor flat': 'floor_flat', 'ceiling flat': 'ceiling_flat', 'floor height': 'floor',
          'ceiling height': 'ceiling'}
CHANGE = re.compile(r'^ +-?\d+ +(\d+) +-?\d+ +\d+  (' + '|'.join(FIELDS) + r') (\S+) for .+ in sectors? ([\d, ]+)$', re.M)
FLATS = ['TILES', 'MOSS']


def lit_hall(x, y):
    """A hall whose squares have 110 lights, and two flats."""
    return {'light': 100 + (x + SIDE * y) % 110, 'below': FLATS[(x // 4 + y // 4) % 2]}


def stepped_hall(x, y):
    """A hall with steps and beams too."""
    return {'light': 100 + (x + SIDE * y) % 60, 'below': FLATS[(x // 2 + y // 2) % 2], 'floor': x // 3 % 2 * 8,
            'ceiling': 160 - y // 3 % 2 * 8}


def patterned_hall(x, y):
    """A hall with 65 lights, and patterns of two flats on its floor and its ceiling."""
    return {'light': 100 + (x + 21 * y) % 65, 'below': FLATS[((x + 1) // 2 + (y + 4) // 8) % 2],
            'above': FLATS[(x // 3 + (y + 6) // 7) % 2]}


def hall(look, side=SIDE):
    """A map of one hall, seen from the south."""
    letters, rows = {}, []
    for y in range(side):
        looks = [tuple(look(x, y).items()) for x in range(side)]
        rows.append(''.join(letters.setdefault(one, chr(0x100 + len(letters))) for one in looks))
    made = Map(*rows, start=(side + 1, 2 * side + 1), **{letter: dict(one) for one, letter in letters.items()})
    made.change('THINGS', 0, angle=90)
    return made


@unittest.skipUnless(TESTED, 'no program is named')
class WhatIf(Tools):
    def why(self, made):
        """Status and output of why-limit of the view from the start."""
        place = made.records('THINGS')[0]
        self.write('hall.wad', made.wad())
        view = f'{place["x"]},{place["y"]},{place["angle"]}'
        return self.run_tool('why-limit', 'hall.wad', 'MAP01', view, '--all', doomview=TESTED)[:2]

    def planes(self, made):
        """The planes of the view from the start."""
        return int(re.search(r' (\d+) planes', self.why(made)[1].decode())[1])

    def steps(self, made):
        """The planes of the view from the start, and after each change that the table has first, until it is below the
        limit."""
        counts = []
        while True:
            status, output = self.why(made)
            counts.append(int(re.search(r' (\d+) planes', output.decode())[1]))
            self.assertEqual(status, 1 if counts[-1] > LIMIT or ' over ' in output.decode() else 0)
            found = CHANGE.search(output.decode())
            if counts[-1] <= LIMIT or len(counts) > 9:
                return counts
            value = int(found[3]) if found[3].lstrip('-').isdigit() else found[3]
            for sector in found[4].split(', '):
                made.change('SECTORS', int(sector), **{FIELDS[found[2]]: value})
            self.expected = int(found[1])

    def test_lit_hall(self):
        """A hall of 324 planes comes below 128 by the first line of the table, which is the light."""
        self.assertEqual(self.steps(hall(lit_hall)), [324, self.expected])

    def test_stepped_hall(self):
        """A hall of 299 planes comes below 128 by the first lines of the table, and by no more than four."""
        counts = self.steps(hall(stepped_hall))
        self.assertEqual((counts[0], counts[-1]), (299, self.expected))
        self.assertLessEqual(len(counts), 5)
        self.assertEqual(counts, sorted(counts, reverse=True))
        self.assertLessEqual(counts[-1], LIMIT)

    def test_patterned_hall(self):
        """A hall of 318 planes comes below 128 by the first lines of the table, and by no more than four. It is one of
        which the light, made equal everywhere, leaves 197 planes, and the flats of the floor then 126."""
        counts = self.steps(hall(patterned_hall, 21))
        self.assertEqual((counts[0], counts[-1]), (318, self.expected))
        self.assertLessEqual(len(counts), 5)
        self.assertEqual(counts, sorted(counts, reverse=True))
        self.assertLessEqual(counts[-1], LIMIT)
        for planes, alike in [(197, {'light': 160}), (126, {'light': 160, 'below': 'TILES'})]:
            made = hall(lambda x, y: {**patterned_hall(x, y), **alike}, 21)
            self.assertEqual(self.planes(made), planes)

    def ranges(self, made):
        """The solid ranges of the view from the start of a map, and all its fragments."""
        level = levels.read([self.write('made.wad', made.wad())], 'MAP01')
        self.write('walls.wad', walls.walls_alone(level))
        self.write('path.csv', paths.text(paths.turn(level, 1)).encode())
        outputs = [self.run_command(TESTED, *program.complete(
            ['list', 'MAP01', *map(self.at, names), *counting.RAISED, '--path', self.at('path.csv')]))[1]
            for names in (['made.wad'], ['made.wad', 'walls.wad'])]
        return next(list_counts.ranges_of(outputs[1])), next(list_counts.counts_of(outputs[0]))['fragments']

    def test_pillars(self):
        """29 pillars in a row are drawn by Chocolate Doom 3.0.1, and 30 end it: more than 32 solid ranges. So it is
        with bars before them, of 2,530 and 2,658 fragments, as its renderer was seen to do (tools/original)."""
        for count, ends in [(29, False), (30, True)]:
            width = 2 * count + 1
            rows = ['.' * width] * 6 + ['.#' * count + '.'] + ['.' * width] * (count + 4)
            made = Map(*rows, start=(2 * (width // 2) + 3, 2 * len(rows) + 1))
            made.change('THINGS', 0, angle=90)
            ranges, fragments = self.ranges(made)
            self.assertEqual((ranges > 32, fragments < 256), (ends, True))
            put_bars(made)
            ranges, fragments = self.ranges(made)
            self.assertEqual((ranges > 32, fragments > 2500), (ends, True))

    def test_door(self):
        """A door that is shut is a solid wall, and one that is open none: by all segs of views of at most 256 fragments."""
        made = Map('..+..', '.#+#.', '.....', **{'+': {'ceiling': 0}})
        for height in (0, 1, 160):
            made.change('SECTORS', 1, ceiling=height)
            level = levels.read([self.write('made.wad', made.wad())], 'MAP01')
            self.write('walls.wad', walls.walls_alone(level))
            self.write('path.csv', paths.text(paths.places(level, 40, 1)).encode())
            every, alone = ([[(item.seg, item.first, item.last) for item in self.listed(names).view(number).fragments]
                             for number in range(41)] for names in (['made.wad'], ['made.wad', 'walls.wad']))
            solid = walls.solid_segs(level)
            self.assertEqual([[item for item in items if solid[item[0]]] for items in every], alone)
            self.assertEqual(sum(solid[number] for number, seg in enumerate(level.segs) if level.lines[seg.line].back is not None),
                             0 if height else 8)

    def listed(self, names):
        """What `list` writes of the path over some WADs."""
        words = ['list', 'MAP01', *map(self.at, names), '--path', self.at('path.csv')]
        return list_files.ListFile(self.write('list.txt', self.run_command(TESTED, *program.complete(words))[1]))


def put_bars(made):
    """Puts bars into all lines of a map that have two sides."""
    both = {side for line in made.records('LINEDEFS') if line['back'] != NO_SIDE for side in (line['front'], line['back'])}
    sides = [{**side, 'middle': b'BARS'} if number in both else side for number, side in enumerate(made.records('SIDEDEFS'))]
    made.lumps['SIDEDEFS'] = b''.join(struct.pack(RECORDS['SIDEDEFS'], *side.values()) for side in sides)


class Ranges(unittest.TestCase):
    def test_ranges(self):
        """Walls that touch none make a range more; one between two takes away none, as in the original."""
        for solid, most in [([], 2), ([[(100, 110)]], 3), ([[(0, 9)]], 2), ([[(100, 110)], [(120, 130)]], 4),
                            ([[(100, 110)], [(111, 130)]], 3),
                            ([[(100, 110)], [(120, 130)], [(111, 119)], [(200, 210)]], 5),
                            ([[(10, 19)], [(30, 39)], [(50, 59)], [(20, 29), (40, 49)], [(100, 101)]], 5)]:
            self.assertEqual(list_counts.most_ranges(solid), most, solid)

    def test_output(self):
        """What list writes of views, with more fragments than it lists, and over a raised limit."""
        text = (b'view 0 fragment 0 seg 0 first 10 last 19\nview 0 fragment 1 seg 1 first 30 last 39\n'
                b'view 0 plane 0 height 0 flat sky light 0 leaf 0 columns 3\n'
                b'view 0 fragments 2 of 300 planes 1 openings 7 sprites 0 of 129\nview 1 over planes 1025\n'
                b'view 2 fragments 0 of 0 planes 0 openings 0 sprites 0 of 0\n')
        counts = {'planes': 1, 'openings': 7, 'fragments': 300, 'sprites': 129}
        none = dict.fromkeys(counts, 0)
        self.assertEqual(list(list_counts.counts_of(text)), [counts, {'planes': 1025}, none])
        self.assertEqual(list(list_counts.ranges_of(text)), [4, 2, 2])


if __name__ == '__main__':
    unittest.main()
