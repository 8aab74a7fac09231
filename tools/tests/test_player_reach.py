"""Tests where a player gets in a level: the module ways, over made maps."""
import unittest

from made_files import Tools
from made_maps import NO_SIDE, Map
from doomview_tools import ground, levels, player_reach

RED_KEY, DESTINATION, LAMP = 13, 14, 2028
PIT = {'floor': -200}
TELEPORT, STAIRS, DONUT = 97, 8, 9  # specials of lines


def gap_passed(depth, speed=30):
    """How wide a gap a player passes who runs off an edge and comes to a floor that is lower by a depth, tic by tic:
    first he moves, and then he falls (P_XYMovement, P_ZMovement)."""
    x, z, momentum = 16, 0, 0  # held by the edge as far as his radius
    while -depth - z <= 24:  # a step onto the other edge
        x += speed
        z += momentum
        momentum = momentum - 1 if momentum else -2
    return x + 16


class Ways(Tools):
    def reach(self, made):
        """The letters of the sectors that a player reaches, and by letter the things to which no way was found."""
        level = levels.read([self.write('made.wad', made.wad())], 'MAP01')
        found = player_reach.reach(ground.Plan(level))
        return (''.join(sorted(made.letters[number] for number in found.sectors)),
                {made.letters[number]: things for number, things in found.wanted.items()})

    def reached(self, *rows, **more):
        return self.reach(Map(*rows, **more))[0]

    def test_jump_length(self):
        """As wide as tic by tic, in the original's order."""
        for depth in [-24, -23, 0, 1, 24, 100, 1000]:
            self.assertEqual(player_reach.jump_length(depth), gap_passed(depth), depth)
        self.assertEqual((player_reach.jump_length(-25), player_reach.jump_length(0)), (-1, 242))

    def test_jumps(self):
        """A running jump passes 192 units to the same height, 256 to a lower floor, and none to more than a step."""
        for gap, found in [('p', '.px'), ('ppp', '.px'), ('pppp', '.p')]:
            self.assertEqual(self.reached(f'...{gap}xx', p=PIT), found, gap)
        self.assertEqual(self.reached('...ppppxx', p=PIT, x={'floor': -100}), '.px')
        self.assertEqual(self.reached('...pxx', p=PIT, x={'floor': 24}), '.px')
        self.assertEqual(self.reached('...pxx', p=PIT, x={'floor': 25}), '.p')
        self.assertEqual(self.reached('...p#xx', p=PIT), '.p')  # a wall in the way
        self.assertEqual(self.reached('...psxx', p=PIT, s={'ceiling': 40}), '.p')  # no room in the way
        self.assertEqual(self.reached('...pxx', p={'floor': -2000}), '.px')

    def test_falls(self):
        """Down falls of any depth, and not back."""
        self.assertEqual(self.reached('..p', p={'floor': -3000}), '.p')
        self.assertEqual(self.reached('pp..', p=PIT), 'p')
        self.assertEqual(self.reached('..hst', h={'floor': 24}, s={'floor': 48}, t={'floor': 73}), '.hs')
        for special, found in [(62, '.t'), (0, '.')]:
            lift = Map('..t', t={'floor': 90, 'tag': 5})
            lift.change('LINEDEFS', lift.lines('.')[0], special=special, tag=5)
            self.assertEqual(self.reach(lift)[0], found)
        self.assertEqual(self.reached('..s', s={'ceiling': 55}), '.')

    def test_wanted(self):
        """A sector with what a player wants is reached, and said, unless he takes it from beside it."""
        def found(kind=RED_KEY, x=13, y=3, floor=50, skills=7):
            return self.reach(Map('...xxxh', x={'floor': floor}, things=[(x, y, kind, 0, skills)]))
        self.assertEqual(found(), ('.hx', {'x': [1]}))
        self.assertEqual(found(x=9), ('.hx', {}))
        self.assertEqual(found(x=9, floor=57), ('.hx', {'x': [1]}))
        for other in (found(skills=8), found(kind=LAMP), found(x=1, y=1)):  # never appears; a lamp; in the void
            self.assertEqual(other, ('.', {}))

    def test_teleports(self):
        """A teleport leads to the sector of its tag with a destination, and nowhere else."""
        for special, tag, found in [(TELEPORT, 7, '.xy'), (TELEPORT, 8, '.x'), (2, 7, '.x')]:
            made = Map('..xx#yy#z', y={'tag': 7}, z={'tag': 7}, things=[(15, 3, DESTINATION, 0, 7)])
            made.change_lines('.', 'x', special=special, tag=tag)
            self.assertEqual(self.reach(made)[0], found, (special, tag))

    def test_stairs(self):
        """The steps of stairs have no tags, and move; so does the ring of a donut."""
        steps = {letter: {'floor': 16, 'below': 'MOSS', 'tag': 3 * (letter == '1')} for letter in '123'}
        steps['3']['floor'] = 90
        for special, found in [(0, '.12'), (STAIRS, '.123')]:
            made = Map('..123', **steps)
            for number in made.lines('.', '1')[:1]:
                made.change('LINEDEFS', number, special=special, tag=3)
            self.assertEqual(self.reach(made)[0], found)
        for special, found in [(0, '.'), (DONUT, '.tx')]:
            made = Map('..tx', 't..#', t={'floor': 100}, x={'floor': -100, 'tag': 4})
            for number in made.lines('.'):
                made.change('LINEDEFS', number, special=special, tag=4)
            self.assertEqual(self.reach(made)[0], found)

    def test_one_sector_on_both_sides(self):
        """Lines with one sector on both sides, as around deep water, are passed where the nodes have another."""
        made = Map('.....', '..x#.', '.....')
        lines = made.records('LINEDEFS')
        for number in made.lines('.', 'x'):
            for side in (lines[number]['front'], lines[number]['back']):
                if side != NO_SIDE:
                    made.change('SIDEDEFS', side, sector=1)
        self.assertEqual(made.lines('.', 'x'), [])
        self.assertEqual(self.reach(made)[0], '.x')

    def test_no_start(self):
        self.assertEqual(self.reach(Map('...', start=None)), ('', {}))


if __name__ == '__main__':
    unittest.main()
