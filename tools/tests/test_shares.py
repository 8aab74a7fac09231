"""Tests what compare says differs most, on frames and traces that are made here: shares by kind, name and light; what
differs beside a sprite; and rows of planes."""
import unittest

from made_files import Tools, wad
from test_compare import WIDTH, painted, texture_list, traced
from doomview_tools import shares, silhouettes, traces
from doomview_tools.traces import Painter

NAMES = wad([('PLAYPAL', bytes(768)), ('S_START', b''), ('POSSA1', b''), ('POSSB2B8', b''), ('TROOA1', b''), ('S_END', b''),
             ('F_START', b''), ('FLAT1', b''), ('F_END', b''), ('TEXTURE1', texture_list(['NONE', 'STONE', 'BRICK']))])
POSSA1, POSSB2, TROOA1, FLAT1 = 2, 3, 4, 7  # numbers of lumps


def wall(texture, number=0):
    return 1, 2, number, texture


def sprite(lump, number=0):
    return 5, 1, number, lump


PLANE = (2, 1, 0, FLAT1)


def block(painter, rows, columns, colour=6):
    """Spots of a trace."""
    return [(row, column, (*painter, colour, 0)) for row in rows for column in columns]


class Shares(Tools):
    def setUp(self):
        super().setUp()
        self.write('names.wad', NAMES)

    def compared(self, *views, words=('--most', '0')):
        """The lines of a comparison; of each view the spots of its trace, and those at which the port differs."""
        ours = [painted(*((row, column, record[4]) for row, column, record in spots)) for spots, _ in views]
        port = [bytearray(frame) for frame in ours]
        for frame, (_, places) in zip(port, views):
            for row, column in places:
                frame[WIDTH * row + column] = 200 + (3 * row + column) % 50
        self.write('ours.bin', b''.join(ours))
        self.write('port.bin', b''.join(map(bytes, port)))
        self.write('trace.bin', b''.join(traced(*spots) for spots, _ in views))
        status, output, error = self.run_tool('compare', 'ours.bin', 'port.bin', '--wad', 'names.wad', '--trace', 'trace.bin',
                                              *words)
        self.assertEqual((status, error), (1, ''))
        return output.decode().splitlines()

    def test_no_name_in_each_view(self):
        """One line says it, also where no painter is in each view; pictures of a sprite count as one."""
        first = block(wall(1), range(50), range(40)) + block(sprite(POSSA1), range(60, 62), range(5))
        second = block(wall(2), range(40), range(20)) + block(sprite(POSSB2), range(60, 61), range(10))
        places = [[(row, column) for row, column, _ in spots] for spots in (first, second)]
        lines = self.compared((first, places[0]), (second, places[1]))
        self.assertEqual(lines[:2] + lines[-1:], [
            '2 of 2 views differ', 'of the pixels that differ: 99 % wall (STONE 71 %, BRICK 28 %), <1 % sprite (POSS)',
            'views 2 same 0 different 2 pixels 2820'])
        self.assertFalse([line for line in lines if line.startswith('in each of')])

    def test_many_names(self):
        """The names of most pixels are said, and of the others how many they are."""
        counted, names = shares.Shares(), traces.Names([self.at('names.wad')])
        for texture, pixels in enumerate((500, 300, 100, 50, 30, 16)):
            counted.add(Painter(*wall(texture)[:2], texture + 9), pixels, names)
        counted.add(Painter(2, 1, FLAT1), 4, names)
        for light, pixels in ((160, 700), (192, 200), (0, 50), (16, 30), (255, 10), (32, 10)):
            counted.add_light(light, pixels)
        counted.add_light(None, 5)
        self.assertEqual(counted.line(), 'of the pixels that differ: >99 % wall (texture 9 50 %, texture 10 30 %, texture 11 '
                         '10 %, texture 12 5 %, 2 others 5 %), <1 % plane (FLAT1); by light: 160 70 %, 192 20 %, 0 5 %, 16 3 %, '
                         '2 other lights 2 %')
        self.assertEqual(shares.Shares().line(), '')

    def test_beside_a_sprite(self):
        """Another rotation of a sprite differs also in the wall and the floor behind: all that is the sprite's."""
        view = block(wall(1), range(40, 100), range(60, 140)) + block(PLANE, range(100, 150), range(60, 140))
        view += block(sprite(TROOA1, 3), range(70, 110), range(90, 110))
        own = [(row, column) for row in range(70, 110) for column in range(90, 110)]
        other = [(row, column) for row in range(75, 112) for column in range(110, 118)]
        lines = self.compared((view, own + other), words=())
        self.assertEqual(lines[1], 'of the pixels that differ: 100 % sprite (TROO)')
        self.assertEqual([line for line in lines if line.startswith('  ')], [
            '  sprite   TROOA1       800  sprite 3', '  wall     STONE        200  fragment 0', '  plane    FLAT1         96  plane 0',
            '  sprite   TROOA1       296  more beside it, of wall and plane: another picture, or moved'])
        far = [(row, column) for row in range(45, 50) for column in range(60, 70)]
        lines = self.compared((view, own + other + far), words=())
        self.assertEqual(lines[1], 'of the pixels that differ: 70 % sprite (TROO), 22 % wall (STONE), 8 % plane (FLAT1)')

    def test_boxes(self):
        """What is beside a sprite: as much as it is wide, and a quarter of its height, within the frame."""
        self.assertEqual(silhouettes.grown((70, 109, 90, 109)), (58, 121, 68, 131))
        self.assertEqual(silhouettes.grown((1, 198, 0, 319)), (0, 199, 0, 319))
        records = traced(*block(sprite(2, 1), range(5, 9), range(7, 30)), *block(wall(1, 1), range(50, 60), range(100)))
        self.assertEqual(silhouettes.boxes_of(records, [1, 2]), {1: (5, 8, 7, 29)})

    def test_rows(self):
        """Where one kind alone differs rows are not told, since a kind is in some rows more than in others, as planes are; where
        several do they are."""
        for others, found in ((PLANE, []), (wall(1), ['rows 168 to 192 in 4 of 4 views: 24500 of the 24500 pixels that differ'])):
            spots = block(PLANE, range(100, 200), range(160)) + block(others, range(100, 200), range(160, 320))
            views = [(spots, [(row, column) for row in range(168, 193) for column in range(50 * view, 320)]) for view in range(4)]
            self.assertEqual([line for line in self.compared(*views) if line.startswith('rows ')], found)


if __name__ == '__main__':
    unittest.main()
