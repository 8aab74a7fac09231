"""Tests what compare says of frames that differ by a light alone, on texels and colormaps that are made here: each column of
a wall, each row of a plane and each sprite is drawn through the colormap that the original's rule gives it."""
import unittest

from made_files import Tools, wad
from test_compare import FRAME, WIDTH, texture_list, traced
from doomview_tools import differences, lights, traces

WALL, PLANE, SPRITE, SKY, WEAPON = (1, 2, 4, 1), (2, 1, 3, 0), (5, 1, 2, 0), (3, 2, 0, 1), (6, 1, 1, 0)
# Of each painter its records without the colour, its rows and columns, and the number of its colormap for light 160.
PAINTED = [(WALL, range(20, 60), range(10, 50), lambda row, column: 20 - column // 3),
           (PLANE, range(120, 180), range(10, 60), lambda row, column: 20 - (row - 120) // 2),
           (SPRITE, range(70, 100), range(100, 130), lambda row, column: 20 - 7),
           (SKY, range(5, 15), range(100, 130), lambda row, column: 0),
           (WEAPON, range(150, 190), range(200, 230), lambda row, column: 20 - 23)]


def colormaps():
    """34 colormaps: from that of each colour by itself down to darkness."""
    return bytes(colour * (40 - number) // 40 for number in range(34) for colour in range(256))


def texel(row, column):
    return (7 * row + 5 * column + row * column // 9) % 256


def drawn(light=160, of=None, texel_of=texel, painted=PAINTED):
    """A frame under a light, or one in which some of the painters alone have that light, and all others 160."""
    maps, frame = colormaps(), bytearray([5]) * FRAME
    for painter, rows, columns, number_of in painted:
        for row in rows:
            for column in columns:
                more = (160 - light) // 16 * 4 if painter != SKY and painter in (of or [it[0] for it in PAINTED]) else 0
                number = max(0, min(31, number_of(row, column) + more))
                frame[WIDTH * row + column] = maps[256 * number + texel_of(row, column)]
    return bytes(frame)


def trace_of(frame):
    return traced(*((row, column, (*painter, frame[WIDTH * row + column], 0))
                    for painter, rows, columns, _ in PAINTED for row in rows for column in columns))


class OtherLights(Tools):
    def setUp(self):
        super().setUp()
        self.write('names.wad', wad([('PLAYPAL', bytes(range(256)) * 3), ('COLORMAP', colormaps()),
                                     ('TEXTURE1', texture_list(['NONE', 'STONE']))]))
        self.write('ours.bin', drawn())
        self.write('trace.bin', trace_of(drawn()))

    def said(self, port, *words):
        self.write('port.bin', port)
        words = ['ours.bin', 'port.bin', '--wad', 'names.wad', '--trace', 'trace.bin', *words]
        status, output, error = self.run_tool('compare', *words)
        self.assertEqual((status, error), (1, ''))
        return [line for line in output.decode().splitlines() if line.startswith(('  darker ', '  lighter '))]

    def differing(self, port, of):
        """How many pixels of some painters differ."""
        ours = drawn()
        return sum(port[WIDTH * row + column] != ours[WIDTH * row + column] for painter, rows, columns, _ in PAINTED
                   if painter in of for row in rows for column in columns)

    def test_lights(self):
        """Darker and lighter, by one step and by more, where some columns come to the first or the last colormap."""
        of = [it[0] for it in PAINTED if it[0] != WEAPON]
        for light, words in ((144, 'darker   as under a light of 16 less'), (128, 'darker   as under a light of 32 less'),
                             (176, 'lighter  as under a light of 16 more'), (208, 'lighter  as under a light of 48 more')):
            port = drawn(light, of)
            self.assertEqual(self.said(port), [f'  {words}: all {self.differing(port, of)} pixels that differ of fragment 4, '
                                               'plane 3, sprite 2'])

    def test_ends(self):
        """A weapon that is near has the first colormap, and keeps it under a little less of light."""
        port = drawn(128, [WEAPON])
        self.assertEqual(self.said(port), ['  darker   as under a light of 32 less: all '
                                           f'{self.differing(port, [WEAPON])} pixels that differ of weapon row 1'])

    def test_two_lights(self):
        """Each light has its line, that of most pixels first."""
        both, lighter = bytearray(drawn(144, [PLANE])), drawn(176, [WALL])
        both[:WIDTH * 70] = lighter[:WIDTH * 70]
        self.assertEqual([line.partition(': all')[0] for line in self.said(bytes(both))],
                         ['  darker   as under a light of 16 less', '  lighter  as under a light of 16 more'])

    def test_others(self):
        """No line on another texture, an offset, one pixel more that differs, or WADs without colormaps."""
        self.assertEqual(self.said(drawn(texel_of=lambda row, column: texel(row + 1, column))), [])
        self.assertEqual(self.said(drawn(texel_of=lambda row, column: texel(column, row))), [])
        spoilt = bytearray(drawn(144, [SPRITE]))
        self.assertEqual(len(self.said(bytes(spoilt))), 1)
        spoilt[WIDTH * 80 + 110] ^= 128
        self.assertEqual(self.said(bytes(spoilt)), [])
        self.write('names.wad', wad([('PLAYPAL', bytes(768)), ('TEXTURE1', texture_list(['NONE', 'STONE']))]))
        self.assertEqual(self.said(drawn(144)), [])

    def test_part(self):
        """Columns under another light are told of alone; where they are under two others there is no line."""
        darker, lighter, part = drawn(144), drawn(176), bytearray(drawn())
        for row in range(20, 60):
            part[WIDTH * row + 10:WIDTH * row + 30] = darker[WIDTH * row + 10:WIDTH * row + 30]
        self.assertEqual(self.said(bytes(part)), ['  darker   as under a light of 16 less: all '
                                                  f'{self.differing(part, [WALL])} pixels that differ of fragment 4'])
        for row in range(20, 60):
            part[WIDTH * row + 30:WIDTH * row + 50] = lighter[WIDTH * row + 30:WIDTH * row + 50]
        self.assertEqual(self.said(bytes(part)), [])

    def test_only(self):
        """With --only a line is of these painters alone."""
        port = drawn(144)
        self.assertEqual(self.said(port, '--only', 'sprite'), [
            f'  darker   as under a light of 16 less: all {self.differing(port, [SPRITE])} pixels that differ of sprite 2'])

    def test_light(self):
        """Where the light is known the line has it, and the other; not where there are two."""
        both, found = (drawn(), drawn(144)), []
        marks = differences.marks_of(*both)
        for light in (160, 150):
            told = lights.Lights(colormaps()).lines(trace_of(both[0]), marks, both, traces.pixels_of(trace_of(both[0]), marks),
                                                   lambda kind, number: 160 if kind == PLANE[0] else light)
            found += [line.partition(': ')[0] for line in told]
        self.assertEqual(found, ['  darker   as under light 144 in the place of 160', '  darker   as under a light of 16 less'])

    def test_full_bright(self):
        """What is full bright here, and has some light in the port, is said so, and never a light below 0."""
        bright = [(SPRITE, range(70, 100), range(100, 130), lambda row, column: 0)]
        ours, port = (drawn(texel_of=lambda row, column: 8 * (row + column) % 256, painted=[(*bright[0][:3], lambda row, column: it)])
                      for it in (0, 13))
        marks = differences.marks_of(ours, port)
        records = traced(*((row, column, (*SPRITE, ours[WIDTH * row + column], 0)) for row in bright[0][1] for column in bright[0][2]))
        words = lights.Lights(colormaps()), records, marks, (ours, port), traces.pixels_of(records, marks), lambda kind, number: 32
        self.assertEqual(words[0].lines(*words[1:], lambda kind, number: True), [
            f'  darker   not full bright, as it is here, the sector there has light 32: all {sum(marks)} pixels that differ of '
            'sprite 2'])
        self.assertEqual(words[0].lines(*words[1:]), [
            f'  darker   as under a light of 64 less: all {sum(marks)} pixels that differ of sprite 2'])

    def test_steps(self):
        """From which colormap to which a step of light may lead: both are cut at their ends."""
        for pair, found in (((20, 24), {1}), ((20, 12), {-2}), ((20, 21), set()), ((31, 31), set(lights.STEPS)),
                            ((0, 2), set(range(1, 16))), ((31, 30), set(range(-15, 0)))):
            self.assertEqual({it for it in lights.STEPS if lights.STEPS[it] & lights.bit(*pair)}, found, pair)


if __name__ == '__main__':
    unittest.main()
