"""Tests what compare says of mistakes of whole frames: each is made here of frames that are right."""
import os
import unittest

from made_files import Tools, wad
from test_compare import FRAME, traced
from doomview_tools import frames, png


def textured(view):
    """A frame in which neighbours, rows and views differ, with 40 colours."""
    return bytes((7 * x + 3 * y + x * y // 50 + 11 * view) % 41 + 1 for y in range(200) for x in range(320))


def within(frame, size):
    """A frame with 0 outside the window of a view size."""
    left, top, width, height = frames.window(size)
    return bytes(colour if left <= i % 320 < left + width and top <= i // 320 < top + height else 0
                 for i, colour in enumerate(frame))


def rows_of(frame):
    return [frame[at:at + 320] for at in range(0, FRAME, 320)]


def doubled(frame, finer=9):
    """A frame of 640 by 400, of which each pixel is there four times; or but for one of so many in both directions, which
    is another one where a port draws finer."""
    wide = [bytes(colour for colour in row for _ in 'ab') for row in rows_of(frame)]
    rows = [bytes(colour ^ (x % finer == 1) for x, colour in enumerate(row)) for row in wide for _ in 'ab']
    return b''.join(rows)


PALETTE = bytes(part for i in range(256) for part in (i, i * 5 % 256, 255 - i))
COLORMAP = bytes((i * (33 - k) // 33 + k * k) % 256 for k in range(34) for i in range(256))
# Of each damage what makes it of all frames, and what is said of it.
DAMAGES = {
    'upside down': (lambda views: [b''.join(reversed(rows_of(it))) for it in views], "the port's frames are upside down"),
    'mirrored': (lambda views: [b''.join(row[::-1] for row in rows_of(it)) for it in views],
                 "the port's frames are mirrored, left for right"),
    'half a turn': (lambda views: [it[::-1] for it in views], "the port's frames are turned by half a turn"),
    'columns': (lambda views: [bytes(it[320 * y + x] for x in range(320) for y in range(200)) for it in views],
                "the port's frames are written column by column"),
    'planes': (lambda views: [b''.join(it[plane::4] for plane in range(4)) for it in views],
               "the port's frames are written as four planes of every fourth column"),
    'a row late': (lambda views: [bytes(320) + it[:-320] for it in views], "the port's picture is 1 row late (lower)"),
    'rows early': (lambda views: [it[960:] + bytes(960) for it in views], "the port's picture is 3 rows early (higher)"),
    'a column late': (lambda views: [b''.join(b'\0' + row[:-1] for row in rows_of(it)) for it in views],
                      "the port's picture is 1 column late (to the right)"),
    'a column early': (lambda views: [b''.join(row[1:] + b'\0' for row in rows_of(it)) for it in views],
                       "the port's picture is 1 column early (to the left)"),
    'a view late': (lambda views: [views[0], *views[:-1]], 'the port is 1 view late: its view 1 is our view 0'),
    'views early': (lambda views: [*views[2:], *views[:2]], 'the port is 2 views early: its view 0 is our view 2'),
    'from the last': (lambda views: views[::-1], 'the port has the views in the order from the last to the first'),
    'another order': (lambda views: [views[i] for i in (2, 0, 3, 1, 5, 4)],
                      'the port has the views in another order: its view 0 is our view 2, its view 1 is our view 0'),
    'a smaller view': (lambda views: [within(it, 9) for it in views],
                       'the port has another view size: its frames are within the window of size 9, and doomview has '
                       'size 11'),
    'view size 10': (lambda views: [it[320 * 16:320 * 184] + bytes(320 * 32) for it in views],
                     'the port has another view size: its frames are within the window of size 10, and doomview has size 11'),
    'view size 10 with a bar': (lambda views: [it[320 * 16:320 * 184] + textured(99)[:320 * 32] for it in views],
                                'the port has view size 10 (screenblocks of the original), and below that a status bar or the '
                                'like: its rows 0 to 167 are our rows 16 to 183'),
    'rows early without a bar': (lambda views: [it[320 * 16:] + bytes(320 * 16) for it in views],
                                 "the port's picture is 16 rows early (higher)"),
    'as many rows early as a bar has': (lambda views: [it[320 * 32:] + bytes(320 * 32) for it in views],
                                        "the port's picture is 32 rows early (higher)"),
    'one frame again and again': (lambda views: [views[1]] * 6, "each of the port's frames that differ is the same one, our "
                                  'view 1: it draws one row again and again, or writes one frame for all'),
    'one frame that is none': (lambda views: [textured(70)] * 6, "each of the port's frames that differ is the same one, none "
                               'of ours: it draws'),
    'low detail': (lambda views: [bytes(colour for colour in it[::2] for _ in 'ab') for it in views],
                   'the port draws in low detail: each of its columns is there twice (detailLevel of the original; 0 is high)'),
    'a colormap': (lambda views: [it.translate(COLORMAP[256 * 5:256 * 6]) for it in views],
                   'the port has other colours, always in the same way (1 is 25, 2 is 26, 3 is 27, 4 is 28 ..): colormap 5 '
                   'of COLORMAP'),
    'a palette': (lambda views: [it.translate(bytes((5 * i + 3) % 256 for i in range(256))) for it in views],
                  'the port has other colours, always in the same way (1 is 8, 2 is 13, 3 is 18, 4 is 23 ..): another '
                  'palette, gamma, or a colormap'),
    'black': (lambda views: [bytes(FRAME)] * 6, "each of the port's frames is all of colour 0 (black): nothing was drawn"),
    'a column in every view': (lambda views: [b''.join(row[:100] + b'\xff' + row[101:] for row in rows_of(it))
                                              for it in views], 'column 100 in 6 of 6 views: 1200 of the 1200 pixels'),
    'a status bar': (lambda views: [it[:320 * 168] + b'\xfe' * (320 * 32) for it in views],
                     'rows 168 to 199 in 6 of 6 views: 61440 of the 61440 pixels'),
}
# The same of what is no frames, for which the comparison is refused.
NO_FRAMES = {
    'RGB': (lambda views: [bytes(part for colour in it for part in PALETTE[3 * colour:3 * colour + 3]) for it in views],
            'port.bin has 3 times as many views: it has three bytes a pixel (RGB)'),
    'BGRA': (lambda views: [bytes(part for colour in it for part in (*PALETTE[3 * colour:3 * colour + 3][::-1], 255))
                            for it in views], 'port.bin has 4 times as many views: it has four bytes a pixel (RGBA or BGRA)'),
    '640 by 400': (lambda views: [doubled(it) for it in views], 'port.bin has 4 times as many views: its frames are of 640 by '
                   '400; let the port draw 320 by 200\n'),
    '640 by 400, drawn finer': (lambda views: [doubled(it, 2) for it in views], 'port.bin has 4 times as many views: its frames '
                                'are of 640 by 400'),
    '320 by 240': (lambda views: [it + bytes(320 * 40) for it in views], 'port.bin has 460800 bytes, 76800 for each of the 6 '
                   'views of ours, as frames of 320 by 240 have; let the port draw 320 by 200\n'),
    'a BMP': (lambda views: [b'BM' + bytes(1076) + views[0]], 'port.bin is a BMP, which is not read here: write each frame as '
              'PNG, PCX or PPM, or as palette indices\n'),
    'a JPEG': (lambda views: [b'\xff\xd8\xff' + bytes(99)], 'port.bin is a JPEG, which is not read here: write each frame'),
    'a PNG without its name': (lambda views: [b'\x89PNG' + bytes(99)], 'port.bin is a PNG, and its name has to end in .png\n'),
    'a trace': (lambda views: [traced(*[(y, x, (1, 2, 3, 4, 5, 0)) for y in range(200) for x in range(320)])] * 6,
                'port.bin is a trace, which has eight bytes a pixel'),
    'a list': (lambda views: [b'view 0 fragment 0 seg 240 first 0 last 319\n'],
               'port.bin is text that doomview list or limits wrote, and has no frames'),
    'a path': (lambda views: [b'x,y,z,angle\n0,0,0,0\n'], 'port.bin is a camera path'),
    'a WAD': (lambda views: [b'IWAD' + bytes(60)], 'port.bin is a WAD'),
}


class WholeFrames(Tools):
    """Mistakes of whole frames, each made of frames that are right."""

    def setUp(self):
        super().setUp()
        self.views = [textured(view) for view in range(6)]
        self.write('ours.bin', b''.join(self.views))
        self.write('names.wad', wad([('PLAYPAL', PALETTE), ('COLORMAP', COLORMAP)]))

    def compare(self, views, *words):
        self.write('port.bin', b''.join(views))
        return self.run_tool('compare', 'ours.bin', 'port.bin', '--wad', 'names.wad', *words)

    def test_damages(self):
        self.assertGreaterEqual(len({**DAMAGES, **NO_FRAMES}), 18)
        for name, (damage, sentence) in DAMAGES.items():
            status, output, error = self.compare(damage(self.views))
            self.assertEqual((status, error), (1, ''), name)
            head, said, first = output.decode().splitlines()[:3]
            self.assertRegex(head, '^[456] of 6 views differ$', name)
            self.assertTrue(said.startswith(sentence), f'{name}: {said}')
            self.assertTrue(first.startswith('view '), f'{name}: {first}')

    def test_beside_others(self):
        """A mistake is found beside others, which are counted."""
        spoilt = [it[:900] + bytes(50) + it[950:] for it in DAMAGES['mirrored'][0](self.views)]
        self.assertIn(b'are mirrored, left for right; 300 pixels of the views looked at differ beside that',
                      self.compare(spoilt)[1])
        late = [self.views[0], *self.views[:-1]]
        self.assertIn(b'the port is 1 view late', self.compare([it[:-99] + bytes(99) for it in late])[1])

    def test_no_frames(self):
        for name, (damage, sentence) in NO_FRAMES.items():
            status, output, error = self.compare(damage(self.views))
            self.assertEqual((status, output), (2, b''), name)
            self.assertTrue(error.startswith(f'doomview compare: {sentence}'), f'{name}: {error}')

    def test_pictures(self):
        """Pictures whose colours are in no entry of the palette: by gamma, by another palette, or by what is not known."""
        for colour_of, part in (
                (lambda i: [max(it, it * 3 // 4 + 60) for it in PALETTE[3 * i:3 * i + 3]],
                 'each brightness is always the same other one: turn off gamma'),
                (lambda i: [i * 3 % 256, 9, 7], 'each colour is always the same other one: the port has another palette')):
            rgb = bytes(part for colour in self.views[0] for part in colour_of(colour))
            self.write('port.png', png.png(320, 200, rgb))
            self.refuses(f'is in no entry of the palette; {part}', 'compare', 'ours.bin', 'port.png', '--wad', 'names.wad', ends=2)
        self.write('port.png', png.png(320, 200, bytes(i * i // 7 % 256 for i in range(3 * FRAME))))
        self.refuses('turn off what changes colours (gamma, filters, true colour)', 'compare', 'ours.bin', 'port.png',
                     '--wad', 'names.wad', ends=2)

    def test_window(self):
        """A port that paints where a smaller view has nothing; three times as many views that are no colours."""
        small = [within(it, 10) for it in self.views]
        self.write('ours.bin', b''.join(small))
        spoilt = [it[:320 * 168] + textured(9)[320 * 168:] for it in small]
        self.assertIn(b'the port paints outside the window of view size 10, which doomview leaves at 0',
                      self.compare(spoilt)[1])
        self.write('ours.bin', b''.join(self.views))
        output = self.compare([textured(i) for i in range(18)])[1].decode()
        self.assertTrue(output.startswith('port.bin has 3 times as many views: RGB?\nviews 6 same 6 '), output)

    def test_numbers_that_are_missing(self):
        """A folder of 0, 1 and 3 has its third frame for the view of number 2, which is said."""
        os.mkdir(self.at('theirs'))
        for number in (0, 1, 3):
            self.write(f'theirs/{number}.bin', self.views[number])
        self.write('ours.bin', b''.join(self.views[:4]))
        status, output, error = self.run_tool('compare', 'ours.bin', 'theirs', '--most', '0')
        self.assertEqual((status, error), (1, ''))
        lines = output.decode().splitlines()
        self.assertEqual(lines[:2] + lines[-1:], [
            'theirs lacks number 2 between 0.bin and 3.bin: its files are views 0, 1, 2 .. in their order, so 3.bin is view 2',
            '1 of 3 views differ', 'ours.bin has 4 views, theirs 3'])
        os.rename(self.at('theirs/1.bin'), self.at('theirs/7.bin'))
        self.assertIn(b'lacks number 1 to 2, 4 to 6 between', self.run_tool('compare', 'ours.bin', 'theirs')[1])
        os.rename(self.at('theirs/3.bin'), self.at('theirs/14.bin'))
        self.assertNotIn(b'lacks', self.run_tool('compare', 'ours.bin', 'theirs')[1])

    def test_few_pixels(self):
        """Where little differs nothing is said of whole frames."""
        spoilt = [it[:320] + it[320:640][::-1] + it[640:] for it in self.views]
        lines = self.compare(spoilt)[1].decode().splitlines()
        self.assertEqual(lines[0], '6 of 6 views differ')
        self.assertRegex(lines[1], '^row 1 in 6 of 6 views: ')


if __name__ == '__main__':
    unittest.main()
