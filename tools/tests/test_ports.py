"""Tests the tool rest on made maps, and tools/ports on pictures and savegames that are made here and with stand-ins for
a port and doomview; and with dsda-doom where it, Freedoom and the program that DOOMVIEW_TESTED names are there.

With DOOMVIEW_PORTS=1 the other ports that are installed are tried too: they are photographed while they run, which a
busy machine can spoil."""
import os
import struct
import subprocess
import sys
import tempfile
import unittest
import zlib

from made_files import TOOLS, TOP, Tools, name, room, wad
from doomview_tools import game_at_rest, levels, original, wads
from doomview_tools.trouble import Trouble

sys.path.insert(0, os.path.join(TOOLS, 'ports'))
import installed  # noqa: E402
import screens  # noqa: E402

COMPARE = os.path.join(TOOLS, 'ports', 'compare')
TESTED = os.environ.get('DOOMVIEW_TESTED', '')
FRAME, UNIT = 64000, 65536
COLOURS = bytes(part for i in range(256) for part in (i, 255 - i, i // 2))
FLATS = ['FLAT1', 'NUKAGE1', 'NUKAGE2', 'NUKAGE3']
# Writes a video of four tics a view, of what the file beside it has as frames of red, green, blue.
PORT = '''#!/bin/sh
echo 320 200 >video.txt
cat "$(dirname "$0")/video" >video.rgb
'''


def texture_list(names):
    places = [4 + 4 * len(names) + 22 * i for i in range(len(names))]
    return struct.pack(f'<I{len(names)}I', len(names), *places) + b''.join(
        name(it) + struct.pack('<IhhIH', 0, 64, 128, 0, 0) for it in names)


def game():
    """A game of one map: a room with specials, a floor that is animated, and a spectre."""
    lumps = dict(room([24], [(-64, 32, 100, 1), (1, 2, 0, 58), (64, -32, 135, 1)], []))
    lumps['SECTORS'] = struct.pack('<hh8s8shhh', 24, 128, name('NUKAGE2'), name('FLAT1'), 160, 8, 1)
    lumps['LINEDEFS'] = struct.pack('<7H', 0, 1, 4, 48, 0, 0, 0xffff) * 4
    lumps['SIDEDEFS'] = struct.pack('<hh8s8s8sH', 0, 0, name('-'), name('FIREBLU1'), name('WALL1'), 0)
    texture = ['WALL1', 'FIREBLU1', 'FIREBLU2']
    return [('PLAYPAL', COLOURS), ('COLORMAP', bytes(8192)), ('PNAMES', bytes(4)), ('TEXTURE1', texture_list(texture)),
            ('F_START', b''), *((it, bytes(4096)) for it in FLATS), ('F_END', b''),
            ('MAP01', b''), *lumps.items(), ('REJECT', b'\0'), ('BLOCKMAP', bytes(12))]


def png(width, lines, colours=2):
    """A PNG of lines, each a pair of its filter and its bytes."""
    def chunk(kind, data):
        return struct.pack('>I', len(data)) + kind + data + bytes(4)
    head = struct.pack('>IIBBBBB', width, len(lines), 8, colours, 0, 0, 0)
    body = zlib.compress(b''.join(bytes([kind]) + line for kind, line in lines))
    return b'\x89PNG\r\n\x1a\n' + chunk(b'IHDR', head) + chunk(b'PLTE', COLOURS) * (colours == 3) + chunk(b'IDAT', body)


def pcx(frame):
    """A PCX of a frame, each byte as a run."""
    return struct.pack('<4B4H', 10, 5, 1, 8, 0, 0, 319, 199).ljust(128, b'\0') + b''.join(
        bytes([0xc1, byte]) for byte in frame)


class Rest(Tools):
    def setUp(self):
        super().setUp()
        self.write('game.wad', wad(game()))

    def test_files(self):
        """The map is at rest in both WADs, and one has the names that are shown."""
        done = self.run_tool('rest', 'game.wad', 'MAP01', 'out', '--views', '2')
        self.assertEqual(done, (0, b'', ''))
        still, shown = (levels.read([self.at('out', it)], 'MAP01') for it in ('still.wad', 'shown.wad'))
        for level in (still, shown):
            self.assertEqual([it.type for it in level.things], [3002, 1])
            self.assertEqual((level.sectors[0].special, level.lines[0].special), (0, 0))
        self.assertEqual([still.sectors[0].floor_flat, still.sides[0].lower], ['NUKAGE2', 'FIREBLU1'])
        self.assertEqual([shown.sectors[0].floor_flat, shown.sides[0].lower], ['NUKAGE1', 'FIREBLU2'])
        self.assertEqual(self.read('out/path.csv').splitlines(), [
            'x,y,z,angle', f'{64 * UNIT},{-32 * UNIT},{65 * UNIT},{3 << 29}', f'{64 * UNIT},{-32 * UNIT},{65 * UNIT},'
            f'{(3 << 29) + (37 << 24)}'])
        self.assertEqual(self.read('out/weapon.csv').count('PISG,A,0,65536,2097152'), 2)
        self.assertEqual(self.read('out/still.deh').count('Duration = -1'), 877)
        self.assertIn('M_PAUSE', [lump.name for lump in wads.read(self.at('out/still.wad'))])

    def test_demo(self):
        """33 tics, then a pause at each view and a turn that ends it."""
        demo = game_at_rest.demo('E2M3', 4, 2, 5)
        self.assertEqual(demo[:13], bytes([109, 3, 2, 3, 0, 0, 0, 0, 0, 1, 0, 0, 0]))
        tics = [demo[at:at + 4] for at in range(13, len(demo) - 1, 4)]
        pause, turn = bytes([0, 0, 0, 0x81]), bytes([0, 0, 37, 0x81])
        self.assertEqual(tics, [bytes(4)] * 33 + [pause, *[bytes(4)] * 5, turn, pause, *[bytes(4)] * 5])
        self.assertEqual((demo[-1], game_at_rest.number_of('MAP31')), (0x80, (1, 31)))
        self.assertIn(bytes([0, 0, 0, 0x82]), game_at_rest.saving_demo('MAP01', 3))
        with self.assertRaisesRegex(Trouble, 'no name of a map that a demo can start'):
            game_at_rest.number_of('TITLE')

    def test_place(self):
        """--at puts the player start elsewhere."""
        self.assertEqual(self.run_tool('rest', 'game.wad', 'MAP01', 'out', '--at=-8,9,90', '--views', '1')[0], 0)
        start = levels.read([self.at('out/still.wad')], 'MAP01').player_start()
        self.assertEqual(tuple(start[:3]), (-8, 9, 90))

    def test_trouble(self):
        self.refuses('has no REJECT and BLOCKMAP', 'rest', 'made.wad', 'MAP07', 'out')
        self.refuses('X,Y,DEGREES', 'rest', 'game.wad', 'MAP01', 'out', '--at=1,2')
        self.refuses('a number from 1 to 8', 'rest', 'game.wad', 'MAP01', 'out', '--views', '9')


class Screens(unittest.TestCase):
    def test_pcx(self):
        frame = bytes(i % 251 for i in range(FRAME))
        self.assertEqual(screens.pcx_indices(pcx(frame)), frame)
        with self.assertRaisesRegex(Trouble, '10 by 200'):
            screens.pcx_indices(struct.pack('<4B4H', 10, 5, 1, 8, 0, 0, 9, 199).ljust(128, b'\0'))

    def test_png(self):
        """Every filter, and every kind of colours."""
        plain = [bytes([10, 20, 30, 11, 22, 33]), bytes([13, 24, 35, 10, 20, 30])]
        lines = [(0, plain[0]), (1, bytes([13, 24, 35, 253, 252, 251])), (2, bytes([0, 0, 0, 0, 0, 0])),
                 (3, bytes([7, 12, 18, 0, 0, 0])), (4, bytes([0, 0, 0, 0, 0, 0]))]
        width, height, pixels = screens.png_pixels(png(2, lines))
        self.assertEqual((width, height, len(pixels)), (2, 5, 30))
        self.assertEqual([pixels[0:6], pixels[6:12], pixels[12:18]], [plain[0], plain[1], plain[1]])
        self.assertEqual(pixels[18:24], bytes([13, 24, 35, 11, 22, 32]))
        self.assertEqual(screens.png_pixels(png(1, [(0, bytes([1, 2, 3, 99]))], 6))[2], bytes([1, 2, 3]))
        self.assertEqual(screens.png_pixels(png(2, [(0, bytes([3, 1]))], 3))[2], COLOURS[9:12] + COLOURS[3:6])

    def test_scaled(self):
        rgb = bytes(part for y in range(400) for x in range(640) for part in (x // 2 % 251, y // 2, 7))
        found = screens.sampled(640, 400, rgb)
        ends = bytes([0, 0, 7, 1, 0, 7]), bytes([68, 199, 7])
        self.assertEqual((len(found), found[:6], found[-3:]), (3 * FRAME, *ends))
        with self.assertRaisesRegex(Trouble, 'fewer than 320 by 200'):
            screens.sampled(160, 100, b'')

    def test_colours(self):
        """Of indices with one colour the least, and for a colour that is not there the nearest."""
        palette = screens.Palette(bytes([0, 0, 0]) + bytes([9, 9, 9]) * 2 + bytes([200, 0, 0]) * 253)
        self.assertEqual(palette.plain(bytes([0, 1, 2, 3, 255])), bytes([0, 1, 1, 3, 3]))
        self.assertEqual(palette.frame(bytes([9, 9, 8]) * FRAME), bytes([1]) * FRAME)
        self.assertEqual(len(palette.strange), 1)


class Installed(unittest.TestCase):
    def test_still_ones(self):
        shots = ['a', 'b', 'b', 'c', 'd', 'd', 'd']
        self.assertEqual(installed.still_ones(shots, 2, 2), ['b', 'd'])
        self.assertEqual(installed.still_ones(shots, 1, 3), ['d'])
        with self.assertRaisesRegex(installed.Missed, '7 screenshots have 2 still views, and 3 are wanted'):
            installed.still_ones(shots, 3, 2)

    def test_moved(self):
        """A savegame of a player who stands elsewhere."""
        start, row = (levels.UNIT * 3, levels.UNIT * -4, 0, 0), (5, 6, 50 * UNIT, 1 << 31)
        from doomview_tools.paths import Row
        saved = b'head' + struct.pack('<iiiiiI', *start[:2], 7, 8, 9, 10) + b'rest'
        found = installed.moved(saved, Row(*start), Row(*row))
        self.assertEqual(found, b'head' + struct.pack('<iiiiiI', 5, 6, 9 * UNIT, 8, 9, 1 << 31) + b'rest')
        with self.assertRaisesRegex(Trouble, 'no player at the start'):
            installed.moved(b'', Row(*start), Row(*row))


class Compare(Tools):
    """`compare` with a stand-in for dsda-doom and for doomview."""

    def setUp(self):
        super().setUp()
        self.clone()  # without the original
        self.command = self.at('clone/tools/ports/compare')
        self.write('game.wad', wad(game()))
        self.stand_in('bin/dsda-doom', PORT)
        self.doomview = self.stand_in('doomview', '#!/bin/sh\ncat "$(dirname "$0")/$1"\n')
        views = [bytes([7]) * FRAME, bytes([9]) * FRAME]
        self.write('render', b''.join(views))
        self.write('trace', (bytes([2]) + bytes(7)) * FRAME + (bytes([1]) + bytes(7)) * FRAME)
        self.video = [bytes(part for i in view for part in COLOURS[3 * i:3 * i + 3]) for view in views]

    def compare(self, *words, frames=None):
        self.write('bin/video', b''.join(frame * 4 for frame in frames or self.video))
        return self.run_command(self.command, 'dsda-doom', 'game.wad', 'MAP01', *words, doomview=self.doomview)

    def test_same(self):
        status, output, error = self.compare('--views', '2')
        self.assertEqual((status, error), (0, ''), output)
        self.assertEqual(output.decode().splitlines()[0], 'dsda-doom MAP01 views 2 same 2 same by sprite,sky,weapon 2')

    def test_different(self):
        """Pixels that differ are counted by their painters."""
        other = [frame[:3 * FRAME - 3 * count] + bytes([1, 254, 0]) * count
                 for frame, count in zip(self.video, (30, 10))]
        status, output, error = self.compare('--views', '2', '--keep', 'kept', frames=other)
        self.assertEqual((status, error), (1, ''), output)
        lines = output.decode().splitlines()
        self.assertRegex(lines[0], r'^dsda-doom MAP01 views 2 same by sprite,sky,weapon 2 pixels 0.03 % '
                                   r'plane 75.00 % wall 25.00 %')
        self.assertRegex(lines[-1], r'^\| dsda-doom \| 2 \| 0 \| 2 \| 0.03 % \|.*\| 75.00 % \| 25.00 % \|')
        self.assertEqual(os.path.getsize(self.at('kept/dsda-doom-MAP01/port.bin')), 2 * FRAME)

    def test_only(self):
        """With --only pixels of some painters count alone, and decide the status."""
        other = [frame[:3 * FRAME - 90] + bytes([1, 254, 0]) * 30 for frame in self.video]
        status, output, _ = self.compare('--views', '2', '--only', 'sprite,sky,weapon', frames=other)
        self.assertEqual((status, output.decode().splitlines()[0]),
                         (0, 'dsda-doom MAP01 views 2 same 2 same by sprite,sky,weapon 2'))
        self.assertEqual(self.compare('--views', '2', '--only', 'plane', frames=other)[0], 1)
        self.assertEqual(self.compare('--only', 'floor')[0], 2)

    def test_missed(self):
        status, output, error = self.compare('--views', '3')
        self.assertEqual(status, 2)
        self.assertIn('once more, slower', error)
        self.assertIn('8 screenshots have 2 still views, and 3 are wanted', output.decode())

    def test_trouble(self):
        for part, words in [('there is no port eternity', ['eternity', 'game.wad', 'MAP01']),
                            ('takes no --path', ['dsda-doom', 'game.wad', 'MAP01', '--path', 'path.csv']),
                            ('there is no WAD absent.wad', ['dsda-doom', 'absent.wad', 'MAP01'])]:
            self.refuses(part, *words, command=self.command, doomview=self.doomview)


class Real(unittest.TestCase):
    """Ports that are installed, at the start of MAP01."""

    def lines(self, port, views, maps=('freedoom2.wad', 'MAP01'), *more):
        if not TESTED:
            self.skipTest('the program is not built')
        if not wads.find_or_none(maps[0]):
            self.skipTest(f'{maps[0]} is not there (package: freedoom)')
        if installed.missing(port):
            self.skipTest(f'{installed.missing(port)[0]} is not installed')
        done = subprocess.run([COMPARE, port, *maps, '--views', str(views), *more], stdout=subprocess.PIPE,
                              env={**os.environ, 'DOOMVIEW': TESTED}, text=True, cwd=TOP)
        self.assertEqual(done.returncode, 1, done.stdout)
        return done.stdout.splitlines()

    def test_dsda(self):
        """It differs in planes and walls alone."""
        self.assertRegex(self.lines('dsda-doom', 1)[0], r'^dsda-doom MAP01 views 1 same by sprite,sky,weapon 1 pixels [0-9.]+ % '
                                                        r'(packed spans [0-9.]+ % )?plane [0-9.]+ %( wall [0-9.]+ %)?; textures ahead by 1$')

    @unittest.skipUnless(os.environ.get('DOOMVIEW_PORTS'), 'it is tried with DOOMVIEW_PORTS=1 alone')
    def test_crispy(self):
        """It leaves out an armor bonus that is one column wide in view 0 of E1M1, and this alone of sprites."""
        with tempfile.TemporaryDirectory() as folder:
            lines = self.lines('crispy-doom', 1, ['freedoom1.wad', 'E1M1'], '--keep', folder)
            self.assertIn(' same by sprite,sky,weapon 1 ', lines[0])
            done = subprocess.run([os.path.join(TOP, 'doomview'), 'compare', 'ours.bin', 'port.bin', '--trace', 'trace.bin',
                                   '--only', 'sprite,sky,weapon'], cwd=os.path.join(folder, 'crispy-doom-E1M1'),
                                  stdout=subprocess.PIPE, text=True)
        self.assertIn('view 0 pixels 1 rows 104 to 104 columns 198 to 198', done.stdout)

    @unittest.skipUnless(os.environ.get('DOOMVIEW_PORTS'), 'it is tried with DOOMVIEW_PORTS=1 alone')
    def test_chocolate(self):
        """It differs by packed spans alone."""
        spans = '' if original.missing() else 'packed spans 100.00 % '
        self.assertEqual(self.lines('chocolate-doom', 2)[0], f'chocolate-doom MAP01 views 2 same by sprite,sky,weapon 2 '
                                                             f'pixels 1.00 % {spans}plane 100.00 %')


if __name__ == '__main__':
    unittest.main()
