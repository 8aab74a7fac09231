"""Tests the tools on files that are made here. No doomview is needed, nor a game's WAD: where a tool calls a program, a
stand-in of a few lines answers in its place."""
import csv
import hashlib
import os
import shutil
import struct
import unittest

from made_files import COMMAND, DOOMVIEW, DRAWING, FRAME, TOOLS, Tools, made_wad, pixels_of, room, wad
from doomview_tools import levels, paths
from doomview_tools.trouble import Trouble

# Prints its words, and the lines that it would run.
PARALLEL = '#!/bin/sh\n[ "$1" != --version ] || { echo GNU parallel; exit; }\necho "$@"\ncat\nexit 3\n'


class Made(Tools):
    """The files that tools make."""

    def test_tables(self):
        status, tables, _ = self.run_tool('tables')
        self.assertEqual((status, len(tables)), (0, 65540))
        with open(os.path.join(TOOLS, 'data', 'tables.sha256')) as file:
            self.assertEqual(file.read(), hashlib.sha256(tables).hexdigest() + '  tables.bin\n')
        for place, words in [(0, (25, 75, 125, 175)), (2047, (65535, 65535)),
                             (10240, (-170910304, -56965752, -34178904)), (14336, (0, 333772, 667544, 1001315)),
                             (16384, (1 << 29,))]:
            self.assertEqual(struct.unpack_from(f'<{len(words)}i', tables, 4 * place), words)

    def test_tables_are_checked(self):
        command = self.clone()
        sums = 'clone/tools/data/tables.sha256'
        self.write(sums, b'00  tables.bin\n')
        self.refuses('differ from tables.sha256', 'tables', command=command)
        os.remove(self.at(sums))
        self.refuses('tables.sha256 is missing', 'tables', command=command)

    def test_things(self):
        with open(os.path.join(TOOLS, 'data', 'things.csv'), newline='') as file:
            header, *rows = csv.reader(file)
        self.assertEqual(','.join(header), 'type,sprite,frame,bright,hang,shadow')
        types = [int(row[0]) for row in rows]
        self.assertEqual(len(types), len(set(types)))
        self.assertNotIn(58, types)
        for _, sprite, frame, bright, hang, shadow in rows:
            self.assertEqual((len(sprite), shadow), (4, '0'))
            self.assertTrue('A' <= frame <= ']' and bright in ('0', '1') and 0 <= int(hang) <= 32767)

    def test_room(self):
        """The made room is a WAD with a map, a player start, and places all over it."""
        done = self.run_tool('room')
        self.assertEqual((done[0], done[2]), (0, ''))
        room_wad = self.write('room.wad', done[1])
        self.assertEqual(self.run_tool('maps', room_wad), (0, b'MAP01\n', ''))
        start = self.run_tool('turn', room_wad, 'MAP01', '1')[1].splitlines()[1]
        rows = self.run_tool('places', room_wad, 'MAP01', '50')[1].splitlines()
        self.assertEqual((len(rows), rows[1]), (52, start))
        self.assertEqual(self.run_tool('places', room_wad, 'MAP01', '50')[1].splitlines(), rows)
        self.assertNotEqual(self.run_tool('places', room_wad, 'MAP01', '50', '--seed', '2')[1].splitlines(), rows)
        wild = self.run_tool('places', room_wad, 'map01', '50', '--wild')[1].decode().splitlines()
        self.assertGreater(len({row.split(',')[2] for row in wild}), 20)
        self.refuses('COUNT: a number from 0 to 9999, and not 10000', 'places', room_wad, 'MAP01', '10000')
        self.refuses('has no map MAP09; the maps there: MAP01', 'places', room_wad, 'MAP09')
        self.refuses('there is no WAD absent.wad', 'places', 'absent.wad', 'MAP01')
        self.refuses('unrecognized arguments: x', 'room', 'x')

    def test_outputs(self):
        """-o writes the same into a file, which is whole or not there; what is no plain file stays."""
        os.mkfifo(self.at('pipe'))
        for tool, *words in [['tables'], ['room'], ['places', self.wad, 'MAP01'], ['turn', self.wad, 'MAP01']]:
            output = self.run_tool(tool, *words)[1]
            self.assertEqual(self.run_tool(tool, *words, '-o', 'out'), (0, b'', ''))
            with open(self.at('out'), 'rb') as file:
                self.assertEqual(file.read(), output)
            for part, path in [('is a folder', 'bin'), ('is no plain file', 'pipe'), ('is no plain file', '/dev/null'),
                               ('there is no folder absent', 'absent/out')]:
                self.refuses(part, tool, *words, '-o', path)
        self.assertFalse(os.path.isfile('/dev/null'))

    def test_full_outputs(self):
        """What goes to standard output is whole, or the tool fails with a sentence."""
        for words in [['tables'], ['room'], ['places', self.wad, 'MAP01'], ['turn', self.wad, 'MAP01'],
                      ['maps', self.wad]]:
            with open('/dev/full', 'wb') as full:
                status, _, error = self.run_tool(*words, stdout=full, PYTHONUNBUFFERED='1')
            self.assertEqual(status, 2)
            self.assertIn('No space left', error)


class Levels(Tools):
    """What is read of levels, and the paths through them."""

    def test_turn(self):
        eighth, unit = 1 << 29, 1 << 16
        for label, views, x, y, z, start in [('MAP01', 4, 64, -32, 24 + 41, 2 * eighth),
                                             ('map02', 3, -10, 20, -16 + 41, 6 * eighth),
                                             ('MAP07', 36, 1, 2, 5 + 41, eighth)]:
            count = [] if views == 36 else [str(views)]
            status, output, error = self.run_tool('turn', self.wad, label, *count)
            self.assertEqual((status, error), (0, ''))
            header, *rows = output.decode().splitlines()
            self.assertEqual(header, 'x,y,z,angle')
            self.assertEqual(rows, [f'{x * unit},{y * unit},{z * unit},{(start + k * 2**32 // views) % 2**32}'
                                    for k in range(views)])

    def test_sides(self):
        for line, point, behind in [((0, 0, 0, 8), (1, 5), False), ((0, 0, 0, 8), (0, 5), True),
                                    ((0, 0, 0, -8), (0, 5), False), ((0, 0, 8, 0), (5, 0), False),
                                    ((0, 0, -8, 0), (5, 0), True), ((0, 0, 8, 8), (2, 1), False),
                                    ((0, 0, 8, 8), (1, 2), True), ((0, 0, 8, 8), (3, 3), True),
                                    ((4, 4, -8, 8), (4, 4), False), ((4, 4, 8, -8), (4, 4), True)]:
            self.assertEqual(levels.is_behind(line, *point), behind, (line, point))

    def test_records(self):
        """The records of a level, by their fields."""
        level = levels.read([self.wad], 'map01')
        self.assertEqual((level.name, level.wad), ('MAP01', self.wad))
        self.assertEqual(level.things[1], (64, -32, 100, 1, 7))
        self.assertEqual(level.lines[1], (1, 2, 4, 0, 0, 0, 1))
        self.assertEqual(level.sides[1], (0, 0, '-', '-', 'WALL1', 1))
        self.assertEqual(level.vertexes[2], (256, -256))
        self.assertEqual(level.segs[1], (1, 2, 0, 1, 1, 0))
        self.assertEqual(level.leaves, [(1, 0), (1, 1)])
        self.assertEqual(level.nodes[0], (0, 0, 0, 256, (256, -256, -256, 256), (256, -256, -256, 256), 0x8000, 0x8001))
        self.assertEqual(level.sectors[1], (-8, 128, 'FLAT1', 'FLAT1', 160, 0, 0))
        self.assertEqual((level.sector_at(1, 0), level.sector_at(-1, 0)), (0, 1))

    def test_sides_that_are_not_there(self):
        lumps = dict(room([0], [(0, 0, 0, 1)], []))
        lumps['LINEDEFS'] = struct.pack('<7H', 0, 1, 1, 0, 0, 0, 0xffff)
        line, = levels.Level('MAP01', 'made.wad', lumps).lines
        self.assertEqual((line.front, line.back), (0, None))

    def test_last_label(self):
        """Of several WADs the last one with the map counts, and its other lumps do not."""
        other = self.write('other.wad', wad([('MAP01', b''), *room([99], [(0, 0, 0, 1)], [])]))
        self.assertEqual(levels.read([self.wad, other], 'MAP01').sectors[0].floor, 99)
        self.assertEqual(levels.read([other, self.wad], 'MAP01').sectors[0].floor, 24)

    def test_rows(self):
        """A file of rows is read as it was written, with or without the columns of light."""
        rows = [paths.Row(1, -2, 3, 4), paths.Row(5, 6, 7, 8)]
        for lit in (rows, [*rows, paths.Row(9, 9, 9, 9, 2, 32)]):
            self.write('path.csv', paths.text(lit).encode())
            self.assertEqual(paths.rows(self.at('path.csv')), lit)
        for wrong in (b'', b'x,y\n', b'x,y,z,angle\n1,2\n', b'x,y,z,angle\n1,2,3,a\n'):
            with self.assertRaises(Trouble) as caught:
                paths.rows(self.write('path.csv', wrong))
            self.assertIn('is no camera path', str(caught.exception))

    def test_maps(self):
        status, output, _ = self.run_tool('maps', self.wad)
        self.assertEqual((status, output), (0, b'MAP01\nMAP02\nMAP03\nMAP04\nMAP07\n'))

    def test_wrong_wads(self):
        made = made_wad()
        for part, data in [('is no WAD', b'XWAD' + made[4:]), ('is no WAD', b''), ('cut short', made[:-1]),
                           ('cut short: it ends before its lump PLAYPAL', made[:-16] + b'\xff' * 8 + b'PLAYPAL\0'),
                           ('wrong.wad has no map', wad([('PLAYPAL', bytes(768))])), ('wrong.wad has no map', wad([]))]:
            place = self.write('wrong.wad', data)
            self.refuses(part, 'maps', place)
            self.refuses(part, 'turn', place, 'MAP01')
        self.refuses('there is no WAD absent.wad here', 'maps', 'absent.wad')
        self.refuses('there is no such file', 'maps', './absent.wad')
        self.refuses('it is no plain file', 'maps', './bin')
        for part, words in [('MAP05 of made.wad is in Hexen format', ['MAP05']),
                            ('MAP06 of made.wad is no map: behind it are MAP07, THINGS', ['MAP06']),
                            ('has no map MAP08; the maps there: A/B MAP01', ['MAP08']),
                            ('no player', ['MAP03']), ('circle', ['MAP04']),
                            ('VIEWS: a number from 1 to 10000, and not 0', ['MAP01', '0']),
                            ('VIEWS: a number', ['MAP01', '10001']), ('VIEWS: a number', ['MAP01', 'x']),
                            ('doomview turn --help shows its words', [])]:
            self.refuses(part, 'turn', 'made.wad', *words)
        damaged = wad([('MAP01', b''), *room([0], [(0, 0, 0, 1)], [])[:5], ('SSECTORS', struct.pack('<HH', 1, 7)),
                       ('NODES', b''), ('SECTORS', b'')])
        for tool in ('turn', 'places'):
            self.refuses('is damaged', tool, self.write('wrong.wad', damaged), 'MAP01')

    def test_nodes(self):
        """A map without plain nodes is called so, and not damaged."""
        lumps = room([0], [(0, 0, 0, 1)], [])
        bare = [(label, data) for label, data in lumps if label not in ('SEGS', 'SSECTORS', 'NODES')]
        empty = [(label, b'' if label in ('SEGS', 'SSECTORS') else data) for label, data in lumps]
        extended = [(label, b'XNOD' if label == 'NODES' else b'' if label == 'SSECTORS' else data)
                    for label, data in lumps]
        longer = [(label, b'XNOD' + bytes(40) if label == 'NODES' else data) for label, data in extended]
        for part, found in [('MAP01 of wrong.wad has no nodes (SEGS, SSECTORS, NODES); build them', bare),
                            ('has GL nodes alone', None), ('has no nodes (SSECTORS is empty); build them', empty),
                            ('has extended nodes (XNOD in NODES); build plain ones', extended),
                            ('has extended nodes (XNOD in NODES); build plain ones', longer)]:
            found = [*bare, ('GL_MAP01', b''), ('GL_VERT', b'')] if found is None else found
            self.write('wrong.wad', wad([('MAP01', b''), *found]))
            for tool in ('turn', 'places'):
                self.refuses(part, tool, 'wrong.wad', 'MAP01')
        self.write('wrong.wad', wad([('MAP01', b''), *bare]))
        self.refuses('MAP01 of wrong.wad has no nodes', 'turn', 'wrong.wad', 'MAP01', '--iwad', self.wad)
        self.refuses('made.wad and wrong.wad have no map E1M1; the maps there: A/B MAP02', 'turn', 'wrong.wad', 'E1M1',
                     '--iwad', 'made.wad')
        self.write('wrong.wad', wad([('MAP01', b''), ('TEXTMAP', b''), ('ENDMAP', b'')]))
        self.refuses('MAP01 of wrong.wad is a UDMF map; save it in Doom format', 'turn', 'wrong.wad', 'MAP01')


class Drawing(Tools):
    """The tools that call doomview."""

    def setUp(self):
        super().setUp()
        self.doomview = self.stand_in('doomview', DOOMVIEW)
        self.drawing = self.stand_in('drawing', DRAWING)
        self.write('frame', FRAME)

    def test_missing(self):
        doomview = self.doomview
        for tool, words in [('picture', ['MAP01', 'out.png']), ('video', ['MAP01', 'path.csv', 'out.mp4']),
                            ('draw-all', ['out']), ('audit-all', [])]:
            self.write('path.csv', b'x,y,z,angle\n')
            self.stand_in('bin/ffmpeg', '#!/bin/sh\n')
            self.refuses(f'doomview {tool} --help shows its words', tool)
            self.refuses('there is no WAD absent.wad here', tool, 'absent.wad', *words, doomview=doomview)
            self.refuses('cannot read ./absent.wad', tool, './absent.wad', *words, doomview=doomview)
            self.refuses('there is no WAD absent', tool, self.wad, *words, doomview=doomview, IWAD='absent')
            self.refuses('there is no WAD absent', tool, self.wad, *words, '--iwad', 'absent', doomview=doomview)
        self.refuses('there is no program', 'audit-all', self.wad)
        broken = self.stand_in('broken', '#!/bin/absent\n')
        self.refuses(f'cannot run {broken}', 'audit-all', self.wad, doomview=broken)
        os.remove(self.at('path.csv'))
        self.refuses('cannot read path.csv', 'video', self.wad, 'MAP01', 'path.csv', 'out.mp4', doomview=doomview)
        self.write('path.csv', b'x,y,z,angle\n')
        os.remove(self.at('bin/ffmpeg'))
        self.refuses('ffmpeg is not', 'video', self.wad, 'MAP01', 'path.csv', 'out.mp4', doomview=doomview)
        self.refuses('has to end in .mp4', 'video', self.wad, 'MAP01', 'path.csv', 'out', doomview=doomview)
        many = ['draw-all', self.wad, 'out', '--machines', 'one']
        self.refuses('parallel is not installed', *many, doomview=doomview)
        self.stand_in('bin/parallel', '#!/bin/sh\necho parallel of moreutils\n')
        self.refuses('not GNU parallel', *many, doomview=doomview)
        os.remove(self.at('bin/python3'))
        self.refuses('python3 is not', 'audit-all', self.wad, command=self.clone(), doomview=doomview)

    def test_no_build(self):
        """A program that cannot be built ends a tool with 70, before anything is done."""
        command = self.clone()
        status, output, error = self.run_command(command, 'audit-all', self.wad, doomview='')
        self.assertEqual((status, output), (70, b''))
        self.assertRegex(error, '^doomview: the build needs the command rt, .*\n$')

    def test_targets(self):
        """What is no file stays as it is, and an older file stays where nothing is drawn."""
        os.mkdir(self.at('folder.png'))
        os.mkfifo(self.at('pipe.png'))
        self.write('frame', FRAME[:-1])
        self.write('old.png', b'old')
        for part, png in [('is a folder', 'folder.png'), ('is no plain file', 'pipe.png'), ('is no frame', 'old.png'),
                          ('there is no folder absent', 'absent/out.png'), ('has to end in .png', 'out'),
                          ('has to end in .png', '.png')]:
            self.refuses(part, 'picture', self.wad, 'MAP01', png, doomview=self.drawing)
        self.refuses('unrecognized arguments: out.png', 'picture', self.wad, 'MAP01', 'more', 'out.png', doomview=self.drawing)
        with open(self.at('old.png')) as file:
            self.assertEqual(file.read(), 'old')
        self.write('frame', FRAME)
        self.assertEqual(self.run_tool('picture', self.wad, 'MAP01', 'old.png', doomview=self.drawing)[0], 0)

    def test_wrong_options(self):
        self.stand_in('bin/ffmpeg', '#!/bin/sh\n')
        self.write('path.csv', b'x,y,z,angle\n')
        self.refuses('--skill is a number from 1 to 5', 'picture', self.wad, 'MAP01', 'out.png', '--skill', '9',
                     doomview=self.doomview)
        self.refuses('unrecognized arguments: --format', 'picture', self.wad, 'out.png', '--format', 'ppm')
        self.refuses('doomview: usage', 'video', self.wad, 'MAP01', 'path.csv', 'out.mp4', doomview=self.doomview)
        self.assertFalse(os.path.exists(self.at('out.png')) or os.path.exists(self.at('out.mp4')))

    def test_picture(self):
        self.write('frame', FRAME[:15] + bytes(range(240)) * 800)
        base = self.write('base.wad', made_wad())
        for given in ({'IWAD': 'base.wad'}, {}):
            words = [self.wad, 'MAP01', 'out.png', '--skill', '4'] + ([] if given else ['--iwad', base])
            self.assertEqual(self.run_tool('picture', *words, doomview=self.drawing, **given), (0, b'', ''))
            self.assertEqual(pixels_of(self.at('out.png')), bytes(range(240)) * 800)
            words = self.read('words').strip()
            self.assertTrue(words.startswith('render --tables ') and words.endswith('--format ppm --skill 4'), words)
            self.assertIn(f' MAP01 {"base.wad" if given else base} {self.wad} --path ', words)
        self.stand_in('drawing', '#!/bin/sh\nexit 6\n')
        self.assertEqual(self.run_tool('picture', self.wad, 'MAP01', 'out.png', doomview=self.drawing)[0], 6)

    def test_first_picture(self):
        """Without a WAD that of the made room; without a map the first of the WAD."""
        done = self.run_tool('picture', 'first.png', doomview=self.drawing, IWAD='absent.wad')
        self.assertEqual(done, (0, b'', ''))
        self.assertRegex(self.read('words'), '^render .* MAP01 [^ ]*/room.wad --path ')
        self.assertEqual(len(pixels_of(self.at('first.png'))), 192000)
        done = self.run_tool('picture', self.wad, 'map.png', '--size', '9', doomview=self.drawing)
        self.assertEqual(done, (0, b'', ''))
        self.assertRegex(self.read('words'), '^render .* MAP01 .*made.wad --path .* --size 9')

    def test_unproved(self):
        """Where the program is not built the picture comes from a run without proofs, which says so in a line."""
        command = self.clone()
        self.refuses('the command rt is not installed', 'picture', 'first.png', command=command, doomview='')
        self.stand_in('bin/rt', """#!/bin/sh
[ "$(basename "$PWD") $1" = 'doomview try' ] || exit 2
while [ "$1" != -- ]; do
    [ "$1" != --data ] || { cat "${2#*=}" >/dev/null && eval "${2%%=*}=there"; }
    shift
done
[ "$2$file0$file1$file2$file3" = 'renderthheretheretherethere' ] || [ "$file3" = there ] || exit 2
echo 'run=ended proved=no' >&2
cat "$FRAME_FILE"
""")
        frame = self.write('frame', FRAME)
        done = self.run_command(command, 'picture', 'first.png', doomview='', FRAME_FILE=frame)
        self.assertEqual(done[:2], (0, b''), done)
        self.assertRegex(done[2], '^doomview picture: the proved program is not built yet.*without proofs.*'
                                  '--build builds it\n$')
        self.assertEqual(len(pixels_of(self.at('first.png'))), 192000)
        os.remove(self.at('first.png'))
        status = self.run_command(command, 'picture', '--proved', 'first.png', doomview='', FRAME_FILE=frame)[0]
        self.assertEqual((status, os.path.exists(self.at('first.png'))), (70, False))
        self.stand_in('bin/rt', '#!/bin/sh\necho refused >&2\nexit 1\n')
        self.refuses('refused\nrt try did not run the sources', 'picture', 'first.png', command=command, doomview='')
        self.stand_in('bin/rt', '#!/bin/sh\necho doomview: refused 601 >&2\nexit 2\n')
        status, _, error = self.run_command(command, 'picture', self.wad, 'MAP01', 'first.png', doomview='')
        self.assertEqual(status, 2)
        self.assertIn('explain: 601: no WAD has', error)
        self.assertFalse(os.path.exists(self.at('first.png')))

    def test_wads(self):
        """A WAD is found as ports find it."""
        for folder in ('one', 'two/games/doom', '.local/share/games/doom'):
            os.makedirs(self.at(folder))
        shutil.copy(self.wad, self.at('one/doom2.wad'))
        shutil.copy(self.wad, self.at('two/games/doom/other.wad'))
        shutil.copy(self.wad, self.at('.local/share/games/doom/home.wad'))
        for name, env, found in [('doom2.wad', {'DOOMWADDIR': self.at('one')}, 'one/doom2.wad'),
                                 ('DOOM2', {'DOOMWADPATH': f'{self.at("no")}:{self.at("one")}'}, 'one/doom2.wad'),
                                 ('other', {'XDG_DATA_HOME': self.at('two')}, 'two/games/doom/other.wad'),
                                 ('HOME.WAD', {}, '.local/share/games/doom/home.wad')]:
            done = self.run_tool('picture', name, 'MAP01', 'out.png', doomview=self.drawing, **env)
            self.assertEqual(done, (0, b'', ''))
            self.assertIn(f' {self.at(found)} ', self.read('words'))
            self.assertEqual(self.run_tool('maps', name, **env)[0], 0)
            self.assertEqual(self.run_tool('turn', name, 'MAP01', **env)[0], 0)

    def test_video(self):
        drawing = self.stand_in('drawing', '#!/bin/sh\n[ "$1" != limits ] || echo view 0\n' + DRAWING)
        self.stand_in('bin/ffmpeg', '#!/bin/sh\nfor last; do :; done\ncat >"$last"\necho "$@" >>"$last"\n')
        self.write('path.csv', b'x,y,z,angle\n0,0,0,0\n')
        words = [self.wad, 'MAP01', 'path.csv', 'out.mp4']
        self.assertEqual(self.run_tool('video', *words, doomview=drawing), (0, b'', ''))
        made = self.read('out.mp4')
        self.assertTrue(made.startswith(FRAME.decode()))
        self.assertIn('-f image2pipe', made)
        self.stand_in('bin/ffmpeg', '#!/bin/sh\necho no such codec >&2\nexit 1\n')
        self.refuses('no such codec\nffmpeg could not make the video', 'video', *words, doomview=drawing)
        self.assertEqual(self.read('out.mp4'), made)
        self.stand_in('bin/ffmpeg', '#!/bin/sh\nfor last; do :; done\ncat >"$last"\n')
        self.stand_in('drawing', '#!/bin/sh\n[ "$1" = render ] || { echo view; exit; }\n'
                                 'echo doomview: limit view 7 planes 129 >&2\nexit 5\n')
        self.refuses('view 7, row 8 under the header', 'video', *words, doomview=drawing)
        self.assertEqual(self.read('out.mp4'), made)
        self.stand_in('drawing', '#!/bin/sh\n')
        self.refuses('nothing to show', 'video', *words, doomview=drawing)
        self.assertEqual([name for name in os.listdir(self.folder) if '.mp4' in name], ['out.mp4'])

    def test_draw_all(self):
        """Each map that can be drawn, several at a time; a sentence on each other."""
        status, output, error = self.run_tool('draw-all', 'made.wad', 'out', '--jobs', '2', '--skill', '4',
                                              doomview=self.drawing)
        self.assertEqual((status, output), (1, b''))
        self.assertEqual(sorted(os.listdir(self.at('out'))), ['MAP01.png', 'MAP02.png', 'MAP07.png'])
        self.assertEqual(pixels_of(self.at('out/MAP02.png')), bytes(192000))
        told = sorted(error.splitlines())
        self.assertEqual(len(told), 2, error)
        self.assertRegex(told[0], '^doomview picture: MAP03 of .*made.wad has no player start')
        self.assertRegex(told[1], '^doomview picture: MAP04 of .*made.wad has nodes that form a circle')
        self.assertIn('--skill 4', self.read('words'))
        self.refuses('doomview is no folder', 'draw-all', 'made.wad', 'doomview', doomview=self.drawing)

    def test_machines(self):
        """On other machines GNU parallel draws, with the words that draw a map here; as many at a time as stand before the
        name of a machine, or as --jobs says."""
        self.stand_in('bin/parallel', PARALLEL)
        status, output, _ = self.run_tool('draw-all', 'made.wad', 'out', '--machines', '8/one', '--jobs', '2',
                                          doomview=self.doomview)
        call, *maps = output.decode().splitlines()
        self.assertEqual((status, call), (1, '--jobs 2 --sshlogin 8/one'))
        self.assertEqual(len(maps), 5)
        for line, name in zip(maps, ['MAP01', 'MAP02', 'MAP03', 'MAP04', 'MAP07']):
            folder = os.path.realpath(self.folder)
            self.assertEqual(line, f"env 'DOOMVIEW={folder}/doomview' {COMMAND} picture '{folder}/made.wad' {name} "
                                   f"'{folder}/out/{name}.png'")
        self.assertTrue(os.path.isdir(self.at('out')))
        many = self.run_tool('draw-all', 'made.wad', 'out', '--machines', '8/one', doomview=self.doomview)[1]
        self.assertEqual(many.decode().splitlines()[0], '--jobs 100% --sshlogin 8/one')

    def test_audit_all(self):
        done = self.run_tool('audit-all', self.wad, doomview=self.doomview)
        accepted = ' accepted enough 1 roomy 2\n'
        lines = f'MAP01{accepted}MAP02 doomview: refused 901 3\nMAP03{accepted}MAP04{accepted}MAP07{accepted}'
        self.assertEqual(done, (1, lines.encode(), ''))
        self.assertEqual(self.run_tool('audit-all', self.wad, doomview='drawing')[0], 0)

    def test_nothing_stays(self):
        """A tool leaves no folder of its own behind."""
        os.mkdir(self.at('temporary'))
        for words in [['audit-all', self.wad], ['picture', 'first.png'], ['draw-all', self.wad, 'out']]:
            self.run_tool(*words, doomview=self.drawing, TMPDIR=self.at('temporary'))
        self.assertEqual(os.listdir(self.at('temporary')), [])


if __name__ == '__main__':
    unittest.main()
