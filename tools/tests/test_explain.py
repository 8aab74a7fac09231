"""Tests the tool explain, with a stand-in for doomview, on files that are made here."""
import os
import re
import struct
import unittest

from made_files import TOP, Tools, made_wad, name, room, wad
from doomview_tools import refusals

THINGS = b'type,sprite,frame,bright,hang,shadow\n3001,TROO,A,0,0,0\n'
PATH = b'x,y,z,angle\n0,0,0,0\n'
MAP = ['MAP01', 'made.wad', '--tables', 'tables.bin', '--things', 'things.csv', '--path', 'path.csv']


class Explain(Tools):
    def setUp(self):
        super().setUp()
        for place, data in (('tables.bin', b''), ('things.csv', THINGS), ('path.csv', PATH)):
            self.write(place, data)

    def explains(self, line, *words, part, status=2):
        """The sentences on a line that doomview ends with."""
        doomview = self.stand_in('ending', f'#!/bin/sh\necho written\necho "{line}" >&2\nexit {status}\n')
        done = self.run_tool('explain', *(words or ['audit', *MAP]), doomview=doomview)
        self.assertEqual(done[:2], (status, b'written\n'))
        said = done[2].splitlines()
        self.assertEqual(said[0], line)
        self.assertTrue(any(part in sentence for sentence in said[1:]), f'{part!r} is not in {said}')
        for sentence in said[1:]:
            self.assertRegex(sentence, r'^explain: .*\.$')
        return said[1:]

    def test_numbers(self):
        """The numbers of a refusal by the names of what they mean."""
        side = 'sector (side 1, of line 1 and line 3, in sector 1: upper -'
        for line, part in [('604 2 1 5', f'SIDEDEFS record 1, {side}'),
                           ('605 1', 'SSECTORS record 1'), ('606 0', 'NODES record 0'), ('602 7', 'SECTORS'),
                           ('801 1', 'thing 1: type 1 at 64, -32'), ('802 0 3', 'rotation 3'),
                           ('803 1', 'lump COLORMAP of made.wad'), ('901 0', 'middle WALL1'),
                           ('903 1', 'sector 1: floor FLAT1, ceiling FLAT1'), ('401 0', 'made.wad'),
                           ('403 0 5', 'made.wad'), ('703 9', 'a texture'),
                           ('902', "To mend it: put the game's IWAD first"), ('907 2', 'lump MAP01 of made.wad'),
                           ('908 65536', ': 65536 entries'), ('909 4294967296', ': 4294967296 bytes'),
                           ('604 9 9 9', '604: '), ('999 1', 'no such code')]:
            self.explains(f'doomview: refused {line}', part=part)
        self.assertIn('(map of made.wad)', self.explains('doomview: refused 901 0', part='901: ')[0])

    def test_rows(self):
        """The row of a table, as an editor counts its line."""
        self.write('things.csv', THINGS + b'\n3002,SAR,A,0,0,0\n')
        self.explains('doomview: refused 205 2 1', part='sprite (four letters from ! to ~), line 4 of things.csv')
        self.explains('doomview: refused 304 1 2', part='row 1 under the header of --path, z (')
        self.explains('doomview: refused 207', part='there are more than 4,096 rows')
        for data, part in [(b'type;sprite\n', 'semicolons or tabs'), ('type,'.encode('utf-16'), 'in UTF-16'),
                           (b'type, sprite\n', 'spaces beside its commas')]:
            self.write('things.csv', data)
            self.explains('doomview: refused 202', part=part)

    def test_maps(self):
        """What a map's author may have overlooked."""
        words = ['audit', 'MAP09', *MAP[1:]]
        self.explains('doomview: refused 601', *words, part='made.wad has no map MAP09; the maps there: A/B MAP01 MAP02')
        self.explains('doomview: refused 601', 'audit', 'MAP05', *MAP[1:], part='in Hexen format')
        self.explains('doomview: refused 601', 'audit', 'MAP06', *MAP[1:],
                      part='MAP06 of made.wad is no map: behind it are MAP07')
        self.write('made.wad', wad([('MAP09', b''), ('TEXTMAP', b'')]))
        self.explains('doomview: refused 601', *words, part='is a UDMF map')
        nodes = [(label, b'XNOD' if label == 'NODES' else data) for label, data in room([0], [(0, 0, 0, 1)], [])]
        self.write('made.wad', wad([('MAP01', b''), *nodes]))
        self.explains('doomview: refused 603', part='NODES has extended nodes (XNOD)')
        self.write('made.wad', b'PK\3\4')
        self.explains('doomview: refused 401 0', part='made.wad is a zip, as a PK3 is; unpack it')

    def test_no_nodes(self):
        """A map without nodes is called so; one with GL nodes alone too."""
        lumps = room([0], [(0, 0, 0, 1)], [])
        bare = [(label, data) for label, data in lumps if label not in ('SEGS', 'SSECTORS', 'NODES')]
        empty = [(label, b'' if label in ('SEGS', 'SSECTORS') else data) for label, data in lumps]
        self.write('made.wad', wad([('MAP01', b''), *bare]))
        for sentence in self.explains('doomview: refused 601', part='601: MAP01 of made.wad has no nodes (SEGS, '
                                      'SSECTORS, NODES); build them.'):
            self.assertNotIn('no WAD has', sentence)
        self.write('made.wad', wad([('MAP01', b''), *empty, ('REJECT', b''), ('GL_MAP01', b''), ('GL_VERT', b'')]))
        self.explains('doomview: refused 603', part='MAP01 has GL nodes alone')

    def test_deep_nodes(self):
        """How deep the nodes are, and what mends it."""
        box = [0] * 8
        nodes = [[0, 0, 0, 8, *box, 0x8000, k - 1 if k else 0x8000] for k in range(1030)]
        self.write('made.wad', wad([('MAP01', b''), *room([0], [(0, 0, 0, 1)], nodes)]))
        self.explains('doomview: refused 607 5', part='the nodes are 1,030 deep, and 1,024 is the most: take a builder '
                                                      'that balances them')

    def test_textures(self):
        """Which texture of a side is in no list, and the list that hides it."""
        def texture_list(*names):
            places = [4 + 4 * len(names) + 22 * i for i in range(len(names))]
            records = b''.join(name(it) + struct.pack('<IhhIH', 0, 64, 128, 0, 0) for it in names)
            return 'TEXTURE1', struct.pack(f'<I{len(places)}I', len(places), *places) + records

        self.write('game.wad', wad([texture_list('NONE', 'WALL1'), ('FLAT1', b'')]))
        self.write('patch.wad', wad([texture_list('NONE', 'OTHER'), ('MAP01', b''), *room([0], [(0, 0, 0, 1)], [])]))
        words = ['audit', 'MAP01', 'game.wad', 'patch.wad', *MAP[2:]]
        self.explains('doomview: refused 901 0', *words, part='in no list: middle WALL1.')
        self.explains('doomview: refused 901 0', *words, part='WALL1 is in the TEXTURE1 of game.wad, which that of '
                                                              'patch.wad hides')
        self.explains('doomview: refused 901 0', *words, part='1 of the 1 textures of the map are in no list: the map '
                                                              'may be for another game')
        self.explains('doomview: refused 903 0', *words, part='no flat: floor FLAT1: there is a lump of that name, but '
                                                              'not between F_START and F_END.')
        self.explains('doomview: refused 903 0', *words, part='no flat: ceiling FLAT1')

    def test_medusa(self):
        """A middle texture of several patches by its name, with the lines that have it."""
        self.explains('doomview: refused 905 1', part='the Medusa effect')
        lumps = dict(room([0, 1], [(0, 0, 0, 1)], []))
        lumps['LINEDEFS'] = b''.join(struct.pack('<7H', 0, 1, 4, 0, 0, side, 1) for side in (0, 1, 0xffff))
        self.write('made.wad', wad([('MAP01', b''), *lumps.items()]))
        self.explains('doomview: refused 905 1', part='lines of two sides with WALL1: 0 and 1.')

    def test_side_of_line(self):
        """A seg on a side that its line lacks, with the number of the line."""
        lumps = dict(room([0], [(0, 0, 0, 1)], []))
        lumps['SEGS'] = struct.pack('<6H', 0, 1, 0, 3, 0, 0)
        self.write('made.wad', wad([('MAP01', b''), *lumps.items()]))
        self.explains('doomview: refused 604 4 0 4',
                      part='SEGS record 0, side of the line (of line 3, which has no front side)')

    def test_spectres(self):
        """Spectres are named once, by their name."""
        starts = [(0, 0, 0, 1)] + [(0, 0, 0, 58)] * 3 + [(0, 0, 0, 9999)]
        self.write('made.wad', wad([('MAP01', b''), *room([0], starts, [])]))
        said = self.explains('', status=0, part='3 spectres of the map are not drawn')
        self.assertEqual(sum('58' in sentence for sentence in said), 1)
        self.assertTrue(any('things of type 9999 (1)' in sentence for sentence in said), said)
        self.write('made.wad', wad([('MAP01', b''), *room([0], starts[:2], [])]))
        self.explains('', status=0, part='the spectre of the map is not drawn')

    def test_remarks(self):
        """What is not refused, and may still be a mistake."""
        self.write('patch.wad', b'PWAD' + made_wad()[4:])
        words = ['audit', 'MAP01', 'patch.wad', *MAP[1:]]
        self.explains('', *words, status=0, part='made.wad is an IWAD and comes behind patch.wad')
        words[2:4] = words[3:1:-1]
        self.explains('', *words, status=0, part='MAP01 is that of patch.wad')
        self.write('things.csv', THINGS.splitlines(True)[0])
        self.explains('', 'audit', *MAP, status=0, part='things of type 3001 (1)')

    def test_words(self):
        for words, part in [(['paint'], 'the first word is a job'),
                            (['audit', 'MAP01'], 'audit needs --path too'),
                            (['audit', *MAP, '--skill', '6'], '--skill is a number from 1 to 5'),
                            (['audit', *MAP, '--zone=65'], '--zone is a multiple of 4'),
                            (['audit', *MAP, '--format', 'ppm'], 'audit takes no --format'),
                            (['trim', *MAP, '--format', 'ppm'], 'trim takes no --format'),
                            (['trim', 'MAP01'], 'trim needs a map and a WAD'),
                            (['render', *MAP, '--format', 'png'], '--format is index or ppm'),
                            (['limits', *MAP, '--size'], '--size needs a value'),
                            (['flat', 'A', 'b', '--zone', '64'], 'takes no'),
                            (['audit', *MAP, '--path', 'x'], '--path may come only once'),
                            (['audit', 'MAP01LONG', *MAP[1:]], 'has 1 to 8 letters'),
                            (['make', 'it'], '--help has the jobs')]:
            self.explains('doomview: usage', *words, status=1, part=part)

    def test_other_ends(self):
        for line, status, part in [('doomview: limit view 7 planes 129', 5, 'view 7, row 8 under the header'),
                                   ('doomview: zone full wanted 8 widest 4', 6, 'the zone is too small'),
                                   ('doomview: write fault', 4, 'could not be written'),
                                   ('doomview: out of memory', 7, 'memory ran out'),
                                   ('doomview: read fault', 3, 'a file could not be read to its end')]:
            self.explains(line, status=status, part=part)
        cut = 'no whole WAD; throw it away'
        self.explains('doomview: zone full wanted 8 widest 4', 'trim', *MAP, status=6, part=cut)
        self.assertFalse(any(cut in sentence for sentence in
                             self.explains('doomview: refused 601', 'trim', *MAP, part='601: ')))
        full = self.stand_in('full', "#!/bin/sh\necho 'doomview: zone full wanted 8 widest 4' >&2\nexit 6\n")
        done = self.run_tool('explain', 'trim', *MAP, '-o', 'out.wad', doomview=full)
        self.assertEqual((done[0], done[1], cut in done[2]), (6, b'', False))
        self.assertFalse(os.path.exists(self.at('out.wad')))
        words = ['audit', 'MAP01', 'absent', 'made.wad', *MAP[2:]]
        self.explains('doomview: read fault', *words, status=3, part='there is no WAD absent here, in DOOMWADDIR')
        words[2] = './absent.wad'
        self.explains('doomview: read fault', *words, status=3, part='./absent.wad cannot be read: No such file')
        os.remove(self.at('path.csv'))
        self.explains('doomview: read fault', status=3, part='path.csv cannot be read: No such file')
        os.mkdir(self.at('path.csv'))
        self.explains('doomview: read fault', status=3, part='path.csv is no plain file')

    def test_lines(self):
        """A line alone, and what a run said."""
        self.assertIn('402: the WAD ends before its header or its directory does: file 0 of the WADs, counted from 0. '
                      'To mend it: get the file whole', self.run_tool('explain', 'doomview: refused 402 0')[2])
        status, _, error = self.run_tool('explain', 'doomview: refused 605 4')
        self.assertEqual((status, error.count('\n')), (0, 1))
        self.assertIn('605: the SSECTORS record has no seg', error)
        self.write('said', b'something\ndoomview: refused 605 4\nexplain: 605: as doomview.exe says it\n')
        self.assertIn('605: ', self.run_tool('explain', '--said', 'said', 'audit', *MAP)[2])
        self.refuses('cannot read absent', 'explain', '--said', 'absent', 'audit')
        self.refuses('needs the words of a job, or a line of doomview', 'explain')
        self.refuses('there is no program', 'explain', 'audit', doomview=self.at('absent'))
        self.refuses('cannot run', 'explain', 'audit', doomview=self.stand_in('broken', '#!/bin/absent\n'))

    def test_all_codes(self):
        """Each code of REFUSALS has its sentence, with what mends it."""
        with open(os.path.join(TOP, 'docs', 'REFUSALS.md'), encoding='utf-8') as file:
            codes = re.findall(r'^\| (\d{3,4}) \|', file.read(), re.M)
        self.assertGreater(len(codes), 50)
        self.assertEqual([code for code, (wrong, mend) in refusals.codes().items() if not (wrong and mend)], [])
        for code in codes[::5]:
            error = self.run_tool('explain', f'doomview: refused {code}')[2]
            self.assertRegex(error, f'^explain: {code}: .{{10,}}. To mend it: .{{5,}}.\n')
            self.assertNotIn('the same', error)


if __name__ == '__main__':
    unittest.main()
