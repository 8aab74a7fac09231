"""Tests that compare names the function to look at, on frames that are made here, each with a fault that is known; and none
where the fault has another shape."""
import random
import struct
import unittest

from made_files import TOP, Tools, name, wad
from test_compare import FRAME, WIDTH, traced
from doomview_tools import list_files, shapes, symptoms, texels, traces
from doomview_tools.frames import SIZE

WALL, PLANE, SKY, MIDDLE, SPRITE, WEAPON = 1, 2, 3, 4, 5, 6
COLOURS = [random.Random(seed).sample(range(1, 256), 60) for seed in (7, 8)]  # of the texels of STONE, and of FLAT1


def colormaps():
    """34 colormaps, each another order of all colours."""
    found = []
    for number in range(34):
        colours = list(range(256))
        random.Random(number).shuffle(colours)
        found.append(bytes(colours) if number else bytes(range(256)))
    return b''.join(found)


MAPS = colormaps()


def patch(colours):
    """A patch one column wide with a post for each colour."""
    posts = b''.join(bytes([row, 1, 0, colour, 0]) for row, colour in enumerate(colours)) + b'\xff'
    return struct.pack('<hhhhI', 1, len(colours), 0, 0, 12) + posts


def textures(*sizes):
    """TEXTURE1 and PNAMES of textures of one patch, named by their sizes."""
    records = [name(f'T{width}X{height}') + struct.pack('<IhhIH', 0, width, height, 0, 1) + struct.pack('<hhHHH', 0, 0, 0, 0, 0)
               for width, height in sizes]
    places = [4 + 4 * len(records) + sum(map(len, records[:at])) for at in range(len(records))]
    return [('TEXTURE1', struct.pack(f'<I{len(places)}I', len(places), *places) + b''.join(records)),
            ('PNAMES', struct.pack('<I', 1) + name('STONE'))]


TEXTURES = [(64, 128), (64, 72), (24, 128)]
NAMES = [('PLAYPAL', bytes(range(256)) * 3), ('COLORMAP', MAPS), ('STONE', patch(COLOURS[0])), ('S_START', b''),
         ('TROOA1', b''), ('TROOA5', b''), ('S_END', b''), ('F_START', b''), ('FLAT1', bytes(COLOURS[1][i % 60] for i in range(4096))),
         ('F_END', b''), *textures(*TEXTURES)]
TROOA1, FLAT1 = 4, 8  # numbers of lumps


def texel(row, column, colours):
    """One of some colours, like chance, but for a picture that can be moved."""
    return colours[(row * row * 31 + row * 7 + column * 57 + column * column * 13 + row * column) % 60]


class Block:
    """What a painter has: rows and columns, the record without its colour, and its texels by row and column."""

    def __init__(self, kind, rows, columns, source=(2, 0), number=0, colours=COLOURS[0]):
        self.kind, self.rows, self.columns, self.source, self.number = kind, rows, columns, source, number
        self.colours = colours

    def texel(self, row, column):
        return texel(row, column, self.colours)

    def record(self, colour):
        return self.kind, self.source[0], self.number, self.source[1], colour, 0


def drawn(blocks, texel_of=lambda block, row, column: block.texel(row, column)):
    """A frame of blocks, each over those before it; of each pixel what a function says, None for what is behind."""
    frame = bytearray([0]) * FRAME
    for block in blocks:
        for row in block.rows:
            for column in block.columns:
                colour = texel_of(block, row, column)
                if colour is not None:
                    frame[WIDTH * row + column] = colour
    return bytes(frame)


def trace_of(blocks, frame):
    owner = {(row, column): block for block in blocks for row in block.rows for column in block.columns}
    return traced(*((row, column, block.record(frame[WIDTH * row + column])) for (row, column), block in owner.items()))


def wall(number=0, texture=0, rows=range(40, 100), columns=range(10, 90)):
    return Block(WALL, rows, columns, (2, texture), number)


def plane(number=0, rows=range(120, 190), columns=range(10, 200)):
    return Block(PLANE, rows, columns, (1, FLAT1), number, COLOURS[1])


def sprite(kind=SPRITE, rows=range(60, 100), columns=range(130, 160)):
    return Block(kind, rows, columns, (1, TROOA1), 0, random.Random(3).sample(range(1, 256), 60))


# Of each name a scene, what the port has in the place of a texel, and what more is said.
FAULTS = {
    'column count': ([wall(), plane()], lambda block, row, column: 0 if block.kind == WALL and row == 99 else block.texel(row, column), ''),
    'wall edges': ([wall(), plane(rows=range(100, 190))],
                   lambda block, row, column: texel(row, column, COLOURS[0]) if block.kind == PLANE and row == 100 else block.texel(row, column), ''),
    'texture height': ([wall(0), wall(1, 1, columns=range(90, 160))],
                       lambda block, row, column: block.texel(row + 3 * block.number, column + 9 * block.number), ''),
    'texture width': ([wall(0), wall(1, 2, columns=range(90, 160))],
                      lambda block, row, column: block.texel(row, column + 5 * block.number), ''),
    'wall light': ([wall(), plane()], lambda block, row, column: MAPS[256 * (block.kind == WALL) * (1 + column % 30)
                                                                        + block.texel(row, column)], ''),
    'texture middle': ([wall(), plane()], lambda block, row, column: block.texel(row + 4 * (block.kind == WALL), column), ''),
    'texture place': ([wall(), plane()], lambda block, row, column: block.texel(row * 3, column * 5) if block.kind == WALL
                      else block.texel(row, column), ''),
    'walls in the sky': ([wall(), Block(SKY, range(0, 40), range(320), (2, 0))],
                         lambda block, row, column: texel(column, row, COLOURS[1]) if block.kind == SKY else block.texel(row, column), ''),
    'sprites missing': ([wall(columns=range(80, 220), rows=range(30, 120)), sprite()],
                        lambda block, row, column: None if block.kind == SPRITE else block.texel(row, column), ''),
    'sprite clip': ([wall(columns=range(80, 220), rows=range(30, 120)), sprite()],
                    lambda block, row, column: None if block.kind == SPRITE and row > 80 else block.texel(row, column), ''),
    'texture column': ([wall(), plane()], lambda block, row, column: block.texel(row, column + 5 * (block.kind == WALL)), ''),
    'plane light': ([wall(), plane()], lambda block, row, column: MAPS[256 * (block.kind == PLANE) * (1 + row % 30)
                                                                         + block.texel(row, column)], ''),
    'yslope': ([wall(), plane()], lambda block, row, column: block.texel(row * (1 + (block.kind == PLANE)), column), ''),
    'sky': ([wall(), Block(SKY, range(0, 40), range(320), (2, 0))],
            lambda block, row, column: block.texel(row, column + 6 * (block.kind == SKY)), ' (to the left)'),
    'middle textures': ([wall(), Block(MIDDLE, range(40, 90), range(100, 200), (2, 1))],
                        lambda block, row, column: block.texel(row * (1 + (block.kind == MIDDLE)), column), ''),
    'sprite light': ([wall(), sprite()], lambda block, row, column: MAPS[256 * 5 * (block.kind == SPRITE)
                                                                           + block.texel(row, column)], ''),
    'sprite mirrored': ([wall(), sprite()],
                        lambda block, row, column: block.texel(row, 289 - column if block.kind == SPRITE else column), ''),
    'psprites': ([wall(), sprite(WEAPON, range(150, 200), range(100, 180))],
                 lambda block, row, column: block.texel(row - 2 * (block.kind == WEAPON), column), ' (lower)'),
    'holes': ([wall(), plane()], lambda block, row, column: 0 if block.kind == PLANE and column < 60 else block.texel(row, column), ''),
    '': ([wall(), plane()], lambda block, row, column: random.Random(row * 320 + column).randrange(256), ''),
}




class Symptoms(Tools):
    def setUp(self):
        super().setUp()
        self.write('names.wad', wad(NAMES))

    def said(self, blocks, port, *words, views=2):
        """What is said of symptoms, where some views have the same frames."""
        ours = drawn(blocks)
        self.write('ours.bin', ours * views)
        self.write('port.bin', b''.join(port) if isinstance(port, list) else port * views)
        self.write('trace.bin', trace_of(blocks, ours) * views)
        status, output, error = self.run_tool('compare', 'ours.bin', 'port.bin', '--wad', 'names.wad', '--trace', 'trace.bin',
                                              '--most', '0', *words)
        self.assertEqual((status, error), (1, ''))
        return [line for line in output.decode().splitlines() if line.startswith('symptom ')]

    def line(self, row, more=''):
        symptom = symptoms.BY_NAME[row]
        return [f'symptom {row}: {symptom.sign}{more}; look at {symptom.functions}']

    def test_faults(self):
        for row, (blocks, fault, more) in FAULTS.items():
            self.assertEqual(self.said(blocks, drawn(blocks, fault)), self.line(row, more) if row else [], row)

    def test_sprites(self):
        """A sprite that is moved, and one of which the port has another picture, over a wall that shows beside it."""
        behind, own = wall(columns=range(80, 220), rows=range(30, 120)), sprite()
        other = sprite(rows=range(63, 103), columns=range(125, 155))
        other.texel = lambda row, column: own.texel(row - 3, column + 5)
        self.assertEqual(self.said([behind, own], drawn([behind, other])), self.line('sprite offset', ' (lower and to the left)'))
        wider = sprite(columns=range(124, 168))
        wider.texel = lambda row, column: own.texel(3 * row, column * 7)
        self.assertEqual(self.said([behind, own], drawn([behind, wider])), self.line('sprite rotation'))

    def test_some_ends_of_columns(self):
        """The last pixels of a few columns alone are no mistake of their count."""
        blocks = FAULTS['column count'][0]
        for columns, is_named in ((range(10, 40), True), (range(10, 30), False)):
            port = drawn(blocks, lambda block, row, column: 0 if block.kind == WALL and row == 99 and column in columns else
                         block.texel(row, column))
            self.assertEqual(self.said(blocks, port) == self.line('column count'), is_named)

    def test_narrow_sprites(self):
        """A sprite of one column that is missing is whole, however few pixels it has; also where what is behind it is 0."""
        for colour in (None, 0):
            blocks = [wall(columns=range(80, 220), rows=range(30, 120)), sprite(rows=range(60, 72), columns=range(130, 131))]
            port = drawn(blocks, lambda block, row, column: colour if block.kind == SPRITE else block.texel(row, column))
            self.assertEqual(self.said(blocks, port, views=1), self.line('sprites missing'))

    def test_planes_in_part_by_light(self):
        """Rows of planes as under another light, and others with other texels: an edge is left out, and not all is yslope. A
        row or two may look so by chance."""
        blocks = FAULTS['yslope'][0]

        def port(every):
            """Every so many rows of the plane under another colormap, and other texels in the others."""
            return drawn(blocks, lambda block, row, column: block.texel(row, column) if block.kind == WALL else
                         MAPS[256 * 5 + block.texel(row, column)] if row % every == 0 else block.texel(2 * row, column))

        self.assertEqual(self.said(blocks, port(5)), [])
        self.assertEqual(self.said(blocks, port(40)), self.line('yslope'))

    def test_light_of_rows(self):
        """Where the views that differ are those with light in their rows, that is said first; not where others differ too."""
        blocks = FAULTS['yslope'][0]
        ours, port = drawn(blocks), drawn(blocks, FAULTS['yslope'][1])
        self.write('path.csv', b'x,y,z,angle,extralight,colormap\n' + b''.join(b'0,0,0,0,0,%d\n' % (view % 2) for view in range(6)))
        evidence = symptoms.Evidence([], {}, [1, 3, 5], [], None, None, b'')
        rows = [symptoms.Row(0, 0, 0, 0, 0, view % 2) for view in range(6)]
        self.assertEqual(symptoms.by_light_of_rows(evidence._replace(rows=rows)), '3 of the 3 views with light in their rows')
        for views, lit in (([1, 2], rows), ([1, 3], rows[1::2] * 2), ([], rows), ([1], [])):
            self.assertEqual(symptoms.by_light_of_rows(evidence._replace(rows=lit, views=views)), '')
        self.assertEqual(self.said(blocks, [ours, port] * 3, views=6), self.line('yslope'))

    def sample(self, different):
        """A view with three planes, of which the first two are of one height, flat and light, and some differ."""
        blocks = [plane(number, columns=range(60 * number, 60 * number + 60)) for number in range(3)]
        ours = drawn(blocks)
        marks = bytes(block.number in different if block else 0 for block in (
            next((it for it in blocks if place // WIDTH in it.rows and place % WIDTH in it.columns), None) for place in range(SIZE)))
        planes = [list_files.Plane(0, 8, 160, 'leaf', 0, 60), list_files.Plane(0, 8, 160, 'fragment', 0, 60), list_files.Plane(64, 9, 160, 'leaf', 1, 60)]
        items = list_files.View([list_files.Fragment(0, 0, 9)], planes, [], None, None)
        records = trace_of(blocks, ours)
        return shapes.Sample(ours, ours, records, marks, traces.pixels_of(records, marks), items)

    def test_planes_of_a_list(self):
        """Planes that were split, or are like another, are known by the list: they differ, and the others do not."""
        self.assertEqual(shapes.split_planes(self.sample({0})), {0, 1})
        self.assertTrue(shapes.differ_where([self.sample({1})], shapes.split_planes))
        self.assertFalse(shapes.differ_where([self.sample({0, 1, 2})], shapes.split_planes))
        self.assertFalse(shapes.differ_where([self.sample({2})], shapes.split_planes))
        sample = self.sample({0, 1})
        self.assertEqual(shapes.like_planes(sample), set())
        planes = [sample.items.planes[0], sample.items.planes[1]._replace(light=128), sample.items.planes[2]]
        sample = sample._replace(items=sample.items._replace(planes=planes))
        self.assertEqual((shapes.like_planes(sample), shapes.split_planes(sample)), ({0, 1}, set()))
        self.assertTrue(shapes.differ_where([sample], shapes.like_planes))
        for different, order, row in (({0}, (1, 0), 'plane edges'), ({1}, (0, 1), 'planes as one'), ({0, 1}, (1, 1), '')):
            some = self.sample(different)
            some = some._replace(items=some.items._replace(planes=planes))
            self.assertEqual(shapes.pixels_by_order([some]), tuple(4200 * part for part in order))
            evidence = symptoms.Evidence([some], {'plane': 1}, [0], [], None, None, b'')
            self.assertEqual(symptoms.by_list(evidence), row)

    def test_beside_middles(self):
        """A middle texture that is moved shows what is behind it, and hides it elsewhere: all in its columns."""
        behind, own = wall(rows=range(30, 150), columns=range(10, 250)), Block(MIDDLE, range(90, 140), range(100, 200), (2, 1), 0, COLOURS[1])
        moved = Block(MIDDLE, range(50, 100), range(100, 200), (2, 1), 0, COLOURS[1])
        moved.texel = lambda row, column: own.texel(row + 40, column)
        self.assertEqual(self.said([behind, own], drawn([behind, moved])), self.line('middle textures'))
        port = drawn([behind, moved], lambda block, row, column: 9 if block is behind and column < 100 else block.texel(row, column))
        self.assertEqual(self.said([behind, own], port), [])

    def test_texels(self):
        """The colours of a patch, of a texture and of a flat, and none of what is damaged."""
        known = texels.Texels([self.at('names.wad')])
        self.assertEqual(known.colours(traces.Painter(WALL, 2, 1), False), set(COLOURS[0]))
        self.assertEqual(known.colours(traces.Painter(PLANE, 1, FLAT1), True), set(COLOURS[1]))
        self.assertEqual(texels.colours_of_patch(patch([1, 2])[:-3]), frozenset())
        self.assertEqual(known.texture_of(traces.Painter(WALL, 2, 1)).height, 72)
        self.assertIsNone(known.texture_of(traces.Painter(WALL, 1, 2)))

    def test_table(self):
        """Each row that can be said is one of the table, and PORT has each."""
        with open(f'{TOP}/docs/PORT.md', encoding='utf-8') as file:
            page = file.read()
        for symptom in symptoms.TABLE:
            self.assertIn(f'| {symptom.name} | ', page)
        self.assertEqual(len(symptoms.BY_NAME), len(symptoms.TABLE))


if __name__ == '__main__':
    unittest.main()
