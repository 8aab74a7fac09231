"""Maps of the tests: rows of letters, each letter a sector of squares of 64 map units, whose records can be changed."""
import struct

from made_files import wads
from doomview_tools import room

START = 1  # the type of a thing
NO_SIDE = 0xffff
NODE, LEAF = struct.Struct('<4h8h2H'), 0x8000
EVERYWHERE, NOWHERE = (32767, -32768, -32768, 32767), (-32768, -32768, 32767, 32767)  # boxes: top, bottom, left, right
RECORDS = {'THINGS': '<hhhHH', 'LINEDEFS': '<7H', 'SIDEDEFS': '<hh8s8s8sH', 'SECTORS': '<hh8s8shhh'}
FIELDS = {'THINGS': 'x y angle type options', 'LINEDEFS': 'start end flags special tag front back',
          'SIDEDEFS': 'x_offset y_offset upper lower middle sector',
          'SECTORS': 'floor ceiling floor_flat ceiling_flat light special tag'}


class Map:
    """A map of rows of letters, with a wall around them. Player 1 starts in the first square unless things, with their
    places in halves of a square from the north-west corner, are given. `squares` has of a letter what is not usual."""

    def __init__(self, *rows, things=(), start=(3, 3), **squares):
        width = len(rows[0]) + 2
        self.rows = ['#' * width, *(f'#{row}#' for row in rows), '#' * width]
        self.letters = list(dict.fromkeys(letter for row in rows for letter in row if letter != '#'))
        usual = room.Square(0, 160, 'TILES', 'BOARDS', 160, 'BRICKS')
        kinds = {letter: usual._replace(**squares.get(letter, {})) for letter in self.letters}
        starts = [(*start, START, 0, 7)] if start else []
        self.lumps = dict(room.Level(self.rows, kinds, [*starts, *things]).lumps())

    def records(self, lump):
        """The records of a lump, each a dictionary of its fields."""
        return [dict(zip(FIELDS[lump].split(), values)) for values in struct.iter_unpack(RECORDS[lump], self.lumps[lump])]

    def change(self, lump, number, **fields):
        """Gives fields of a record other values; names of textures and flats are text."""
        record = self.records(lump)[number]
        record.update((key, value.encode() if isinstance(value, str) else value) for key, value in fields.items())
        data = struct.pack(RECORDS[lump], *record.values())
        at = len(data) * number
        self.lumps[lump] = self.lumps[lump][:at] + data + self.lumps[lump][at + len(data):]

    def lines(self, *letters):
        """The numbers of the lines with these sectors beside them, in any order; one of a single letter is a wall."""
        sides = self.records('SIDEDEFS')
        wanted = sorted(self.letters.index(letter) for letter in letters)
        return [number for number, line in enumerate(self.records('LINEDEFS')) if wanted == sorted(
            sides[side]['sector'] for side in (line['front'], line['back']) if side != NO_SIDE)]

    def change_lines(self, *letters, **fields):
        """Changes all lines between two sectors."""
        for number in self.lines(*letters):
            self.change('LINEDEFS', number, **fields)

    def deepen(self, depth):
        """Puts nodes over the root, each over the one before, until the tree is so deep. In front of each is all of the map; behind
        it, where no eye is, a copy of the first leaf."""
        nodes = list(NODE.iter_unpack(self.lumps['NODES']))
        leaves = self.lumps['SSECTORS']

        def depth_of(child):
            return 0 if child & LEAF else 1 + max(map(depth_of, nodes[child][-2:]))

        for _ in range(depth - depth_of(len(nodes) - 1)):
            nodes.append((32000, 0, 0, -256, *EVERYWHERE, *NOWHERE, len(nodes) - 1, LEAF | len(leaves) // 4))
            leaves += leaves[:4]
        self.lumps.update(NODES=b''.join(NODE.pack(*node) for node in nodes), SSECTORS=leaves)
        return self

    def wad(self):
        """The bytes of a WAD of the map, with art."""
        return room.with_art(self.lumps.items())

    def alone(self):
        """The bytes of a PWAD of the map alone."""
        return wads.wad_of(self.lumps.items(), b'PWAD')
