"""How often a run over MAP01 of one WAD may read each of its lumps, by the rules that docs/FORMATS.md and docs/ZONE.md have.

Loading has steps, and in each of them a lump is read at most once, however small the zone is: COLORMAP, PLAYPAL, the eight
lumps of the map, PNAMES and the lists of textures; each patch of each texture that is needed; each picture of a thing, and
each of a weapon's layer. `trim` then reads each lump that it copies. A view reads the flat of a plane with columns once, the
picture of a sprite with columns once, and that of each of its layers once; of the patches of walls, masked columns and the
sky it may read one for each strip of a column, which is far above what it reads. What a view has is what `list` writes."""
import collections
import re
import struct
import sys
import typing

from made_runs import TOOLS

sys.path.insert(0, TOOLS)
from doomview_tools import art, levels  # noqa: E402

MAP, SKY_TEXTURE = 'MAP01', 'SKY1'
MAP_LUMPS = 8
PINNED, FIRST_READ = 'COLORMAP', ('PLAYPAL', 'PNAMES', 'TEXTURE1', 'TEXTURE2')
STRIPS = 3  # of a column of a fragment: the upper and the lower wall, and the masked middle
FRAGMENT = re.compile(r'view (\d+) fragment .* first (\d+) last (\d+)')
PLANE = re.compile(r'view (\d+) plane .* flat (\w+) .* columns (\d+)')
SPRITE = re.compile(r'view (\d+) sprite .* lump (\d+) first (-?\d+) last (-?\d+)')
Piece = tuple[int, int]  # of a file: where it begins, and its bytes
Times = collections.Counter[Piece]


class Wad:
    """The pieces of a WAD: its header, its directory, and its lumps with their names."""

    def __init__(self, path: str) -> None:
        with open(path, 'rb') as file:
            data = file.read()
        count, directory = struct.unpack_from('<II', data, 4)
        entries = [struct.unpack_from('<II8s', data, directory + 16 * number) for number in range(count)]
        self.path = path
        self.frame: list[Piece] = [(0, 12), (directory, 16 * count)]
        self.lumps: list[Piece] = [(offset, size) for offset, size, _ in entries]
        self.names = [name.split(b'\0')[0].decode('latin-1') for _, _, name in entries]
        self.of_name = {name: number for number, name in enumerate(self.names)}  # the last one of it

    def times(self, numbers: typing.Iterable[int]) -> Times:
        """Each of these lumps once; an empty one is not read."""
        return collections.Counter(self.lumps[number] for number in numbers if self.lumps[number][1])

    def of_names(self, names: typing.Iterable[str]) -> Times:
        return self.times(self.of_name[name] for name in names if name in self.of_name)

    def marked(self, letter: str) -> Times:
        """Each lump between the marks of a kind, of flats or of pictures."""
        return self.times(art.between_marks(self.names, letter))

    def whole(self) -> Times:
        """Header and directory, and each lump once."""
        return collections.Counter(self.frame) + self.times(range(len(self.lumps)))


class Bounds:
    """How often the lumps of a WAD may be read, for its MAP01 and the weapon layers of some views."""

    def __init__(self, wad: Wad, listed: str, layers: collections.Counter[int]) -> None:
        self.wad, self.listed, self.layers = wad, listed.splitlines(), layers
        label = wad.of_name[MAP]
        self.map = wad.times(range(label + 1, label + 1 + MAP_LUMPS))
        self.patches = self.placed_patches()
        self.pictures = wad.marked('S')

    def placed_patches(self) -> Times:
        """Each patch as often as the needed textures have it."""
        known = art.Art([self.wad.path])
        sides = levels.read([self.wad.path], MAP).sides
        names = {SKY_TEXTURE}.union(*((side.upper, side.lower, side.middle) for side in sides))
        return self.wad.of_names(known.patches[patch] for name in sorted(names & set(known.textures))
                                 for _, patch in known.textures[name].patches)

    def loading(self) -> Times:
        """What a scene is loaded of."""
        times = collections.Counter(self.wad.frame) + self.wad.of_names([PINNED, *FIRST_READ]) + self.map
        times += self.patches + self.pictures
        return times + self.pictures if self.layers else times

    def copying(self) -> Times:
        """What `trim` copies; COLORMAP is still there."""
        return (self.wad.marked('F') + self.pictures + self.map + self.wad.of_names(FIRST_READ)
                + collections.Counter(self.patches.keys()))

    def view(self, number: int) -> Times:
        """What a view is drawn of."""
        times: Times = collections.Counter()
        for _ in range(self.layers[number]):
            times += self.pictures
        strips = 0
        for line in self.listed:
            plane, sprite, fragment = (form.fullmatch(line) for form in (PLANE, SPRITE, FRAGMENT))
            found = plane or sprite or fragment
            if not found or int(found[1]) != number:
                continue
            if fragment:
                strips += STRIPS * (int(fragment[3]) - int(fragment[2]) + 1)
            elif plane and plane[2] == 'sky':
                strips += int(plane[3])
            elif plane and int(plane[3]):
                times += self.wad.times([int(plane[2])])
            elif sprite and int(sprite[3]) <= int(sprite[4]):
                times += self.wad.times([int(sprite[2])])
        return times + collections.Counter({piece: strips * count for piece, count in self.patches.items()})
