"""The texels of WADs, as far as a comparison asks for them: which colours a flat, a patch or a texture has, and how large
textures are."""
import functools
import struct
import typing

from .art import Texture, patch_names, textures_of
from .traces import COMPOSITE, Painter
from .wads import read

END_OF_COLUMN = 255
FLAT = 4096


def colours_of_patch(data: bytes) -> frozenset[int]:
    """The colours of a patch; none where it is damaged."""
    try:
        width, = struct.unpack_from('<h', data)
        return frozenset().union(*(colours_of_column(data, at) for at in struct.unpack_from(f'<{width}I', data, 8)))
    except (struct.error, IndexError):
        return frozenset()


def colours_of_column(data: bytes, at: int) -> frozenset[int]:
    """The colours of the posts at a place."""
    found: set[int] = set()
    while data[at] != END_OF_COLUMN:
        size = data[at + 1]
        found.update(data[at + 3:at + 3 + size])
        at += size + 4
    return frozenset(found)


class Texels:
    """The flats, patches and textures of WADs, read in their order."""

    def __init__(self, files: list[str]) -> None:
        lumps = [lump for file in files for lump in read(file)]
        self.data = [lump.data for lump in lumps]
        self.newest = dict(lumps)
        self.patches = patch_names(self.newest)
        self.textures: list[Texture] = list(textures_of(self.newest))
        self.having: dict[str, list[Texture]] = {}  # of patches the textures that have them
        for texture in self.textures:
            for name in {self.patches[number] for _, number in texture.patches if number < len(self.patches)}:
                self.having.setdefault(name, []).append(texture)
        self.names = [lump.name for lump in lumps]

    @functools.lru_cache(maxsize=None)
    def colours(self, painter: Painter, is_flat: bool) -> frozenset[int]:
        """The texels that a painter can have: of its flat, or of its patch, or of all patches of its texture."""
        if painter.source_kind == COMPOSITE:
            texture = self.textures[painter.source]
            names = [self.patches[number] for _, number in texture.patches if number < len(self.patches)]
            return frozenset().union(*(colours_of_patch(self.newest.get(name, b'')) for name in names))
        data = self.data[painter.source]
        return frozenset(data[:FLAT]) if is_flat else colours_of_patch(data)

    def texture_of(self, painter: Painter) -> typing.Optional[Texture]:
        """The texture that a painter of walls shows, where it is known."""
        if painter.source_kind == COMPOSITE:
            return self.textures[painter.source] if painter.source < len(self.textures) else None
        having = self.having.get(self.names[painter.source], []) if painter.source < len(self.names) else []
        return having[0] if len(having) == 1 else None
