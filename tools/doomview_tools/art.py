"""The art of WADs: the lists of textures, the names of patches, and which lumps are flats or pictures of things."""
import struct
import typing
from collections.abc import Iterable, Iterator, Mapping, Sequence

from .doom import PALETTE_SIZE, SKY
from .png import GREYS
from .trouble import WadError
from .wads import Lump, clean, read

LISTS = ('TEXTURE1', 'TEXTURE2')
Lumps = Mapping[str, bytes]  # by name


class Texture(typing.NamedTuple):
    """A texture of a list: its size in texels, and of each patch the column and the number in PNAMES."""

    name: str
    width: int
    height: int
    patches: list[tuple[int, int]]


def textures_in(lump: bytes, name: str) -> Iterator[Texture]:
    """The textures of a list, in order; a WadError where it is damaged."""
    try:
        for offset in struct.unpack_from(f'<{count_of(lump)}I', lump, 4):
            width, height = struct.unpack_from('<hh', lump, offset + 12)
            count, = struct.unpack_from('<H', lump, offset + 20)
            records = (struct.unpack_from('<h2xH', lump, offset + 22 + 10 * i) for i in range(count))
            yield Texture(clean(lump[offset:offset + 8]), width, height, [(left, patch) for left, patch in records])
    except struct.error as error:
        raise WadError(f'{name} is damaged; doomview explain audit says where') from error


def count_of(lump: bytes) -> int:
    """How many textures a list has."""
    return int.from_bytes(lump[:4], 'little')


def textures_of(lumps: Lumps) -> Iterator[Texture]:
    """The textures of both lists in the order of their numbers."""
    for name in LISTS:
        if name in lumps:
            yield from textures_in(lumps[name], name)


def name_of_texture(lumps: Lumps, number: int) -> typing.Optional[tuple[str, str, int]]:
    """The name of a texture by its number, its list, and its number there, whatever is wrong with others; or None."""
    for name in LISTS:
        lump = lumps.get(name, b'')
        if number < count_of(lump):
            offset, = struct.unpack_from('<I', lump, 4 + 4 * number)
            return clean(lump[offset:offset + 8]), name, number
        number -= count_of(lump)
    return None


def patch_names(lumps: Lumps) -> list[str]:
    """The names of PNAMES."""
    lump = lumps.get('PNAMES', b'')
    return [clean(name) for name, in struct.iter_unpack('<8s', lump[4:4 + len(lump[4:]) // 8 * 8])]


def palette_of(lumps: Lumps) -> bytes:
    """The first palette of PLAYPAL, or greys where there is none."""
    palette = lumps.get('PLAYPAL', b'')[:PALETTE_SIZE]
    return palette if len(palette) == PALETTE_SIZE else GREYS


def starts(letter: str) -> set[str]:
    """The marks that lumps of a kind begin with: of flats (F), or of pictures of things (S)."""
    return {f'{letter}_START', 2 * letter + '_START'}


def between_marks(names: Iterable[str], letter: str) -> Iterator[int]:
    """The places of the lumps between the marks of a kind."""
    is_within = False
    for place, name in enumerate(names):
        if name in starts(letter):
            is_within = True
        elif name in (f'{letter}_END', 2 * letter + '_END'):
            is_within = False
        elif is_within:
            yield place


def marked_names(lumps: Sequence[Lump], letter: str) -> set[str]:
    """The names of the lumps of a kind, of one file."""
    return {lumps[place].name for place in between_marks([lump.name for lump in lumps], letter)}


class Art:
    """The textures and flats of WADs, in the order in which they are loaded."""

    def __init__(self, files: list[str]) -> None:
        self.files = files
        self.by_file = [read(path) for path in files]
        self.lumps = {lump.name: lump.data for found in self.by_file for lump in found}
        self.patches = patch_names(self.lumps)
        self.textures: dict[str, Texture] = {}  # the first of a name
        for texture in textures_of(self.lumps):
            self.textures.setdefault(texture.name, texture)
        self.flats = {SKY}.union(*(marked_names(found, 'F') for found in self.by_file))
        self.frames = {name[:4] + frame for found in self.by_file for name in marked_names(found, 'S')
                       for frame in (name[4:5], name[6:7])}  # of things: four letters and a frame

    def having(self, name: str) -> list[int]:
        """The numbers of the files that have a lump."""
        return [number for number, found in enumerate(self.by_file) if name in {lump.name for lump in found}]

    def hidden_textures(self, names: set[str]) -> Iterator[tuple[str, str, str]]:
        """Of some textures those that a list has which the list of a later WAD hides, with both WADs."""
        having = self.having('TEXTURE1')
        for i in having[:-1]:
            for name in sorted(names & {texture.name for texture in textures_of(dict(self.by_file[i]))}):
                yield name, self.files[i], self.files[having[-1]]

    def width(self, patch: str) -> int:
        """The width of a patch by its name."""
        return int.from_bytes(self.lumps.get(patch, b'')[:2], 'little')

    def counts(self, texture: Texture) -> list[int]:
        """How many patches cover each column of a texture."""
        counts = [0] * texture.width
        for left, number in texture.patches:
            width = self.width(self.patches[number]) if number < len(self.patches) else 0
            for x in range(max(0, left), min(texture.width, left + width)):
                counts[x] += 1
        return counts

    def lists(self) -> Iterator[tuple[str, int, list[Texture]]]:
        """Both lists of textures, as far as they are there: the name of a list, the number of its file, its
        textures."""
        for name in LISTS:
            if name in self.lumps:
                yield name, self.having(name)[-1], list(textures_in(self.lumps[name], name))

    def hiding_names(self) -> Iterator[tuple[str, str, str, str, str, str]]:
        """A list that counts on a PNAMES which that of a later WAD hides: the name of the list, both WADs, a texture,
        and the names of its patch in both."""
        for name, file, textures in self.lists():
            having = self.having('PNAMES')
            own = [number for number in having if number <= file]
            if not own or own[-1] == having[-1]:
                continue
            meant = patch_names(dict(self.by_file[own[-1]]))
            for texture, number in ((texture, number) for texture in textures for _, number in texture.patches):
                if meant[number:number + 1] != self.patches[number:number + 1]:
                    yield (name, self.files[own[-1]], self.files[having[-1]], texture.name,
                           (meant[number:number + 1] or ['none'])[0], (self.patches[number:number + 1] or ['none'])[0])
                    break

    def missing_patches(self) -> dict[str, list[str]]:
        """The patches that no WAD has: by name, or number past the end of PNAMES, the textures that need them."""
        found: dict[str, list[str]] = {}
        for _, _, textures in self.lists():
            for texture, number in ((texture, number) for texture in textures for _, number in texture.patches):
                patch = self.patches[number] if number < len(self.patches) else f'number {number} of PNAMES'
                if patch not in self.lumps:
                    found.setdefault(patch, []).append(texture.name)
        return found

    def lost_flats(self, names: Iterable[str]) -> tuple[list[str], list[str]]:
        """Of some flats those that the original does not find, since they come before its flats or after them: it takes
        them from the last F_START of all WADs to the last F_END (R_InitFlats), and each by the last lump of its name."""
        places = {lump.name: place for place, lump in enumerate(lump for found in self.by_file for lump in found)}
        first, last = places.get('F_START', -1), places.get('F_END', len(places))
        known = sorted(name for name in names if name != SKY and name in places)
        return [name for name in known if places[name] < first], [name for name in known if places[name] > last]
