"""The frames that a port drew of a map and set, as indices of the palette, whatever form they have."""
import hashlib
import os
import typing
from collections.abc import Iterator

import pictures
from pictures import PPM_HEAD, PPM_SIZE, Picture, Refused

FRAME, DIGITS = pictures.SIZE, 16


class Frame(typing.NamedTuple):
    """A frame: its indices, its sum, and an empty text; or of a picture that is none what is wrong with it."""

    data: bytes
    sum: str
    wrong: str = ''


def frame_of(data: bytes) -> Frame:
    return Frame(data, hashlib.sha256(data).hexdigest()[:DIGITS])


class OfIndices:
    """The frames of a file of indices, one behind the other."""

    def __init__(self, path: str) -> None:
        self.path = path

    def take(self, count: int) -> Iterator[typing.Optional[Frame]]:
        """The frames of so many views; None for what the file lacks."""
        with open(self.path, 'rb') as file:
            for _ in range(count):
                data = file.read(FRAME)
                yield frame_of(data) if len(data) == FRAME else None

    def too_many(self, count: int) -> list[str]:
        """A sentence where the file has more than so many views."""
        size = os.path.getsize(self.path)
        name = os.path.basename(self.path)
        return [f'{name} has {size} bytes, and {count} views have {FRAME * count}'] if size > FRAME * count else []


class OfPictures:
    """The frames of pictures: of a folder, or of a file of PPMs. Of entries with one colour the first is taken."""

    def __init__(self, path: str, palette: bytes) -> None:
        if not palette:
            raise Refused(f'{path}: the colours of pictures are those of the palette of a WAD; name it by --wad')
        self.path, self.palette = path, palette
        self.entry = {colour: found[0] for colour, found in pictures.entries_of(palette).items()}
        self.files = pictures.of_folder(path) if os.path.isdir(path) else []

    @property
    def count(self) -> int:
        return len(self.files) or (0 if os.path.isdir(self.path) else os.path.getsize(self.path) // PPM_SIZE)

    def take(self, count: int) -> Iterator[typing.Optional[Frame]]:
        for view in range(count):
            yield self.frame(view) if view < self.count else None

    def too_many(self, count: int) -> list[str]:
        more = self.count > count
        return [f'{os.path.basename(self.path)} has {self.count} pictures, and there are {count} views'] if more else []

    def picture(self, view: int) -> tuple[Picture, str]:
        """The picture of a view, and its name."""
        if self.files:
            return pictures.read(self.files[view]), self.files[view]
        with open(self.path, 'rb') as file:
            file.seek(PPM_SIZE * view)
            return pictures.of_bytes(file.read(PPM_SIZE), self.path), self.path

    def frame(self, view: int) -> Frame:
        try:
            picture, name = self.picture(view)
            return self.indices(pictures.colours_of(picture, name))
        except Refused as error:
            return Frame(b'', '', str(error))

    def indices(self, colours: list[bytes]) -> Frame:
        found = [self.entry.get(colour) for colour in colours]
        if None not in found:
            return frame_of(bytes(entry for entry in found if entry is not None))
        strange = dict.fromkeys(colour for colour, entry in zip(colours, found) if entry is None)
        row, column = divmod(found.index(None), pictures.WIDTH)
        first = ','.join(map(str, next(iter(strange))))
        what = f'{len(strange)} colours are' if len(strange) > 1 else 'a colour is'
        return Frame(b'', '', f'{what} in no entry of the palette, the first {first} at row {row} column {column}')


def of_name(folder: str, name: str, palette: bytes) -> typing.Union[OfIndices, OfPictures, None]:
    """The frames of a name in a folder: of indices, of PPMs or of a folder of pictures; None where there are none."""
    path = os.path.join(folder, name)
    if os.path.isfile(path + '.bin'):
        return OfIndices(path + '.bin')
    if os.path.isfile(path + '.ppm'):
        with open(path + '.ppm', 'rb') as file:
            is_plain = file.read(len(PPM_HEAD)) == PPM_HEAD
        if not is_plain:
            raise Refused(f'{path}.ppm does not begin as a PPM of 320 by 200 does (P6, 320 200, 255)')
        return OfPictures(path + '.ppm', palette)
    return OfPictures(path, palette) if os.path.isdir(path) else None
