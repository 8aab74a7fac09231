"""Pictures that ports write, PNG, PCX and PPM, as frames of palette indices.

The reader of pictures is in vectors/pictures.py, where `vectors/check` has it without these tools."""
import functools
import importlib.util
import os
import types
import typing
from collections.abc import Callable

from . import diagnoses, installation
from .frames import SIZE, WIDTH
from .trouble import Trouble


@functools.lru_cache(maxsize=None)
def reader() -> types.ModuleType:
    """The module vectors/pictures.py."""
    path = os.path.join(installation.TOP, 'vectors', 'pictures.py')
    if not os.path.isfile(path):
        raise Trouble(f'{path} is missing; take the whole folder of doomview anew')
    spec = importlib.util.spec_from_file_location('vectors_pictures', path)
    assert spec and spec.loader  # of a file of Python there are both
    module = importlib.util.module_from_spec(spec)
    spec.loader.exec_module(module)
    return module


def read(call: Callable[..., typing.Any], *words: typing.Any) -> typing.Any:
    """What a call of the reader gives; a Trouble where it refuses."""
    try:
        return call(*words)
    except reader().Refused as error:
        raise Trouble(str(error)) from error


def is_picture(path: str) -> bool:
    return reader().is_picture(path)


def is_ppm(path: str) -> bool:
    """Whether a file begins as a PPM does that doomview writes."""
    head = reader().PPM_HEAD
    if not os.path.isfile(path):
        return False
    with open(path, 'rb') as file:
        return file.read(len(head)) == head


def files_of(path: str) -> list[str]:
    """The files that a name means: itself, or those in a folder, its pictures alone if it has some, in the order of the
    numbers in their names."""
    if not os.path.isdir(path):
        return [path]
    found = reader().of_folder(path)
    if found:
        return found
    names = [name for name in os.listdir(path) if name[0] != '.' and os.path.isfile(os.path.join(path, name))]
    if not names:
        raise Trouble(f'{path} has no frames, neither pictures whose names end in {", ".join(reader().ENDINGS)} nor '
                      f'files of {SIZE} bytes a view')
    return [os.path.join(path, name) for name in sorted(names, key=reader().in_order)]


class Palette:
    """The colours of a palette, and of each the entries that have it."""

    def __init__(self, palette: bytes) -> None:
        self.palette, self.entries = bytes(palette), reader().entries_of(palette)
        # Entries that were taken where others have the same colour.
        self.doubtful: set[tuple[int, ...]] = set()

    def is_own(self, picture: typing.Any) -> bool:
        """Whether the pixels of a picture are entries of this palette."""
        is_part = picture.palette and self.palette.startswith(picture.palette)
        return picture.parts == 1 and is_part and 3 * max(picture.pixels) < len(picture.palette)

    def frame(self, picture: typing.Any, name: str, ours: bytes = b'') -> bytes:
        """The frame of a picture of a file. Where a colour is in two entries that of `ours` is taken, if it is one of
        them, else the first."""
        if self.is_own(picture):
            return picture.pixels
        colours = read(reader().colours_of, picture, name)
        missing = next((place for place, colour in enumerate(colours) if colour not in self.entries), None)
        if missing is not None:
            row, column = divmod(missing, WIDTH)
            why = diagnoses.of_picture(ours, colours, self.palette) if ours else ''
            raise Trouble(f'{name}: the colour {",".join(map(str, colours[missing]))} at row {row} column {column} is '
                          'in no entry of the palette; '
                          + (why or 'turn off what changes colours (gamma, filters, true colour)'))
        found = [self.entries[colour] for colour in colours]
        self.doubtful.update(tuple(self.entries[colour]) for colour in set(colours) if len(self.entries[colour]) > 1)
        if not ours:
            return bytes(entries[0] for entries in found)
        return bytes(own if own in entries else entries[0] for own, entries in zip(ours, found))

    def sentences(self) -> list[str]:
        """A sentence on the colours that are in two entries, or none."""
        if not self.doubtful:
            return []
        some = ', '.join(' and '.join(map(str, found)) for found in sorted(self.doubtful))
        return [f'entries of the palette with the same colour: {some}; where ours has one of them, the port counts as '
                'having it too']


class OfPictures:
    """The frames of pictures by a palette: of files with one picture each, or of one file of PPMs."""

    def __init__(self, files: list[str], palette: bytes) -> None:
        self.files, self.palette = files, Palette(palette)
        self.size = reader().PPM_SIZE
        self.is_stream = len(files) == 1 and is_ppm(files[0])
        if self.is_stream and os.path.getsize(files[0]) % self.size:
            raise Trouble(f'{files[0]} has {os.path.getsize(files[0])} bytes, and a PPM of doomview {self.size}; name '
                          'the whole of what it wrote')
        self.count = os.path.getsize(files[0]) // self.size if self.is_stream else len(files)

    def picture(self, view: int) -> tuple[typing.Any, str]:
        """The picture of a view, and the name of its file."""
        if not self.is_stream:
            return read(reader().read, self.files[view]), self.files[view]
        with open(self.files[0], 'rb') as file:
            file.seek(self.size * view)
            return read(reader().of_bytes, file.read(self.size), self.files[0]), self.files[0]

    def frame(self, view: int, ours: bytes = b'') -> bytes:
        return self.palette.frame(*self.picture(view), ours)

    def sentences(self) -> list[str]:
        return self.palette.sentences()
