"""Files larger than a word of 32 bits, which are holes but for a few bytes. No read needs more of them than these bytes."""
import os
import struct
import tempfile
from collections.abc import Callable

from damage import put, put_entry, word
from wads import ENTRY_BYTES, HEAD_BYTES, directory_of

WORD = 2 ** 32
FAR = 3 * 2 ** 30  # past 2 GiB and below 4
MOST_STORED = 2 ** 20  # bytes that a file of holes may take
Pieces = list[tuple[int, bytes]]  # what stands where in a file
Large = tuple[int, Pieces]  # the size of a file and its pieces
BytesOf = Callable[[str], bytes]  # of a file, by its name


def longer(data: bytes) -> Large:
    """A file and 4 GiB behind it, so that its size cut to a word is that of the file."""
    return WORD + len(data), [(0, data)]


def cut_to_header(data: bytes) -> Large:
    """A WAD of 2^32 + 12 bytes: of its size cut to a word the header alone is left."""
    return WORD + HEAD_BYTES, [(0, data)]


def far(data: bytes) -> Large:
    """A WAD whose lumps and directory lie past 2 GiB."""
    directory, count = directory_of(data)
    moved = put(data, 8, word(directory + FAR))
    for number in range(count):
        at = directory + ENTRY_BYTES * number
        moved = put(moved, at, word(FAR + struct.unpack_from('<I', data, at)[0]))
    return FAR + len(data), [(0, moved[:HEAD_BYTES]), (FAR + HEAD_BYTES, moved[HEAD_BYTES:])]


def directory_last(data: bytes, missing: int) -> Large:
    """A WAD whose directory begins below 4 GiB and ends 12 bytes above; so many bytes of it are missing."""
    directory, count = directory_of(data)
    place = WORD + HEAD_BYTES - ENTRY_BYTES * count
    return WORD + HEAD_BYTES - missing, [(0, put(data[:directory], 8, word(place))), (place, data[directory:len(data) - missing])]


def tile_last(data: bytes, missing: int) -> Large:
    """tiny.wad, whose flat of ten bytes begins one byte below 4 GiB; so many bytes of it are missing."""
    return WORD + 9 - missing, [(0, put_entry(data, 'TILE', offset=WORD - 1)), (WORD - 1, bytes(range(1, 11 - missing)))]


# The large files, each of the bytes of another.
LARGE: dict[str, tuple[str, Callable[[bytes], Large]]] = {
    'large-angles.bin': ('angles.bin', longer),
    'large-things.csv': ('things.csv', longer),
    'large-path.csv': ('path1.csv', longer),
    'large-weapons.csv': ('gun.csv', longer),
    'large.wad': ('made1.wad', cut_to_header),
    'far.wad': ('made1.wad', far),
    'far-directory-whole.wad': ('tiny.wad', lambda data: directory_last(data, 0)),
    'far-directory-short.wad': ('tiny.wad', lambda data: directory_last(data, 1)),
    'far-tile-whole.wad': ('tiny.wad', lambda data: tile_last(data, 0)),
    'far-tile-short.wad': ('tiny.wad', lambda data: tile_last(data, 1)),
}


def put_large(place: str, name: str, bytes_of: BytesOf) -> None:
    """Writes a large file."""
    source, make = LARGE[name]
    put_pieces(place, make(bytes_of(source)))


def put_pieces(place: str, large: Large) -> None:
    size, pieces = large
    with open(place, 'wb') as file:
        for at, data in pieces:
            file.seek(at)
            file.write(data)
        file.truncate(size)


def have_room() -> bool:
    """Whether files of the system may be so large, and their holes take no room."""
    with tempfile.TemporaryDirectory() as folder:
        place = os.path.join(folder, 'large')
        try:
            put_pieces(place, longer(b'doomview'))
            return os.stat(place).st_blocks * 512 < MOST_STORED
        except OSError:
            return False
