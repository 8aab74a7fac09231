"""WADs as bytes: written from lumps, and taken apart. docs/FORMATS.md has the format."""
import struct
from collections.abc import Iterable

HEAD_BYTES, ENTRY_BYTES = 12, 16
MAP_LUMPS = ['THINGS', 'LINEDEFS', 'SIDEDEFS', 'VERTEXES', 'SEGS', 'SSECTORS', 'NODES', 'SECTORS']
RECORD_BYTES = dict(zip(MAP_LUMPS, (10, 14, 30, 4, 12, 4, 28, 26)))
Lump = tuple[str, bytes]  # its name and its bytes
NamedFiles = dict[str, bytes]  # the bytes of files by their names


def name8(name: str) -> bytes:
    """The eight bytes of a name."""
    return name.encode('latin-1').ljust(8, b'\0')[:8]


def wad(lumps: Iterable[Lump], letters: bytes = b'IWAD') -> bytes:
    """A WAD of lumps, each a pair of name and bytes: header, lumps without gaps, directory."""
    bodies, entries, at = [], [], HEAD_BYTES
    for name, body in lumps:
        entries.append(struct.pack('<II8s', at, len(body), name8(name)))
        bodies.append(body)
        at += len(body)
    return letters + struct.pack('<II', len(entries), at) + b''.join(bodies + entries)


def beside(*lumps: Lump) -> bytes:
    """A WAD that stands beside another."""
    return wad(lumps, b'PWAD')


def directory_of(data: bytes) -> tuple[int, int]:
    """Where the directory of a WAD begins, and how many entries it has."""
    count, directory = struct.unpack_from('<II', data, 4)
    return directory, count


def entries_of(data: bytes) -> list[tuple[int, int, str]]:
    """Offset, size and name of each entry of a WAD."""
    directory, count = directory_of(data)
    entries = [struct.unpack_from('<II8s', data, directory + ENTRY_BYTES * number) for number in range(count)]
    return [(offset, size, name.rstrip(b'\0').decode('latin-1')) for offset, size, name in entries]


def lumps_of(data: bytes) -> list[Lump]:
    """Name and bytes of each lump of a WAD."""
    return [(name, data[offset:offset + size]) for offset, size, name in entries_of(data)]


def number_of(data: bytes, name: str) -> int:
    """The number of the last lump of that name."""
    return max(number for number, entry in enumerate(entries_of(data)) if entry[2] == name)


def offset_of(data: bytes, name: str) -> int:
    """Where the last lump of that name begins."""
    return entries_of(data)[number_of(data, name)][0]


def lump(data: bytes, name: str) -> bytes:
    """The bytes of the last lump of that name."""
    offset, size, _ = entries_of(data)[number_of(data, name)]
    return data[offset:offset + size]
