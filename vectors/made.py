"""Puts the made map of the vectors, made.wad, over a game's WAD: a whole WAD, as ports take it. Needs Python 3.9 alone.

The map takes the place of the game's first, MAP01 or E1M1; its textures and patches come behind those of the game."""
import os
import struct

from pictures import Refused

SET = 'made'  # of vectors
FILE = 'made.wad'
LABELS = ('MAP01', 'E1M1')
TEXTURES, NAMES = b'TEXTURE1', b'PNAMES'
Lump = tuple[bytes, bytes]


def lumps_of(path: str) -> list[Lump]:
    """The names and the bytes of the lumps of a WAD."""
    try:
        with open(path, 'rb') as file:
            data = file.read()
        count, directory = struct.unpack_from('<II', data, 4)
        entries = [struct.unpack_from('<II8s', data, directory + 16 * number) for number in range(count)]
    except OSError as error:
        raise Refused(f'cannot read {path}: {error.strerror}') from error
    except struct.error as error:
        raise Refused(f'{path} is no WAD') from error
    return [(name.split(b'\0')[0].upper(), data[offset:offset + size]) for offset, size, name in entries]


def label_of(lumps: list[Lump]) -> str:
    """The name that the made map has in a game: that of the game's first; an empty text where it has neither."""
    names = {name for name, _ in lumps}
    return next((label for label in LABELS if label.encode() in names), '')


def last(lumps: list[Lump], name: bytes) -> bytes:
    found = [data for of_lump, data in lumps if of_lump == name]
    if not found:
        raise Refused(f'the WAD has no {name.decode()}')
    return found[-1]


def names_with(game: bytes, made: bytes) -> bytes:
    """PNAMES of both."""
    counts = [struct.unpack_from('<I', data)[0] for data in (game, made)]
    return struct.pack('<I', sum(counts)) + game[4:4 + 8 * counts[0]] + made[4:]


def texture_records(data: bytes) -> list[bytes]:
    """The textures of TEXTURE1."""
    count, = struct.unpack_from('<I', data)
    places = struct.unpack_from(f'<{count}I', data, 4)
    return [data[place:place + 22 + 10 * struct.unpack_from('<H', data, place + 20)[0]] for place in places]


def moved(record: bytes, first: int) -> bytes:
    """A texture whose patches are counted from another number on."""
    found = bytearray(record)
    for at in range(22, len(record), 10):
        number, = struct.unpack_from('<H', record, at + 4)
        struct.pack_into('<H', found, at + 4, number + first)
    return bytes(found)


def textures_with(game: bytes, made: bytes, first: int) -> bytes:
    """TEXTURE1 of both; the patches of the made ones are counted from `first` on."""
    records = [*texture_records(game), *(moved(record, first) for record in texture_records(made))]
    places = [4 + 4 * len(records)]
    for record in records[:-1]:
        places.append(places[-1] + len(record))
    return struct.pack(f'<{len(records) + 1}I', len(records), *places) + b''.join(records)


def wad_of(lumps: list[Lump]) -> bytes:
    """The bytes of an IWAD."""
    directory, at = [], 12
    for name, data in lumps:
        directory.append(struct.pack('<II8s', at, len(data), name))
        at += len(data)
    return b''.join([b'IWAD', struct.pack('<II', len(lumps), at), *(data for _, data in lumps), *directory])


def over(game: str, made: str) -> bytes:
    """The bytes of a game's WAD with the made map over it."""
    lumps, own = lumps_of(game), lumps_of(made)
    names, textures = last(lumps, NAMES), last(lumps, TEXTURES)
    changed = {NAMES: names_with(names, last(own, NAMES)),
               TEXTURES: textures_with(textures, last(own, TEXTURES), struct.unpack_from('<I', names)[0])}
    label = label_of(lumps).encode()
    if not label:
        raise Refused(f'{game} has no map of {", ".join(LABELS)}')
    behind = [(label if number == 0 else name, data) for number, (name, data) in enumerate(own) if name not in changed]
    return wad_of([*((name, changed.get(name, data)) for name, data in lumps), *behind])


def write(game: str, folder: str) -> str:
    """Writes such a WAD into a folder, under the name of the game's; its path."""
    path = os.path.join(folder, os.path.basename(game))
    try:
        os.makedirs(folder, exist_ok=True)
        with open(path, 'wb') as file:
            file.write(over(game, os.path.join(os.path.dirname(os.path.abspath(__file__)), FILE)))
    except OSError as error:
        raise Refused(f'cannot write {path}: {error.strerror}') from error
    return path
