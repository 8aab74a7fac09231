"""Changed copies of WADs: bytes put over others, entries changed, lumps put in, taken out and renamed."""
import struct
import typing
from collections.abc import Callable, Mapping

from wads import ENTRY_BYTES, RECORD_BYTES, directory_of, lump, lumps_of, number_of, offset_of, wad


def half(number: int) -> bytes:
    return struct.pack('<H', number & 0xffff)


def word(number: int) -> bytes:
    return struct.pack('<I', number & 0xffffffff)


def put(data: bytes, at: int, new: bytes) -> bytes:
    """The bytes with others over them from an offset on."""
    return data[:at] + new + data[at + len(new):]


def put_in(data: bytes, name: str, at: int, new: bytes) -> bytes:
    """A WAD with other bytes over those of its last lump of that name, from an offset in the lump on."""
    return put(data, offset_of(data, name) + at, new)


def put_field(data: bytes, name: str, record: int, at: int, number: int) -> bytes:
    """A WAD with another number in a record of a lump of its map."""
    return put_in(data, name, RECORD_BYTES[name] * record + at, half(number))


def put_each(data: bytes, name: str, at: int, new: Callable[[int, bytes], bytes]) -> bytes:
    """A WAD with other bytes in each record of a lump of its map; `new` gives them by the record's number and bytes."""
    size, body = RECORD_BYTES[name], lump(data, name)
    records = [body[place:place + size] for place in range(0, len(body), size)]
    changed = [put(record, at, new(number, record)) for number, record in enumerate(records)]
    return with_lumps(data, {name: b''.join(changed)})


def put_entry(data: bytes, name: str, offset: typing.Optional[int] = None, size: typing.Optional[int] = None,
              rename: typing.Optional[bytes] = None) -> bytes:
    """A WAD whose directory tells something else of the last lump of that name."""
    at = directory_of(data)[0] + ENTRY_BYTES * number_of(data, name)
    old = struct.unpack_from('<II8s', data, at)
    new = [was if it is None else it for was, it in zip(old, (offset, size, rename))]
    return put(data, at, struct.pack('<II8s', *new))


def with_lumps(data: bytes, bodies: Mapping[str, bytes]) -> bytes:
    """A WAD whose last lumps of these names have other bytes, and behind all others those that it lacks."""
    lumps = lumps_of(data)
    for name, body in bodies.items():
        places = [place for place, (found, _) in enumerate(lumps) if found == name]
        if places:
            lumps[places[-1]] = name, body
        else:
            lumps.append((name, body))
    return wad(lumps, data[:4])


def without(data: bytes, *names: str) -> bytes:
    """A WAD without the lumps of these names."""
    return wad([(name, body) for name, body in lumps_of(data) if name not in names], data[:4])


def renamed(data: bytes, names: Mapping[str, str]) -> bytes:
    """A WAD in which lumps have other names."""
    return wad([(names.get(name, name), body) for name, body in lumps_of(data)], data[:4])
