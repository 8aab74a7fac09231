"""WADs: found as ports find them, read, and written.

docs/FORMATS.md has the rules: small letters count as capitals, the last lump of a name counts, and so does the last
label of a map; a map with a BEHAVIOR is of another format and is left out."""
import os
import re
import struct
import typing
from collections.abc import Iterable, Sequence

from . import system
from .doom import MAP_LUMPS
from .files import check_source
from .trouble import Trouble, WadError

FOLDERS = ['/usr/local/share/games/doom', '/usr/share/games/doom', '/usr/local/share/doom', '/usr/share/doom',
           '/usr/share/games/freedoom']  # of the packages of Linux
BEHIND_MAP = 12  # a label, its eight lumps, REJECT, BLOCKMAP and BEHAVIOR

PACKED = {b'PK': 'a zip, as a PK3 is', b'7z\xbc\xaf': 'a 7z file, as a PK7 is', b'\x1f\x8b': 'a gzip file'}


class Lump(typing.NamedTuple):
    """A lump of a WAD."""

    name: str
    data: bytes


def folders() -> list[str]:
    """The folders in which ports look for a WAD, the first first."""
    data = os.environ.get('XDG_DATA_HOME') or os.path.join(os.path.expanduser('~'), '.local', 'share')
    named = os.environ.get('DOOMWADPATH', '').split(os.pathsep)
    found = [os.environ.get('DOOMWADDIR', ''), *named, os.path.join(data, 'games', 'doom'), *FOLDERS]
    return [folder for folder in found if folder]


def find_or_none(name: str) -> typing.Optional[str]:
    """The WAD of a name where ports look for it, or None: as it is named, and then in each of the folders, there also
    in small letters and without `.wad`. A name with a folder in it is a path."""
    if system.has_folder(name) or os.path.lexists(name):
        return name if os.path.exists(name) else None
    small = name.lower()
    for folder in folders():
        for file in (name, name + '.wad', small, small + '.wad'):
            path = os.path.join(folder, file)
            if os.path.isfile(path) and os.access(path, os.R_OK):
                return path
    return None


def not_found(name: str) -> str:
    return f'there is no WAD {name} here, in DOOMWADDIR, in DOOMWADPATH or in /usr/share/games/doom; name its path'


def find(name: str) -> str:
    """The WAD of a name; a Trouble where there is none."""
    found = find_or_none(name)
    if found is None and not system.has_folder(name):
        raise Trouble(not_found(name))
    check_source(found or name)
    return found or name


def with_base(name: str, base: typing.Optional[str] = None, files: Iterable[str] = ()) -> list[str]:
    """The WAD of a name, before it some files, and before these the WAD that it needs: `base`, or else that of the
    variable IWAD. An IWAD comes before the files, if no other is named."""
    base, own, files = base or os.environ.get('IWAD'), find(name), [find(file) for file in files]
    if base:
        return [find(base), *files, own]
    return [own, *files] if kind_of(own) == b'IWAD' else [*files, own]


def kind_of(path: str) -> bytes:
    """The first four bytes of a file; none where it cannot be read."""
    try:
        with open(path, 'rb') as file:
            return file.read(4)
    except OSError:
        return b''


def check_game(files: list[str]) -> None:
    """A Trouble where some WADs are a PWAD without the WAD of a game."""
    if kind_of(files[0]) == b'PWAD' and not any(lump.name == 'PLAYPAL' for file in files for lump in read(file)):
        raise Trouble(f'{files[-1]} is a PWAD, and needs the WAD of its game; name that by --iwad, as in --iwad '
                      'freedoom2.wad')


def check_own(name: str, place: str, files: list[str], own: str, more: Iterable[str]) -> None:
    """A Trouble where a map is that of the IWAD, while other WADs are named for it: `place` is the WAD of the map, and
    `own` the WAD of the call."""
    if place != own and place == files[0] and place not in map(find, more):
        maps = ' '.join(map_names(read(own))) or 'none'
        raise Trouble(f'{name} is in {place} alone; the maps of {own}: {maps}. For that map name its WAD in the place of '
                      f'{own}, and {own} by --file')


def clean(name: bytes) -> str:
    """A name of eight bytes as text."""
    return name.split(b'\0')[0].upper().decode('latin-1')


def read(path: str) -> list[Lump]:
    """The lumps of a WAD, in the order of its directory."""
    try:
        with open(path, 'rb') as file:
            data = file.read()
    except OSError as error:
        raise WadError(f'{path}: {error.strerror}') from error
    if data[:4] not in (b'IWAD', b'PWAD'):
        raise WadError(f'{path} is {packed_as(data)}' if packed_as(data) else f'{path} is no WAD')
    try:
        count, directory = struct.unpack_from('<II', data, 4)
        entries = [struct.unpack_from('<II8s', data, directory + 16 * i) for i in range(count)]
    except struct.error as error:
        raise WadError(f'{path} is cut short') from error
    for offset, size, name in entries:
        if size and offset + size > len(data):
            raise WadError(f'{path} is cut short: it ends before its lump {clean(name)} does')
    return [Lump(clean(name), data[offset:offset + size]) for offset, size, name in entries]


def packed_as(data: bytes) -> str:
    """What a file is that packs others, in words, with what to do; nothing for another one."""
    kind = next((kind for head, kind in PACKED.items() if data.startswith(head)), '')
    return f'{kind}; unpack it, and name the WAD in it' if kind else ''


def wad_of(lumps: Iterable[tuple[str, bytes]], kind: bytes = b'IWAD') -> bytes:
    """The bytes of a WAD with these lumps, pairs of name and bytes."""
    bodies, entries = [], []
    at = 12
    for name, data in lumps:
        entries.append(struct.pack('<II8s', at, len(data), name.encode()))
        bodies.append(data)
        at += len(data)
    return kind + struct.pack('<II', len(entries), at) + b''.join(bodies + entries)


def map_labels(lumps: Iterable[tuple[str, bytes]]) -> dict[str, int]:
    """The place of each map's label, by name."""
    names = [name for name, _ in lumps]
    labels = {name: place for place, name in enumerate(names)}
    return {name: place for name, place in labels.items()
            if names[place + 1:place + 9] == MAP_LUMPS and names[place + 11:place + BEHIND_MAP] != ['BEHAVIOR']}


def map_names(lumps: Iterable[tuple[str, bytes]]) -> list[str]:
    """The names of the maps that can be names of files: A to Z, 0 to 9 and _."""
    return sorted(name for name in map_labels(lumps) if re.fullmatch('[A-Z0-9_]+', name))


def maps_of(wads: Sequence[str]) -> list[str]:
    """The names of the maps of the last of some WADs; a Trouble where it has none."""
    names = map_names(read(wads[-1]))
    if not names:
        raise WadError(f'{wads[-1]} has no map')
    return names
