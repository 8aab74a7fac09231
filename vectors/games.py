"""Which WAD is which: by the sums of wads.csv, which is beside the vectors. Needs Python 3.9 alone.

A distribution builds Freedoom itself, and then its WADs differ from those of others in the lump that has the version and
in the picture of the title. So a WAD has two sums: of the file, and of all lumps but these."""
import csv
import hashlib
import os
import struct
import typing

from pictures import Refused

TABLE = 'wads.csv'
CHUNK = 1 << 20
HERE = os.path.dirname(os.path.abspath(__file__))
OF_A_BUILD = (b'FREEDOOM', b'TITLEPIC')  # lumps that no view shows and that each build has its own of
FOLDERS = ['/usr/local/share/games/doom', '/usr/share/games/doom', '/usr/local/share/doom', '/usr/share/doom',
           '/usr/share/games/freedoom']  # of the packages of Linux
Row = dict[str, str]


def found(name: str) -> str:
    """The path of a WAD: as it is named, or else where ports look for one; the name where there is none."""
    data = os.environ.get('XDG_DATA_HOME') or os.path.join(os.path.expanduser('~'), '.local', 'share')
    own = [os.environ.get('DOOMWADDIR', ''), *os.environ.get('DOOMWADPATH', '').split(os.pathsep)]
    folders = [folder for folder in [*own, os.path.join(data, 'games', 'doom'), *FOLDERS] if folder]
    files = [name, f'{name}.wad', name.lower(), f'{name.lower()}.wad']
    paths = [] if os.path.dirname(name) or os.path.exists(name) else \
        [os.path.join(folder, file) for folder in folders for file in files]
    return next((path for path in paths if os.path.isfile(path)), name)


def sum_of(path: str) -> str:
    """The SHA-256 of a file."""
    digest = hashlib.sha256()
    try:
        with open(path, 'rb') as file:
            for part in iter(lambda: file.read(CHUNK), b''):
                digest.update(part)
    except OSError as error:
        raise Refused(f'cannot read {path}: {error.strerror}') from error
    return digest.hexdigest()


def sum_of_lumps(path: str) -> str:
    """The SHA-256 of the lumps of a WAD but those of a build, each as its name, its size and its bytes; an empty text
    where the file is none."""
    with open(path, 'rb') as file:
        data = file.read()
    digest = hashlib.sha256()
    try:
        count, directory = struct.unpack_from('<II', data, 4)
        for number in range(count):
            offset, size, name = struct.unpack_from('<II8s', data, directory + 16 * number)
            if name.rstrip(b'\0') not in OF_A_BUILD:
                digest.update(struct.pack('<8sI', name, size) + data[offset:offset + size])
    except struct.error:
        return ''
    return digest.hexdigest()


def known(folder: str) -> list[Row]:
    """The rows of the table of WADs in a folder: vectors (empty where there are none of it), wad, version, sha256, lumps
    (the sum of the lumps; empty where the sum of the file alone counts)."""
    try:
        with open(os.path.join(folder, TABLE), newline='', encoding='utf-8') as file:
            return list(csv.DictReader(file))
    except OSError:
        return []


def row_of(path: str, rows: list[Row]) -> typing.Optional[Row]:
    """The row of the table that a WAD is of, by its own sum, or else by that of its lumps."""
    digest = sum_of(path)
    found = next((row for row in rows if row['sha256'] == digest), None)
    if found or not any(row.get('lumps') for row in rows):
        return found
    lumps = sum_of_lumps(path)
    return next((row for row in rows if lumps and row.get('lumps') == lumps), None)


def vectors_of(path: str, folder: str = HERE) -> str:
    """The name of the vectors of a WAD; an empty text where there are none."""
    return (row_of(path, known(folder)) or {}).get('vectors', '')


def named(row: Row) -> str:
    return f'{row["wad"]} of {row["version"]}' if row['version'] else row['wad']


def listed(rows: list[Row]) -> str:
    """The WADs of the table that have vectors, in words, each with the start of its sum."""
    found = [f'{named(row)} (SHA-256 {row["sha256"]})' for row in rows]
    return ' or '.join(found) or f'a WAD of {TABLE}'


def told(path: str, vectors: typing.Optional[str]) -> tuple[str, bool]:
    """A sentence on a WAD, and whether the vectors are of it; without vectors whether there are some of it."""
    rows = known(os.path.dirname(os.path.abspath(vectors)) if vectors else HERE)
    name = os.path.basename(vectors or '')
    wanted = [row for row in rows if row['vectors'] and name in ('', row['vectors'])]
    own, digest = row_of(path, rows), sum_of(path)
    what = 'is another WAD'
    if own:
        what = f'is {"" if own["sha256"] == digest else "another build of "}{named(own)}'
        own = own if own['vectors'] else None
    if own and name in ('', own['vectors']):
        return f'{path} {what}; its vectors are in {own["vectors"]}', True
    if vectors and not wanted:
        return f'{TABLE} does not say which WAD {vectors} is of', True
    others = f'; the vectors of {path} are in {own["vectors"]}' if own else ''
    return (f'{path} {what}, with the SHA-256 {digest}; {vectors or "the vectors here"} are of {listed(wanted)}{others}',
            False)
