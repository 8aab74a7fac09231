"""Runs of each job over made files, and a library that stands between a run and the C library."""
import os
import shutil
import struct
import subprocess
import sys
import typing

HERE = os.path.dirname(os.path.abspath(__file__))
TOOLS = os.path.join(os.path.dirname(HERE), 'tools')
WEAPON = b'view,sprite,frame,bright,sx,sy\n0,TREE,A,1,10485760,6553600\n'
MADE = [('wad', '1'), ('path', '1'), ('things',), ('tables',)]
SECONDS = 60  # after which a run is given up
Job = tuple[str, list[str]]  # its name and its words


def fail(text: str) -> typing.NoReturn:
    name = os.path.splitext(os.path.basename(sys.argv[0]))[0]
    sys.exit(f'{name}: {text}')


def write(folder: str, name: str, data: bytes) -> str:
    path = os.path.join(folder, name)
    with open(path, 'wb') as file:
        file.write(data)
    return path


def tiny_wad() -> bytes:
    """PLAYPAL, whose colour i is i, 255 - i, 7i, and the flat TILE."""
    palette = bytes(it % 256 for i in range(256) for it in (i, 255 - i, 7 * i))
    lumps = ((b'PLAYPAL', palette), (b'F_START', b''), (b'TILE', bytes(range(1, 11))), (b'F_END', b''))
    data, directory = b'', b''
    for name, lump in lumps:
        directory += struct.pack('<II8s', 12 + len(data), len(lump), name)
        data += lump
    return b'IWAD' + struct.pack('<II', len(lumps), 12 + len(data)) + data + directory


def made_files(folder: str, program: str) -> list[str]:
    """The made files of 1, as words of `render`."""
    paths = {}
    for what, *words in MADE:
        made = subprocess.run([program, 'make', what, *words], stdout=subprocess.PIPE)
        if made.returncode:
            fail(f'status {made.returncode} of {program} make {what}')
        paths[what] = write(folder, what, made.stdout)
    return [paths['wad'], '--tables', paths['tables'], '--things', paths['things'], '--path', paths['path']]


def jobs_of(folder: str, level: list[str], *options: str) -> list[Job]:
    """A run of each job, with these options where it takes a zone. `level` has a map and its files."""
    level = [*level, *options]
    armed = [*level, '--weapon', write(folder, 'weapon.csv', WEAPON)]
    return [('flat', ['flat', 'TILE', write(folder, 'tiny.wad', tiny_wad())]),
            ('render', ['render', *level]), ('render --spans packed', ['render', *level, '--spans', 'packed']),
            ('render --format ppm', ['render', *level, '--format', 'ppm']), ('render --weapon', ['render', *armed]),
            *((job, [job, *level]) for job in ('trace', 'list', 'limits', 'audit', 'trim')),
            ('trace --weapon', ['trace', *armed]), ('trim --weapon', ['trim', *armed]),
            *((f'make {what}', ['make', what, *more]) for what, *more in MADE),
            ('exercise', ['exercise', '1', *options])]


def compiled(folder: str, name: str) -> str:
    """The library that is made of a C file of this folder."""
    library = os.path.join(folder, f'{name}.so')
    if not shutil.which('cc'):
        fail('the command cc is missing')
    source = os.path.join(HERE, f'{name}.c')
    if subprocess.run(['cc', '-shared', '-fPIC', '-O1', '-o', library, source, '-ldl']).returncode:
        fail(f'{name}.c does not compile')
    return library
