"""The program as one file without a loader, for any Linux of its processor: the object file that `rattle build` wrote,
linked statically with the C library of this machine and the kit's two archives of C. No code of doomview's is compiled
anew."""
import os
import shutil
import struct
import tempfile

from doomview_tools import program
from doomview_tools.trouble import Trouble

from . import kit

COMPILER = 'cc'
LICENCE = '/usr/share/common-licenses/LGPL-2.1'  # where Debian has its text
INTERPRETER = 3  # the type of a program header that names a loader
TRIED = ['exercise', '1']  # words of a run that reads no file
NEEDS = ('a release is linked by cc with a static C library (Debian: gcc, libc6-dev); with --as-built it has the program as '
         'the kit linked it, which needs the C library of a Linux as new as the kit says')
LINKED = '''The program out/doomview is linked statically. In it are:

- doomview.o, the proved program as the Rattle kit compiled it;
- parts of libos_c.a and liblibc_c.a, the C code of the Rattle kit that it calls;
- parts of the GNU C library, {version}, under the GNU Lesser General Public License, version 2.1 or later, whose text is
  in LGPL-2.1.txt beside this file. It is used as it is.

Whoever has this release may change the C library and link the program with it anew, and may take the program apart to
find faults of such a change. In this folder:

    cc -static -s -Wl,--gc-sections doomview.o libos_c.a liblibc_c.a -o ../doomview

Whoever passes the release on has to offer the source of that C library at the same place. It is that of the source
package glibc, {version}: apt-get source glibc
'''


def link_words(object_file: str, archives: list[str], target: str) -> list[str]:
    """The words of the linker."""
    return [COMPILER, '-static', '-s', '-Wl,--gc-sections', object_file, *archives, '-o', target]


def needs_loader(data: bytes) -> bool:
    """Whether an ELF file of 64 bits names a loader."""
    if data[:5] != b'\x7fELF\x02':
        raise Trouble('the linker wrote no ELF file of 64 bits')
    start, = struct.unpack_from('<Q', data, 32)
    size, count = struct.unpack_from('<HH', data, 54)
    return any(struct.unpack_from('<I', data, start + size * i)[0] == INTERPRETER for i in range(count))


def tried(path: str) -> bytes:
    """What a program prints for the words of a run without files, with no variable set."""
    return kit.call(['env', '-i', path, *TRIED], 'the program').encode()


def link(words: list[str]) -> None:
    try:
        kit.call(words, 'linking')
    except Trouble as error:
        raise Trouble(f'{error}; {NEEDS}') from error


def linked() -> bytes:
    """The bytes of the static program."""
    if not shutil.which(COMPILER):
        raise Trouble(f'there is no command {COMPILER}: {NEEDS}')
    with tempfile.TemporaryDirectory(prefix='doomview-') as folder:
        target = os.path.join(folder, 'doomview')
        link(link_words(kit.object_file(), kit.archives(kit.folder()), target))
        with open(target, 'rb') as file:
            data = file.read()
        if needs_loader(data):
            raise Trouble(f'{COMPILER} -static made a program that needs a loader: {NEEDS}')
        if tried(target) != tried(program.path()):
            raise Trouble('the static program does not print what the program prints that was built')
        return data


def library_version() -> str:
    """The version of the C library of this machine, as its package has it, or as the library says."""
    if shutil.which('dpkg-query'):
        return kit.call(['dpkg-query', '-W', '-f', '${Version}', 'libc6-dev'], 'the C library').strip()
    return kit.call(['getconf', 'GNU_LIBC_VERSION'], 'the C library').strip()


def parts() -> dict[str, bytes]:
    """What a release has beside the static program, so that it can be linked anew: files of a folder by name."""
    paths = [kit.object_file(), *kit.archives(kit.folder())]
    if not os.path.isfile(LICENCE):
        raise Trouble(f'there is no {LICENCE}, the licence of the C library, which a release has to have')
    found = {'LINKED.txt': LINKED.format(version=library_version()).encode()}
    for path, name in [(LICENCE, 'LGPL-2.1.txt'), *((path, os.path.basename(path)) for path in paths)]:
        with open(path, 'rb') as file:
            found[name] = file.read()
    return found
