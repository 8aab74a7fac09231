"""The module that the kit's clang compiles to the proved program: kept on its way.

No page of the kit says what is here: that its compiler hands the program to the clang of the folder that --toolchain names
as one file of LLVM's, module.bc, and that such a folder may be made of links. So nothing of the proved program rests on it.
`rattle build` is called as for a build of the program, with a folder whose clang keeps its input and then compiles it; the
object file has to be that of the build, byte for byte."""
import hashlib
import os
import shutil
import tempfile
from collections.abc import Callable

from doomview_tools import installation
from doomview_tools.files import write_whole
from doomview_tools.trouble import Trouble

from . import kit

CRATE = 'doomview'
MODULE = 'module.bc'
STORE = 'previews'  # a folder of out/
CLANG = '''#!/bin/sh
/bin/cp module.bc "{folder}/module.bc" && exec "{kit}/toolchain/bin/clang" "$@"
'''
UNKNOWN = 'this kit is not one that tools/portable knows'


def crates() -> dict[str, list[str]]:
    """The crates of this repository by crates.txt, each with those of them that it names."""
    with open(os.path.join(installation.TOP, 'crates.txt'), encoding='utf-8') as file:
        lines = [line.partition('#')[0].partition(':') for line in file]
    named = {head.split()[0]: rest.split() for head, _, rest in lines if head.strip()}
    return {name: [below for below in rest if below in named] for name, rest in named.items()}


def below(name: str) -> list[str]:
    """The crates that one stands on, the lowest first."""
    named, found = crates(), []

    def visit(crate: str) -> None:
        for other in named[crate]:
            if other not in found:
                visit(other)
                found.append(other)

    visit(name)
    return found


def library(crate: str) -> str:
    """The folder of a crate's library, which the build made."""
    folder = os.path.join(installation.TOP, 'crates', crate, 'out', 'rlib')
    if not os.path.isdir(folder):
        raise Trouble(f'there is no {folder}; build the program first, by ./doomview --build')
    return folder


def toolchain(kit_folder: str, folder: str) -> str:
    """Makes a folder as the kit's toolchain, by links, whose clang first keeps what it is given."""
    there, made = os.path.join(kit_folder, 'toolchain'), os.path.join(folder, 'toolchain')
    os.makedirs(os.path.join(made, 'bin'))
    for part in ('.', 'bin'):
        for name in os.listdir(os.path.join(there, part)):
            if name not in ('bin', 'clang'):
                os.symlink(os.path.join(there, part, name), os.path.join(made, part, name))
    path = os.path.join(made, 'bin', 'clang')
    with open(path, 'w', encoding='utf-8') as file:
        file.write(CLANG.format(folder=folder, kit=kit_folder))
    os.chmod(path, 0o755)
    return made


def build_words(kit_folder: str, made: str, tools: str, more: tuple[str, ...] = ()) -> list[str]:
    """The words of `rattle build` for the program, as `rattle build --help` has them: it writes the object file `made` by the
    toolchain folder `tools`."""
    words = [f'{kit_folder}/bin/rattle', 'build', '--crate-name', CRATE, 'src/main.rt',
             '--extern', f'std={kit_folder}/rlibs/std.rlib', '-L', f'dependency={kit_folder}/rlibs']
    for crate in crates()[CRATE]:
        words += ['--extern', f'{crate}={library(crate)}/{crate}.rlib']
    for crate in below(CRATE):
        words += ['-L', f'dependency={library(crate)}']
    return words + ['--antt-project', f'{kit_folder}/rattle/logic/antt-project.json',
                    '--logic-built', f'{kit_folder}/logic_built', '--links', f'{CRATE}=', '--jobs', '1',
                    '--toolchain', tools, '--incremental', 'out/incremental', *more, '-o', made]


def copied_crate(folder: str) -> str:
    """A copy of the program's crate, in which it is built; its folder."""
    crate = os.path.join(folder, CRATE)
    shutil.copytree(os.path.join(installation.TOP, 'crates', CRATE), crate, ignore=shutil.ignore_patterns('doomview*'))
    return crate


def object_for(target: str) -> bytes:
    """The bytes of the program's object file for another target that the kit has."""
    kit_folder = kit.folder()
    kit.object_file()  # so that the libraries are of these sources
    with tempfile.TemporaryDirectory(prefix='doomview-') as folder:
        made = os.path.join(folder, 'doomview.o')
        words = build_words(kit_folder, made, os.path.join(kit_folder, 'toolchain'), ('--target', target))
        kit.call(words, 'rattle build', copied_crate(folder))
        return bytes_of(made)


def bytes_of(path: str) -> bytes:
    with open(path, 'rb') as file:
        return file.read()


def stored(kind: str, parts: list[bytes], make: Callable[[], bytes]) -> bytes:
    """What a function makes of some parts; it is kept in out/previews until something else is made of other parts."""
    folder, key = os.path.join(installation.TOP, 'out', STORE), hashlib.sha256(b''.join(hashlib.sha256(part).digest() for part in parts))
    path = os.path.join(folder, f'{kind}-{key.hexdigest()[:32]}')
    if not os.path.isfile(path):
        data = make()
        os.makedirs(folder, exist_ok=True)
        for name in os.listdir(folder):
            if name.startswith(f'{kind}-'):
                os.remove(os.path.join(folder, name))
        write_whole(path, data)
    return bytes_of(path)


def kept() -> bytes:
    """The bytes of the module; a Trouble where the kit does not make the program of one."""
    return stored('module', [bytes_of(kit.object_file())], tapped)


def tapped() -> bytes:
    """The same, from a build."""
    kit_folder, built = kit.folder(), kit.object_file()
    with tempfile.TemporaryDirectory(prefix='doomview-') as folder:
        module, made = (os.path.join(folder, name) for name in (MODULE, 'doomview.o'))
        kit.call(build_words(kit_folder, made, toolchain(kit_folder, folder)), 'rattle build', copied_crate(folder))
        if not os.path.isfile(module):
            raise Trouble(f'{UNKNOWN}: its clang was given no {MODULE}')
        if bytes_of(made) != bytes_of(built):
            raise Trouble(f'{UNKNOWN}: with a toolchain folder of links it makes another object file than {built}')
        return bytes_of(module)
