"""doomview for Windows and for a browser: the module compiled anew, and linked with glue. All of it is a preview: it rests
on what no page of the kit says, and no proof is about it."""
import concurrent.futures
import os
import shutil
import tempfile
from typing import Any, NamedTuple

from doomview_tools.trouble import Trouble

from . import built_in, ir, kit, module

GLUE = os.path.join(os.path.dirname(os.path.abspath(__file__)), 'glue')
WINDOWS_COMPILER = 'x86_64-w64-mingw32-gcc'
AARCH64, AARCH64_COMPILER = 'aarch64-unknown-linux-gnu', 'aarch64-linux-gnu-gcc'
STACK = 8 << 20  # bytes, as a Linux program has
# As `rattle build` calls clang, apart from what is of one target.
ALWAYS = ('--no-default-config -no-canonical-prefixes -fintegrated-cc1 -fno-crash-diagnostics -Werror -O3 -ffunction-sections '
          '-fdata-sections -mllvm -no-trap-after-noreturn -mllvm -trap-unreachable -mllvm -disable-machine-licm -mllvm '
          '-disable-postra-machine-licm -mllvm -sink-common-insts=false').split()
X86 = '-march=x86-64 -mllvm -no-x86-call-frame-opt -Xclang -fmerge-functions'.split()
WASM = ['-mcpu=lime1']
# The sources of doomview.exe, and of the program with its own words alone.
COMMAND = ('windows', 'command', 'words', 'says', 'outputs', 'wads', 'sentences', 'hints', 'picture', 'png')
PLAIN = ('windows', 'plain')
class Windows(NamedTuple):
    """The program with the tables built in, and the same with its own words alone, which golden runs try."""

    command: bytes
    plain: bytes


class Workshop:
    """A folder in which targets are made of the module."""

    def __init__(self, folder: str, data: bytes) -> None:
        self.folder, self.kit = folder, kit.folder()
        with open(self.at('module.bc'), 'wb') as file:
            file.write(data)
        self.clang('-x', 'ir', '-S', '-emit-llvm', '-O0', '-Xclang', '-disable-llvm-passes', self.at('module.bc'), '-o',
                   self.at('module.ll'))
        self.text = read(self.at('module.ll'))

    def at(self, name: str) -> str:
        return os.path.join(self.folder, name)

    def clang(self, *words: str) -> None:
        kit.call([os.path.join(self.kit, 'toolchain', 'bin', 'clang'), *words], 'compiling')

    def object(self, target: str, words: list[str]) -> str:
        """The path of the module's object file for a target."""
        text, _ = ir.rewritten(target, self.text, read(os.path.join(GLUE, 'heap.ll')))
        with open(self.at(f'{target}.ll'), 'w', encoding='utf-8') as file:
            file.write(text)
        made = self.at(f'{target}.o')
        self.clang(f'--target={ir.TARGETS[target].triple}', *ALWAYS, *words, '-c', '-x', 'ir', self.at(f'{target}.ll'), '-o', made)
        return made


def read(path: str) -> str:
    with open(path, encoding='utf-8', errors='surrogateescape') as file:
        return file.read()


def windows(made: str, work: Workshop) -> Windows:
    """The programs for Windows, of the module's object file."""
    built_in_c = work.at('built_in.c')
    with open(built_in_c, 'w', encoding='utf-8') as file:
        file.write(built_in.source())
    command, plain = ([os.path.join(GLUE, f'{part}.c') for part in parts] for parts in (COMMAND, PLAIN))
    return Windows(linked(made, work, [*command, built_in_c]), linked(made, work, plain))


def linked(made: str, work: Workshop, sources: list[str]) -> bytes:
    """A program for Windows, of the module's object file and sources in C."""
    target = work.at('doomview.exe')
    kit.call([WINDOWS_COMPILER, '-O2', '-Wall', '-Wextra', '-Werror', '-static', '-s', '-municode', f'-I{GLUE}',
              f'-Wl,--gc-sections,--stack,{STACK},--no-insert-timestamp', made, *sources, '-o', target], 'linking for Windows')
    return module.bytes_of(target)


def browser(made: str, work: Workshop) -> bytes:
    """The program for a browser, as WebAssembly with a memory of 64 bits, of the module's object file."""
    glue, host, target = work.at('glue.o'), work.at('host'), work.at('doomview.wasm')
    triple = f'--target={ir.TARGETS["wasm64"].triple}'
    work.clang(triple, *WASM, '--no-default-config', '-ffreestanding', '-nostdlibinc', '-O2', '-Wall', '-Wextra', '-c',
               os.path.join(GLUE, 'wasm.c'), '-o', glue)
    with open(host, 'w', encoding='utf-8') as file:
        file.writelines(f'{name}\n' for name in ir.called(work.text))
    kit.call([os.path.join(work.kit, 'toolchain', 'bin', 'ld.lld'), '-flavor', 'wasm', '-m', 'wasm64', '--no-entry', '--stack-first',
              '-z', f'stack-size={STACK}', '--gc-sections', f'--allow-undefined-file={host}', '-s', made, glue, '-o', target],
             'linking for a browser')
    return module.bytes_of(target)


def aarch64() -> bytes:
    """The program for Linux on aarch64: the object file that the kit documents for it, and C that the kit has for x86-64."""
    if not shutil.which(AARCH64_COMPILER):
        raise Trouble(f'there is no command {AARCH64_COMPILER} (Debian: gcc-aarch64-linux-gnu, libc6-dev-arm64-cross)')
    with tempfile.TemporaryDirectory(prefix='doomview-') as folder:
        given, target = os.path.join(folder, 'doomview.o'), os.path.join(folder, 'doomview')
        with open(given, 'wb') as file:
            file.write(module.object_for(AARCH64))
        kit.call([AARCH64_COMPILER, '-O2', '-Wall', '-Wextra', '-Werror', '-static', '-s', '-Wl,--gc-sections', given,
                  os.path.join(GLUE, 'linux.c'), '-o', target], 'linking for aarch64')
        return module.bytes_of(target)


LINKS = {'windows': (windows, X86), 'wasm64': (browser, WASM)}


def object_of(name: str, data: bytes, work: Workshop) -> str:
    """The path of the module's object file for a target, which is kept in out/previews."""
    path, sources = work.at(f'{name}.kept.o'), [ir.__file__, __file__, os.path.join(GLUE, 'heap.ll')]
    parts = [data, *map(module.bytes_of, sources)]
    with open(path, 'wb') as file:
        file.write(module.stored(name, parts, lambda: module.bytes_of(work.object(name, LINKS[name][1]))))
    return path


def made(names: list[str]) -> dict[str, Any]:
    """What is made for some targets, side by side, by name: `windows` or `wasm64`."""
    if 'windows' in names and not shutil.which(WINDOWS_COMPILER):
        raise Trouble(f'there is no command {WINDOWS_COMPILER} (Debian: mingw-w64)')
    with tempfile.TemporaryDirectory(prefix='doomview-') as folder, concurrent.futures.ThreadPoolExecutor() as pool:
        data = module.kept()
        work = Workshop(folder, data)
        runs = {name: pool.submit(lambda name: LINKS[name][0](object_of(name, data, work), work), name) for name in names}
        return {name: run.result() for name, run in runs.items()}
