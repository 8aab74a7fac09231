"""The kit that built the program, and what a build left of it: the object file, and the libraries of its crates."""
import os
import subprocess
from typing import Optional

from doomview_tools import installation, program
from doomview_tools.trouble import Trouble

OBJECT = os.path.join(installation.TOP, 'crates', 'doomview', 'out', 'doomview.o')
LIBRARIES = ('libos_c.a', 'liblibc_c.a')  # what the object file calls of C, beside the C library


def folder() -> str:
    """The kit's folder: that of the page which `rt doc` names."""
    try:
        done = subprocess.run(['rt', 'doc'], stdout=subprocess.PIPE, stderr=subprocess.DEVNULL, text=True)
    except OSError as error:
        raise Trouble('the command rt of the Rattle kit is not in PATH') from error
    page = done.stdout.strip()
    if done.returncode or not os.path.isfile(page):
        raise Trouble('`rt doc` names no page of the kit, so its folder is not known')
    return os.path.dirname(page)


def object_file() -> str:
    """The path of the object file that the build left, no older than the sources."""
    if not os.path.isfile(OBJECT):
        raise Trouble(f'there is no {OBJECT}; build the program first, by ./doomview --build')
    if os.path.getmtime(OBJECT) < program.newest_source(installation.TOP):
        raise Trouble(f'{OBJECT} is older than the sources; build the program first, by ./doomview --build')
    return OBJECT


def archives(kit: str) -> list[str]:
    """The paths of the kit's archives of C."""
    found = [os.path.join(kit, 'c', name) for name in LIBRARIES]
    missing = [path for path in found if not os.path.isfile(path)]
    if missing:
        raise Trouble(f'the kit has no {missing[0]}, which the program is linked with')
    return found


def call(words: list[str], what: str, folder: Optional[str] = None) -> str:
    """Runs a command to its end and gives what it prints; a Trouble with the last of what it says where it fails."""
    try:
        done = subprocess.run(words, cwd=folder, stdin=subprocess.DEVNULL, stdout=subprocess.PIPE,
                              stderr=subprocess.PIPE, errors='replace')
    except OSError as error:
        raise Trouble(f'{what}: there is no command {words[0]}') from error
    if done.returncode:
        last = '\n'.join((done.stderr or done.stdout).splitlines()[-5:])
        raise Trouble(f'{what}: {words[0]} ended with {done.returncode}: {last[:2000]}')
    return done.stdout
