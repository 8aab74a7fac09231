"""The modules of the folder vectors, where `vectors/check` has them without these tools."""
import functools
import importlib
import os
import sys
import types
import typing

from . import installation
from .trouble import Trouble

FOLDER = os.path.join(installation.TOP, 'vectors')


@functools.lru_cache(maxsize=None)
def module(name: str) -> types.ModuleType:
    """A module of that folder, such as games."""
    if not os.path.isfile(os.path.join(FOLDER, f'{name}.py')):
        raise Trouble(f'{FOLDER}/{name}.py is missing; take the whole folder of doomview anew')
    sys.path.insert(0, FOLDER)
    try:
        return importlib.import_module(name)
    finally:
        sys.path.remove(FOLDER)


def asked(name: str, call: str, *words: typing.Any) -> typing.Any:
    """What a function of a module gives; a Trouble where it refuses."""
    found = module(name)
    try:
        return getattr(found, call)(*words)
    except module('pictures').Refused as error:
        raise Trouble(str(error)) from error
