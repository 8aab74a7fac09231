"""Where the files of doomview are: in the repository, or in a release, which has no crates.txt."""
import os

from . import system
from .trouble import Trouble

PACKAGE = os.path.dirname(os.path.abspath(__file__))
TOOLS = os.path.dirname(PACKAGE)
TOP = os.path.dirname(TOOLS)
IS_RELEASE = not os.path.exists(os.path.join(TOP, 'crates.txt'))
DOCS = os.path.join(TOP, 'docs')
MANUAL = os.path.join(DOCS, 'doomview.1')
COMMAND = os.path.join(TOP, system.COMMAND_NAME)
PROGRAM = os.path.join(TOP, 'out', system.PROGRAM_NAME)


def data(name: str) -> str:
    """The path of a file that the tools have beside them."""
    return os.path.join(TOOLS, 'data', name)


def version() -> dict[str, str]:
    """What the file of the version has: `version` and `logic`, by name."""
    try:
        with open(data('version'), encoding='utf-8') as file:
            return dict(line.split() for line in file)
    except (OSError, ValueError) as error:
        raise Trouble(f'{data("version")} is missing or damaged; take the whole folder of doomview anew') from error
