"""doomview rest: the files that put a map at rest in an installed port."""
import argparse
import os
import typing

from .. import cli, game_at_rest, paths, weapons
from ..files import Folder, write_whole
from ..game_at_rest import MOST_VIEWS
from ..trouble import Trouble

PAUSED = 50
PAGE = cli.Page(
    'rest', 'files that put a map at rest in an installed port, to compare its frames', '''
Writes into FOLDER what makes an installed port show a map at rest, as doomview draws it: still.wad (the map without
specials, with demons for spectres), still.deh (each thing stays in its first frame), still.lmp (a demo that stands
still until the weapon is up, and pauses at each of the views, which are a turn on the spot).

For doomview it writes shown.wad (the same map with the names of animated flats and textures that are shown at the
pause), path.csv (the views) and weapon.csv (the pistol).
''', '''
$ doomview rest freedoom2.wad MAP01 out
$ chocolate-doom -iwad freedoom2.wad -file out/still.wad -deh out/still.deh -playdemo out/still
$ doomview render MAP01 freedoom2.wad out/shown.wad --path out/path.csv --weapon out/weapon.csv -o ours.bin
''', more='TOOLS.md#a-game-at-rest')


def place(text: str) -> tuple[int, int, int]:
    parts = text.split(',')
    try:
        x, y, degrees = map(int, parts)
    except ValueError as error:
        raise argparse.ArgumentTypeError(f'X,Y,DEGREES in whole map units and degrees, and not {text}') from error
    return x, y, degrees


def add_words(parser: argparse.ArgumentParser) -> None:
    cli.add_level(parser)
    parser.add_argument('folder', metavar='FOLDER', type=Folder, help='where the files go; it is made')
    parser.add_argument('--views', metavar='N', type=cli.number(1, MOST_VIEWS), default=MOST_VIEWS,
                        help=f'how many views, 1 to {MOST_VIEWS}; else {MOST_VIEWS}')
    parser.add_argument('--at', metavar='X,Y,DEGREES', type=place, help='another place than the player start')
    parser.add_argument('--skill', metavar='N', type=cli.number(1, 5), default=3, help='1 to 5; else 3')
    parser.add_argument('--tics', metavar='N', type=cli.number(1, 10000), default=PAUSED,
                        help=f'how long a view is paused, in tics of a 35th of a second; else {PAUSED}')


def run(options: argparse.Namespace) -> None:
    still = game_at_rest.MapAtRest(cli.wads_of(options), options.map, options.at)
    files: dict[str, typing.Union[str, bytes]] = {
        'still.wad': still.wad(), 'still.deh': game_at_rest.patch(),
        'still.lmp': game_at_rest.demo(still.level.name, options.skill, options.views, options.tics),
        'shown.wad': still.shown_wad(), 'path.csv': paths.text(still.rows(options.views)),
        'weapon.csv': weapons.text([(weapons.raised_layer('PISG'),)] * options.views)}
    try:
        os.makedirs(options.folder, exist_ok=True)
    except OSError as error:
        raise Trouble(f'cannot make the folder {options.folder}: {error.strerror}') from error
    for name, data in files.items():
        write_whole(os.path.join(options.folder, name), data.encode() if isinstance(data, str) else data)
