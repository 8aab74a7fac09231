"""doomview picture: one view as a PNG."""
import argparse
import os
import sys
import tempfile

from .. import cli, frames, levels, paths, program, room, wads
from ..explanations import end_of
from ..files import Output, write_whole
from ..png import write_png
from ..trouble import Trouble

WITHOUT = ('--tables', '--things', '--path', '--format')  # options of render that the tool gives itself
NOT_BUILT = ('doomview picture: the proved program is not built yet, so this picture comes from a run of its sources '
             'without proofs (about a minute); doomview --build builds it')
PAGE = cli.Page(
    'picture', "the view from a map's player start as a PNG; of a made room if no WAD is named", '''
Draws the view from a map's player start as a PNG, or one of a small made level where no WAD is named. --at names
another place.

The map is the first one of the WAD where none is named. Where the proved program is not built yet, the picture comes
from a run of its sources without proofs, which takes about a minute; with --proved the program is built first.
''', '''
$ doomview picture first.png
$ doomview picture freedoom2.wad map01.png
$ doomview picture --iwad freedoom2.wad mymap.wad MAP07 map07.png --skill 4
$ doomview picture freedoom2.wad MAP01 there.png --at -192,-160,90
''', 'the program, or the command rt of the Rattle kit', '''
 0  the picture is drawn
 2  the tool could not begin
 other statuses are those of doomview render, and no picture is written
''', forms=('[WAD [MAP]] OUT.png',))


def add_words(parser: argparse.ArgumentParser) -> None:
    parser.add_argument('wad', metavar='WAD', type=cli.Wad, nargs='?', help=cli.WAD + '; else a made room is drawn')
    parser.add_argument('map', metavar='MAP', nargs='?', help='the name of a map; else the first of the WAD')
    parser.add_argument('picture', metavar='OUT.png', type=Output, help='the picture, whose name ends in .png')
    cli.add_base(parser)
    parser.add_argument('--at', metavar='PLACE', help='another place than the player start: X,Y,DEGREES in map units, '
                        'or X,Y,DEGREES,Z with the height of the eye, or the line of idmypos')
    parser.add_argument('--proved', action='store_true', help='builds the proved program first, if that is needed')
    cli.add_job_options(parser, 'render', WITHOUT)


def run(options: argparse.Namespace) -> None:
    if not os.path.basename(options.picture)[:-4] or not options.picture.endswith('.png'):
        raise Trouble(f'the name of the picture has to end in .png, and {options.picture} does not')
    with tempfile.TemporaryDirectory(prefix='doomview-') as folder:
        draw(options, folder)


def draw(options: argparse.Namespace, folder: str) -> None:
    """Draws the view, in a folder for what is needed on the way."""
    if options.wad:
        files = cli.wads_of(options)
        wads.check_game(files)
    else:
        files = [os.path.join(folder, 'room.wad')]
        write_whole(files[0], room.room())
    options.map = name = options.map or wads.maps_of([wads.find(options.wad)] if options.wad else files)[0]
    level = cli.level_of(options, files) if options.wad else levels.read(files, name)
    path = os.path.join(folder, 'path.csv')
    rows = [paths.row_at(options.at, level)] if options.at else paths.turn(level, 1)
    write_whole(path, paths.text(rows).encode())
    words = ['render', name, *files, '--path', path, '--format', 'ppm', *cli.job_words(options)]
    if options.proved:
        program.ready()
    elif not program.is_built():
        print(NOT_BUILT, file=sys.stderr, flush=True)
    done = program.run(words, unproved=True)
    if done.status:
        raise end_of(words, done)
    write_png(options.picture, frames.WIDTH, frames.HEIGHT, frames.pixels_of_ppm(done.output))
