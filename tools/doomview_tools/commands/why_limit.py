"""doomview why-limit: why a view has as many planes, fragments, sprites and solid ranges as it has."""
import argparse
import os
import tempfile

from .. import (cli, cli_limits, ground, levels, list_files, map_places, paths, program, reasons, traces, wads, walls,
                what_if)
from ..counting import RAISED
from ..explanations import end_of
from ..files import Source, write_whole
from ..jobs import USAGE
from ..levels import UNIT, Level
from ..paths import Row
from ..trouble import FOUND, TROUBLE, Ended, Trouble

WITHOUT = ('--path', '--planes', '--openings', '--weapon', '--spans')  # of list: given by the tool itself, or not at all
OUTSIDE = '  the place is outside the level: no player sees this view'
PAGE = cli.Page(
    'why-limit', 'why a view has so many planes, fragments, sprites or solid ranges, and what would save most', '''
Says of each view how many planes, openings, fragments, sprites and solid ranges it has, and where they come from.

A plane is made where a leaf needs a floor or ceiling of a height, flat and light that the view has not yet; floors and
ceilings that are the same in all three share one. It is split, a plane more, where a wall finds that its columns are
taken in it already. So the first table has a line for each height, flat and light: how many planes share it, how many
of them are splits, in how many columns they have rows together, and the sectors of the map that have it, first those
that made one here. The second has the lines whose fragments split them, with the sectors in front and behind, and what
differs between these.

Then come the fragments by sector and line, the sprites by type and place, and the walls that made a solid range. Of a
view with more than 256 fragments or 128 sprites these tables have the first of them.

Last is a table of what-ifs, the greatest saving of planes first: what the view would count if sectors that made its
planes had the light, a flat or a height of others. Each is counted by drawing the view with that change. They are tried
for one view, and of several for those over a limit.

A view is X,Y,ANGLE: map units, and degrees from east to the left, as in a map editor; the eye is 41 over the floor. Or
it is a row of a camera path, X,Y,Z,ANGLE, as limits-map and its page have it; with --open for a row of the doors open.
With --path it is the number of a view, and without any all views of the path are shown.
''', '''
$ doomview why-limit freedoom2.wad MAP12 -2104,-1431.5,45
$ doomview why-limit freedoom2.wad MAP12 -137887744,-93814784,-3604480,536870912
$ doomview limits-map freedoom2.wad MAP12 --worst worst.csv
$ doomview why-limit freedoom2.wad MAP12 --path worst.csv 0 5
''', 'the program', '''
 0  no view is over a limit
 1  some are
 2  the map is refused, or the words cannot do; sentences say why
 other statuses are those of doomview list
''', more='MAPS.md')


def add_words(parser: argparse.ArgumentParser) -> None:
    cli.add_level(parser)
    parser.add_argument('views', metavar='VIEW', nargs='*', help='X,Y,ANGLE, or X,Y,Z,ANGLE as in a camera path; with '
                        '--path its number there, from 0')
    parser.add_argument('--path', metavar='FILE', type=Source, help='a camera path')
    parser.add_argument('--open', action='store_true', help='opens the doors, as limits-map does when it counts again')
    parser.add_argument('--all', action='store_true', help='shows all lines of a table, and not the first 20')
    cli_limits.add_words(parser)
    cli.add_job_options(parser, 'list', WITHOUT)


def rows_of(options: argparse.Namespace, level: Level) -> list[tuple[int, Row]]:
    """The views that the words name: pairs of a number and a row."""
    if not options.path:
        if not options.views:
            raise Trouble('name a view, as in 512,192,90, or a camera path by --path FILE')
        return [(number, paths.row_of(text, level)) for number, text in enumerate(options.views)]
    rows = paths.rows(options.path)
    for text in options.views:
        if not text.isdecimal() or int(text) >= len(rows):
            raise Trouble(f'{options.path} has {len(rows)} views, counted from 0, and none of number {text.strip()}')
    return [(number, rows[number]) for number in (map(int, options.views) if options.views else range(len(rows)))]


def list_of(options: argparse.Namespace, files: list[str], rows: list[Row], folder: str,
            name: str = 'list.txt') -> list_files.ListFile:
    """What `list` writes of rows, with raised limits, to a file of a name."""
    path, output = os.path.join(folder, 'path.csv'), os.path.join(folder, name)
    write_whole(path, paths.text(rows).encode())
    words = ['list', options.map, *files, *RAISED, *cli.job_words(options), '--path', path]
    with open(output, 'wb') as out:
        done = program.run(words, out)
    if done.status:
        trouble = end_of(words, done)
        raise Ended(TROUBLE if trouble.status == USAGE else trouble.status)
    return list_files.ListFile(output)


def with_open_doors(files: list[str], level: Level, folder: str) -> tuple[list[str], Level]:
    """The WADs with one more behind them, in which the doors are open, and the level of that."""
    path = os.path.join(folder, 'open.wad')
    write_whole(path, ground.with_ceilings(level, ground.Plan(level).doors()))
    return files + [path], levels.read([path], level.name)


def list_of_walls(options: argparse.Namespace, files: list[str], level: Level, rows: list[Row],
                  folder: str) -> list_files.ListFile:
    """The same of the solid walls of a level alone."""
    path = os.path.join(folder, 'walls.wad')
    write_whole(path, walls.walls_alone(level))
    return list_of(options, [*files, path], rows, folder, 'walls.txt')


def is_outside(level: Level, row: Row) -> bool:
    """Whether the place of a view is outside the lines of a level."""
    place = ground.Ground(ground.Plan(level))
    return all(place.is_void(row.x / UNIT, row.y // UNIT + off) for off in (-.5, .5))


def what_ifs(options: argparse.Namespace, files: list[str], level: Level, row: Row, view: list_files.View,
             places: map_places.Places, folder: str) -> list[what_if.Result]:
    """What a view would count after changes of its sectors."""
    words = [options.map, *files], cli.job_words(options)
    return what_if.results(words, level, row, reasons.planes_of_sectors(view, places), folder)


def run(options: argparse.Namespace) -> int:
    files = cli.wads_of(options)
    wads.check_game(files)
    level = cli.level_of(options, files)
    level.check_whole()
    rows, limits = rows_of(options, level), cli_limits.limits_of(options)
    with tempfile.TemporaryDirectory(prefix='doomview-') as folder:
        if options.open:
            files, level = with_open_doors(files, level, folder)
        found = list_of(options, files, [row for _, row in rows], folder)
        of_walls = list_of_walls(options, files, level, [row for _, row in rows], folder)
        places = map_places.Places(level, traces.Names(files), 'what doomview list wrote')
        is_bad = False
        for place, (number, row) in enumerate(rows):
            view, walls_view = found.view(place), of_walls.view(place)
            is_over = any(count > limits[name] for name, count in reasons.counts_of(view, walls_view).items())
            changes = (what_ifs(options, files, level, row, view, places, folder)
                       if not view.over and (is_over or len(rows) == 1) else [])
            lines = list(reasons.reasons(number, row, view, walls_view, places, options.all, limits, changes))
            lines[1:1] = [OUTSIDE] if is_outside(level, row) else []
            print('\n'.join(([''] if place else []) + lines), flush=True)
            is_bad |= is_over
    return FOUND if is_bad else 0
