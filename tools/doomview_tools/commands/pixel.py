"""doomview pixel: what painted one pixel."""
import argparse

from .. import cli, map_places, paths, traces, wads
from ..files import Source, check_source
from ..frames import HEIGHT, WIDTH
from ..trouble import Trouble

PAGE = cli.Page(
    'pixel', 'what painted a pixel; with a list which line, sector or thing of the map', '''
Tells what painted a pixel, with the name of its lump or texture.

TRACE is what doomview trace wrote. Names need the WADs of the run, in their order. Of a patch that one texture alone
has the texture is named too, else the textures that have it.

With --list, what doomview list wrote for the same words, it names what a map editor shows: of a wall the line, its side
and the upper, lower or middle texture; of a floor or ceiling the sectors that have it, and what made its plane; of a
sprite the thing.

With --path, the camera path of the run, a second line says where the view is: as an editor shows it, and as its row.
''', '''
$ doomview trace MAP01 freedoom2.wad --path path.csv -o trace.bin
$ doomview pixel 0 160 100 trace.bin freedoom2.wad
$ doomview list MAP01 freedoom2.wad --path path.csv -o list.txt
$ doomview pixel 0 160 100 trace.bin freedoom2.wad --list list.txt --map MAP01
''')


def add_words(parser: argparse.ArgumentParser) -> None:
    parser.add_argument('view', metavar='VIEW', type=cli.number(0, paths.MOST_ROWS - 1),
                        help='counted from 0 in the order of the path')
    parser.add_argument('x', metavar='X', type=cli.number(0, WIDTH - 1), help='the column, 0 to 319 from the left')
    parser.add_argument('y', metavar='Y', type=cli.number(0, HEIGHT - 1), help='the row, 0 to 199 from the top')
    parser.add_argument('trace', metavar='TRACE', type=Source, help='the file of the trace')
    parser.add_argument('wads', metavar='WAD', type=cli.Wad, nargs='*', help='the WADs of the run, in their order')
    parser.add_argument('--path', metavar='FILE', type=Source, help='the camera path of the run: says too where the '
                        'view is')
    map_places.add_words(parser)


def rows_of(options: argparse.Namespace, count: int) -> list[paths.Row]:
    """The rows of the path, as many as the trace has views, or none where none is named."""
    rows = paths.rows(options.path) if options.path else []
    if rows and len(rows) != count:
        raise Trouble(f'{options.path} has {len(rows)} rows, and {options.trace} {count} views; name the path of the '
                      'run')
    return rows


def run(options: argparse.Namespace) -> None:
    check_source(options.trace)
    count = traces.count_views(options.trace)
    if options.view >= count:
        raise Trouble(f'{options.trace} has {count} views, counted from 0, and none of number {options.view}')
    record = traces.record_at(options.trace, options.view, options.x, options.y)
    files = [wads.find(name) for name in options.wads]
    names = traces.Names(files)
    names.check(traces.Painter(record[0], record[1], record[3]), options.trace)
    placing = map_places.placing_of(options, files, count, names)
    told = traces.in_words(record, names)
    if placing:
        word = traces.KINDS.get(record[0], [''])[0]
        told = placing.places.in_words(placing.view(options.view), record, word) or told
    rows = rows_of(options, count)
    print(f'view {options.view} column {options.x} row {options.y}: {told}')
    if rows:
        print(f'view {options.view}: {paths.in_words(rows[options.view])}')
