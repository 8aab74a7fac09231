"""doomview turn: a turn on the spot."""
import argparse

from .. import cli, levels, paths
from ..files import write_output

PAGE = cli.Page(
    'turn', 'a camera path: a turn on the spot at the player start', '''
Writes a camera path: a turn on the spot at a map's player start.

The eye stands where the original puts player 1: at the last thing of type 1 (earlier ones are voodoo
dolls), 41 map units above the floor there. The first view looks in the thing's direction, cut to eighths
of a turn; each further view is turned left by an equal step, and VIEWS of them make a whole turn.
''', '''
$ doomview turn freedoom2.wad MAP01 140 > turn.csv
$ doomview video freedoom2.wad MAP01 turn.csv turn.mp4
''')


def add_words(parser: argparse.ArgumentParser) -> None:
    cli.add_level(parser)
    parser.add_argument('views', metavar='VIEWS', type=cli.number(1, paths.MOST_ROWS), nargs='?', default=36,
                        help=f'how many views, 1 to {paths.MOST_ROWS}; else 36')
    cli.add_output(parser, 'the path')


def run(options: argparse.Namespace) -> None:
    level = levels.read(cli.wads_of(options), options.map)
    write_output(paths.text(paths.turn(level, options.views)), options.output, 'the path')
