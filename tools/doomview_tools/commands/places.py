"""doomview places: viewpoints all over a map."""
import argparse

from .. import cli, paths
from ..files import write_output

MOST = paths.MOST_ROWS - 1
PAGE = cli.Page(
    'places', 'a camera path: viewpoints all over a map, chosen at random', '''
Writes a camera path: viewpoints all over a map, chosen at random.

The first row is the player start, and COUNT more follow: beside things of the level, up to 24 map units
off, in steps of 1/65536, the eye 41 over the floor, at any angle. With --wild they are by turns beside a
thing at any height from 64 below the floor to 64 above the ceiling, on a vertex, on a thing at an eighth
of a turn, anywhere in the level's box. The same words give the same rows.

A row is x,y,z,angle: x, y and z in 16.16 map units (65536 a unit), the angle with 2^32 a turn,
counterclockwise from east. z is the height of the eye, not of the feet: a player stands at z - 41 units.
''', '''
$ doomview places freedoom2.wad MAP01 40 > path.csv
$ doomview places --iwad freedoom2.wad mymap.wad MAP01 200 --seed 2 -o path.csv
''')


def add_words(parser: argparse.ArgumentParser) -> None:
    cli.add_level(parser)
    parser.add_argument('count', metavar='COUNT', type=cli.number(0, MOST), nargs='?', default=100,
                        help=f'how many places, 0 to {MOST}, since a path has at most {paths.MOST_ROWS} rows; else 100')
    parser.add_argument('--wild', action='store_true', help='at any height, on vertices, outside the level')
    parser.add_argument('--seed', metavar='N', type=int, default=1, help='another choice of places; else 1')
    cli.add_output(parser, 'the path')


def run(options: argparse.Namespace) -> None:
    level = cli.level_of(options, cli.wads_of(options))
    rows = paths.places(level, options.count, options.seed, options.wild)
    write_output(paths.text(rows), options.output, 'the path')
