"""doomview path: rows of a camera path for places as an editor shows them."""
import argparse

from .. import cli, levels, paths
from ..files import write_output

PAGE = cli.Page(
    'path', 'a camera path: places as an editor or the cheat idmypos shows them', '''
Writes a camera path with a row for each place that is named by --at, in their order.

A place is X,Y,DEGREES: map units, and degrees from east to the left, as a map editor shows them. The eye is 41 above
the floor there, as that of a player who stands; X,Y,DEGREES,Z puts it at the height Z. Or it is the line that the cheat
idmypos shows in the original and in chocolate-doom: ang=0x40000000;x,y=(0x2000000,0xc00000).

A row is x,y,z,angle: x, y and z in 16.16 map units (65536 a unit), the angle with 2^32 a turn. doomview why-limit takes
places in both forms, doomview picture --at draws one.
''', '''
$ doomview path freedoom2.wad MAP01 --at -192,-160,0 -o path.csv
$ doomview path freedoom2.wad MAP01 --at -192,-160,0 --at=100.5,200,270,64
$ doomview path freedoom2.wad MAP01 --at 'ang=0x0;x,y=(0xff400000,0xff600000)'
''')


def add_words(parser: argparse.ArgumentParser) -> None:
    cli.add_level(parser)
    parser.add_argument('--at', metavar='PLACE', action='append', required=True,
                        help='X,Y,DEGREES or X,Y,DEGREES,Z, or the line of idmypos; once for each row')
    cli.add_output(parser, 'the path')


def run(options: argparse.Namespace) -> None:
    level = levels.read(cli.wads_of(options), options.map)
    rows = [paths.row_at(text, level) for text in options.at]
    write_output(paths.text(rows), options.output, 'the path')
