"""doomview maps: the names of a WAD's maps."""
import argparse

from .. import cli, wads
from ..files import write_output

PAGE = cli.Page(
    'maps', "the names of a WAD's maps", '''
Prints the names of a WAD's maps, one a line.

Left out are maps of another format (Hexen's, UDMF), maps without nodes, and names with other characters
than A to Z, 0 to 9 and _, since scripts use the names as names of files.
''', '''
$ doomview maps freedoom2.wad
''')


def add_words(parser: argparse.ArgumentParser) -> None:
    parser.add_argument('wad', metavar='WAD', type=cli.Wad, help=cli.WAD)


def run(options: argparse.Namespace) -> None:
    write_output(''.join(f'{name}\n' for name in wads.maps_of([wads.find(options.wad)])), what='the names')
