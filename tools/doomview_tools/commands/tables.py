"""doomview tables: the tables of angles."""
import argparse

from .. import cli, tables
from ..files import write_output

PAGE = cli.Page(
    'tables', "the tables of angles, equal to the original's", '''
Writes the tables of angles, 65,540 bytes: all 16,385 words of sines, tangents and angles as the original's
tables.c has them. The jobs take them by themselves; a file of them is for other programs, and for --tables.
Their SHA-256 is known, and where this machine computes others nothing is written.

(doomview make tables writes others, for made files: with those about one pixel in seven differs.)
''', '''
$ doomview tables -o tables.bin
''')


def add_words(parser: argparse.ArgumentParser) -> None:
    cli.add_output(parser, 'the tables')


def run(options: argparse.Namespace) -> None:
    write_output(tables.tables(), options.output, 'the file of tables')
