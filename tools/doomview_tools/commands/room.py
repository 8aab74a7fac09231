"""doomview room: a small WAD that is made."""
import argparse

from .. import cli, room
from ..files import write_output

PAGE = cli.Page(
    'room', 'a WAD of one small level with art of its own', '''
Writes a WAD of one small level, MAP01, with art of its own: what doomview picture draws where no WAD is
named. Nothing of a game is in it, so it serves to try everything with, and may be passed on.
''', '''
$ doomview room -o room.wad
$ doomview places room.wad MAP01 40 > path.csv
''')


def add_words(parser: argparse.ArgumentParser) -> None:
    cli.add_output(parser, 'the WAD')


def run(options: argparse.Namespace) -> None:
    write_output(room.room(), options.output, 'the WAD')
