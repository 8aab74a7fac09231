"""doomview audit-all: every map of a WAD."""
import argparse
import os
import tempfile

from .. import cli, paths, program, wads
from ..files import write_whole
from ..trouble import FOUND

WITHOUT = ('--tables', '--things', '--path')
PAGE = cli.Page(
    'audit-all', 'audits every map of a WAD, a line for each', '''
Audits every map of a WAD and prints a line for each: the map's name and doomview's answer, accepted or why not.
doomview explain audit says in sentences what a refusal means.

audit is no map check: a map is accepted where each of its views can be drawn. doomview lint lists the mistakes of a map.
''', '''
$ doomview audit-all freedoom2.wad
$ doomview audit-all --iwad freedoom2.wad mymaps.wad --skill 4
''', 'the program', '''
 0  all maps are accepted
 1  some are not
 2  the tool could not begin
''')


def add_words(parser: argparse.ArgumentParser) -> None:
    parser.add_argument('wad', metavar='WAD', type=cli.Wad, help=cli.WAD)
    cli.add_base(parser)
    cli.add_job_options(parser, 'audit', WITHOUT)


def run(options: argparse.Namespace) -> int:
    files = cli.wads_of(options)
    wads.check_game(files)
    names = wads.maps_of([wads.find(options.wad)])
    program.ready()
    status = 0
    with tempfile.TemporaryDirectory(prefix='doomview-') as folder:
        path = os.path.join(folder, 'path.csv')
        write_whole(path, paths.text([]).encode())  # a path without views, since an audit draws none
        for name in names:
            done = program.run(['audit', name, *files, '--path', path, *cli.job_words(options)])
            print(name, done.output.decode().strip() or done.line or f'status {done.status}', flush=True)
            status = FOUND if done.status else status
    return status
