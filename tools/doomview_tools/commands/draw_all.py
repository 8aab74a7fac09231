"""doomview draw-all: a picture of every map of a WAD, or the frames of many camera paths."""
import argparse
import concurrent.futures
import contextlib
import hashlib
import os
import shlex
import shutil
import signal
import subprocess
import sys
from collections.abc import Sequence

from .. import cli, installation, path_drawing, paths, program, system, wads
from ..files import Folder, Source, write_whole
from ..progress import Progress
from ..trouble import FOUND, Trouble

WITHOUT = ('--tables', '--things', '--path', '--format')
TABLE, SHOWN = 'drawn.csv', 6  # the table, and the views over a limit that a line has
POLL = 0.5  # seconds between two looks at how far it is
OWN_JOBS = '100%'  # what GNU parallel takes as one job a processor, or as many as stand before the name of a machine
PAGE = cli.Page(
    'draw-all', 'draws every map of a WAD, or many camera paths, several at a time', '''
Draws every map of a WAD from its player start to FOLDER/MAP.png, several at a time.

With --paths it draws the frames of camera paths, several at a time: of each path in a folder, or of one file. The name
of a path is that of its map, as MAP01.csv, or begins so, as MAP01-any.csv, and its frames are in FOLDER/MAP01-any.bin.
A view over a limit (more than 128 planes, or 20,480 openings) has a frame of 0, the views behind it are drawn, and it is
marked: in a line, and in the table FOLDER/drawn.csv, with a line for each path. A call that is interrupted goes on where
it was when it is given again, in the middle of a path too; what is drawn already, of the same WADs, path, program and
words, is left as it is. A terminal shows how far it is.

With --machines they are drawn by GNU parallel on other machines, which are reached by ssh: 8/one,8/two draws eight at a
time on each of the machines one and two, and one,two as many as each has processors; with --jobs each draws that many.
The folder of doomview, the WADs, the paths and FOLDER must have the same paths there, as on a shared disk. Of paths
FOLDER has the log of GNU parallel, by which a call that is given again leaves out what was done.
''', '''
$ doomview draw-all freedoom2.wad out --jobs 8
$ doomview draw-all freedoom2.wad out --paths paths --spans packed
$ doomview draw-all freedoom2.wad out --machines 8/one,8/two
''', 'the program; for --machines GNU parallel (package: parallel)', '''
 0  all maps are drawn, or all views of all paths
 1  some are not; a sentence on each map or path says why, and the table has the views over a limit
 2  the tool could not begin
''')


def add_words(parser: argparse.ArgumentParser) -> None:
    parser.add_argument('wad', metavar='WAD', type=cli.Wad, help=cli.WAD)
    parser.add_argument('folder', metavar='FOLDER', type=Folder, help='where the pictures go; it is made')
    cli.add_base(parser)
    parser.add_argument('--paths', metavar='PATHS', type=Source, help='draws these camera paths: a folder of them, or one')
    parser.add_argument('--jobs', metavar='N', type=cli.number(1, 1000), help='how many maps at a time; else one a processor')
    parser.add_argument('--machines', metavar='LIST', help='machines to draw on, as GNU parallel takes --sshlogin')
    parser.add_argument('--no-table', action='store_true', help='writes no table of the paths, as one of several calls')
    cli.add_job_options(parser, 'render', WITHOUT)


def command(options: argparse.Namespace, files: list[str], name: str) -> list[str]:
    """The words that draw one map."""
    picture = os.path.join(os.path.abspath(options.folder), f'{name}.png')
    base = ['--iwad', files[0]] if len(files) == 2 else []
    return [installation.COMMAND, 'picture', *base, files[-1], name, picture, *cli.job_words(options)]


def draw(words: list[str]) -> subprocess.CompletedProcess[str]:
    """Runs the words that draw a map."""
    return subprocess.run(words, stdin=subprocess.DEVNULL, stderr=subprocess.PIPE, text=True, errors='replace')


def draw_here(commands: list[list[str]], jobs: int) -> int:
    """The number of maps that could not be drawn; what is said of each goes to standard error."""
    failed = 0
    with concurrent.futures.ThreadPoolExecutor(jobs) as pool:
        for done in pool.map(draw, commands):
            failed += done.returncode != 0
            print(done.stderr, end='', file=sys.stderr, flush=True)
    return failed


def check_parallel() -> None:
    """A Trouble where there is no GNU parallel."""
    version = subprocess.run(['parallel', '--version'], stdout=subprocess.PIPE, stderr=subprocess.DEVNULL, text=True)
    if not version.stdout.startswith('GNU parallel'):
        raise Trouble('this parallel is not GNU parallel (package: parallel)')


def draw_there(commands: list[list[str]], options: argparse.Namespace, more: Sequence[str] = ()) -> int:
    """The same by GNU parallel on other machines."""
    check_parallel()
    lines = [shlex.join(['env', f'DOOMVIEW={program.path()}', *words]) for words in commands]
    jobs = str(options.jobs or OWN_JOBS)
    words = ['parallel', '--jobs', jobs, '--sshlogin', options.machines, *more]
    return subprocess.run(words, input='\n'.join(lines), text=True).returncode


def paths_there(drawing: path_drawing.Drawing, found: list[path_drawing.Path], options: argparse.Namespace,
                files: list[str]) -> None:
    """Draws paths by GNU parallel on other machines, each by a call of this tool. Its log is that of these calls alone."""
    base = [part for file in files[1:-1] for part in ('--file', file)] + (['--iwad', files[0]] if len(files) > 1 else [])
    commands = [[installation.COMMAND, 'draw-all', *base, files[-1], path.folder, '--paths', os.path.abspath(path.file),
                 '--jobs', '1', '--no-table', *cli.job_words(options)] for path in found]
    inputs = ' '.join(drawing.inputs(path) for path in found)
    log = os.path.join(options.folder, f'parallel-{hashlib.sha256(inputs.encode()).hexdigest()[:16]}.log')
    draw_there(commands, options, ['--joblog', log, '--resume-failed' if os.path.exists(log) else '--resume'])


def paths_here(drawing: path_drawing.Drawing, found: list[path_drawing.Path], jobs: int) -> list[path_drawing.Drawn]:
    """Draws paths, several at a time, and shows how far that is."""
    views = sum(len(paths.rows(path.file)) for path in found)
    with concurrent.futures.ThreadPoolExecutor(jobs) as pool, Progress(views, 'views') as progress:
        tasks = [pool.submit(drawing.draw, path) for path in found]
        try:
            left = set(tasks)
            while left:
                left = concurrent.futures.wait(left, POLL).not_done
                done = sum(path_drawing.views_drawn(path) for path in found) if progress.is_shown else 0
                progress.add(done - progress.done)
        except BaseException:
            with contextlib.suppress(KeyboardInterrupt, SystemExit):  # a second signal, as timeout sends, does not hinder it
                for number in system.signals('SIGINT', 'SIGTERM', 'SIGHUP'):
                    signal.signal(number, signal.SIG_IGN)
            drawing.end()
            pool.shutdown(cancel_futures=True)
            raise
    return [task.result() for task in tasks]


def draw_paths(options: argparse.Namespace, files: list[str], maps: list[str]) -> int:
    """Draws camera paths, and says of each what is not as it should be; the status."""
    found = path_drawing.in_folder(options.paths, maps, os.path.abspath(options.folder))
    drawing = path_drawing.Drawing(files, cli.job_words(options))
    if options.machines:
        paths_there(drawing, found, options, files)
        drawn = [drawing.known(path) for path in found]
    else:
        drawn = paths_here(drawing, found, options.jobs or system.processors())
    for one in drawn:
        if one.trouble:
            print(f'doomview draw-all: {one.path.name}: {one.trouble}', file=sys.stderr)
        elif one.over:
            more = ' ..' if len(one.over) > SHOWN else ''
            print(f'{one.path.name} views {one.views} over {len(one.over)}: '
                  f'{path_drawing.over_in_words(one.over[:SHOWN])}{more}')
    if not options.no_table:
        write_whole(os.path.join(options.folder, TABLE), path_drawing.table(drawn).encode())
    good, over = [one for one in drawn if not one.trouble], sum(len(one.over) for one in drawn)
    print(f'paths {len(good)} views {sum(one.views for one in good)} over a limit {over} drawn before '
          f'{sum(one.views for one in good if one.is_old)}')
    return FOUND if over or len(good) < len(drawn) else 0


def run(options: argparse.Namespace) -> int:
    files = [os.path.abspath(name) for name in cli.wads_of(options)]
    if os.path.lexists(options.folder) and not os.path.isdir(options.folder):
        raise Trouble(f'{options.folder} is no folder; name one, or a new one')
    if options.machines and not shutil.which('parallel'):
        raise Trouble('parallel is not installed (package: parallel)')
    maps = wads.maps_of([wads.find(options.wad)])
    program.ready()
    try:
        os.makedirs(options.folder, exist_ok=True)
    except OSError as error:
        raise Trouble(f'cannot make the folder {options.folder}: {error.strerror}') from error
    if options.paths:
        return draw_paths(options, files, maps)
    commands = [command(options, files, name) for name in maps]
    failed = draw_there(commands, options) if options.machines else \
        draw_here(commands, options.jobs or system.processors())
    return FOUND if failed else 0
