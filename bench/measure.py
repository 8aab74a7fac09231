#!/usr/bin/env python3
"""Measures a view of doomview, and prints a table.

usage: measure.py [WAD..] [--programs PROGRAM..] [--maps NAMES] [--rounds N] [--repeat N] [--ppm] [--spans S..]
                  [--count]

With WADs: of each map 21 places at which one can stand, chosen as `doomview places` does, from a fixed seed. A view is
what a run over the places REPEAT times takes more than a run over them once, so that the reading of the level does not
count; clearing and writing the frame do. Frames go to /dev/null. Times are processor time in microseconds, the least of
ROUNDS; in each round all programs run in turn, and runs are short and many, since a machine that others use changes
its pace from second to second. Where tools/original/build has made `still`, R_RenderPlayerView of the original is
measured beside, the least of its passes over the places, and the ratios are to it; else they are to the first program.

Without WADs: `exercise` of 1, 4, 16 and 32, with all else that the job does.

--programs names versions of doomview; by default the one of this repository. --maps names the maps, by default nine
of Freedoom's. --ppm writes pictures in place of indices. --spans steps floors so, full or packed, or as both: then
each program is measured in each way, and the original, which has full spans here, not at all. --count counts
instructions by valgrind's callgrind in place of time: one round, the same on any machine of the same kind."""
import argparse
import collections
import math
import os
import re
import resource
import shutil
import subprocess
import sys
import tempfile
import typing
from collections.abc import Callable, Iterable, Sequence

TOP = os.path.dirname(os.path.dirname(os.path.abspath(__file__)))
TOOLS = os.path.join(TOP, 'tools')
STILL = os.path.join(TOOLS, 'original', 'still')
sys.path.insert(0, TOOLS)
from doomview_tools import levels, paths, program, wads  # noqa: E402
from doomview_tools.trouble import Trouble  # noqa: E402

MAPS = 'E1M1 E2M8 E3M1 MAP01 MAP07 MAP18 MAP19 MAP21 MAP31'
PLACES, SEED = 20, 7
NUMBERS = (1, 4, 16, 32)
VIEWS_PER_NUMBER = 3
RENDERER = 'R_RenderPlayerView'
ROUNDS, REPEAT = 40, 10
COUNTED_REPEAT = 3  # under valgrind, some 50 times slower
Way = tuple[str, tuple[str, ...]]  # a program, and words that say how it steps spans
# What gives the words of a run, what it is given besides, and words of callgrind.
Counted = tuple[Callable[..., list[str]], tuple[bool, ...], list[str]]


def run(words: list[str], folder: typing.Optional[str], output: int = subprocess.PIPE) -> tuple[bytes, bytes]:
    """What a program prints, on either stream."""
    try:
        done = subprocess.run(words, cwd=folder, stdout=output, stderr=subprocess.PIPE)
    except OSError as error:
        sys.exit(f'measure: cannot run {words[0]}: {error.strerror}')
    if done.returncode:
        sys.exit(f'measure: {words[0]}: {done.stderr.decode(errors="replace").strip()[-200:]}')
    return done.stdout, done.stderr


def seconds(words: list[str], folder: typing.Optional[str]) -> float:
    before = resource.getrusage(resource.RUSAGE_CHILDREN)
    run(words, folder, subprocess.DEVNULL)
    after = resource.getrusage(resource.RUSAGE_CHILDREN)
    return after.ru_utime + after.ru_stime - before.ru_utime - before.ru_stime


def instructions(words: list[str], folder: str, *options: str) -> int:
    told = run(['valgrind', '--tool=callgrind', '--callgrind-out-file=/dev/null', *options, *words], folder)[1]
    return number_in(rb'Collected : (\d+)', told)


def number_in(pattern: bytes, told: bytes) -> int:
    """The number in what a program told."""
    found = re.search(pattern, told)
    if not found:
        sys.exit(f'measure: no {pattern.decode()} in {told.decode(errors="replace").strip()[-200:]}')
    return int(found[1])


def write_paths(folder: str, wad: str, name: str, repeat: int) -> int:
    """The places once and REPEAT times; how many views the second has more."""
    rows = paths.places(levels.read([wad], name), PLACES, SEED)
    for path, times in (('one.csv', 1), ('many.csv', repeat)):
        with open(os.path.join(folder, path), 'w') as file:
            file.write(paths.text(rows * times))
    return len(rows) * (repeat - 1)


def doomview_words(way: Way, wad: str, name: str, path: str, ppm: bool) -> list[str]:
    executable, spans = way
    words = ['render', name, wad, '--path', path, '--format', 'ppm' if ppm else 'index', *spans]
    return [executable, *program.complete(words)]


def still_words(wad: str, name: str, path: str, *more: str) -> list[str]:
    return [STILL, '-iwad', wad, '-map', name, '-path', path, '-out', os.devnull, *more]


def timed(options: argparse.Namespace, folder: str, wad: str, name: str) -> list[float]:
    """The least microseconds a view of the original, if it is there, and of each program."""
    views = write_paths(folder, wad, name, options.repeat)
    least: dict[tuple[Way, str], float] = collections.defaultdict(lambda: math.inf)
    of_original = math.inf
    for _ in range(options.rounds):
        for executable in options.programs:
            for path in ('one.csv', 'many.csv'):
                words = doomview_words(executable, wad, name, path, options.ppm)
                least[executable, path] = min(least[executable, path], seconds(words, folder))
        if options.original:
            told = run(still_words(wad, name, 'one.csv', '-time', str(options.repeat)), folder)[0]
            of_original = min(of_original, number_in(rb'least (\d+) ns', told) / 1000)
    return [of_original] * options.original + [
        (least[executable, 'many.csv'] - least[executable, 'one.csv']) / views * 1e6 for executable in options.programs]


def counted(options: argparse.Namespace, folder: str, wad: str, name: str) -> list[float]:
    """The thousands of instructions a view of each of them."""
    views = write_paths(folder, wad, name, COUNTED_REPEAT)
    jobs: list[Counted] = [(still_words, (), [f'--toggle-collect={RENDERER}'])] * options.original
    jobs += [(lambda *words, it=it: doomview_words(it, *words), (options.ppm,), []) for it in options.programs]
    return [(instructions(words(wad, name, 'many.csv', *more), folder, *flags)
             - instructions(words(wad, name, 'one.csv', *more), folder, *flags)) / views / 1000
            for words, more, flags in jobs]


def print_row(cells: Iterable[str]) -> None:
    print('| ' + ' | '.join(cells) + ' |', flush=True)


def told(found: Sequence[float]) -> list[str]:
    """The first number, and each other with its ratio to the first."""
    return [f'{found[0]:.1f}', *(cell for it in found[1:] for cell in (f'{it:.1f}', f'{it / found[0]:.3f}'))]


def renders(options: argparse.Namespace, maps: list[tuple[str, str]]) -> None:
    names = ['original'] * options.original + [f'program {i + 1}' for i in range(len(options.programs))]
    print('Thousands of instructions a view:' if options.count else 'Microseconds a view:')
    print()
    print_row(['Map', names[0], *(cell for it in names[1:] for cell in (it, 'ratio'))])
    print('|---' * (2 * len(names)) + '|')
    sums = [0.0] * len(names)
    with tempfile.TemporaryDirectory() as folder:
        for wad, name in sorted(maps, key=lambda it: it[1]):
            found = (counted if options.count else timed)(options, folder, wad, name)
            sums = [a + b for a, b in zip(sums, found)]
            print_row([name, *told(found)])
    print_row(['mean', *told([it / len(maps) for it in sums])])


def exercises(options: argparse.Namespace) -> None:
    print('Microseconds a view of `exercise`, with all else that the job does:\n')
    print_row(['Number', 'Views', *(f'program {i + 1}' for i in range(len(options.programs)))])
    print('|---' * (2 + len(options.programs)) + '|')
    for number in NUMBERS:
        views = VIEWS_PER_NUMBER * number
        rounds = [[seconds([executable, 'exercise', str(number)], None) for executable, _ in options.programs]
                  for _ in range(options.rounds)]
        least = [1e6 * min(column) / views for column in zip(*rounds)]
        print_row([str(number), str(views), *(f'{it:.0f}' for it in least)])


def main() -> None:
    reader = argparse.ArgumentParser(prog='measure', usage=__doc__.split('\n\n')[1][len('usage: '):])
    reader.add_argument('wads', nargs='*')
    reader.add_argument('--programs', nargs='+', default=[os.path.join(TOP, 'out', 'doomview')])
    reader.add_argument('--maps', default=MAPS)
    reader.add_argument('--rounds', type=int, default=ROUNDS)
    reader.add_argument('--repeat', type=int, default=REPEAT)
    reader.add_argument('--ppm', action='store_true')
    reader.add_argument('--spans', nargs='+', choices=['full', 'packed'], default=[])
    reader.add_argument('--count', action='store_true')
    options = reader.parse_args()
    programs = [os.path.abspath(it) for it in options.programs]
    ways = [['--spans', it] for it in options.spans] or [[]]
    options.programs = [(it, tuple(way)) for it in programs for way in ways]
    options.original = os.access(STILL, os.X_OK) and not options.spans
    if options.count and not shutil.which('valgrind'):
        reader.error('--count needs valgrind, which is not installed')
    if not options.wads:
        return exercises(options)
    try:
        found = [os.path.abspath(wads.find(name)) for name in options.wads]
        maps = [(wad, name) for wad in found for name in wads.map_labels(wads.read(wad))
                if name in options.maps.split()]
    except Trouble as error:
        reader.error(str(error))
    if not maps:
        reader.error('none of these maps is in the WADs; --maps names others')
    renders(options, maps)


if __name__ == '__main__':
    main()
