#!/usr/bin/env python3
"""Counts how often runs open, read and write, and prints a table.

calls.py PROGRAM [WAD..]     of each job over the made files of 1, and over MAP01 of each of these WADs

PROGRAM takes doomview's words, and is linked to the GNU C library when it starts. Each run opens each of its files once
and no other, reads tables and texts once, and of a WAD in a zone that holds all of it header, directory and each lump at
most once. In a zone of `enough` bytes, and over the made files in one that is smaller still, it reads each lump as often as
read_bounds.py lets it. It writes a frame in one piece, a PPM in six, a trace in 25, each line, each made file and each
copied lump in one; and its line on standard error in one. Ends with 1 where a run did otherwise."""
import argparse
import collections
import os
import subprocess
import sys
import tempfile
import typing
from collections.abc import Iterator

sys.dont_write_bytecode = True
from made_runs import SECONDS, TOOLS, Job, compiled, fail, jobs_of, made_files, write  # noqa: E402
from read_bounds import MAP, Bounds, Piece, Times, Wad  # noqa: E402

sys.path.insert(0, TOOLS)
from doomview_tools import levels, paths, program  # noqa: E402

# Bytes of a zone: one that holds all of a WAD; and two in which all is well over the made files of 1, for jobs that draw, and
# for those that draw nothing the blocks of COLORMAP and of the greatest patch.
ROOMY, DRAWN, UNDRAWN = 100000000, 25000, 17016
DRAWING = ('render', 'trace')
LEVEL_JOBS = (*DRAWING, 'list', 'limits', 'audit', 'trim')
PLACES, SEED = 3, 7
OUTPUT, NOTES = '1', '2'
FRAME, PICTURE, TRACE = 64000, 192015, 512000  # bytes of a view
IN_PIECES = {FRAME: 1, PICTURE: 6, TRACE: 25}
PALETTE = 768


class Calls:
    """What a run opened, read of each file and wrote: of reads each piece with the bytes that were written before it."""

    def __init__(self, log: str, output: bytes) -> None:
        self.output = output
        self.opened: collections.Counter[str] = collections.Counter()
        self.reads: dict[str, list[tuple[int, Piece]]] = collections.defaultdict(list)
        self.writes: dict[str, list[int]] = collections.defaultdict(list)
        names: dict[str, str] = {}
        for line in log.splitlines():
            kind, file, rest = line.split(' ', 2)
            if kind == 'open':
                names[file] = rest
                self.opened[rest] += 1
            elif kind == 'read':
                place, count = map(int, rest.split())
                self.reads[names.get(file, file)].append((sum(self.writes[OUTPUT]), (place, count)))
            else:
                self.writes[file].append(int(rest))

    def times(self, path: str, first: int = 0, end: typing.Optional[int] = None) -> Times:
        """How often each piece of a file was read while so many bytes were written."""
        return collections.Counter(piece for before, piece in self.reads[path]
                                   if first <= before and (end is None or before < end))


class Runs:
    """Runs of a program into whose calls a library looks."""

    def __init__(self, program: str, folder: str) -> None:
        self.program, self.library = program, compiled(folder, 'calls')
        self.log, self.output = os.path.join(folder, 'log'), os.path.join(folder, 'output')
        self.is_well = True

    def run(self, words: list[str], status: int = 0) -> Calls:
        if os.path.exists(self.log):
            os.remove(self.log)
        environment = {'LD_PRELOAD': self.library, 'CALLS_LOG': self.log}
        with open(self.output, 'wb') as output:
            done = subprocess.run([self.program, *words], stdout=output, stderr=subprocess.PIPE, env=environment,
                                  timeout=SECONDS)
        if done.returncode != status:
            fail(f'status {done.returncode} of {" ".join(words)}, {done.stderr!r}')
        with open(self.log) as log, open(self.output, 'rb') as output:
            calls = Calls(log.read(), output.read())
        if bool(done.stderr) != bool(calls.writes[NOTES]) or bool(calls.output) != bool(calls.writes[OUTPUT]):
            fail(f'no call was seen of {" ".join(words)}: is the program linked to the C library when it starts?')
        self.told(words, len(calls.writes[NOTES]) == len(done.stderr.splitlines()), 'its line goes out in pieces')
        return calls

    def told(self, words: list[str], is_well: bool, wrong: str) -> None:
        if not is_well:
            print(f'calls: {" ".join(words)}: {wrong}', file=sys.stderr)
            self.is_well = False

    def told_reads(self, words: list[str], wad: Wad, came: Times, allowed: Times) -> None:
        """Tells which pieces of a WAD were read more often than they may be."""
        for piece, count in sorted((came - allowed).items()):
            name = wad.names[wad.lumps.index(piece)] if piece in wad.lumps else f'{piece[1]} bytes from {piece[0]} on'
            self.told(words, False, f'{name} was read {came[piece]} times, {count} too many')


def files_of(words: list[str]) -> list[str]:
    return [word for word in words if os.path.isfile(word)]


def told_files(runs: Runs, words: list[str], calls: Calls) -> None:
    """Each file that is named is opened once, and no other; what is no WAD is read once."""
    files = files_of(words)
    runs.told(words, calls.opened == collections.Counter(files), f'opened {dict(calls.opened)}')
    for path in calls.reads:
        with open(path, 'rb') as file:
            is_wad = file.read(4) in (b'IWAD', b'PWAD')
        whole = [(0, os.path.getsize(path))]
        runs.told(words, is_wad or list(calls.times(path).elements()) == whole, f'read {calls.reads[path]} of {path}')


def pieces_of(words: list[str], output: bytes) -> int:
    """In how many pieces a run writes an output."""
    if words[0] in (*DRAWING, 'flat'):
        size = TRACE if words[0] == 'trace' else PICTURE if words[0] == 'flat' or 'ppm' in words else FRAME
        return IN_PIECES[size] * (len(output) // size)
    if words[0] == 'make':
        return 1
    return output.count(b'\n')


def trimmed_pieces(wad: Wad) -> int:
    """In how many pieces a trimmed file is written: letters and two numbers, each lump, and of each entry two numbers and a
    name."""
    return 3 + sum(size > 0 for _, size in wad.lumps) + 3 * len(wad.lumps)


def told_pieces(runs: Runs, words: list[str], calls: Calls) -> None:
    pieces = trimmed_pieces(Wad(runs.output)) if words[0] == 'trim' else pieces_of(words, calls.output)
    runs.told(words, len(calls.writes[OUTPUT]) == pieces, f'{len(calls.writes[OUTPUT])} writes, and not {pieces}')


def parts_of(words: list[str], bounds: Bounds, output: bytes) -> Iterator[tuple[int, typing.Optional[int], Times]]:
    """The parts of a run over a level, each by what was written before it and at its end, with what it may read."""
    if words[0] not in DRAWING:
        yield 0, None, bounds.loading() + bounds.copying() if words[0] == 'trim' else bounds.loading()
        return
    size = TRACE if words[0] == 'trace' else PICTURE if 'ppm' in words else FRAME
    views = len(output) // size
    yield 0, size, bounds.loading() + bounds.view(0)
    for number in range(1, views):
        yield number * size, (number + 1) * size, bounds.view(number)


def level_run(runs: Runs, name: str, words: list[str], wad: Wad, bounds: Bounds, zones: list[int]) -> None:
    """Looks at the runs of a job over a level in each of the zones, of which the first is roomy."""
    counts: list[typing.Union[int, str]] = []
    for zone in zones:
        sized = [*words, '--zone', str(zone)]
        calls = runs.run(sized)
        told_files(runs, sized, calls)
        told_pieces(runs, sized, calls)
        parts = [(0, None, wad.whole())] if zone == ROOMY else parts_of(words, bounds, calls.output)
        for first, end, allowed in parts:
            runs.told_reads(sized, wad, calls.times(wad.path, first, end), allowed)
        counts.append(sum(size * times for (_, size), times in calls.times(wad.path).items()))
    counts += [''] * (3 - len(counts))
    print(f'| {name} | {sum(size for _, size in wad.whole())} | ' + ' | '.join(map(str, counts)) + ' |')


def other_run(runs: Runs, words: list[str]) -> None:
    """Looks at a run of a job without a level."""
    calls = runs.run(words)
    told_files(runs, words, calls)
    told_pieces(runs, words, calls)
    if words[0] == 'flat':
        wad = Wad(words[2])
        palette = (wad.lumps[wad.of_name['PLAYPAL']][0], PALETTE)
        allowed = collections.Counter([*wad.frame, palette]) + wad.of_names([words[1]])
        runs.told_reads(words, wad, calls.times(wad.path), allowed)


def level_runs(runs: Runs, jobs: list[Job], level: list[str], is_made: bool) -> None:
    """Looks at each job over a level. Where the words name weapons, view 0 has one."""
    print('\n| Job | Bytes of the WAD | read in a roomy zone | in `enough` | in less |\n|---|---|---|---|---|')
    wad = Wad(level[1])
    listed = runs.run(['list', *level]).output.decode()
    enough = int(runs.run(['audit', *level]).output.split()[2])
    for name, words in jobs:
        if level[1] not in words:
            other_run(runs, words)
            continue
        bounds = Bounds(wad, listed, collections.Counter([0] if '--weapon' in words else []))
        less = [DRAWN if words[0] in DRAWING else UNDRAWN] if is_made else []
        level_run(runs, name, words, wad, bounds, [ROOMY, enough, *less])


def early_ends(runs: Runs, level: list[str]) -> None:
    """Looks at runs that end early."""
    for words, status in ((['nothing'], 1), (['audit', 'MAP02', *level[1:]], 2),
                          (['render', *level, '--zone', '8192'], 6)):
        told_files(runs, words, runs.run(words, status))


def level_of(folder: str, wad: str) -> list[str]:
    """Words of a job over MAP01 of a WAD, at its player start and some other places."""
    rows = paths.places(levels.read([wad], MAP), PLACES, SEED)
    path = write(folder, 'places.csv', paths.text(rows).encode())
    return [MAP, wad, '--tables', program.tables_file(), '--things', program.things_file(), '--path', path]


def main() -> None:
    reader = argparse.ArgumentParser(usage=__doc__)
    reader.add_argument('program')
    reader.add_argument('wads', nargs='*')
    given = reader.parse_args()
    with tempfile.TemporaryDirectory() as folder:
        runs = Runs(os.path.abspath(given.program), folder)
        made = [MAP, *made_files(folder, runs.program)]
        level_runs(runs, jobs_of(folder, made), made, True)
        early_ends(runs, made)
        for path in given.wads:
            level = level_of(folder, os.path.abspath(path))
            level_runs(runs, [(job, [job, *level]) for job in LEVEL_JOBS], level, False)
    sys.exit(not runs.is_well)


if __name__ == '__main__':
    main()
