#!/usr/bin/env python3
"""Looks at the memory that runs take, and prints tables.

memory.py PROGRAM [--held]     of flat over a tiny WAD, of each job over the made files of 1, of make and exercise

PROGRAM takes doomview's words, and is linked to the GNU C library when it starts. First of each run, and of runs that
end early: how many blocks it took and did not give back, which has to be none, and the bytes of its greatest request,
which have a bound. Then, without --held, each request for memory of a run is refused in turn. Each run then has to end
with status 7 and its line, and nothing written, or with status 0 and the whole output; the last one is the first in
which nothing was refused. Ends with 1 where a run was otherwise."""
import argparse
import os
import subprocess
import sys
import tempfile

sys.dont_write_bytecode = True
from made_runs import SECONDS, Job, compiled, fail, jobs_of, made_files  # noqa: E402

OUT_OF_MEMORY = (7, b'', b'doomview: out of memory\n')
# What a run asks for at most in one piece, in bytes, as docs/FORMATS.md and docs/ZONE.md have it: a zone so small that
# nothing hides below it, with which these runs still end well; a place of four bytes for each slot of the zone, of which
# 32,767 are for composites and the rest for the lumps of the made WAD; a half for each type that a thing can have.
ZONE, DEFAULT_ZONE = 65536, 6291456
SLOTS = 4 * (32767 + 26)
TYPES = 2 * 65536
FRAME, TRACE, TABLES, MADE_WAD = 64000, 512000, 65540, 82706
LEVEL = max(ZONE, SLOTS, TYPES, FRAME, TABLES, MADE_WAD)
GROWTH = 2  # a list that grows has at most twice the room that it needs
# Of the kit's reader of words, which no page bounds: far below a million of anything.
WORDS = 16384
BOUNDS = {'flat': FRAME, 'trace': max(LEVEL, TRACE), 'exercise': max(LEVEL, GROWTH * MADE_WAD),
          'make wad': GROWTH * MADE_WAD, 'make path': WORDS, 'make things': WORDS, 'make tables': GROWTH * TABLES,
          'usage': WORDS, 'default zone': DEFAULT_ZONE}


class Refusals:
    def __init__(self, library: str, folder: str) -> None:
        self.library, self.folder = library, folder
        self.mark, self.counted = os.path.join(folder, 'mark'), os.path.join(folder, 'counts')

    def run(self, words: list[str], number: int) -> tuple[tuple[int, bytes, bytes], bool]:
        """How a run ends in which the request of that number is refused, and whether there was one."""
        environment = {'LD_PRELOAD': self.library, 'REFUSE_NUMBER': str(number), 'REFUSE_MARK': self.mark,
                       'REFUSE_COUNTS': self.counted}
        for path in (self.mark, self.counted):
            if os.path.exists(path):
                os.remove(path)
        run = subprocess.run(words, capture_output=True, env=environment, timeout=SECONDS)
        return (run.returncode, run.stdout, run.stderr), os.path.exists(self.mark)

    def counts(self, words: list[str]) -> tuple[int, int, int]:
        """The blocks and the bytes that main did not give back, and the bytes of its greatest request."""
        if not os.path.exists(self.counted):
            fail(f'nothing was counted of {" ".join(words)}: is the program linked to the C library when it starts?')
        with open(self.counted) as file:
            blocks, held, greatest = map(int, file.read().split())
        return blocks, held, greatest

    def holds(self, name: str, words: list[str], status: int) -> bool:
        """Whether a run gives back all that it took, and took no more in one piece than its bound."""
        (ended, _, line), _ = self.run(words, 0)
        if ended != status:
            fail(f'status {ended} of {" ".join(words)}, {line!r}')
        blocks, held, greatest = self.counts(words)
        bound = BOUNDS.get(name, BOUNDS.get(name.split(' --')[0], LEVEL))
        print(f'| {name} | {blocks} | {held} | {greatest} | {bound} |')
        if greatest == 0:
            fail(f'no request was seen of {" ".join(words)}')
        return blocks == held == 0 and greatest <= bound

    def job(self, name: str, words: list[str]) -> bool:
        """Refuses each request of a run in turn; whether all ended as they have to."""
        whole, _ = self.run(words, 0)
        if whole[0] or not whole[1]:
            fail(f'status {whole[0]} of {" ".join(words)}')
        ends: dict[str, list[int]] = {}
        number = 0
        while True:
            number += 1
            end, refused = self.run(words, number)
            kind = 'out of memory' if end == OUT_OF_MEMORY else 'done' if end == whole else 'otherwise'
            if kind == 'otherwise' or not refused and kind != 'done':
                said = f'status {end[0]}, {len(end[1])} bytes, {end[2]!r}'
                print(f'memory: {name}: request {number}: {said}', file=sys.stderr)
            if not refused:
                break
            ends.setdefault(kind, []).append(number)
        if number == 1:
            fail('no request was seen: is the program linked to the C library when it starts?')
        counts = [str(len(ends.get(it, []))) for it in ('out of memory', 'done', 'otherwise')]
        print(f'| {name} | {number - 1} | ' + ' | '.join(counts) + ' |')
        return 'otherwise' not in ends and kind == 'done'


def more_runs(level: list[str]) -> list[tuple[str, list[str], int]]:
    """A run in the default zone, and runs that end early, each by its name, its words and its status."""
    name, wad, *options = level
    zone = ['--zone', str(ZONE)]
    return [('default zone', ['render', *level], 0), ('usage', ['nothing'], 1), ('refused', ['audit', 'MAP02', wad, *options, *zone], 2),
            ('read fault', ['render', name, wad, 'absent.wad', *options, *zone], 3),
            ('zone full', ['render', *level, '--zone', '8192'], 6)]


def all_held(refusals: Refusals, program: str, jobs: list[Job], level: list[str]) -> bool:
    """Prints what each run holds in the end; whether that is nothing."""
    print('| Run | Blocks held | Bytes held | Greatest request | At most |\n|---|---|---|---|---|')
    runs = [*((name, words, 0) for name, words in jobs), *more_runs(level)]
    return all([refusals.holds(name, [program, *words], status) for name, words, status in runs])


def all_refused(refusals: Refusals, program: str, jobs: list[Job]) -> bool:
    """Prints how the runs of each job end; whether all end as they have to."""
    print('\n| Job | Requests | Out of memory | Done | Otherwise |\n|---|---|---|---|---|')
    return all([refusals.job(name, [program, *words]) for name, words in jobs])


def main() -> None:
    reader = argparse.ArgumentParser(usage=__doc__)
    reader.add_argument('program')
    reader.add_argument('--held', action='store_true')
    given = reader.parse_args()
    program = os.path.abspath(given.program)
    if not os.access(program, os.X_OK):
        fail(f'{program} is no program')
    with tempfile.TemporaryDirectory() as folder:
        refusals = Refusals(compiled(folder, 'refuse'), folder)
        level = ['MAP01', *made_files(folder, program)]
        well = [all_held(refusals, program, jobs_of(folder, level, '--zone', str(ZONE)), level)]
        if not given.held:
            well.append(all_refused(refusals, program, jobs_of(folder, level)))
    sys.exit(not all(well))


if __name__ == '__main__':
    main()
