"""Runs of jobs over many rows of a path, several at a time: what `limits` counts of each, frames and traces."""
import contextlib
import itertools
import os
import signal
import subprocess
import sys
import typing
from collections.abc import Iterator, Sequence

from . import list_counts, paths, program, system
from .doom import LIMITS
from .explanations import end_of
from .files import write_whole
from .jobs import LIMIT, USAGE
from .list_counts import Counts
from .paths import Row
from .trouble import TROUBLE, Ended

COUNTS = list(LIMITS)
CAPPED = {name: LIMITS[name] for name in ('fragments', 'sprites')}  # which `limits` counts no further
RAISED = ['--planes', '1024', '--openings', '245760']  # so that what is over the original's limit is counted too
LEAST_ROWS, PARTS = 400, 3  # rows of a run, and runs for each processor, so that all end at about the same time
MOST_LISTED = 2000  # rows of a run of `list`, which writes some 10 KB for each
ENDING = system.signals('SIGINT', 'SIGTERM', 'SIGHUP')
ROWS, OUTPUT, SAID = '.csv', '.out', '.err'  # the files of a run


@contextlib.contextmanager
def held_signals() -> Iterator[None]:
    """Lets a signal that ends this process wait for the end of a block."""
    came: list[int] = []
    kept = {number: signal.signal(number, lambda number, _: came.append(number)) for number in ENDING}
    try:
        yield
    finally:
        for number, handler in kept.items():
            signal.signal(number, handler)
        for one in came:
            signal.raise_signal(one)


class Progress:
    """A line on a terminal that says how far the work is."""

    def __init__(self, tool: str) -> None:
        self.head, self.is_shown = f'doomview {tool}: ', sys.stderr.isatty()

    def tell(self, text: str) -> None:
        if self.is_shown:
            print(f'\r\033[K{self.head}{text}', end='', file=sys.stderr, flush=True)

    def clear(self) -> None:
        if self.is_shown:
            print('\r\033[K', end='', file=sys.stderr, flush=True)


class Started(typing.NamedTuple):
    """A run that goes on: its job, its process, and the path of its files without their endings."""

    job: str
    process: subprocess.Popen[bytes]
    base: str


class Going:
    """The runs of the program that go on, with their files in a folder; `jobs` of them at a time."""

    def __init__(self, folder: str, jobs: int, progress: Progress) -> None:
        self.folder, self.jobs, self.progress = folder, jobs, progress
        self.program = program.ready()
        self.processes: list[subprocess.Popen[bytes]] = []
        self.numbers = itertools.count(1)

    def start(self, job: str, words: list[str], rows: Sequence[Row]) -> Started:
        """Starts a job over rows."""
        base = os.path.join(self.folder, str(next(self.numbers)))
        write_whole(base + ROWS, paths.text(rows).encode())
        with open(base + OUTPUT, 'wb') as out, open(base + SAID, 'wb') as said, held_signals():
            process = subprocess.Popen([self.program, job, *words, '--path', base + ROWS], stdout=out, stderr=said,
                                       stdin=subprocess.DEVNULL, env=program.environment())
            self.processes.append(process)
        return Started(job, process, base)

    def end(self, run: Started) -> program.Run:
        """How a run ended, which is waited for."""
        run.process.wait()
        self.processes.remove(run.process)
        return program.run_of(run.process.returncode, *(bytes_of(run.base + ending) for ending in (OUTPUT, SAID)))

    def stop(self) -> None:
        """Ends the runs that go on."""
        for process in self.processes:
            process.kill()
            process.wait()
        self.processes.clear()


class Runs:
    """Runs of the program over one map. `words` are those of a user behind the job, and `completed` these as the program
    takes them; `going` may be shared with other runs."""

    def __init__(self, words: list[str], completed: list[str], going: Going) -> None:
        self.words, self.completed, self.going = words, completed, going

    @classmethod
    def over_map(cls, name: str, wads: Sequence[str], options: Sequence[str], going: Going) -> 'Runs':
        """The runs over a map of WADs, with options that each of them takes."""
        words = [name, *wads, *RAISED, *options]
        return cls(words, program.complete(['limits', *words])[1:], going)

    def over(self, wads: Sequence[str], added: str) -> 'Runs':
        """The same with one WAD more behind its WADs."""
        at = self.completed.index(wads[-1]) + 1
        return Runs(self.words, self.completed[:at] + [added] + self.completed[at:], self.going)

    def start(self, job: str, rows: Sequence[Row]) -> Started:
        """Starts a job over rows."""
        return self.going.start(job, self.completed, rows)

    def output_of(self, run: Started) -> bytes:
        """The output of a run; a Trouble that is told already where it failed."""
        done = self.going.end(run)
        if done.status not in (0, LIMIT):
            self.going.progress.clear()
            trouble = end_of([run.job, *self.words, '--path', run.base + ROWS], done)
            raise Ended(TROUBLE if trouble.status == USAGE else trouble.status)
        for ending in (ROWS, OUTPUT, SAID):
            os.remove(run.base + ending)
        return done.output

    def outputs(self, job: str, rows: Sequence[Row], what: str = '') -> Iterator[bytes]:
        """What a job writes of rows, in parts, several runs at a time; none goes on where this ends early."""
        jobs = self.going.jobs
        size = max(LEAST_ROWS, -(-len(rows) // (PARTS * jobs)))
        size = min(size, MOST_LISTED if job == 'list' else paths.MOST_ROWS)
        parts, done = [rows[i:i + size] for i in range(0, len(rows), size)], 0
        started: list[Started] = []
        try:
            for number in range(len(parts)):
                while len(started) < min(len(parts), number + jobs):
                    started.append(self.start(job, parts[len(started)]))
                self.going.progress.tell(f'{what}{done:,} of {len(rows):,} views')
                yield self.output_of(started[number])
                done += len(parts[number])
        finally:
            self.stop()

    def stop(self) -> None:
        """Ends the runs that go on."""
        self.going.stop()

    def check(self) -> None:
        """Ends with doomview's refusal, in words, where the map has one."""
        self.counts([], 'reading')

    def counts(self, rows: Sequence[Row], what: str = '') -> list[Counts]:
        """The counts of each row by name as `limits` has them; of a view that is over a raised limit that count alone."""
        outputs = self.outputs('limits', rows, what) if rows else [self.output_of(self.start('limits', []))]
        return [counts_of(line) for output in outputs for line in output.decode().splitlines()]

    def counts_by_list(self, rows: Sequence[Row], what: str = '') -> Iterator[Counts]:
        """The counts of each row by name, by what `list` says, without solid ranges."""
        for output in self.outputs('list', rows, what) if rows else ():
            yield from list_counts.counts_of(output)

    def ranges(self, rows: Sequence[Row], what: str = '') -> Iterator[int]:
        """The most solid ranges of each row, of runs over a map of the solid walls alone."""
        for output in self.outputs('list', rows, what) if rows else ():
            yield from list_counts.ranges_of(output)

    def views(self, job: str, rows: Sequence[Row], size: int) -> list[typing.Optional[bytes]]:
        """The frame or the trace of each row; None for a view that passes even the raised limits."""
        found: list[typing.Optional[bytes]] = []
        while len(found) < len(rows):
            data = self.output_of(self.start(job, rows[len(found):]))
            found += [data[i:i + size] for i in range(0, len(data), size)]
            found += [None] if len(found) < len(rows) else []
        return found


def counts_of(line: str) -> Counts:
    """The counts in a line of `limits`."""
    words = line.split()
    if words[2] == 'over':
        return {words[3]: int(words[4])}
    return {name: int(count) for name, count in zip(words[2::2], words[3::2])}


def bytes_of(path: str) -> bytes:
    with open(path, 'rb') as file:
        return file.read()
