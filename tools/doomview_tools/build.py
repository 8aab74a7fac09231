"""Builds the proved program by the command rt.

A first build proves all crates by `rt all check`, one a processor. Each build ends with `rt run` in the program's folder,
which proves what has changed below it, and compiles it. The program gets its place, out/doomview, as the last step, so no
half-built one is ever run. rt keeps what it proved, so a build that is interrupted goes on where it was.

A build that fails ends this process with 70, one that a signal stops with 128 and the signal's number."""
import errno
import fcntl
import os
import re
import shutil
import signal
import subprocess
import sys
import tempfile
import time
import typing

from . import installation, program

TOP, BUILT = installation.TOP, installation.PROGRAM
CRATES = os.path.join(TOP, 'crates')
PROGRAM = 'doomview'
CRATE_MEMORY = 2 << 30  # bytes, about what the proof of a crate takes
BUILD_DISK = 9 * 10 ** 9  # bytes, about what a whole build takes
FULL_DISK = 64 << 20  # free bytes, below which a failure is put down to the disk
SHOWN_LINES, SHOWN_COLUMNS = 100, 300  # of what rt said before it failed
LOOK_SECONDS, TELL_SECONDS = 0.1, 60
STOPS = (signal.SIGINT, signal.SIGTERM, signal.SIGHUP)


def say(text: str) -> None:
    print(f'doomview: {text}', file=sys.stderr, flush=True)


def fail(text: str, said: str = '') -> typing.NoReturn:
    """Ends with the last of what rt said, and with a sentence."""
    if os.strerror(errno.ENOSPC) in text + said or shutil.disk_usage(TOP).free < FULL_DISK:
        text = (f'the build failed: the disk of {TOP} is full. A whole build takes about {BUILD_DISK / 1e9:.0f} GB; '
                'once there is room the next call goes on from here')
    else:
        for line in said.splitlines()[-SHOWN_LINES:]:
            print(line[:SHOWN_COLUMNS], file=sys.stderr)
    say(text)
    sys.exit(program.NO_PROGRAM)


def is_first() -> bool:
    """Whether rt never came to a crate that the program names: it does once all below that one is proved."""
    with open(os.path.join(TOP, 'crates.txt')) as file:
        named = re.search(f'^{PROGRAM}:(.*)', file.read(), re.MULTILINE)
    folders = [os.path.join(CRATES, crate) for crate in named[1].split()] if named else []
    return any(os.path.isdir(folder) and not os.path.exists(os.path.join(folder, 'out')) for folder in folders)


def count_jobs() -> int:
    """A job a processor, as many as memory allows."""
    with open('/proc/meminfo') as file:
        found = re.search(r'MemAvailable:\s+(\d+)', file.read())
    free = 1024 * int(found[1]) if found else 0
    return max(1, min(len(os.sched_getaffinity(0)), free // CRATE_MEMORY))


class Build:
    """A build that goes on: when it began, and the signals that came to stop it."""

    def __init__(self) -> None:
        self.began = self.told = time.time()
        self.stops: list[int] = []

    def tell(self) -> None:
        """Says once a minute how long the build has been going."""
        if time.time() - self.told >= TELL_SECONDS:
            self.told = time.time()
            minutes = round((self.told - self.began) / 60)
            say(f'building for {minutes} minute{"" if minutes == 1 else "s"}')

    def end_if_stopped(self) -> None:
        if self.stops:
            say('the build is interrupted; what is proved is kept, and the next call goes on from there')
            sys.exit(128 + self.stops[0])

    def run(self, folder: str, *words: str) -> None:
        """Runs rt in a folder, or ends this process. rt has a process group of its own, to be ended with all that it
        started, but no session: in one of its own it would not be as nice as this process is."""
        with tempfile.TemporaryFile('w+', errors='replace') as said:
            rt = subprocess.Popen(['rt', *words], cwd=folder, preexec_fn=os.setpgrp, stdin=subprocess.DEVNULL,
                                  stdout=said, stderr=subprocess.STDOUT)
            try:
                while rt.poll() is None and not self.stops:
                    time.sleep(LOOK_SECONDS)
                    self.tell()
            finally:
                if rt.returncode is None:
                    os.killpg(rt.pid, signal.SIGTERM)
                    rt.wait()
            self.end_if_stopped()
            if rt.returncode:
                said.seek(0)
                fail(f'the build failed: rt {" ".join(words)} in {folder} ended with {rt.returncode}; its last lines '
                     'are above', said.read())

    def make(self) -> None:
        jobs = str(count_jobs())
        if is_first():
            say('building: each crate is proved, then the program is compiled. From nothing that takes about half an '
                'hour on four processors')
            free = shutil.disk_usage(TOP).free
            if free < BUILD_DISK:
                say(f'the disk has {free / 1e9:.1f} GB free, and a whole build takes about {BUILD_DISK / 1e9:.0f} GB')
            self.run(TOP, 'all', 'check', '--jobs', jobs)
        else:
            say('building: what has changed is proved, then the program is compiled')
        self.run(os.path.join(CRATES, PROGRAM), 'run', '--jobs', jobs, '--', 'make', 'things')
        put_in_place(self.began)
        self.end_if_stopped()


def put_in_place(began: float) -> None:
    """Copies the program to its place at once, as old as the sources that it was built from may be."""
    part = BUILT + '.part'
    shutil.copy(os.path.join(CRATES, PROGRAM, 'out', PROGRAM), part)
    os.utime(part, (began, began))
    os.replace(part, BUILT)


def build_all() -> None:
    """Builds the program, or ends this process. A signal is noted, and heeded where nothing is half done."""
    work = Build()
    before = {number: signal.signal(number, lambda stop, _: work.stops.append(stop)) for number in STOPS}
    try:
        work.make()
    finally:
        for number, handler in before.items():
            signal.signal(number, handler)


def build() -> None:
    """Builds the program, unless another build does: then waits for that one to end, and builds what it left. Returns
    only where the program is built."""
    if not shutil.which('rt'):
        fail('the build needs the command rt, which is the Rattle kit\'s')
    try:
        os.makedirs(os.path.dirname(BUILT), exist_ok=True)
        with open(BUILT + '.lock', 'w') as lock:
            try:
                fcntl.flock(lock, fcntl.LOCK_EX | fcntl.LOCK_NB)
            except BlockingIOError:
                say('waiting for another build to end')
                fcntl.flock(lock, fcntl.LOCK_EX)
                if program.is_built():
                    return
            build_all()
    except OSError as error:
        fail(f'the build failed: {error}')
