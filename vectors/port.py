"""Runs of a port: a command of the shell, for so many seconds at most."""
import os
import signal
import subprocess
import typing

NOT_THERE = 127  # the status of a shell whose command is not there
SHOWN = 3  # lines of what a port said
KILLED = getattr(signal, 'SIGKILL', signal.SIGTERM)


class Run(typing.NamedTuple):
    """How a run of the port ended: its status as a shell has it, and whether it was ended since it took too long."""

    status: int
    is_late: bool

    def told(self, seconds: float) -> str:
        """What is wrong with it, as a part of a sentence on the port; nothing where all is well."""
        if self.is_late:
            return f'took more than {seconds:g} seconds and was ended'
        if self.status > 128:
            return f'crashed ({signal_name(self.status - 128)})'
        return f'ended with the status {self.status}' if self.status else ''


def signal_name(number: int) -> str:
    try:
        return f'signal {number}, {signal.Signals(number).name}'
    except ValueError:
        return f'signal {number}'


def end(process: subprocess.Popen[bytes]) -> None:
    """Ends a process and those that it started."""
    try:
        if hasattr(os, 'killpg'):
            os.killpg(process.pid, KILLED)
        else:
            process.kill()
    except ProcessLookupError:
        pass
    process.wait()


def run(command: str, variables: dict[str, str], log: str, seconds: float) -> Run:
    """Runs a command with some variables; what it says goes into the file `log`."""
    with open(log, 'wb') as said:
        process = subprocess.Popen(['sh', '-c', command], env={**os.environ, **variables}, stdin=subprocess.DEVNULL,
                                   stdout=said, stderr=said, start_new_session=True)
        try:
            status = process.wait(seconds)
        except subprocess.TimeoutExpired:
            return Run(0, True)
        finally:
            end(process)
    return Run(status if status >= 0 else 128 - status, False)


def last_lines(log: str) -> list[str]:
    """The last lines of what a port said."""
    with open(log, encoding='utf-8', errors='replace') as file:
        return file.read().splitlines()[-SHOWN:]
