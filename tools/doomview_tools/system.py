"""What differs between the systems that the tools run on: Linux, and Windows, which lacks some signals and calls."""
import os
import signal

IS_WINDOWS = os.name == 'nt'
BROKEN_PIPE = 13  # the number of SIGPIPE, also where the system has no such signal
PROGRAM_NAME = 'doomview.exe' if IS_WINDOWS else 'doomview'
COMMAND_NAME = 'doomview.cmd' if IS_WINDOWS else 'doomview'


def signals(*names: str) -> list[signal.Signals]:
    """The signals of some names that this system has."""
    return [getattr(signal, name) for name in names if hasattr(signal, name)]


def processors() -> int:
    """How many processors this process may use."""
    return len(os.sched_getaffinity(0)) if hasattr(os, 'sched_getaffinity') else os.cpu_count() or 1


def has_folder(name: str) -> bool:
    """Whether a name is a path with a folder in it."""
    return bool(os.path.dirname(name))
