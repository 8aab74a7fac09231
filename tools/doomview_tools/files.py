"""Files that are written whole or not at all, and never over a file that is read."""
import contextlib
import os
import sys
import tempfile
import typing
from collections.abc import Iterable, Iterator, Sequence

from .trouble import TROUBLE, Trouble


class Source(str):
    """The name of a file that a command reads, or of a folder of such files."""


class Output(str):
    """The name of a file that a command writes."""


class Folder(str):
    """The name of a folder into which a command writes files."""


Known = tuple[str, os.stat_result]  # the name of a file, and which file it is
kept: list[Known] = []  # the files that are read, which nothing that is written may replace


def names_of(sources: Iterable[str]) -> Iterator[str]:
    """The names of some files, in the place of a folder those of its files."""
    for path in sources:
        if os.path.isdir(path) and os.access(path, os.R_OK | os.X_OK):
            yield from (entry.path for entry in os.scandir(path))
        else:
            yield path


def known(sources: Iterable[str]) -> Iterator[Known]:
    """Those of some files that are there."""
    for name in names_of(sources):
        with contextlib.suppress(OSError):
            yield name, os.stat(name)


def check_outputs(outputs: Sequence[str], sources: Iterable[str], status: int = TROUBLE) -> None:
    """A Trouble with the status where a file that is to be written cannot be, is one that is read, or is named twice: by
    the file, and not by its name. What else is written until the next call, as into a folder, may be none of the sources
    either."""
    kept[:] = known(sources)
    places = [os.path.normcase(os.path.realpath(path)) for path in outputs]
    for path, place in zip(outputs, places):
        try:
            check_target(path)
        except Trouble as error:
            raise Trouble(str(error), status) from error
        if places.count(place) > 1:
            raise Trouble(f'{path} is named twice; name another file', status)


def check_unread(path: str) -> None:
    """A Trouble where a file that is to be written is one that is read."""
    for name, source in kept:
        if os.path.exists(path) and os.path.samestat(os.stat(path), source):
            what = 'a file that is read' if name == path else f'the same file as {name}, which is read'
            raise Trouble(f'{path} is {what}; name another one to write')


def check_source(path: str) -> None:
    """A Trouble where a file cannot be read."""
    if not os.path.exists(path):
        raise Trouble(f'cannot read {path}: there is no such file')
    if not os.path.isfile(path):
        raise Trouble(f'cannot read {path}: it is no plain file')
    if not os.access(path, os.R_OK):
        raise Trouble(f'cannot read {path}: you may not read it')


def check_target(path: str) -> None:
    """A Trouble where a file cannot be written, is read, or is no plain file."""
    folder = os.path.dirname(path) or '.'
    if os.path.isdir(path):
        raise Trouble(f'{path} is a folder; name a file')
    if os.path.lexists(path) and not os.path.isfile(path):
        raise Trouble(f'{path} is no plain file, and is left as it is; name another')
    check_unread(path)
    if not os.path.isdir(folder):
        raise Trouble(f'there is no folder {folder}; make it first')
    if not os.access(folder, os.W_OK):
        raise Trouble(f'you may not write in the folder {folder}')
    try:
        handle, part_path = part_of(os.path.realpath(path))
        os.close(handle)
        os.remove(part_path)
    except OSError as error:
        raise Trouble(f'cannot write {path}: {error.strerror}') from error


def part_of(path: str) -> tuple[int, str]:
    """A new file beside another, for its bytes until they are whole: its handle and its path."""
    folder, name = os.path.split(path)
    return tempfile.mkstemp(prefix=f'.{name}.', dir=folder)


class WholeFile:
    """A file that takes its place as the last step: `with WholeFile(path) as part: ..` writes into the file `part`.

    What is there and no plain file stays, and so does what is there where the block ends with an exception. A file that
    cannot be written is a Trouble with the status."""

    def __init__(self, path: str, status: int = TROUBLE) -> None:
        self.named, self.status = path, status
        with self.troubles():
            check_target(path)
            self.path = os.path.realpath(path)
            handle, self.part_path = part_of(self.path)
            os.close(handle)
            self.part = open(self.part_path, 'wb')

    @contextlib.contextmanager
    def troubles(self) -> Iterator[None]:
        """Makes Troubles with the status of what goes wrong."""
        try:
            yield
        except Trouble as error:
            raise Trouble(str(error), self.status) from error
        except OSError as error:
            raise Trouble(f'cannot write {self.named}: {error.strerror}', self.status) from error

    def __enter__(self) -> typing.BinaryIO:
        return self.part

    def __exit__(self, kind: typing.Optional[type], error: typing.Optional[BaseException], _: object) -> None:
        try:
            with self.troubles():
                self.part.close()
                if kind is None:
                    mask = os.umask(0)
                    os.umask(mask)
                    os.chmod(self.part_path, 0o666 & ~mask)
                    os.replace(self.part_path, self.path)
        finally:
            if os.path.lexists(self.part_path):
                os.remove(self.part_path)
        if isinstance(error, OSError):
            raise Trouble(f'cannot write {self.named}: {error.strerror}', self.status) from error


def write_whole(path: str, data: bytes) -> None:
    """Puts bytes into a file, which takes its place as the last step."""
    with WholeFile(path) as part:
        part.write(data)


def is_terminal() -> bool:
    """Whether standard output is a terminal."""
    try:
        return os.isatty(1)
    except OSError:
        return False


def write_output(data: typing.Union[str, bytes], path: typing.Optional[str] = None, what: str = 'the output') -> None:
    """Writes text or bytes to a file, or to standard output; no bytes to a terminal."""
    if path:
        return write_whole(path, data.encode() if isinstance(data, str) else data)
    if isinstance(data, bytes) and is_terminal():
        raise Trouble(f'{what} is no text, and the output is a terminal; name a file by -o FILE')
    sys.stdout.flush()
    try:
        with open(1, 'wb', closefd=False) as out:  # sys.stdout.buffer may be cut short where PYTHONUNBUFFERED is set
            out.write(data.encode() if isinstance(data, str) else data)
    except BrokenPipeError:
        raise
    except OSError as error:
        raise Trouble(f'cannot write {what}: {error.strerror}') from error
