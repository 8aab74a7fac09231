"""Why a run of the program ended as it did, in sentences."""
import collections
import csv
import os
import re
import stat
import sys
import typing
from collections.abc import Callable, Iterable, Iterator

from . import paths, program, silent_mistakes, system, wads
from .call_words import Words
from .doom import PLACES, SPECTRE
from .jobs import LEVEL_JOBS
from .refusals import Scene, sentences as sentences_on
from .trouble import Ended, Trouble
from .word_checks import wrong_words

Sentences = Iterator[str]
CHUNK = 1 << 20


def read_error(path: str) -> typing.Optional[str]:
    """Why a file cannot be read to its end, or None."""
    try:
        if not stat.S_ISREG(os.stat(path).st_mode):
            return 'is no plain file (a folder or a pipe cannot be read)'
        with open(path, 'rb') as file:
            while file.read(CHUNK):
                pass
    except OSError as error:
        return f'cannot be read: {error.strerror}'
    return None


def unreadable(words: Words) -> Sentences:
    """A sentence on each file of a call that cannot be read."""
    for path in words.files:
        wrong = read_error(path)
        if wrong and path in words.wads and not system.has_folder(path) and not os.path.lexists(path):
            yield f'{wads.not_found(path)}.'
        elif wrong:
            yield f'{path} {wrong}.'


def on_usage(words: Words) -> list[str]:
    found = [sentence if sentence.endswith('?') else f'{sentence}.' for sentence in wrong_words(words)]
    return found or ['doomview --help has the jobs and their words.']


def on_read_fault(words: Words) -> list[str]:
    files = ', '.join(words.files)
    return list(unreadable(words)) or [f'a file could not be read to its end; look at the disk that has it: {files}.']


def place_of(words: Words, view: int) -> str:
    """Where a view of the path of a call is, in both forms, in brackets; an empty text where the path cannot tell."""
    try:
        return f' ({paths.in_words(paths.rows(words.value("--path") or "")[view])})'
    except (Trouble, IndexError):
        return ''


def on_limit(words: Words, view: str, what: str, count: str) -> list[str]:
    where = f'row {int(view) + 1} under the header of the path{place_of(words, int(view))}'
    return [f'view {view}, {where}, needs more than {int(count) - 1} {what}, the limit. --{what} N raises it; the job '
            'limits names all such views.']


def on_refusal(words: Words, code: str, numbers: str) -> list[str]:
    return [*sentences_on(int(code), [int(number) for number in numbers.split()], words), *unreadable(words)]


# What is said of each line of the program, by its form.
LINES: list[tuple[str, Callable[..., Iterable[str]]]] = [
    (r'refused (\d+)((?: \d+)*)', on_refusal),
    (r'limit view (\d+) (planes|openings) (\d+)', on_limit),
    (r'usage', on_usage),
    (r'read fault', on_read_fault),
    (r'write fault', lambda words: ['the output could not be written: the disk is full, or who read it has ended.']),
    (r'out of memory', lambda words: ['memory ran out: let fewer programs run beside it, or take a smaller --zone.']),
    (r'zone full.*', lambda words: ['the zone is too small: take the first number that audit prints of the same files, '
                                    'or leave --zone out.']),
]


def spectres(count: int) -> str:
    """A sentence on things that the original draws as shadows."""
    which = f'{count} spectres of the map are' if count > 1 else 'the spectre of the map is'
    return (f'{which} not drawn, since the thing table has no row for type {SPECTRE}: the original draws them as '
            'shadows.')


def undrawn(scene: Scene, things: str) -> Sentences:
    """Sentences on the things of a level for which a thing table has no row."""
    try:
        with open(things, newline='', encoding='utf-8-sig') as file:
            known = {row['type'] for row in csv.DictReader(file)}
    except (OSError, KeyError, UnicodeDecodeError, csv.Error):
        return
    kinds = collections.Counter(thing.type for thing in scene.level.things)
    unknown = {kind: count for kind, count in sorted(kinds.items()) if str(kind) not in known and kind not in PLACES}
    if SPECTRE in unknown:
        yield spectres(unknown.pop(SPECTRE))
    if unknown:
        some = ', '.join(f'{kind} ({count})' for kind, count in unknown.items())
        yield f'not drawn, since {things} has no row for the type: things of type {some}.'


def remarks(words: Words, things: str) -> Sentences:
    """Sentences on what is not refused, and may still be a mistake."""
    scene = Scene(words)
    yield from (f'{sentence}.' for sentence in silent_mistakes.of_words(words))
    if scene.file and len(scene.wads) > 1:
        yield f'{scene.map_name} is that of {scene.file}.'
    if os.path.isfile(things):
        yield from undrawn(scene, things)


def on_line(line: str, words: list[str]) -> Sentences:
    """Sentences on the line that a call with these words ended with."""
    given, is_kept = Words(program.complete(words)), not Words(words).output
    for form, told in LINES:
        found = re.fullmatch('doomview: ' + form, line)
        if found:
            yield from told(given, *found.groups())
    if given.job == 'trim' and is_kept and re.match('doomview: (read fault|write fault|zone full)', line):
        yield 'what was written is no whole WAD; throw it away.'


def explain(line: str, words: list[str]) -> Sentences:
    """The same, and what else looks like a mistake."""
    yield from on_line(line, words)
    given = Words(program.complete(words))
    if given.job in LEVEL_JOBS and given.wads:
        yield from remarks(given, given.value('--things') or '')


def tell(line: str, words: list[str], sentences: Callable[[str, list[str]], Sentences] = explain) -> None:
    """Prints the sentences on a line."""
    for sentence in sentences(line, words):
        print(f'explain: {sentence}', file=sys.stderr)


def end_of(words: list[str], done: program.Run) -> Ended:
    """Says why a run of these words failed: the end of a tool that needed it."""
    sys.stderr.write(done.said)
    tell(done.line, words)
    return Ended(done.status)
