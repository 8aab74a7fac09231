"""The words of a call of the proved program, taken apart as it does it."""
import re
import typing
from collections.abc import Iterable

from . import system, wads
from .job_options import OUTPUT, needed_options
from .jobs import JOBS, LEVEL_JOBS, USAGE
from .trouble import Trouble

MAP_NAME = re.compile('E[1-9]M[1-9]|MAP[0-9]{2}')


def take_output(words: list[str]) -> tuple[list[str], typing.Optional[str]]:
    """The words without `-o FILE`, and FILE or None."""
    end = words.index('--') if '--' in words else len(words)
    at = [place for place, word in enumerate(words[:end]) if word == OUTPUT]
    if not at:
        return words, None
    if len(at) > 1 or at[0] + 1 == end:
        raise Trouble(f'{OUTPUT} comes once, with the name of a file behind it', USAGE)
    return words[:at[0]] + words[at[0] + 2:], words[at[0] + 1]


class Words:
    """The words of a call: `plain` ones and their places, of each option `given` its values (None for a missing one),
    and the file `output` that `-o` names, which is none of the program's `words`. As the program does it takes
    `--zone 64` and `--zone=64`, and all behind `--` as plain words."""

    def __init__(self, words: Iterable[str]) -> None:
        self.words, self.output = take_output(list(words)) if {*words} & {*JOBS} else (list(words), None)
        self.plain: list[str] = []
        self.places: list[int] = []
        self.given: dict[str, list[typing.Optional[str]]] = {}
        words, at, are_plain = self.words, 0, False
        while at < len(words):
            word = words[at]
            if word == '--' and not are_plain:
                are_plain = True
            elif word.startswith('--') and not are_plain:
                name, equal, value = word.partition('=')
                at += not equal
                self.given.setdefault(name, []).append(value if equal else words[at] if at < len(words) else None)
            else:
                self.plain.append(word)
                self.places.append(at)
            at += 1

    @property
    def job(self) -> str:
        return self.plain[0] if self.plain else ''

    @property
    def map_name(self) -> str:
        return self.plain[1] if self.job in LEVEL_JOBS and len(self.plain) > 1 else ''

    @property
    def wads(self) -> list[str]:
        return self.plain[2:] if self.job in LEVEL_JOBS or self.job == 'flat' else []

    @property
    def files(self) -> list[str]:
        """The files that a call reads: those of its options, and its WADs."""
        named = [self.value(name) for name in (*needed_options(), '--weapon')]
        return [name for name in named if name] + self.wads

    @property
    def writes_bytes(self) -> bool:
        """Whether what the job writes is no text."""
        job = JOBS.get(self.job)
        return job is not None and job.is_binary and self.plain[:2] not in (['make', 'path'], ['make', 'things'])

    def value(self, name: str) -> typing.Optional[str]:
        """The first value of an option, or None."""
        return self.given.get(name, [None])[0]

    def with_wads_found(self) -> list[str]:
        """The words, each WAD by its path where ports find it; a name that is found nowhere stays as it is."""
        words = list(self.words)
        for place in self.places[2:] if self.wads else []:
            words[place] = wads.find_or_none(words[place]) or words[place]
        return words


def is_wad(word: str) -> bool:
    """Whether a word is the name of a WAD, and of no map."""
    is_map = MAP_NAME.fullmatch(word.upper())
    return not is_map and (word.lower().endswith('.wad') or system.has_folder(word) or wads.find_or_none(word) is not None)


def in_order(words: list[str]) -> list[str]:
    """The words of a job with the map, or the flat, before the WADs, where it stands behind one and the words tell."""
    given = Words(words)
    others = [word for word in given.plain[1:] if not is_wad(word)]
    if not given.wads or len(others) != 1 or others[0] == given.plain[1]:
        return list(words)
    own = list(given.words)
    kept = [word for word in given.plain[1:] if is_wad(word)]
    for place, word in zip(given.places[1:], others + kept):
        own[place] = word
    return own if given.output is None else [OUTPUT, given.output, *own]
