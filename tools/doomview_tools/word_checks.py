"""What is wrong with the words of a call, in sentences, and what may be meant by a word that is not known."""
import difflib
import re
import typing
from collections.abc import Iterable

from .call_words import Words
from .job_options import CHOICES, Option, needed_options, options, options_of
from .jobs import JOBS, LEVEL_JOBS, MOST_WADS

MOST_LETTERS = 8
LIKENESS = 0.7  # of a word that may be meant, as difflib has it
NUMERAL = re.compile('[0-9]{1,10}')


def guess(word: str, known: Iterable[str]) -> str:
    """What may be meant by a word that is not known, as the end of a sentence, or an empty text."""
    near = difflib.get_close_matches(word, list(known), 1, LIKENESS)
    return f'; did you mean {near[0]}?' if near else ''


def wrong_option(job: str, name: str, values: list[typing.Optional[str]]) -> typing.Optional[str]:
    """What is wrong with an option of a job, or None."""
    known = [option.name for option in options_of(job)]
    if job in JOBS and name not in known:
        near = guess(name, known)
        return f'{job} takes no {name}' + (near or (f'; its options are {" ".join(known)}' if known else ''))
    if len(values) > 1:
        return f'{name} may come only once'
    if values[0] is None:
        return f'{name} needs a value behind it'
    return wrong_value(options()[name], values[0]) if name in options() else None


def wrong_value(option: Option, value: str) -> typing.Optional[str]:
    """What is wrong with the value of an option, or None."""
    choices = CHOICES.get(option.name)
    if choices and value not in choices:
        return f'{option.name} is {" or ".join(choices)}, and not {value}'
    if option.least is None or option.greatest is None:
        return None
    if not NUMERAL.fullmatch(value) or not option.least <= int(value) <= option.greatest:
        return f'{option.name} is a number from {option.least} to {option.greatest}, and not {value}'
    if option.step and int(value) % option.step:
        return f'{option.name} is a multiple of {option.step}, and {value} is none'
    return None


def wrong_words(words: Words) -> list[str]:
    """Sentences on what is wrong with the words of a call, as far as it can be told."""
    tried = (wrong_option(words.job, name, values) for name, values in words.given.items())
    found = [sentence for sentence in tried if sentence]
    if words.job not in JOBS:
        return [f'the first word is a job: {", ".join(JOBS)}{guess(words.job, JOBS)}', *found]
    return found + (wrong_level(words) if words.job in LEVEL_JOBS else [])


def wrong_level(words: Words) -> list[str]:
    """The same of a job over a level."""
    job, count = words.job, len(words.plain)
    near = {guess(name, needed_options()) for name in words.given if name not in options()}
    missing = [name for name in needed_options() if name not in words.given and f'; did you mean {name}?' not in near]
    tests = [(missing, f'{job} needs {" and ".join(missing)} too'),
             (count < 3, f'{job} needs a map and a WAD, as in {job} MAP01 game.wad'),
             (count - 2 > MOST_WADS, f'{job} takes at most {MOST_WADS} WADs'),
             (count > 1 and not 1 <= len(words.plain[1].encode()) <= MOST_LETTERS,
              f'the name of a map has 1 to {MOST_LETTERS} letters, and {words.map_name!r} has not; the map comes before '
              'its WADs')]
    return [sentence for is_wrong, sentence in tests if is_wrong]
