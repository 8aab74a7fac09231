"""The options of the proved program (data/options.csv), which stand there once, and those of the command doomview beside
them. tools/page_tables makes the tables of the pages and of the manual of them."""
import csv
import functools
import typing

from . import installation
from .trouble import Trouble

CHOICES = {'--format': ['index', 'ppm'], '--spans': ['full', 'packed']}


class Option(typing.NamedTuple):
    """An option of the proved program: its jobs, its range, and what it is where it is not named."""

    name: str
    value: str
    jobs: list[str]
    is_needed: bool
    least: typing.Optional[int]
    greatest: typing.Optional[int]
    step: typing.Optional[int]
    default: str
    meaning: str


class OwnOption(typing.NamedTuple):
    """An option of the command doomview beside those of the program; its jobs in words, empty where it needs none."""

    name: str
    value: str
    jobs: str
    meaning: str


OUTPUT, PLACES = '-o', '--places'
OWN_OPTIONS = [
    OwnOption(OUTPUT, 'FILE', 'all', 'the output goes to FILE, whole or not at all, and not to the standard output'),
    OwnOption(PLACES, '', 'limits', 'adds to each line where the view is, as an editor shows it and as its row of the path'),
    OwnOption('--help', '', '', 'prints the jobs and tools; behind one of them its page, as help before it does'),
    OwnOption('--version', '', '', 'prints the version, and the logic that the program is proved in'),
    OwnOption('--completion', '', '', 'prints completions for bash: source <(doomview --completion)'),
    OwnOption('--build', '', '', 'builds the program, if that is needed; every job does so too'),
    OwnOption('--built', '', '', 'ends with 0 where the program is built and no older than its sources, else with 1'),
]


@functools.lru_cache(maxsize=None)
def options() -> dict[str, Option]:
    """The options by name, in their order."""
    path = installation.data('options.csv')

    def number(text: str) -> typing.Optional[int]:
        return int(text) if text else None

    try:
        with open(path, newline='', encoding='utf-8') as file:
            found = {row['option']: Option(row['option'], row['value'], row['jobs'].split(), row['needed'] == 'yes',
                                           number(row['least']), number(row['greatest']), number(row['step']),
                                           row['default'], row['meaning']) for row in csv.DictReader(file)}
    except (OSError, KeyError, ValueError, AttributeError) as error:
        raise damage_of(path) from error
    if not found:
        raise damage_of(path)
    return found


def damage_of(path: str) -> Trouble:
    return Trouble(f'{path} is missing or damaged; take the whole folder of doomview anew')


def options_of(job: str) -> list[Option]:
    """The options that a job takes."""
    return [option for option in options().values() if job in option.jobs]


def needed_options() -> list[str]:
    """The names of the options that a job over a level needs."""
    return [option.name for option in options().values() if option.is_needed]
