"""The words of a tool that knows the limits of a view: --planes, --openings, --fragments, --sprites, --solids."""
import argparse

from . import cli, job_options
from .counting import COUNTS, LIMITS

MOST = 65535  # of what a port may allow


def add_words(parser: argparse.ArgumentParser) -> None:
    """The words for the limits of a port that has others."""
    for name in COUNTS:
        least, greatest = range_of(name)
        parser.add_argument(f'--{name}', metavar='N', type=cli.number(least, greatest), default=LIMITS[name],
                            help=f'from more {name} on a view is over; {least} to {greatest}; else {LIMITS[name]}')


def range_of(name: str) -> tuple[int, int]:
    """The least and the greatest limit that a tool takes: those of the job where it has one."""
    option = job_options.options().get(f'--{name}')
    if option is None or option.least is None or option.greatest is None:
        return LIMITS[name], MOST
    return option.least, option.greatest


def limits_of(options: argparse.Namespace) -> dict[str, int]:
    """The limits that the words give, by name."""
    return {name: getattr(options, name) for name in COUNTS}
