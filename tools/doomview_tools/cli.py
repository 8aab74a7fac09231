"""What the tools of doomview share on the command line: their words, their help pages, and how they end.

A tool is a module of `commands` with a PAGE, a function `add_words(parser)` and a function `run(options)`, which gives
the status of the tool, or None for 0. Words that name files have a type that says so (Wad, Source, Output, Folder), so
that no tool writes over what it reads."""
import argparse
import os
import re
import shutil
import sys
import textwrap
import types
import typing
from collections.abc import Callable, Container, Iterable, Sequence

from . import call_words, job_options, jobs, levels, program, wads, word_checks
from .files import Output, Source, check_outputs
from .trouble import Trouble

MOST_COLUMNS = 100
UNBROKEN = '\N{NO-BREAK SPACE}'
HELP = {'--help', '-h'}
WAD = 'a WAD, found as ports find it (see doomview --help)'
MINUS_ROW = re.compile(r'-[\d.]+,')  # the beginning of a row that would be taken for an option
PYTHON = 'Python alone'
BUILT = 'the program; it is built at the first call'  # what a job needs
JOB_OPTION = 'job '  # before the names of options that are handed on


class Wad(Source):
    """The name of a WAD, which is found as ports find it."""


class Page(typing.NamedTuple):
    """The parts of a help page. `usage` has the forms of a call, and `forms` the short ones for a table, where they cannot
    be told from its words; `more` is the page in docs that says more."""

    name: str
    summary: str
    text: str
    examples: str
    needs: str = PYTHON
    ends: str = ' 0  all is well\n 2  it could not be done, and a sentence says why'
    usage: tuple[str, ...] = ()
    forms: tuple[str, ...] = ()
    more: str = ''


def columns() -> int:
    """The width of a help page."""
    return max(60, min(MOST_COLUMNS, shutil.get_terminal_size((MOST_COLUMNS, 24)).columns))


class Formatter(argparse.RawDescriptionHelpFormatter):
    def __init__(self, prog: str) -> None:
        super().__init__(prog, max_help_position=26, width=columns())


class Argument(typing.NamedTuple):
    """A word or an option of a tool: the names of an option, none of a plain word; its value as a help page has it; how
    many values there are, as argparse says it; whether it has to be there; the type of its values; and those that it
    may have, none if any."""

    names: Sequence[str]
    value: str
    many: typing.Union[int, str, None]
    is_needed: bool
    type: typing.Any
    choices: tuple[str, ...] = ()

    @property
    def form(self) -> str:
        """How it is written."""
        form = ' '.join(filter(None, [*self.names[:1], self.value])) + ('..' if self.many in ('*', '+') else '')
        is_optional = not self.is_needed if self.names else self.many in ('*', '?')
        return f'[{form}]' if is_optional else form


class Parser(argparse.ArgumentParser):
    """The words of a tool or a job, which `arguments` keeps. All help pages have the same parts in the same order."""

    def __init__(self, page: Page) -> None:
        super().__init__(prog=f'doomview {page.name}', description=filled_paragraphs(page.text),
                         epilog=last_parts(page), add_help=False, allow_abbrev=False, formatter_class=Formatter)
        self.page = page
        self.arguments: list[Argument] = []
        self.plain, self.options = (self.add_argument_group(title) for title in ('Words', 'Options'))

    def add_argument(self, *names: str, **more: typing.Any) -> argparse.Action:
        action = (self.options if names[0].startswith('-') else self.plain).add_argument(*names, **more)
        self.arguments.append(Argument(action.option_strings, str(action.metavar or ''), action.nargs, action.required,
                                       action.type, tuple(map(str, action.choices or ()))))
        return action

    def error(self, message: str) -> typing.NoReturn:
        wrong = message.startswith('unrecognized arguments: ') and message.split()[2].partition('=')[0]
        names = [name for argument in self.arguments for name in argument.names]
        near = word_checks.guess(wrong, names) if wrong and wrong.startswith('--') else ''
        raise Trouble(f'{message.replace("argument ", "")}{near}; {self.prog} --help shows its words')

    def format_usage(self) -> str:
        """All words, the positional ones first."""
        plain = [argument.form for argument in self.arguments if not argument.names]
        options = [argument.form for argument in self.arguments if argument.names and HELP.isdisjoint(argument.names)]
        forms = self.page.usage or [' '.join(form.replace(' ', UNBROKEN) for form in plain + options)]
        text = ''.join(textwrap.fill(f'{self.prog} {form}', columns(), initial_indent='       ' if i else 'usage: ',
                                     subsequent_indent=' ' * 9, break_on_hyphens=False) + '\n'
                       for i, form in enumerate(forms))
        return text.replace(UNBROKEN, ' ')

    def parse(self, words: list[str]) -> argparse.Namespace:
        """What the words give. Options may stand between plain words, but for a tool that takes the rest of its words."""
        takes_rest = any(argument.many == argparse.REMAINDER for argument in self.arguments)
        if HELP & {*(words[:1] if takes_rest else words)}:
            self.print_help()
            raise SystemExit(0)
        if not takes_rest:
            words = [f' {word}' if MINUS_ROW.match(word) else word for word in words]
        return self.parse_args(words) if takes_rest else self.parse_intermixed_args(words)

    def format_help(self) -> str:
        self.usage = argparse.SUPPRESS
        return f'{self.format_usage()}\n{super().format_help()}'


def filled_paragraphs(text: str) -> str:
    """Paragraphs, each filled up to the width of the page."""
    return '\n\n'.join(textwrap.fill(' '.join(part.split()), columns(), break_on_hyphens=False)
                       for part in text.strip().split('\n\n'))


def last_parts(page: Page) -> str:
    """The examples of a page, how it ends, what it needs, and where more is."""
    parts = [('Examples', page.examples), ('Ends with', page.ends), ('Needs', page.needs + '.'),
             ('More in', page.more and f'docs/{page.more}')]
    return '\n\n'.join(f'{title}:\n' + textwrap.indent(text.strip('\n'), '  ') for title, text in parts if text)


def add_output(parser: argparse.ArgumentParser, what: str) -> None:
    parser.add_argument('-o', dest='output', metavar='FILE', type=Output,
                        help=f'writes {what} to FILE, whole or not at all, and not to the standard output')


def add_base(parser: argparse.ArgumentParser) -> None:
    parser.add_argument('--iwad', metavar='WAD', type=Wad, help='the WAD that a PWAD needs, read before it; else that of '
                        'the variable IWAD')
    parser.add_argument('--file', metavar='WAD', type=Wad, action='append', default=[], help='a WAD more, such as one '
                        'with textures; as often as wanted, read in this order after the IWAD and before a PWAD')


def add_level(parser: argparse.ArgumentParser, is_needed: bool = True) -> None:
    """The words of a tool over one map, which some need not name."""
    parser.add_argument('wad', metavar='WAD', type=Wad, help=WAD)
    count: typing.Any = None if is_needed else '?'
    parser.add_argument('map', metavar='MAP', nargs=count, help='the name of a map, such as MAP01 or E1M1')
    add_base(parser)


def wads_of(options: argparse.Namespace) -> list[str]:
    """The WADs of a tool over one WAD, in their order."""
    return wads.with_base(options.wad, options.iwad, options.file)


def level_of(options: argparse.Namespace, files: list[str]) -> levels.Level:
    """The level of a tool over one map; a Trouble where the map is in no other WAD than the one of --iwad."""
    level = levels.read(files, options.map)
    wads.check_own(level.name, level.wad, files, wads.find(options.wad), options.file)
    return level


def number(least: int, greatest: int) -> Callable[[str], int]:
    """The type of a word that is a number within a range."""
    def read(text: str) -> int:
        if not text.isdecimal() or not least <= int(text) <= greatest:
            raise argparse.ArgumentTypeError(f'a number from {least} to {greatest}, and not {text}')
        return int(text)
    return read


def views_of(text: str, count: int) -> list[int]:
    """The numbers of the views that a word names, as 3,7-9, in ascending order; a Trouble where there are none."""
    found: set[int] = set()
    for part in text.split(','):
        first, dash, last = part.partition('-')
        if not first.isdecimal() or dash and not last.isdecimal():
            raise Trouble(f'--views are numbers and ranges of views, as 3,7-9, and not {text}')
        numbers = range(int(first), int(last or first) + 1)
        if not numbers or numbers[-1] >= count:
            raise Trouble(f'--views {part}: there are {count} views, from 0 to {count - 1}')
        found.update(numbers)
    return sorted(found)


def forms_of(tool: types.ModuleType) -> list[str]:
    """A tool with its plain words and those that it needs, once for each way of calling it."""
    needed = [argument.form for argument in parser_of(tool).arguments if not argument.names or argument.is_needed]
    return [f'{tool.PAGE.name} {form}' for form in tool.PAGE.forms] or [' '.join([tool.PAGE.name, *needed])]


def add_job_options(parser: argparse.ArgumentParser, job: str, without: Iterable[str] = ()) -> None:
    """The options of a job that a tool hands on to it."""
    for option in job_options.options_of(job):
        if option.name not in without:
            parser.add_argument(option.name, metavar=option.value, dest=JOB_OPTION + option.name, help=meaning_of(option),
                                type=Source if option.value == 'FILE' else str)


def job_words(options: argparse.Namespace) -> list[str]:
    """The words of the options that a tool hands on to a job."""
    found = {name[len(JOB_OPTION):]: value for name, value in vars(options).items() if name.startswith(JOB_OPTION)}
    return [part for name, value in found.items() if value is not None for part in (name, value)]


def parser_of(tool: types.ModuleType) -> Parser:
    """The parser of a tool, which also prints its help page."""
    parser = Parser(tool.PAGE)
    tool.add_words(parser)
    add_help(parser)
    return parser


def add_help(parser: argparse.ArgumentParser) -> None:
    parser.add_argument('--help', '-h', action='help', help='prints this page')


def job_page(job: jobs.Job, needs: str = BUILT, without: Container[object] = (jobs.NO_SUCH_WORD,)) -> str:
    """The help page of a job, by the table of options: what it needs, and without some statuses or own options."""
    ends = '\n'.join(f'{number:2}  {": ".join(filter(None, status))}' for number, status in jobs.STATUSES.items()
                     if number not in without)
    parser = Parser(Page(job.name, job.summary, job.text, job.examples, needs, ends))
    for metavar, meaning in job.words:
        parser.add_argument(metavar, metavar=metavar, help=meaning)
    for option in job_options.options_of(job.name):
        parser.add_argument(option.name, metavar=option.value, help=meaning_of(option),
                            required=option.is_needed and not option.default)
    for own in [own for own in job_options.OWN_OPTIONS if own.name not in without]:
        if own.jobs in ('all', job.name) and own.value:
            parser.add_argument(own.name, metavar=own.value, help=own.meaning)
        elif own.jobs in ('all', job.name):
            parser.add_argument(own.name, action='store_true', help=own.meaning)
    add_help(parser)
    return parser.format_help()


def meaning_of(option: job_options.Option) -> str:
    """What an option means, its range, and what it is where it is not named."""
    parts = [option.meaning]
    if option.least is not None:
        parts.append(f'{option.least} to {option.greatest}')
    if option.default:
        parts.append(f'else {option.default}')
    elif option.is_needed:
        parts.append('needed')
    return '; '.join(parts)


def in_order(options: argparse.Namespace) -> argparse.Namespace:
    """The words of a tool, a WAD and a map in either order where the words tell."""
    wad, name = getattr(options, 'wad', None), getattr(options, 'map', None)
    if isinstance(wad, str) and isinstance(name, str) and call_words.is_wad(name) and not call_words.is_wad(wad):
        options.wad, options.map = Wad(name), str(wad)
    return options


def named(options: argparse.Namespace, kind: type[str]) -> list[str]:
    """The words of a tool that are of a kind."""
    lists = (value if isinstance(value, list) else [value] for value in vars(options).values())
    return [value for values in lists for value in values if isinstance(value, kind)]


def sources_of(options: argparse.Namespace) -> list[str]:
    """The files that the words of a tool name to be read, WADs by their paths, and the program."""
    given = named(options, Source) + [Wad(name) for name in [os.environ.get('IWAD')] if name]
    paths = [wads.find_or_none(name) if isinstance(name, Wad) else name for name in given]
    return [*filter(None, paths), program.path()]


def run(tool: types.ModuleType, words: list[str]) -> int:
    """Runs a tool with its words; its status."""
    try:
        options = in_order(parser_of(tool).parse(words))
        check_outputs(named(options, Output), sources_of(options))
        return tool.run(options) or 0
    except Trouble as error:
        if str(error):
            print(f'doomview {tool.PAGE.name}: {error}', file=sys.stderr)
        return error.status
