"""What doomview.exe has from the tools in Python, as a source in C: tables, a made room, help pages, sentences."""
import json
import re
from collections.abc import Iterable

from doomview_tools import (call_words, cli, command, doom, explanations, installation, job_options, jobs, refusals,
                            room, tables)
from doomview_tools.commands import picture as picture_tool

# The files that it has in it, by names that no file of Windows can have.
FILES = {'<tables>': tables.tables, '<things>': lambda: data_of('things.csv'), '<room>': room.room}
TOOLS = ('picture',)  # that it has beside the jobs
OTHER_TOOLS = [name for name in command.TOOLS if name not in TOOLS]
NAMED_TOOL = re.compile(r'\bdoomview (?:' + '|'.join(OTHER_TOOLS) + r')\b')
LINES = ('write fault', 'out of memory', 'zone full')  # lines with one sentence each, whatever the words
WITHOUT = (jobs.NO_PROGRAM, job_options.PLACES, *(option.name for option in job_options.OWN_OPTIONS if not option.jobs))
MEMBERS = 14  # of a record of a map at the most
NEEDS = 'nothing beside it'
OVERVIEW = '''doomview {version} for Windows, a preview: the proved program compiled anew, which no proof covers.

usage: doomview JOB WORDS.. [OPTIONS]
       doomview picture [WAD [MAP]] OUT.png [OPTIONS]

It runs in a console: in Command Prompt as it is written here, in PowerShell with .\\ before it.

Jobs of the proved program:
{jobs}

Beside them:
{tools}

The page of one of them, with its words, options and examples:
  doomview help JOB, or doomview JOB --help

Where a job fails, sentences say why. WADs are named by their paths. A page for a browser, doomview.html, draws and counts
maps, and a release has more tools, for which Python is needed.

  doomview --help       prints this page, as help, -h and /? do
  doomview --version    prints the version
'''


def data_of(name: str) -> bytes:
    with open(installation.data(name), 'rb') as file:
        return file.read()


def text(words: str) -> str:
    """A text as C has it: one literal for each line."""
    return '\n'.join(json.dumps(line, ensure_ascii=True) for line in words.splitlines(True)) or '""'


def rows(kind: str, name: str, found: Iterable[str], count: str = '') -> str:
    """An array in C, and its length under a name."""
    found = list(found)
    length = f'const int {count} = {len(found)};\n' if count else ''
    return f'const {kind} {name}[] = {{{", ".join(found)}}};\n{length}'


def record(*parts: object) -> str:
    """A record in C."""
    return '{' + ', '.join(text(part) if isinstance(part, str) else str(part) for part in parts) + '}'


def without_tools(sentences: str) -> str:
    """A text without the sentences and parts of sentences that name tools in Python."""
    paragraphs = (re.split(r'(?<=[.:;])\s+', part.strip()) for part in sentences.split('\n\n'))
    kept = [' '.join(part for part in parts if not NAMED_TOOL.search(part)) for parts in paragraphs]
    return '\n\n'.join(re.sub(r'[:;]$', '.', part) for part in kept if part)


def examples(lines: str) -> str:
    return '\n'.join(line for line in lines.splitlines() if not NAMED_TOOL.search(line))


def job_page(job: jobs.Job) -> str:
    """The page of a job, in which no tool is named that is not there."""
    of_exe = job._replace(text=without_tools(job.text), examples=examples(job.examples))
    return cli.job_page(of_exe, NEEDS, WITHOUT)


def picture_page() -> str:
    """The page of the tool picture, without what is of a clone."""
    page = picture_tool.PAGE._replace(text=without_tools(picture_tool.PAGE.text.split('Where the proved program')[0]), needs=NEEDS)
    parser = cli.Parser(page)
    picture_tool.add_words(parser)
    whole = re.sub(r'\n  --proved +(?:.*\n {10}.*)*[^\n]*', '', parser.format_help()).replace(' [--proved]', '')
    return whole.replace(cli.WAD, 'a WAD, by its path')


def files() -> str:
    """The files that are built in."""
    made = {name: read() for name, read in FILES.items()}
    data = ''.join(f'static const unsigned char bytes_of_{name[1:-1]}[] = {{{",".join(map(str, content))}}};\n'
                   for name, content in made.items())
    return data + rows('struct built_in', 'built_ins', (f'{{"{name}", bytes_of_{name[1:-1]}, {len(content)}}}'
                                                       for name, content in made.items()), 'built_in_count')


def job_rows() -> Iterable[str]:
    for job in jobs.JOBS.values():
        yield record(job.name, int(job.name in jobs.LEVEL_JOBS), int(job.is_binary), int(bool(job_options.options_of(job.name))), job_page(job))


def option_rows() -> Iterable[str]:
    for option in job_options.options().values():
        choices = job_options.CHOICES.get(option.name, [])
        bits = sum(1 << place for place, job in enumerate(jobs.JOBS) if job in option.jobs)
        greatest = -1 if option.greatest is None else option.greatest
        yield record(option.name, bits, option.least or 0, greatest, option.step or 0, f' {" ".join(choices)} ' if choices else '',
                     ' or '.join(choices))


def refusal_rows() -> Iterable[str]:
    for code, (wrong, mend) in refusals.codes().items():
        yield record(code, refusals.NAMED.get(code, ''), wrong, without_tools(mend).rstrip('.'))


def column_rows() -> Iterable[str]:
    for group, columns in refusals.COLUMNS.items():
        yield from (record(group, number, name, what) for number, (name, what) in enumerate(columns))


def told_rows() -> Iterable[str]:
    """The lines without numbers that have one sentence."""
    for line in LINES:
        yield record(line, *explanations.on_line(f'doomview: {line}', []))


def pointers(name: str, texts: Iterable[str], count: str = '') -> str:
    return rows('char *const', name, (text(part) if part else '0' for part in texts), count)


def fields() -> str:
    found = (record(*(names + ['a box'] * MEMBERS)[:MEMBERS]) for names in refusals.FIELDS)
    return f'const char *const fields[][{MEMBERS}] = {{{", ".join(found)}}};\n'


def overview() -> str:
    """The page of the program."""
    job_lines = [(job.form, job.summary) for job in jobs.JOBS.values()]
    tools = [(name, command.tool(name).PAGE.summary) for name in TOOLS]
    return OVERVIEW.format(version=installation.version()['version'], jobs=command.table(job_lines), tools=command.table(tools))


def version() -> str:
    return f'doomview {installation.version()["version"]}, a preview for Windows\n'


def source() -> str:
    """The source in C; glue/exe.h says what is in it."""
    medusa = next(iter(refusals.HINTS[905](refusals.Scene(call_words.Words([])), [])))
    texts = {'overview': overview(), 'picture_page': picture_page(), 'medusa': medusa,
             'version': version()}
    return ''.join(['#include "exe.h"\n', files(), rows('struct job', 'jobs', job_rows(), 'job_count'),
                    rows('struct option', 'options', option_rows(), 'option_count'),
                    rows('struct refusal', 'refusals', refusal_rows(), 'refusal_count'),
                    rows('struct column', 'columns', column_rows(), 'column_count'),
                    rows('struct told', 'told', told_rows(), 'told_count'), fields(), pointers('map_lumps', doom.MAP_LUMPS),
                    pointers('table_options', [refusals.TABLES.get(group, '') for group in range(max(refusals.TABLES) + 1)]),
                    pointers('other_tools', OTHER_TOOLS, 'other_tool_count'),
                    *(f'const char {name}[] = {text(words)};\n' for name, words in texts.items())])
