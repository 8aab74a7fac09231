"""doomview explain: why a run ended as it did."""
import argparse
import sys

from .. import call_words, cli, explanations, program
from ..files import Source
from ..trouble import Trouble

PAGE = cli.Page(
    'explain', 'runs a job, and says what is wrong and how to mend it', '''
Runs a job of doomview with the words, passes on what it writes, and ends with its status, as without explain.
Sentences on what it said follow on standard error: what the numbers of a refusal mean, by the names of lines, things,
lumps and files; and what else looks like a mistake, such as an IWAD behind its PWAD, things of types without a row, or
extended nodes.

With a line of doomview as its one word it says what the line means, without the names. With --said it runs nothing:
FILE has what a run of these words said.

A refusal is the first thing for which a level cannot be drawn: explain audit is no map check, and doomview lint is one.
''', '''
$ doomview explain audit MAP01 freedoom2.wad mymap.wad --path path.csv
$ doomview explain 'doomview: refused 604 2 7 5'
''', 'the program, but for a line or --said', '''
 the status of the job; 0 for a line or --said
''', ('WORDS OF DOOMVIEW..', "'doomview: LINE'", '--said FILE WORDS OF DOOMVIEW..', '--file WAD WORDS OF DOOMVIEW..'))


def add_words(parser: argparse.ArgumentParser) -> None:
    parser.add_argument('--said', metavar='FILE', type=Source, help='what a run of the words said, on standard error')
    parser.add_argument('--file', metavar='WAD', type=cli.Wad, action='append', default=[], help='a WAD more behind those '
                        'of the job, as often as wanted')
    parser.add_argument('words', metavar='WORDS..', nargs=argparse.REMAINDER,
                        help='the words of a job, or a line of doomview')


def last_line(path: str) -> str:
    try:
        with open(path, errors='replace') as file:
            lines = [line for line in file.read().splitlines() if not line.startswith(program.SENTENCE)]
        return (lines or [''])[-1]
    except OSError as error:
        raise Trouble(f'cannot read {path}: {error.strerror}') from error


def run(options: argparse.Namespace) -> int:
    if not options.words:
        raise Trouble('it needs the words of a job, or a line of doomview; doomview explain --help has examples')
    options.words += options.file
    if options.said:
        explanations.tell(last_line(options.said), options.words)
        return 0
    if options.words[0].startswith('doomview: '):
        explanations.tell(options.words[0], [])
        return 0
    words = call_words.in_order(options.words)
    done = program.run_whole(words)
    sys.stderr.write(done.said)
    explanations.tell(done.line, words)
    return done.status
