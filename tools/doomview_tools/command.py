"""The command doomview: the jobs of the proved program, and the tools beside it."""
import importlib
import os
import signal
import sys
import types
import typing
from collections.abc import Iterable, Sequence

from . import (call_words, cli, explanations, installation, job_options, jobs, paths, program, silent_mistakes, system,
               word_checks)
from .files import write_output
from .trouble import TROUBLE, Trouble

TOOLS = ['picture', 'places', 'turn', 'path', 'compare', 'pixel', 'explain', 'lint', 'limits-map', 'why-limit', 'video',
         'audit-all', 'draw-all', 'maps', 'tables', 'room', 'vectors', 'rest']
OVERVIEW = '''usage: doomview JOB WORDS.. [OPTIONS]
       doomview TOOL WORDS.. [OPTIONS]

Jobs of the proved program:
{jobs}

Tools:
{tools}

The page of a job or tool, with its words, options and examples:
  doomview help JOB, or doomview JOB --help
  doomview help TOOL, or doomview TOOL --help

Where a job fails, sentences say why. A map and its WADs may come in either order.

Of the command itself:
{own}

WADs are found as ports find them: as they are named, in the folders of DOOMWADDIR
and DOOMWADPATH, and in those of the packages (/usr/share/games/doom and its kin),
there also in small letters and without .wad.

The manual: man -l {manual}'''


def tool(name: str) -> types.ModuleType:
    """The module of a tool."""
    return importlib.import_module('.commands.' + name.replace('-', '_'), __package__)


def table(lines: Iterable[tuple[str, str]]) -> str:
    return '\n'.join(f'  {left:18} {right}' for left, right in lines)


def overview() -> str:
    """What `doomview --help` prints."""
    job_lines = [(job.form, job.summary) for job in jobs.JOBS.values()]
    tool_lines = [(name, tool(name).PAGE.summary) for name in TOOLS]
    own_lines = [(f'doomview {option.name}', option.meaning) for option in job_options.OWN_OPTIONS if not option.jobs]
    return OVERVIEW.format(jobs=table(job_lines), tools=table(tool_lines), own=table(own_lines),
                           manual=installation.MANUAL)


def version() -> str:
    known = installation.version()
    return f'doomview {known["version"]}\nlogic {known["logic"]}'


def run_job(words: list[str]) -> int:
    """Runs a job, and says why where it fails; or hands words to the program that are none of this command's. For words
    that are no job nothing is built, since the program's answer is known."""
    plain = [word for word in words if word != job_options.PLACES]
    if plain != words and call_words.Words(plain).job == 'limits':
        return limits_with_places(call_words.in_order(plain))
    is_job = call_words.Words(words).job in jobs.JOBS
    if not is_job and not program.is_built():
        return usage(words)
    words = call_words.in_order(words) if is_job else words
    warn(words)
    done = program.run_whole(words) if call_words.Words(words).output else program.pass_on(words)
    sys.stderr.write(done.said)
    if done.status:
        say_why(done, words, is_job)
    return jobs.NO_SUCH_WORD if done.status == jobs.USAGE and not is_job else done.status


def warn(words: list[str]) -> None:
    """Says what will be accepted, and may be a mistake."""
    for sentence in silent_mistakes.of_words(call_words.Words(program.complete(words))):
        print(f'doomview: warning: {sentence}', file=sys.stderr, flush=True)


def say_why(done: program.Run, words: list[str], is_job: bool = True) -> None:
    """Says why a run failed, by the line that it ended with."""
    if is_job:
        explanations.tell(done.line, words, explanations.on_line)
    elif done.status == jobs.USAGE:
        print(f'explain: {no_such(words)}', file=sys.stderr)


def no_such(words: Sequence[str]) -> str:
    """The sentence on words of which the first is no job and no tool."""
    first = call_words.Words(words).job or words[0]
    near = word_checks.guess(first, [*jobs.JOBS, *TOOLS])
    return f'there is no job or tool {first}{near or "; doomview --help has them all"}'


def limits_with_places(words: list[str]) -> int:
    """Prints what the job limits does, and behind each line where the view is; its status."""
    given = call_words.Words(words)
    program.check_output(words)
    warn(words)
    done = program.run(given.words)
    sys.stderr.write(done.said)
    if done.status:
        say_why(done, words)
        return done.status
    lines = zip(done.output.decode().splitlines(), paths.rows(given.value('--path') or ''))
    write_output(''.join(f'{line}; {paths.in_words(row)}\n' for line, row in lines), given.output)
    return 0


def build() -> int:
    if installation.IS_RELEASE:
        print('doomview: this is a release: the program is built already')
    elif not program.is_built():
        program.ready()
    return 0


def stop(number: int, _: typing.Optional[types.FrameType]) -> typing.NoReturn:
    """Ends this process by a signal; what it holds is cleared up on the way."""
    raise SystemExit(128 + number)


def usage(words: Sequence[str] = ()) -> int:
    """What the program says of words that are no job, and what would be some."""
    print('doomview: usage', overview(), *([f'explain: {no_such(words)}'] if words else []), sep='\n', file=sys.stderr)
    return jobs.NO_SUCH_WORD


def help_of(words: list[str]) -> int:
    """Prints the page of a job or a tool, or of the command; the status."""
    if not words:
        print(overview())
    elif words[0] in jobs.JOBS:
        print(cli.job_page(jobs.JOBS[words[0]]), end='')
    elif words[0] in TOOLS:
        print(cli.parser_of(tool(words[0])).format_help(), end='')
    else:
        raise Trouble(no_such(words), jobs.NO_SUCH_WORD)
    return 0


def main(words: list[str]) -> int:
    """Runs the command; its status."""
    for number in system.signals('SIGTERM', 'SIGHUP'):
        signal.signal(number, stop)
    try:
        status = answer(words)
        sys.stdout.flush()
        return status
    except Trouble as error:
        print(f'doomview: {error}', file=sys.stderr)
        return error.status
    except KeyboardInterrupt:
        return 128 + signal.SIGINT
    except OSError as error:
        os.dup2(os.open(os.devnull, os.O_WRONLY), 1)  # what is left to write has no place
        if isinstance(error, BrokenPipeError):
            return 128 + system.BROKEN_PIPE
        print(f'doomview: {error.filename or "cannot write the output"}: {error.strerror}', file=sys.stderr)
        return TROUBLE


def answer(words: list[str]) -> int:
    """What the command does with its words; its status."""
    if not words:
        return usage()
    if words in (['--help'], ['-h'], ['--version']):
        print(version() if words == ['--version'] else overview())
        return 0
    if words == ['--completion']:
        print(importlib.import_module('.completion', __package__).script(), end='')
        return 0
    if words[0] == 'help':
        return help_of(words[1:])
    if words == ['--built']:
        return 0 if program.is_built() else 1
    if words == ['--build']:
        return build()
    if words[0] in TOOLS:
        return cli.run(tool(words[0]), words[1:])
    if words[0] in jobs.JOBS and cli.HELP & {*words}:
        return help_of(words)
    return run_job(words)
