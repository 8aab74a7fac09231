"""Completions for bash, made of the words of the jobs and tools, so that each option is there and no other."""
from collections.abc import Iterator

from . import cli, command, job_options, jobs

MOST_VALUES = 12  # of a number that are offered
NAME = 'share/bash-completion/completions/doomview'  # the place in a release, where bash-completion looks
SCRIPT = '''\
# Completions of doomview for bash, made by `doomview --completion`: source this file, or <(doomview --completion).
_doomview() {{
    local word=${{COMP_WORDS[COMP_CWORD]}} before=${{COMP_WORDS[COMP_CWORD - 1]}} name=${{COMP_WORDS[1]}} words=
    COMPREPLY=()
    if [ "$COMP_CWORD" -eq 1 ]; then
        COMPREPLY=($(compgen -W '{first}' -- "$word"))
        return
    fi
    case "$name $before" in
{values}
    esac
    if [ -z "$words" ]; then
        case "$name $word" in
{options}
        esac
    fi
    [ -z "$words" ] || COMPREPLY=($(compgen -W "$words" -- "$word"))
}}
complete -o bashdefault -o default -F _doomview doomview
'''


def names() -> list[str]:
    """All first words: jobs, tools, and the options of the command itself."""
    own = [option.name for option in job_options.OWN_OPTIONS if not option.jobs]
    return [*jobs.JOBS, *command.TOOLS, 'help', *own]


def options_of(name: str) -> list[str]:
    """The options of a job or a tool."""
    if name in jobs.JOBS:
        own = [option.name for option in job_options.OWN_OPTIONS if option.jobs in ('all', name)]
        return [*(option.name for option in job_options.options_of(name)), *own, '--help']
    return [option for argument in cli.parser_of(command.tool(name)).arguments for option in argument.names]


def values_of(option: job_options.Option) -> list[str]:
    """The values of an option of the program, where they are few."""
    if option.least is not None and option.greatest is not None and option.greatest - option.least < MOST_VALUES:
        return [str(value) for value in range(option.least, option.greatest + 1)]
    return job_options.CHOICES.get(option.name, [])


def values() -> Iterator[tuple[list[str], list[str]]]:
    """Pairs of a name with a word before, of which there may be several, and the words that may follow."""
    everything = [*jobs.JOBS, *command.TOOLS]
    yield ['help help', 'explain explain'], everything
    for option in job_options.options().values():
        if values_of(option):
            yield [f'{name} {option.name}' for name in everything if option.name in options_of(name)], values_of(option)
    for name in command.TOOLS:
        for argument in cli.parser_of(command.tool(name)).arguments:
            if argument.choices:
                yield [f'{name} {before}' for before in argument.names or [name]], list(argument.choices)


def script() -> str:
    """The script."""
    by_value = '\n'.join(f'        {" | ".join(map(quoted, before))}) words={quoted(" ".join(after))} ;;'
                         for before, after in values())
    by_name = '\n'.join(f"            '{name} -'*) words={quoted(' '.join(options_of(name)))} ;;"
                        for name in [*jobs.JOBS, *command.TOOLS])
    return SCRIPT.format(first=' '.join(names()), values=by_value, options=by_name)


def quoted(text: str) -> str:
    return f"'{text}'"
