"""doomview lint: all that looks like a mistake in a map."""
import argparse
import os
import re
import sys
import tempfile
from collections.abc import Iterable

from .. import checks, cli, explanations, paths, program, wads
from ..files import write_output, write_whole
from ..findings import COUNTED, GRADES, Finding
from ..refusals import CHECKS
from ..trouble import FOUND, TROUBLE, Trouble

PAGE = cli.Page(
    'lint', 'all that looks like a mistake in a map, or how much in each map of a WAD', '''
Prints a line for each thing in a map that looks like a mistake: how grave it is, what it is about, where, and a
sentence. The grade says what it does to the status. If no map is named, it prints a line for each map of the WAD, with
the number of lines of each grade.

error, status 1: doomview refuses the map, or the original ends there or reads past the data of the map. Textures, flats
and patches that there are not, with what may be meant; flats that the original does not find between the last F_START
and the last F_END; a TEXTURE1 or PNAMES that hides the game's; two-sided middle textures of several patches (Medusa);
lines without a front side; doors without a back side; things of unknown types, or without their picture; unknown specials
of sectors that a player enters; more than 64 lines that scroll; an empty BLOCKMAP; no BLOCKMAP or REJECT; no start of
player 1.

hole, status 1: a part of a wall that a player can see has no texture.

fault, status 1: the map does not do there what it was made for. Sectors that are not closed; things outside the level;
lines that are two-sided and have no back side; a special whose tag no sector has, or without a tag; a teleport without
a destination; an empty or short REJECT.

odd, status 0, with --strict 1: walls higher than their texture, where rows of other pictures show (tutti-frutti); parts
without a texture that are seen from afar at most; lines without length, or with two sides that are not two-sided; a
ceiling below its floor; what there is of the above where no player comes.

Lines, sectors and things are counted from 0, as in map editors. Where the program is built, it audits the map too, and
what keeps a view from being drawn follows on standard error. What the game does while it runs is not looked at: how many
lifts, crushers or buttons move at once. Limits of a view: doomview limits-map.
''', '''
$ doomview lint freedoom2.wad MAP01
$ doomview lint --iwad freedoom2.wad mymap.wad MAP01 --strict
$ doomview lint --iwad freedoom2.wad --file textures.wad mymaps.wad
''', 'Python alone; to audit the map too, the program', '''
 0  there is no error, hole or fault; with --strict nothing odd either
 1  there are some
 2  the map cannot be read, and a sentence says why
''', more='MAPS.md')


def add_words(parser: argparse.ArgumentParser) -> None:
    cli.add_level(parser, is_needed=False)
    parser.add_argument('--strict', action='store_true', help='what is odd counts for the status too')


def line_of(finding: Finding) -> str:
    """The line on a finding."""
    return f'{finding.grade} {finding.what}: {finding.where}: {finding.told}'


def status_of(found: Iterable[Finding], is_strict: bool = False) -> int:
    """The status for what the checks found."""
    return FOUND if any(is_strict or finding.grade in COUNTED for finding in found) else 0


def refusal(name: str, files: list[str]) -> int:
    """What the audit says of a map that cannot be read; nothing for what the checks list themselves."""
    with tempfile.TemporaryDirectory(prefix='doomview-') as folder:
        path = os.path.join(folder, 'path.csv')
        write_whole(path, paths.text([]).encode())
        words = ['audit', name, *files, '--path', path]
        done = program.run(words)
        found = re.match(r'doomview: refused (\d+)', done.line)
        if found and int(found[1]) not in CHECKS:
            sys.stderr.write(done.said)
            explanations.tell(done.line, words)
            return TROUBLE
    return 0


def counts_told(found: list[Finding]) -> str:
    """How many findings there are of each grade, in words."""
    return ' '.join(f'{grade} {sum(finding.grade == grade for finding in found)}' for grade in GRADES)


def all_maps(options: argparse.Namespace, files: list[str]) -> int:
    """Prints a line for each map of the WAD; the greatest status."""
    worst = 0
    for name in wads.maps_of([wads.find(options.wad)]):
        options.map = name
        try:
            found, status = findings_of(options, files)
            told = counts_told(found)
        except Trouble as error:
            told, status = f'cannot be read: {error}', TROUBLE
        write_output(f'{name} {told}\n')
        worst = max(worst, status)
    return worst


def findings_of(options: argparse.Namespace, files: list[str]) -> tuple[list[Finding], int]:
    """What the checks find in a map, and the status."""
    level = cli.level_of(options, files)
    level.check_whole()
    found = list(checks.findings(level, files))
    status = refusal(level.name, files) if program.is_built() else 0
    return found, status or status_of(found, options.strict)


def run(options: argparse.Namespace) -> int:
    files = cli.wads_of(options)
    wads.check_game(files)
    if options.map is None:
        return all_maps(options, files)
    found, status = findings_of(options, files)
    write_output(''.join(line_of(finding) + '\n' for finding in found))
    return status
