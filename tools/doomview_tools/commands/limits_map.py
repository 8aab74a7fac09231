"""doomview limits-map: what the views of a whole map count."""
import argparse
import json
import math
import os
import re
import tempfile
import typing
from collections.abc import Iterator

from .. import art, cli, cli_limits, earlier_run, ground, levels, paths, player_reach, system, wads
from ..cells import Cell, Grid
from ..counting import COUNTS, Going, Progress, Runs
from ..earlier_run import Change, Numbers
from ..files import Folder, Output, Source, write_output, write_whole
from ..index_page import index_page
from ..levels import Level
from ..limits_page import State, limits_page
from ..list_counts import Counts
from ..trouble import FOUND, TROUBLE, Trouble
from ..walls import walls_alone

LEAST_STEP, MOST_STEP = 8, 1024
SHOWN = 3  # things of a sector
NUMBERS = re.compile(r'\[\n[-\d,\s]+\]')  # a list of numbers in JSON, each in a line of its own
WITHOUT = ('--path', '--planes', '--openings', '--weapon')  # options of limits that the tool gives itself, or not
PAGE = cli.Page(
    'limits-map', 'where the views of a whole map, or of all maps, come to a limit; as a page', '''
Counts what the views of a whole map have: planes, openings, fragments and sprites, as doomview limits counts them,
and prints of each count the greatest with the row of its view. The original ends at more than 128 planes or 20,480
openings, and does not draw walls and sprites past 256 fragments and 128 sprites. It ends too at more than 32 solid
ranges of columns that walls have filled: these are counted by what doomview list says of the solid walls alone, from each
place in the one or two directions with the most fragments.

It looks from places of a grid at which a player can stand: within the lines, 56 units of height, 16 off the walls, in
sectors to which a way leads from a start, the eye 41 over the floor, in 8 directions. A way leads over steps of up to
24 units, down falls of any depth, over gaps that a running jump passes (242 units wide to a floor of the same height),
through what moves, has a tag or a special, and by teleports. A sector with a thing that a player wants (a key, a
weapon, health) is looked at too though no way to it was found, and is named. Places with high counts are cut
in four, twice, and looked at in 16. All is counted a second time with the doors open: each sector without height that
has a tag, or is behind a line with a special, is raised to 4 under the lowest ceiling beside it. A view that was counted
so has these counts in that map alone, which --opened writes.

OUT.html is a page of one file: the map with its places, light for few and dark for many, black where a view is over a
limit; the worst views with their pictures, and of what their planes, fragments and sprites are; and the row of a view
for a path, to copy. Keys and mouse work, and the page says which.
''', '''
$ doomview limits-map freedoom2.wad MAP01 map01.html
$ doomview limits-map --iwad freedoom2.wad mymap.wad MAP01 --json
$ doomview limits-map freedoom2.wad MAP12 --planes 256 --worst worst.csv --opened open.wad
$ doomview limits-map --iwad freedoom2.wad mymaps.wad --all-maps pages
''', 'the program', '''
 0  no view is over a limit
 1  some are; with --before, something over a limit got worse
 2  the map is refused, or the tool could not begin; sentences say why
 other statuses are those of doomview limits
''', more='MAPS.md')


def add_words(parser: argparse.ArgumentParser) -> None:
    cli.add_level(parser, is_needed=False)
    parser.add_argument('page', metavar='OUT.html', type=Output, nargs='?', help='the page, whose name ends in .html')
    parser.add_argument('--all-maps', metavar='FOLDER', type=Folder, help='looks at all maps of the WAD, prints a line for '
                        'each, and writes a page of each and an index.html to FOLDER')
    parser.add_argument('--json', action='store_true', help='prints the numbers as JSON; with --all-maps each map in a '
                        'line')
    parser.add_argument('--before', metavar='OLD.json', type=Source, help='what --json wrote earlier: says what got worse or '
                        'better since and at which places, also on the page; looks from the same grid, with the --step and '
                        'the --directions of that run')
    parser.add_argument('--worst', metavar='FILE', type=Output, help='writes the worst views of each count as a camera path '
                        'to FILE')
    parser.add_argument('--opened', metavar='FILE', type=Output, help='writes the map with its doors open as a WAD to FILE, '
                        'which goes behind the WADs of a job')
    parser.add_argument('--all', action='store_true',
                        help='looks from places to which no way leads from a start, too; the page strikes them through')
    parser.add_argument('--shut', action='store_true', help='leaves the doors shut, and does not count a second time')
    cli_limits.add_words(parser)
    parser.add_argument('--step', metavar='N', type=cli.number(LEAST_STEP, MOST_STEP), default=64,
                        help=f'map units between places, a multiple of {LEAST_STEP}; else 64, or more on a large map')
    parser.add_argument('--directions', metavar='N', type=cli.number(1, 64), default=8,
                        help='in how many directions to look; else 8')
    parser.add_argument('--views', metavar='N', type=cli.number(1, 20), default=6,
                        help='how many of the worst views of each count; else 6')
    parser.add_argument('--jobs', metavar='N', type=cli.number(1, 1000), default=system.processors(),
                        help='how many runs at a time; else one a processor')
    cli.add_job_options(parser, 'limits', WITHOUT)


def check(options: argparse.Namespace) -> None:
    """A Trouble where the words cannot do, before anything is counted."""
    if options.all_maps and (options.map or options.worst or options.opened):
        raise Trouble('--all-maps looks at all maps of a WAD; name no map, page, --worst or --opened beside it')
    if not options.all_maps and not options.map:
        raise Trouble('name a map, or a folder for the pages of all maps by --all-maps FOLDER')
    if options.step % LEAST_STEP:
        raise Trouble(f'--step is a multiple of {LEAST_STEP}, and {options.step} is none')
    if options.page is not None and not options.page.endswith('.html'):
        raise Trouble(f'the name of the page has to end in .html, and {options.page} does not')


def numbers(plan: ground.Plan, states: list[State], options: argparse.Namespace) -> Numbers:
    """All numbers of the summary."""
    def of_count(grid: Grid, name: str) -> Numbers:
        worst = grid.worst(name, 1)
        return {'most': worst[0][0] if worst else 0, 'limit': options.limits[name], 'over': grid.over[name],
                'row': list(worst[0][1][:4]) if worst else None}
    shown = [{'doors': state.label, 'places': len(state.grid.cells), 'views': state.grid.views,
              'step': state.grid.step, 'counts': {name: of_count(state.grid, name) for name in COUNTS},
              'squares': list(map(square, state.grid.cells))} for state in states]
    return {'map': plan.level.name, 'wad': plan.level.wad, 'sectors': len(plan.level.sectors),
            'reached': len(states[0].grid.reached), 'no_way': no_way(plan.level, states[0].grid.wanted),
            'over': any(state.grid.is_bad() for state in states), 'directions': options.directions, 'states': shown}


def square(cell: Cell) -> list[int]:
    """A cell as JSON has it: its x and y, the side of its square, and its counts."""
    return [cell.x, math.floor(cell.y), cell.size, *map(cell.count, COUNTS)]


def json_of(found: Numbers) -> str:
    """The numbers of a map as JSON, with a line for each square."""
    return NUMBERS.sub(lambda numbers: ' '.join(numbers[0].split()), json.dumps(found, indent=1))


def no_way(level: Level, wanted: player_reach.Wanted) -> list[Numbers]:
    """The sectors with things that a player wants and to which no way was found, with these things."""
    return [{'sector': sector, 'things': [{'thing': number, 'what': player_reach.WANTED[level.things[number].type]}
                                          for number in things]} for sector, things in wanted.items()]


def summary(found: Numbers) -> Iterator[str]:
    """The numbers as lines for a user."""
    name = os.path.basename(found['wad'])
    yield f'{found["map"]} of {name}: a player reaches {found["reached"]} of its {found["sectors"]} sectors'
    for one in found['no_way']:
        yield f'no way was found to sector {one["sector"]}, which is looked at all the same: {things_in_words(one)}'
    for state in found['states']:
        yield f'doors {state["doors"]}: {state["views"]} views from {state["places"]} places'
        for name, count in state['counts'].items():
            over = f'{count["over"]} view{"s" * (count["over"] > 1)} over' if count['over'] else 'none over'
            row = ','.join(map(str, count['row'])) if count['row'] else '-'
            yield f'  {name:9} most {count["most"]} of {count["limit"]}, {over}, row {row}'
    yield from found.get('before', ())


def things_in_words(one: Numbers) -> str:
    """The things of a sector, in words."""
    shown = [f'{thing["what"]} (thing {thing["thing"]})' for thing in one['things'][:SHOWN]]
    more = len(one['things']) - SHOWN
    return ', '.join(shown) + (f' and {more} more' if more > 0 else '')


def states_of(plan: ground.Plan, runs: Runs, options: argparse.Namespace, folder: str,
              before: Numbers) -> tuple[list[State], dict[int, int]]:
    """The map with its doors shut, and open unless that is left out; from the grid of an earlier run, if there is one."""
    reach, doors = player_reach.reach(plan), plan.doors()
    if not reach.sectors and not options.all:
        raise plan.level.error('has no start of a player; --all looks from all places')
    plans = [('shut', plan, runs)]
    if doors and not options.shut:
        path = file_of(folder, 'open.wad', ground.with_ceilings(plan.level, doors))
        plans.append(('open', ground.Plan(levels.read([path], plan.level.name)), runs.over(options.files, path)))
    found = []
    for label, plan_so, runs_so in plans:
        walls = runs.over(options.files, file_of(folder, f'{label}-walls.wad', walls_alone(plan_so.level)))
        start = earlier_run.start_of(before, label)
        grid = Grid(ground.Ground(plan_so), runs_so, walls, reach, options, f'doors {label}, ', start)
        found.append(State(label, grid, runs_so))
    if not any(state.grid.cells for state in found):
        raise plan.level.error('has no place with room for a player')
    return found, doors


def file_of(folder: str, name: str, data: bytes) -> str:
    """The path of a file of a folder, which is written."""
    path = os.path.join(folder, name)
    write_whole(path, data)
    return path


def worst_path(states: list[State], options: argparse.Namespace) -> str:
    """The worst views of all counts as a camera path, each once."""
    rows = [row for state in states for row in state.views(options.views)[0]]
    return paths.text(list(dict.fromkeys(rows)))


def run(options: argparse.Namespace) -> int:
    options.files = cli.wads_of(options)
    check(options)
    wads.check_game(options.files)
    options.limits = cli_limits.limits_of(options)
    options.earlier = earlier_run.numbers_of(options.before) if options.before else {}
    if options.all_maps:
        return run_all(options)
    found, lines = look(options)
    write_output(json_of(found) + '\n' if options.json else lines)
    return status_of(found)


def status_of(found: Numbers) -> int:
    """The status for the numbers of a map: beside an earlier run, whether something over a limit got worse."""
    return FOUND if found.get('worse', found['over']) else 0


def run_all(options: argparse.Namespace) -> int:
    """Looks at all maps of the WAD, prints a line for each and writes their pages and an index; the status."""
    make_folder(options.all_maps)
    own, status = wads.find(options.wad), 0
    found: dict[str, typing.Union[Numbers, str]] = {}  # of a map its numbers, or why there are none
    for name in wads.maps_of([own]):
        options.map, options.page = name, os.path.join(options.all_maps, f'{name}.html')
        try:
            of_map, _ = look(options)
            line, now = line_of(name, of_map), status_of(of_map)
            found[name] = of_map
        except Trouble as error:
            trouble = str(error) or 'refused'
            line, now = f'{name} {trouble}', TROUBLE
            found[name], of_map = trouble, {'map': name, 'trouble': trouble}
        write_output(f'{json.dumps(of_map) if options.json else line}\n')
        status = max(status, now)
    index = index_page(os.path.basename(own), found, options.limits)
    write_whole(os.path.join(options.all_maps, 'index.html'), index)
    return status


def make_folder(path: str) -> None:
    """A folder for pages; a Trouble where there can be none."""
    try:
        os.makedirs(path, exist_ok=True)
    except OSError as error:
        raise Trouble(f'cannot make the folder {path}: {error.strerror}') from error


def line_of(name: str, found: Numbers) -> str:
    """The numbers of a map as one line: the greatest counts with the doors shut, and open."""
    counts = [[state['counts'][count] for state in found['states']] for count in COUNTS]
    parts = [f'{count} {"/".join(str(one["most"]) for one in of)}{" over" if any(one["over"] for one in of) else ""}'
             for count, of in zip(COUNTS, counts)]
    worse = f'; {"worse" if found["worse"] else "no worse"} than before' if 'worse' in found else ''
    return f'{name} {", ".join(parts)}{worse}'


def look(options: argparse.Namespace) -> tuple[Numbers, str]:
    """Looks at a map and writes the files; its numbers, and these as lines."""
    progress = Progress('limits-map')
    with tempfile.TemporaryDirectory(prefix='doomview-') as folder:
        going = Going(folder, options.jobs, progress)
        try:
            return look_by(Runs.over_map(options.map, options.files, cli.job_words(options), going), options)
        finally:
            going.stop()
            progress.clear()


def look_by(runs: Runs, options: argparse.Namespace) -> tuple[Numbers, str]:
    """The same by runs of the program."""
    runs.check()
    level = cli.level_of(options, options.files)
    level.check_whole()
    plan, before = ground.Plan(level), options.earlier.get(level.name, {})
    if options.before and not options.all_maps and not before:
        raise Trouble(f'{options.before} has no numbers of {level.name}')
    options = argparse.Namespace(**{**vars(options), 'directions': before.get('directions', options.directions)})
    states, doors = states_of(plan, runs, options, runs.going.folder, before)
    found = numbers(plan, states, options)
    changes = compare(found, before, options.limits) if before else []
    lines = ''.join(f'{line}\n' for line in summary(found))
    runs.going.progress.tell('drawing the worst views')
    if options.page:
        palette = art.palette_of(dict(lump for path in options.files for lump in wads.read(path)))
        write_whole(options.page, limits_page(plan, options.files, states, palette, options, doors, lines,
                                              found.get('before', []), changes))
    if options.opened:
        write_whole(options.opened, ground.with_ceilings(plan.level, doors))
    if options.worst:
        write_whole(options.worst, worst_path(states, options).encode())
    return found, lines


def compare(found: Numbers, before: Numbers, limits: Counts) -> list[Change]:
    """Adds to the numbers of a map what differs from an earlier run; its changes place by place."""
    comparison = earlier_run.comparison_of(before, found, limits)
    found['before'], found['worse'] = comparison.lines, comparison.is_worse
    found['changes'] = [change._asdict() for change in comparison.changes]
    return comparison.changes
