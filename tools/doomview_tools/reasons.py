"""Why a view has as many planes, fragments, sprites and solid ranges as it has, as lines for a terminal."""
import collections
import itertools
import typing
from collections.abc import Iterable, Iterator, Sequence, Sized

from . import list_counts, paths
from .doom import FRONT_AND_BACK
from .levels import Level
from .list_counts import Counts
from .list_files import Sums, View
from .map_places import SHOWN_SECTORS, Group, Key, Places, sectors_in_words, some_of
from .paths import Row
from .player_reach import WANTED
from .what_if import Result

SHOWN = 20  # lines of a table
SHOWN_PLACES = 6
SHOWN_CHANGES = 8

Shown = typing.Optional[int]  # the most lines of a table, or None for all


class Made(typing.NamedTuple):
    """What a view made of a group of planes: how many, how many of them as splits, and their columns."""

    planes: int
    splits: int
    columns: int


def count_in_words(name: str, count: int, limit: int) -> str:
    """A count, and how far it is over its limit."""
    name = 'solid ranges' if name == 'solids' else name
    return f'{count} {name}, {count - limit} over {limit}' if count > limit else f'{count} {name} of {limit}'


def counts_of(view: View, walls: View) -> Counts:
    """The counts of a view by name, with its solid walls alone; of one over even a raised limit that count alone."""
    if view.over:
        return dict([view.over])
    sums = sums_of(view)
    return {'planes': sums.planes, 'openings': sums.openings, 'fragments': sums.all_fragments,
            'sprites': sums.all_sprites, 'solids': max((count for *_, count in ranges(walls)), default=list_counts.EDGES)}


def sums_of(view: View) -> Sums:
    """The sums of a view that is over no limit."""
    assert view.sums, 'a view over a limit has no sums'
    return view.sums


def sums_in_words(sums: Sums, counts: Counts, limits: Counts) -> Iterator[str]:
    """The lines on the sums of a view."""
    yield '  ' + '; '.join(count_in_words(name, count, limits[name]) for name, count in counts.items())
    for name, all_of_them, kept in (('fragments', sums.all_fragments, sums.fragments),
                                    ('sprites', sums.all_sprites, sums.sprites)):
        if all_of_them > kept:
            yield f'  {name}: the first {kept} are drawn, {all_of_them - kept} past them are not'


def by_group(view: View, places: Places) -> list[tuple[Group, Made]]:
    """The planes of each height, flat and light: pairs of the group and what was made of it, the most planes first. The
    sectors that made one come first among those of the group."""
    groups: dict[Key, Group] = {}
    made: dict[Key, Made] = {}
    makers: dict[Key, dict[int, None]] = collections.defaultdict(dict)
    for plane in view.planes:
        group = places.group(view, plane)
        groups[group.key] = group
        makers[group.key][places.maker_of(view, plane)[0]] = None
        old = made.get(group.key, Made(0, 0, 0))
        made[group.key] = Made(old.planes + 1, old.splits + (plane.maker == 'fragment'), old.columns + plane.columns)
    order = sorted(made, key=lambda key: (-made[key].planes, -made[key].columns))
    return [(groups[key]._replace(sectors=list(dict.fromkeys([*sorted(makers[key]), *groups[key].sectors]))), made[key])
            for key in order]


def by_line(view: View, places: Places) -> list[tuple[int, int, collections.Counter[str]]]:
    """The splits of each side of a line: triples of the line, the side, and how many of what; the most first."""
    found: dict[tuple[int, int], collections.Counter[str]] = collections.defaultdict(collections.Counter)
    for plane in view.planes:
        if plane.maker == 'fragment':
            seg = places.seg(view.fragments[plane.number].seg)
            found[seg.line, seg.side][group_in_words(places.group(view, plane))] += 1
    order = sorted(found.items(), key=lambda pair: (-sum(pair[1].values()), pair[0]))
    return [(line, side, counts) for (line, side), counts in order]


def sectors_beside(level: Level, line: int, side: int) -> tuple[typing.Optional[int], typing.Optional[int]]:
    """The sectors in front of a side of a line and behind it; the second is None for a wall."""
    numbers = [None if number is None else level.sides[number].sector for number in level.lines[line].sides]
    return numbers[side], numbers[1 - side]


def difference(level: Level, front: typing.Optional[int], back: typing.Optional[int]) -> str:
    """What differs between two sectors, in words."""
    if front is None or back is None:
        return 'a wall'
    one, other = level.sectors[front], level.sectors[back]
    parts = [f'{word} {getattr(one, field)} / {getattr(other, field)}'
             for word, field in (('floor', 'floor'), ('ceiling', 'ceiling'), ('floor', 'floor_flat'),
                                 ('ceiling', 'ceiling_flat'), ('light', 'light'))
             if getattr(one, field) != getattr(other, field)]
    return ', '.join(parts) or 'nothing'


def planes_of_sectors(view: View, places: Places) -> dict[int, int]:
    """How many planes each sector of a view made; 0 for those that are beside its fragments alone."""
    found = collections.Counter({sector: 0 for fragment in view.fragments for seg in [places.seg(fragment.seg)]
                                 for sector in sectors_beside(places.level, seg.line, seg.side) if sector is not None})
    found.update(places.maker_of(view, plane)[0] for plane in view.planes)
    return found


def by_sector(view: View, places: Places) -> list[tuple[int, collections.Counter[int]]]:
    """The fragments of each sector that has some: pairs of the sector and how many each line has there; the most
    first."""
    found: dict[int, collections.Counter[int]] = collections.defaultdict(collections.Counter)
    for fragment in view.fragments:
        found[places.sector_of_fragment(fragment)][places.seg(fragment.seg).line] += 1
    return sorted(found.items(), key=lambda pair: (-sum(pair[1].values()), pair[0]))


def by_type(view: View, places: Places) -> list[tuple[int, list[int]]]:
    """The things that are drawn, by their types: pairs of the type and the numbers of things; the most first."""
    found = collections.defaultdict(list)
    for sprite in view.sprites:
        found[places.level.things[sprite.thing].type].append(sprite.thing)
    return sorted(found.items(), key=lambda pair: (-len(pair[1]), pair[0]))


def ranges(walls: View) -> Iterator[tuple[int, int, int, int]]:
    """The solid walls of a view in order, by a view of these alone: of each its seg, its first and last column, and how
    many solid ranges there are after it."""
    groups = [(seg, list(fragments)) for seg, fragments in itertools.groupby(walls.fragments, lambda one: one.seg)]
    counts = list_counts.range_counts([(one.first, one.last) for one in fragments] for _, fragments in groups)
    for (seg, fragments), count in zip(groups, counts):
        yield seg, fragments[0].first, fragments[-1].last, count


def range_makers(walls: View) -> Iterator[tuple[int, int, int]]:
    """The walls that made a solid range more, up to the most: triples of the seg and its columns."""
    found = list(ranges(walls))
    most = max((count for *_, count in found), default=list_counts.EDGES)
    before = list_counts.EDGES
    for seg, first, last, count in found:
        if count > before:
            yield seg, first, last
        if count == most:
            return
        before = count


def group_in_words(group: Group) -> str:
    """What a group of planes is, in a few words."""
    return 'sky' if group.sides == 'sky' else f'{group.sides} {group.key.flat} at {group.key.height:g}'


def cells_of(group: Group, made: Made) -> list[str]:
    """The cells of a group in the first table."""
    is_sky = group.sides == 'sky'
    height, light = ('-', '-') if is_sky else (f'{group.key.height:g}', str(group.key.light))
    return [*map(str, made), '-' if is_sky else group.key.flat, group.sides, height, light,
            sectors_in_words(group.sectors)]


def table(rows: Sequence[Sequence[str]], is_right: Sequence[bool]) -> Iterator[str]:
    """Rows as lines with their cells under each other; the cells of some columns to the right, and the last free."""
    widths = [max(len(row[k]) for row in rows) for k in range(len(rows[0]) - 1)] + [0]
    for row in rows:
        cells = (cell.rjust(width) if right else cell.ljust(width) for cell, width, right in zip(row, widths, is_right))
        yield '  ' + '  '.join(cells).rstrip()


def reasons(number: int, row: Row, view: View, walls: View, places: Places, shows_all: bool, limits: Counts,
            changes: Iterable[Result] = ()) -> Iterator[str]:
    """The lines on a view; `walls` is the view of its solid walls alone, `changes` are the results of what-ifs."""
    yield f'view {number}: {paths.in_words(row)}'
    if view.over:
        yield f'  more than {view.over[1] - 1} {view.over[0]}, the most that doomview counts'
        return
    counts = counts_of(view, walls)
    yield from sums_in_words(sums_of(view), counts, limits)
    shown = None if shows_all else SHOWN
    for part in (plane_table, split_table, fragment_table, sprite_table):
        yield from part(view, places, shown)
    yield from range_table(walls, places, shown)
    yield from change_table(changes, counts, shows_all)


def plane_table(view: View, places: Places, shown: Shown) -> Iterator[str]:
    """The planes by height, flat and light."""
    groups = by_group(view, places)
    rows = [cells_of(group, made) for group, made in groups[:shown]]
    left = groups[len(rows):]
    yield from lines_of(['planes', 'splits', 'columns', 'flat', 'of', 'height', 'light', 'sectors'], rows,
                        [True, True, True, False, False, True, True, False])
    yield from lines_not_shown(left, sum(made.planes for _, made in left), 'planes')


def split_table(view: View, places: Places, shown: Shown) -> Iterator[str]:
    """The splits by line and side, with what differs between the sectors beside it."""
    found = by_line(view, places)
    rows = []
    for line, side, counts in found[:shown]:
        front, back = sectors_beside(places.level, line, side)
        what = ', '.join(what + (f' ({count})' if count > 1 else '') for what, count in counts.most_common())
        rows.append([str(sum(counts.values())), str(line), FRONT_AND_BACK[side], f'{front}' if back is None else
                     f'{front} | {back}', difference(places.level, front, back), what])
    left = found[len(rows):]
    yield from lines_of(['splits', 'line', 'side', 'sectors', 'what differs', 'of'], rows,
                        [True, True, False, False, False, False])
    yield from lines_not_shown(left, sum(sum(counts.values()) for *_, counts in left), 'splits')


def fragment_table(view: View, places: Places, shown: Shown) -> Iterator[str]:
    """The fragments by sector and line."""
    found = by_sector(view, places)
    rows = [[str(sum(lines.values())), str(sector), some_of(
        [f'{line} ({count})' if count > 1 else str(line) for line, count in lines.most_common()], SHOWN_PLACES)]
        for sector, lines in found[:shown]]
    left = found[len(rows):]
    yield from lines_of(['fragments', 'sector', 'lines'], rows, [True, True, False])
    yield from lines_not_shown(left, sum(sum(lines.values()) for _, lines in left), 'fragments')


def sprite_table(view: View, places: Places, shown: Shown) -> Iterator[str]:
    """The sprites by type and place."""
    found = by_type(view, places)
    things = places.level.things
    rows = [[str(len(numbers)), str(kind), WANTED.get(kind, '-'), some_of(
        [f'thing {number} at {things[number].x},{things[number].y}' for number in numbers], SHOWN_PLACES)]
        for kind, numbers in found[:shown]]
    left = found[len(rows):]
    yield from lines_of(['sprites', 'type', 'what', 'places'], rows, [True, True, False, False])
    yield from lines_not_shown(left, sum(len(numbers) for _, numbers in left), 'sprites')


def range_table(walls: View, places: Places, shown: Shown) -> Iterator[str]:
    """The walls that made solid ranges."""
    found = list(range_makers(walls))
    rows = [[str(places.level.segs[seg].line), f'{first} to {last}'] for seg, first, last in found[:shown]]
    yield from lines_of(['solid range of line', 'columns'], rows, [True, False])
    yield from lines_not_shown(found[len(rows):], len(found) - len(rows), 'solid ranges')


def change_table(results: Iterable[Result], counts: Counts, shows_all: bool) -> Iterator[str]:
    """What the view would count after each of some changes; those alone that save planes or fragments."""
    names = ['planes', 'fragments']
    found = [result for result in results if any(result.counts[name] < counts[name] for name in names)]
    rows = [[cell for name in names for cell in (str(counts[name] - result.counts[name]), str(result.counts[name]))]
            + [result.change.in_words(sectors_in_words(
                result.change.sectors, len(result.change.sectors) if shows_all else SHOWN_SECTORS))]
            for result in found[:None if shows_all else SHOWN_CHANGES]]
    yield from lines_of(['saves', 'planes', 'saves', 'fragments', 'what if there were'], rows, [True] * 4 + [False])


def lines_of(head: list[str], rows: list[list[str]], is_right: list[bool]) -> Iterator[str]:
    """The lines of a table, after an empty one; none if it has no rows."""
    if rows:
        yield ''
        yield from table([head, *rows], is_right)


def lines_not_shown(left: Sized, count: int, what: str) -> Iterator[str]:
    """A line on the lines of a table that are not shown."""
    if left:
        yield f'  {count} more {what} in {len(left)} lines that --all shows'
