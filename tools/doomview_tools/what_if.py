"""What a view would count if some of its sectors were alike: each change is drawn, and counted.

A change gives the sectors of a view that have one value of a field another one, which sectors there have already."""
import collections
import os
import struct
import typing
from collections.abc import Iterator

from . import levels, list_counts, paths, program
from .counting import RAISED
from .doom import LAYOUTS, SKY
from .files import write_whole

FIELDS = {'light': 'light', 'floor_flat': 'floor flat', 'ceiling_flat': 'ceiling flat', 'floor': 'floor height',
          'ceiling': 'ceiling height'}
HEIGHTS = {'floor', 'ceiling'}
GOALS = 2  # values to which a value is changed
MOST_DRAWN = 40


Words = tuple[list[str], list[str]]  # of `list`, up to the last WAD, and the rest


class Change(typing.NamedTuple):
    """A value of a field that some sectors get; `before` is what they had, or None for several values."""

    field: str
    before: object
    after: typing.Any  # a number, or the name of a flat
    sectors: tuple[int, ...]

    def in_words(self, sectors: str) -> str:
        """The change in words."""
        before = 'all others' if self.before is None else self.before
        return f'{FIELDS[self.field]} {self.after} for {before} in {sectors}'


class Result(typing.NamedTuple):
    """What a view counts after a change."""

    change: Change
    counts: dict[str, int]


Weighed = tuple[int, Change]  # a change with the planes that its sectors made


def with_change(level: levels.Level, change: Change) -> bytes:
    """The bytes of a PWAD of a level alone, with a change."""
    layout, data = struct.Struct(LAYOUTS['SECTORS']), bytearray(level.lumps['SECTORS'])
    for number in change.sectors:
        sector = level.sectors[number]._replace(**{change.field: change.after})
        layout.pack_into(data, layout.size * number, *(
            value.encode('latin-1') if isinstance(value, str) else value for value in sector))
    return levels.alone(level, {'SECTORS': bytes(data)})


def changes(level: levels.Level, planes_of: dict[int, int]) -> list[Change]:
    """The changes that may save most, by how many planes of a view each sector made: the most first."""
    found = [change for field in FIELDS for change in changes_of(level, planes_of, field)]
    return [change for _, change in sorted(found, key=lambda pair: -pair[0])[:MOST_DRAWN]]


def changes_of(level: levels.Level, planes_of: dict[int, int], field: str) -> Iterator[Weighed]:
    """The changes of a field, each with the planes that its sectors made."""
    having = collections.defaultdict(list)
    for number in planes_of:
        having[getattr(level.sectors[number], field)].append(number)
    weights = collections.Counter({value: sum(planes_of[number] for number in numbers)
                                   for value, numbers in having.items() if value != SKY})
    for value, weight in weights.items():
        for goal in goals_of(weights, field, value):
            yield from with_weight(level, Change(field, value, goal, tuple(having[value])), weight)
    most = weights.most_common(1)[0][0] if weights else None
    rest = tuple(number for value in weights if value != most for number in having[value])
    if rest and field not in HEIGHTS:
        yield from with_weight(level, Change(field, None, most, rest), sum(weights.values()))


def goals_of(weights: collections.Counter[typing.Any], field: str, value: typing.Any) -> list[typing.Any]:
    """The values to which a value of a field may be changed: the nearest heights and lights, the flats of most planes;
    and the light of most."""
    others = [other for other, _ in weights.most_common() if other != value]
    if isinstance(value, str):
        return others[:GOALS]
    near = sorted(others, key=lambda other: abs(other - value))[:GOALS]
    return near if field in HEIGHTS else list(dict.fromkeys([*near, *others[:1]]))


def has_room(sector: levels.Sector, change: Change) -> bool:
    """Whether the floor of a sector stays below its ceiling by a change, or is not below it now."""
    changed = sector._replace(**{change.field: change.after})
    return changed.ceiling > changed.floor or sector.ceiling <= sector.floor


def with_weight(level: levels.Level, change: Change, weight: int) -> Iterator[Weighed]:
    """A change with its weight, of the sectors whose floor stays below their ceiling; none if there are none."""
    sectors = tuple(number for number in change.sectors if has_room(level.sectors[number], change))
    if sectors:
        yield weight, change._replace(sectors=sectors)


def count_with(words: Words, level: levels.Level, row: paths.Row, change: Change,
               folder: str) -> typing.Optional[dict[str, int]]:
    """The counts of a view after a change; `words` are those of `list` without its path, up to the last WAD, and the
    rest."""
    before, behind = words
    wad, path = os.path.join(folder, 'changed.wad'), os.path.join(folder, 'changed.csv')
    write_whole(wad, with_change(level, change))
    write_whole(path, paths.text([row]).encode())
    done = program.run(['list', *before, wad, *RAISED, *behind, '--path', path])
    return next(list_counts.counts_of(done.output), None) if not done.status else None


def results(words: Words, level: levels.Level, row: paths.Row, planes_of: dict[int, int], folder: str,
            by: str = 'planes') -> list[Result]:
    """What a view counts after each change that saves something, the greatest saving of a count first."""
    counted = ((change, count_with(words, level, row, change, folder)) for change in changes(level, planes_of))
    found = [Result(change, counts) for change, counts in counted if counts and by in counts]
    return sorted(found, key=lambda result: (result.counts[by], len(result.change.sectors)))
