"""The page of limits-map: the cells of a map, its worst views, and pictures of them."""
import argparse
import collections
import os
import sys
import typing
from collections.abc import Iterable, Iterator, Sequence

from . import traces
from .cells import Cell, Grid
from .checks import findings
from .counting import COUNTS, Runs
from .earlier_run import Change
from .findings import GRADES, places
from .frames import HEIGHT, SIZE, WIDTH
from .ground import Plan
from .levels import Level
from .pages import Column, columns, json_of, page, picture
from .paths import Row

TEMPLATE = 'limits_map.html'
MOST_BYTES = 3000000
WORDS = 40  # bytes of a view's words for its pictures
SMALL_PICTURES = 60
MOST_MARKS, MOST_CHANGES = 500, 3000
PLANE_KINDS = (traces.PLANE, traces.SKY)  # of painters
NO_PLANE = 255
COUNT_OF = {kind: f'{thing}s' for kind, (_, thing) in traces.KINDS.items() if f'{thing}s' in COUNTS}  # by painters
SHOWN_NAMES = 8
PLANE_COLOURS = bytes(255 if i == NO_PLANE else ((i + 1) * factor) % 200 + 40
                      for i in range(256) for factor in (83, 149, 47))

Pictures = dict[str, tuple[str, str, str]]  # by kind, each in the sizes of `sizes_of`
Shown = dict[str, typing.Any]  # a view, as the page has it
NameCount = tuple[str, int]  # a name, and how many numbers it has
Small = tuple[tuple[int, int, int, int], str]  # a row, and its picture
Mark = tuple[str, str, list[tuple[float, float]]]  # a grade, a line, and places


def planes_of(trace: bytes) -> bytes:
    """The pixels of a view, each the number of its plane or NO_PLANE."""
    kinds, numbers = trace[::traces.RECORD.size], trace[2::traces.RECORD.size]
    return bytes(number % NO_PLANE if kind in PLANE_KINDS else NO_PLANE for kind, number in zip(kinds, numbers))


def names_in(trace: bytes, names: traces.Names) -> dict[str, tuple[int, int, list[NameCount]]]:
    """Of each count how many have a pixel in a view, how many names they have, and those of most: name and number."""
    found: dict[str, dict[str, set[int]]] = collections.defaultdict(lambda: collections.defaultdict(set))
    for record in set(memoryview(trace).cast('Q')):
        kind, source_kind, number, source, _, _ = traces.RECORD.unpack(record.to_bytes(8, sys.byteorder))
        if kind in COUNT_OF:
            found[COUNT_OF[kind]][names.source_of(traces.Painter(kind, source_kind, source)).name].add(number)
    return {count: (len(set().union(*of_names.values())), len(of_names), most_numbers(of_names))
            for count, of_names in found.items()}


def most_numbers(found: dict[str, set[int]]) -> list[NameCount]:
    """The names that have the most numbers, each with how many."""
    order = sorted(found, key=lambda name: (-len(found[name]), name))
    return [(name, len(found[name])) for name in order[:SHOWN_NAMES]]


def half_picture(frame: bytes, palette: bytes) -> str:
    """A frame as a page has it, of half the width and height."""
    halved = b''.join(frame[WIDTH * row:WIDTH * (row + 1):2] for row in range(0, HEIGHT, 2))
    return picture(halved, palette, WIDTH // 2, HEIGHT // 2)


def sizes_of(frame: typing.Optional[bytes], palette: bytes) -> tuple[str, str, str]:
    """A frame as a page may have it: whole, of half the width and height, or not at all."""
    return (picture(frame, palette), half_picture(frame, palette), '') if frame else ('', '', '')


def row_of_cell(cell: Cell) -> list[int]:
    """A cell as the page has it: of each count the greatest number, and its direction."""
    numbers = [part for name in COUNTS for part in cell.most.get(name, (0, 0))]
    return [cell.x, int(cell.y - .5), cell.size, cell.floor, cell.sector, int(cell.is_reached), *numbers]


class State:
    """The map with its doors shut or open: its grid, and the runs over it."""

    def __init__(self, label: str, grid: Grid, runs: Runs) -> None:
        self.label, self.grid, self.runs = label, grid, runs

    def views(self, most: int) -> tuple[list[Row], dict[str, list[int]]]:
        """The worst views of each count, and of each count the places of its own among them."""
        rows: dict[Row, int] = {}
        order = {name: [rows.setdefault(row, len(rows)) for _, row in self.grid.worst(name, most)] for name in COUNTS}
        return list(rows), order

    def data(self, names: traces.Names, most: int) -> Shown:
        """What the page has of it, but for the pictures."""
        self.rows, self.order = self.views(most)
        self.traces = self.runs.views('trace', self.rows, traces.VIEW_SIZE)
        found = zip(self.rows, self.runs.counts_by_list(self.rows), self.grid.walls.ranges(self.rows), self.traces)
        self.shown: list[Shown] = [
            {'row': row[:4], 'counts': {**counts, 'solids': solids} if 'fragments' in counts else counts,
             'seen': trace and names_in(trace, names)} for row, counts, solids, trace in found]
        cells = sorted(self.grid.cells, key=lambda cell: -cell.size)
        return {'label': self.label, 'cells': columns(map(row_of_cell, cells)), 'views': self.shown,
                'order': self.order, 'small': [], 'looked': self.grid.views, 'over': self.grid.over,
                'step': self.grid.step}

    def pictures(self, palette: bytes) -> Iterator[tuple[int, Shown, Pictures]]:
        """Of each worst view its place in the order of its count, itself, and its pictures in all sizes."""
        frames = self.runs.views('render', self.rows, SIZE)
        for number, (view, frame, trace) in enumerate(zip(self.shown, frames, self.traces)):
            rank = min(order.index(number) for order in self.order.values() if number in order)
            yield rank, view, {'picture': sizes_of(frame, palette),
                               'planes': sizes_of(trace and planes_of(trace), PLANE_COLOURS)}

    def small(self, palette: bytes, most: int) -> list[Small]:
        """Pictures of half the size, of places all over the map, where planes are most: pairs of a row and it."""
        cells = sorted(self.grid.cells, key=lambda cell: (cell.y, cell.x))
        some = cells[::max(1, -(-len(cells) // most))]
        rows = [cell.row(cell.most.get('planes', (0, 0))[1], self.grid.directions) for cell in some]
        return [(row[:4], half_picture(frame, palette))
                for row, frame in zip(rows, self.runs.views('render', rows, SIZE)) if frame]


def room_in(data: object, plain: str) -> int:
    """How many bytes a page may get more."""
    return MOST_BYTES - len(page(TEMPLATE, data, plain))


def every_so_many(pictures: list[Small], room: int) -> list[Small]:
    """Every so many of some pictures, which together need no more bytes than there is room."""
    every = 1
    while pictures and len(json_of(pictures[::every])) > room:
        if every >= len(pictures):
            return []
        every += 1
    return pictures[::every]


def put_in(pictures: Sequence[tuple[Shown, Pictures]], room: int) -> None:
    """Gives views their pictures, all together no larger than there is room: the last views have them of half the size
    where there is no room for whole ones, or go without."""
    lengths = [[sum(map(len, of_size)) for of_size in zip(*found.values())] for _, found in pictures]
    chosen = [0] * len(pictures)
    for size in (1, 2):
        for i in reversed(range(len(pictures))):
            if sum(of_view[size_chosen] for of_view, size_chosen in zip(lengths, chosen)) > room:
                chosen[i] = size
    for (view, found), size in zip(pictures, chosen):
        view.update((kind, of_sizes[size]) for kind, of_sizes in found.items())


def marks_of(level: Level, wads: list[str]) -> list[Mark]:
    """What lint finds in a level and can be shown on its map: places, grade and the line of each, the gravest first."""
    placed = [(finding, places(finding, level)) for finding in findings(level, wads)]
    order = sorted((pair for pair in placed if pair[1]), key=lambda pair: list(GRADES).index(pair[0].grade))
    return [(finding.grade, f'{finding.what}: {finding.where}: {finding.told}', [(x, y) for x, y in found])
            for finding, found in order[:MOST_MARKS]]


def columns_of_changes(changes: Iterable[Change], labels: list[str]) -> list[Column]:
    """What differs from an earlier run as the page has it, what differs most first: columns of the numbers of the state
    and the count, the x and y of the place, and the count before and now, which is -1 where there is no place."""
    rows = [[labels.index(change.doors), COUNTS.index(change.count), change.x, change.y,
             *(-1 if count is None else count for count in (change.before, change.now))] for change in changes]
    return columns(sorted(rows, key=lambda row: -abs(row[5] - row[4]))[:MOST_CHANGES])


def limits_page(plan: Plan, wads: list[str], states: Sequence[State], palette: bytes, options: argparse.Namespace,
                doors: Iterable[int], plain: str, before: Iterable[str] = (), changes: Iterable[Change] = ()) -> bytes:
    """The bytes of the page; `plain` is the summary as text, and `before` and `changes` are what differs from an earlier
    run, as lines and place by place."""
    level, names = plan.level, traces.Names(wads)
    grid = states[0].grid
    data: Shown = {
        'title': f'{level.name} of {os.path.basename(level.wad)}', 'wads': [os.path.basename(wad) for wad in wads],
        'counts': COUNTS, 'limits': options.limits, 'directions': grid.directions,
        'vertexes': columns(level.vertexes), 'sectors': len(level.sectors), 'reached': len(grid.reached),
        'lines': columns([*line[:2], int(plan.is_wall(number))] for number, line in enumerate(level.lines)),
        'doors': sorted(doors), 'noWay': list(grid.wanted), 'before': list(before),
        'changes': columns_of_changes(changes, [state.label for state in states]),
        'marks': marks_of(level, wads), 'doubts': [pair for pair, _ in grid.ground.doubts.most_common(20)],
        'states': [state.data(names, options.views) for state in states]}
    pictures = sorted((found for state in states for found in state.pictures(palette)), key=lambda found: found[0])
    put_in([(view, found) for _, view, found in pictures], room_in(data, plain) - len(pictures) * WORDS)
    room = room_in(data, plain) // len(states)
    for state, shown in zip(states, data['states']):
        shown['small'] = every_so_many(state.small(palette, SMALL_PICTURES), room)
    return page(TEMPLATE, data, plain)
