"""A grid over a level: places where a player can stand, and of each the greatest counts in several directions.

A sector between the places of the grid has one of its own. Cells with high counts are cut in four, twice, and looked at
in twice as many directions. A cell stays where it was cut; its quarters lie over it."""
import argparse
import itertools
import math
import typing
from collections.abc import Iterable, Iterator, Sequence

from .counting import CAPPED, COUNTS, Runs
from .doom import LIMITS
from .earlier_run import Start
from .ground import Ground, has_height
from .levels import EYE_HEIGHT, TURN, UNIT
from .list_counts import Counts
from .paths import Row
from .player_reach import Reach

MOST_PLACES, MOST_CUT = 9000, 700
CUTS = 2
MANY = 2 * LIMITS['solids'] - 3  # fragments: a view with fewer has not too many solid ranges, each with a gap behind it
FINER = .7  # the part of a limit, or of the map's greatest count, from which a cell is cut
SMALL = 16  # the side of a place in a small sector, so that it hides no other
APART = 4  # steps between two of the worst views
NONE = -1, 0  # a count that is not known yet, and its direction

Chosen = Sequence[Sequence[int]]  # of each of some places some directions


class Cell:
    """A place in the middle of a square, with its greatest counts: by name a pair of the count and its direction."""

    def __init__(self, x: int, y: float, size: int, sector: int, floor: int, is_reached: bool) -> None:
        self.x, self.y, self.size, self.is_reached = x, y, size, is_reached
        self.sector, self.floor = sector, floor
        # The directions in which its views are likely to have more than `limits` counts.
        self.likely: Sequence[int] = ()
        self.most: dict[str, tuple[int, int]] = {}

    def row(self, direction: int, directions: int) -> Row:
        """The row of a path from here: an eye of a player who stands."""
        return Row(round(self.x * UNIT), round(self.y * UNIT), (self.floor + EYE_HEIGHT) * UNIT,
                   TURN * direction // directions)

    def count(self, name: str) -> int:
        return self.most.get(name, (0, 0))[0]


class Look:
    """The views from a place: by their directions the counts of each, and the solid ranges of some."""

    def __init__(self, cell: Cell) -> None:
        self.cell = cell
        self.counts: dict[int, Counts] = {}
        self.ranges: dict[int, int] = {}

    def most_fragments(self) -> list[int]:
        """The directions with the most fragments: one, and one more that may have many ranges. None of a view over a raised
        limit."""
        order = sorted(((counts['fragments'], direction) for direction, counts in self.counts.items()
                        if 'fragments' in counts), reverse=True)
        return [direction for place, (count, direction) in enumerate(order[:2]) if place == 0 or count >= MANY]

    def to_list(self) -> list[int]:
        """The directions that are listed besides those likely: in which there is more than `limits` counts, maybe."""
        return sorted(direction for direction, counts in self.counts.items() if direction not in self.cell.likely
                      and any(counts.get(name, 0) >= most for name, most in CAPPED.items()))

    def likely(self, directions: int) -> list[int]:
        """The directions, of so many, in which views from near the place are likely to have more than `limits` counts:
        there this one has, or those on both sides have in the mean."""
        if all(self.cell.count(name) < most for name, most in CAPPED.items()):
            return []
        shares = {direction: max(counts.get(name, 0) / most for name, most in CAPPED.items())
                  for direction, counts in self.counts.items()}
        beside = ([shares.get((direction + by) % directions, 0) for by in (-1, 1)] for direction in range(directions))
        return [direction for direction, pair in enumerate(beside) if shares.get(direction, sum(pair) / 2) >= 1]


class Grid:
    """The cells of a level. `directions` is the number of those in which finer cells are looked at, `walls` are runs over
    its solid walls alone, and `start` is a place of the grid where it is to be that of an earlier run."""

    def __init__(self, ground: Ground, runs: Runs, walls: Runs, reach: Reach, options: argparse.Namespace, what: str = '',
                 start: typing.Optional[Start] = None) -> None:
        self.ground, self.runs, self.walls, self.what = ground, runs, walls, what
        self.limits: Counts = options.limits
        self.reached, self.wanted = reach
        self.everywhere: bool = options.all
        self.directions: int = 2 * options.directions
        self.views, self.over = 0, dict.fromkeys(COUNTS, 0)
        self.step, places = self.coarse(start.step if start else options.step, start)
        more = self.in_small_sectors(places)
        self.small = {(cell.x, cell.y): cell for cell in more}
        self.cells = self.with_counts(places + more, 2)
        for cut in range(CUTS):
            places = [place for cell in self.high(self.step >> cut) for place in self.quarters(cell)]
            self.cells += self.with_counts(places, 1)

    def coarse(self, step: int, start: typing.Optional[Start]) -> tuple[int, list[Cell]]:
        """The places of the coarse grid; its step is doubled until they are no more than MOST_PLACES."""
        low_x, low_y, high_x, high_y = self.ground.plan.box()
        while (high_x - low_x) * (high_y - low_y) > 6 * MOST_PLACES * step * step:
            step *= 2
        while True:
            x, y = (start.x, start.y) if start else (low_x + step // 2, low_y + step // 2)
            places = self.of_step(step, x, y)
            if len(places) <= MOST_PLACES:
                return step, places
            step *= 2

    def of_step(self, step: int, x: int, y: int) -> list[Cell]:
        """The places of a grid that has one at x and y."""
        low_x, low_y, high_x, high_y = self.ground.plan.box()
        return [place for row in range(low_y + (y - low_y) % step, high_y, step)
                for column in range(low_x + (x - low_x) % step, high_x, step)
                for place in self.place(column, row + .5, step)]

    def in_small_sectors(self, places: list[Cell]) -> list[Cell]:
        """A cell in each sector that is looked at and has none on the grid, if a player can stand there."""
        numbers = set(range(len(self.ground.plan.level.sectors))) if self.everywhere else self.reached
        missing = numbers - {cell.sector for cell in places}
        found = [self.ground.place_in(number) for number in sorted(missing)
                 if has_height(self.ground.plan.level.sectors[number])]
        return [cell for place in found if place for cell in self.place(*place[:2], min(place[2], SMALL))]

    def place(self, x: int, y: float, size: int) -> Iterator[Cell]:
        """The cell of a place at which a player can stand, if it is one that is looked at."""
        sector = self.ground.sector_at(x, y)
        if sector is not None and (self.everywhere or sector in self.reached):
            floor = self.ground.plan.level.sectors[sector].floor
            yield Cell(x, y, size, sector, floor, sector in self.reached)

    def high(self, size: int) -> list[Cell]:
        """The cells of a size that have high counts, the highest first."""
        most = {name: max((cell.count(name) for cell in self.cells), default=0) for name in COUNTS}
        bars: dict[str, float] = {name: max(1, FINER * min(self.limits[name], most[name])) for name in COUNTS}
        bars['solids'] = FINER * self.limits['solids']
        found = [cell for cell in self.cells if cell.size == size and (cell.x, cell.y) not in self.small
                 and any(cell.count(name) >= bars[name] for name in COUNTS)]
        return sorted(found, key=lambda cell: -max(cell.count(name) / self.limits[name] for name in COUNTS))[:MOST_CUT]

    def quarters(self, cell: Cell) -> Iterator[Cell]:
        """The places in the quarters of a cell. One of a small sector in their middle takes the whole quarter."""
        half, away = cell.size // 2, cell.size // 4
        for x, y in ((cell.x + i, math.floor(cell.y) + j + .5) for j in (-away, away) for i in (-away, away)):
            if (x, y) in self.small:
                self.small[x, y].size = half
            else:
                for place in self.place(x, y, half):
                    place.likely = cell.likely
                    yield place

    def with_counts(self, cells: list[Cell], every: int) -> list[Cell]:
        """The cells with their counts, in every so many of the directions."""
        looks, directions = list(map(Look, cells)), range(0, self.directions, every)
        self.views += len(cells) * len(directions)
        self.list_views(looks, [cell.likely for cell in cells])
        self.count_views(looks, directions)
        self.list_views(looks, [look.to_list() for look in looks])
        self.count_ranges(looks)
        for look in looks:
            self.take(look)
        return cells

    def rows(self, looks: list[Look], chosen: Chosen) -> list[Row]:
        """The rows of views from places, of each in some directions."""
        return [look.cell.row(direction, self.directions) for look, some in zip(looks, chosen) for direction in some]

    def count_views(self, looks: list[Look], directions: Iterable[int]) -> None:
        """Counts the views from places in those directions in which they were not listed."""
        chosen: Chosen = [[direction for direction in directions if direction not in look.counts] for look in looks]
        rows = self.rows(looks, chosen)
        found = iter(self.runs.counts(rows, self.what) if rows else ())
        for look, some in zip(looks, chosen):
            look.counts.update((direction, next(found)) for direction in some)

    def list_views(self, looks: list[Look], chosen: Chosen) -> None:
        """Takes what `list` says of the views from places, of each in some directions."""
        found = self.runs.counts_by_list(self.rows(looks, chosen), self.what)
        for look, some in zip(looks, chosen):
            look.counts.update((direction, next(found)) for direction in some)

    def count_ranges(self, looks: list[Look]) -> None:
        """Takes the solid ranges of those views from places that have the most fragments."""
        chosen: Chosen = [look.most_fragments() for look in looks]
        found = self.walls.ranges(self.rows(looks, chosen), self.what)
        for look, some in zip(looks, chosen):
            look.ranges.update((direction, next(found)) for direction in some)

    def take(self, look: Look) -> None:
        """Takes the counts of the views from a place."""
        ranges = ((direction, {'solids': count}) for direction, count in look.ranges.items())
        for direction, counts in itertools.chain(sorted(look.counts.items()), ranges):
            self.take_counts(look.cell, direction, counts)
        look.cell.likely = look.likely(self.directions)

    def take_counts(self, cell: Cell, direction: int, counts: Counts) -> None:
        """Takes the counts of a view from a cell."""
        for name, count in counts.items():
            if count > self.limits[name]:
                self.over[name] += 1
            if count > cell.most.get(name, NONE)[0]:
                cell.most[name] = count, direction

    def worst(self, name: str, most: int) -> list[tuple[int, Row]]:
        """The views of the greatest counts, no two near each other: pairs of the count and its row."""
        found: list[tuple[int, Row]] = []
        for cell in sorted(self.cells, key=lambda cell: -cell.count(name)):
            if len(found) == most or not cell.count(name):
                break
            row = cell.row(cell.most[name][1], self.directions)
            if all(math.hypot(row.x - other.x, row.y - other.y) > APART * self.step * UNIT for _, other in found):
                found.append((cell.count(name), row))
        return found

    def is_bad(self) -> bool:
        """Whether a view is over a limit."""
        return any(self.over.values())
