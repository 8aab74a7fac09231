"""Checks of what the original's game makes of a map: specials of lines and sectors, their tags, and its two tables.

What the game does while it runs, such as how many lifts, crushers or buttons move at once, is not looked at."""
import collections
from collections.abc import Callable, Iterator

from . import ground
from .doom import DESTINATION, GAME, LINES, SECTORS, TELEPORTS
from .findings import ERROR, FAULT, ODD, Finding, lines, sectors
from .levels import Level, Line

Findings = Iterator[Finding]
# Specials of the original, by what they need.
DOORS = set(LINES['doors'])  # of lines: open the sector behind the line
SCROLLS, = LINES['scrolls']
WITHOUT_TAG = {*DOORS, SCROLLS, *LINES['exits'], *LINES['unused']}
TAGGED = set(range(2, LINES['last'] + 1)) - WITHOUT_TAG
OF_SECTORS = set(SECTORS['specials'])
MOST_SCROLLING: int = GAME['most_scrolling']
LEAST_BLOCKMAP = 8  # bytes: its head


class GameCheck:
    """The checks of one map, by its level, its plan, and a function that gives the sectors which a player reaches."""

    def __init__(self, level: Level, plan: ground.Plan, reached: Callable[[], set[int]]) -> None:
        self.level, self.plan, self.reached, self.place = level, plan, reached, ground.Ground(plan)

    def lines_of(self, wanted: Callable[[int, Line], object]) -> list[int]:
        """The numbers of the lines of which something holds."""
        return [number for number, line in enumerate(self.level.lines) if wanted(number, line)]

    def findings(self) -> Findings:
        """All that is found."""
        for part in (self.specials_of_sectors, self.scrolling, self.doors, self.tags, self.teleports, self.tables):
            yield from part()

    def specials_of_sectors(self) -> Findings:
        found = collections.defaultdict(list)
        for number, sector in enumerate(self.level.sectors):
            if sector.special not in OF_SECTORS:
                found[sector.special, self.may_enter(number)].append(number)
        for (special, is_entered), numbers in sorted(found.items()):
            grade, more = (ERROR, 'the original ends when a player is on its floor') if is_entered else (
                ODD, 'the original ends when a player is on its floor, but none comes there')
            yield Finding(grade, 'sector', sectors(numbers), f'special {special} is none of the game: {more}')

    def may_enter(self, number: int) -> bool:
        """Whether a player may come into a sector, maybe once it has risen, and has a place there."""
        has_height = ground.has_height(self.level.sectors[number]) or number in self.plan.rising_sectors()
        return number in self.reached() and has_height and self.place.place_in(number) is not None

    def scrolling(self) -> Findings:
        found = self.lines_of(lambda _, line: line.special == SCROLLS)
        if len(found) > MOST_SCROLLING:
            yield Finding(ERROR, 'line', lines(found, self.level), f'{len(found)} lines have special {SCROLLS}, which '
                          f'scrolls a wall: the original ends at more than {MOST_SCROLLING}')

    def doors(self) -> Findings:
        for number in self.lines_of(lambda number, line: line.special in DOORS and line.back is None):
            yield Finding(ERROR, 'door', lines([number], self.level), f'special {self.level.lines[number].special} '
                          'opens the sector behind the line, which has no back side: the original ends when it is used')

    def tags(self) -> Findings:
        tags = {sector.tag for sector in self.level.sectors}
        found = collections.defaultdict(list)
        for number in self.lines_of(lambda _, line: line.special in TAGGED and not (line.tag and line.tag in tags)):
            found[self.level.lines[number].tag, self.level.lines[number].special].append(number)
        for (tag, special), numbers in sorted(found.items()):
            told = (f'special {special} acts on tag {tag}, which no sector has' if tag else
                    f'special {special} has no tag: it acts on all sectors without one')
            yield Finding(FAULT, 'tag', lines(numbers, self.level), told)

    def teleports(self) -> Findings:
        tags = {sector.tag for sector in self.level.sectors}
        ends = {self.level.sectors[self.level.sector_at(thing.x, thing.y)].tag for thing in self.level.things
                if thing.type == DESTINATION}
        found = collections.defaultdict(list)
        for number in self.lines_of(lambda _, line: line.special in TELEPORTS and line.tag in tags - ends):
            found[self.level.lines[number].tag].append(number)
        for tag, numbers in sorted(found.items()):
            if tag:
                yield Finding(FAULT, 'teleport', lines(numbers, self.level), f'leads to tag {tag}, and no sector of '
                              f'that has a destination (thing of type {DESTINATION})')

    def tables(self) -> Findings:
        """What is wrong with REJECT and BLOCKMAP, which doomview does not need."""
        needed = (len(self.level.sectors) ** 2 + 7) // 8
        for name, least, grade, wrong in (
                ('REJECT', needed, FAULT, 'what monsters see is by chance in the original, and Chocolate Doom fills it up; '
                 f'{len(self.level.sectors)} sectors need {needed} bytes'),
                ('BLOCKMAP', LEAST_BLOCKMAP, ERROR, 'nothing stops a player, and the original reads past its end')):
            size = len(self.level.lumps.get(name, b''))
            if name not in self.level.lumps:
                yield Finding(ERROR, 'table', 'map', f'has no {name}: the original ends there; build it with the nodes')
            elif size < least:
                yield Finding(grade, 'table', 'map', f'its {name} has {size} bytes: {wrong}; build it with the nodes')
