"""Where a player gets in a level: rather too many sectors than too few.

A way leads over steps, down falls of any depth, over gaps that a running jump passes, through what moves or has a
special, and by teleports. A sector with a thing that a player wants is reached too, though no way to it was found.
Heights and distances are in map units."""
import collections
import functools
import itertools
import typing
from collections.abc import Iterable, Iterator

from . import ground
from .doom import DESTINATION, EVERY_SKILL, LINES, STARTS, TELEPORTS, THINGS
from .ground import HEIGHT, RADIUS, STEP_UP, Box, Plan
from .levels import Line, Sector, Vertex

SPEED = 30  # of a player in a tic: the original lets none be faster along an axis (MAXMOVE)
THING_RADIUS = 20  # of what a player picks up
TO_THINGS = {*TELEPORTS, *LINES['to_things']}  # specials of teleports that end at a thing, with those of Boom
TO_LINES = set(LINES['to_lines'])  # those that end at a line of their tag
STAIRS, DONUT = set(LINES['stairs']), set(LINES['donut'])  # specials that move sectors without a tag too
AREA = 256  # the side of the squares by which lines are looked for
WANTED: dict[int, str] = {int(kind): word for kind, word in THINGS['wanted'].items()}  # what a player picks up


Sectors = set[int]  # their numbers
Wanted = dict[int, list[int]]  # by sector the numbers of the things that a player wants there
Goal = tuple[int, int]  # a line, and the sector behind it
Segment = tuple[Vertex, Vertex]  # its ends
Square = tuple[int, int]


class Reach(typing.NamedTuple):
    """The sectors that a player may come to, and of those to which no way was found the things that he wants there:
    by sector their numbers."""

    sectors: Sectors
    wanted: Wanted


class Jump(typing.NamedTuple):
    """An edge from which a player jumps: its line, the height of the floor that he leaves, the sector below."""

    line: int
    height: int
    below: int


def drop(move: int) -> int:
    """How deep a player is below the edge at the beginning of a move in the air, counted from 1 (P_ZMovement: gravity
    takes 2 in the first tic, and then 1 more in each)."""
    return move * (move - 1) // 2 - 1 if move > 1 else 0


@functools.lru_cache(None)
def jump_length(depth: int) -> int:
    """How wide a gap may be over which a running player comes to a floor that is lower by a depth, or higher by less
    than a step: he is held up to his radius past one edge, and steps onto the other as far before it. None is -1."""
    if depth < -STEP_UP:
        return -1
    moves = next(move for move in itertools.count(1) if drop(move + 1) > depth + STEP_UP)
    return moves * SPEED + 2 * RADIUS


def segments_apart(one: Segment, other: Segment) -> float:
    """The square of the distance of two segments that do not cross."""
    return min(apart for first, second in ((one, other), (other, one)) for x, y in first
               for apart in [ground.distance(x - second[0][0], y - second[0][1], second[1][0] - second[0][0],
                                             second[1][1] - second[0][1])])


def box_of(one: Vertex, other: Vertex) -> Box:
    """The box of a segment."""
    return min(one.x, other.x), min(one.y, other.y), max(one.x, other.x), max(one.y, other.y)


def room_over(one: Sector, other: Sector) -> int:
    """The height of the opening between two sectors."""
    return min(one.ceiling, other.ceiling) - max(one.floor, other.floor)


class PlayerWays:
    """The ways of a player through a level, by its plan."""

    def __init__(self, plan: Plan) -> None:
        self.plan, self.level = plan, plan.level
        self.moving = moving_sectors(plan)
        # Of the lines that a player may pass the sectors in front and behind, and of each sector those to another one.
        self.beside: dict[int, tuple[int, int]] = {}
        self.lines_of: dict[int, list[int]] = collections.defaultdict(list)
        for number, (front, back) in enumerate(plan.beside):
            if front is None or back is None or plan.is_wall(number):
                continue
            self.beside[number] = front, back
            if front != back:
                self.lines_of[front].append(number)
                self.lines_of[back].append(number)
        self.boxes = [box_of(*plan.ends(number)) for number in range(len(plan.level.lines))]
        self.steps = self.steps_of_lines()
        self.low, self.high = self.heights()

    def heights(self) -> tuple[list[int], list[int]]:
        """The lowest and the highest floor that each sector may have: what moves comes to the floors beside it."""
        sectors = self.level.sectors
        low, high = ([sector.floor for sector in sectors] for _ in range(2))
        for number in self.moving:
            beside = [sectors[self.across(line, number)].floor for line in self.lines_of[number]]
            low[number] = min([low[number], *beside])
            high[number] = max([high[number], *beside])
        return low, high

    def across(self, line: int, sector: int) -> int:
        """The sector on the other side of a line that a player may pass."""
        front, back = self.beside[line]
        return back if front == sector else front

    def steps_of_lines(self) -> dict[int, Sectors]:
        """Of each sector those into which a player may step, fall, go or be teleported."""
        found: dict[int, Sectors] = collections.defaultdict(set)
        for number, line in enumerate(self.level.lines):
            for one, other in self.pairs(number):
                if self.leads(line, one, other):
                    found[one].add(other)
            front = self.plan.beside[number][0]
            if front is not None:
                found[front].update(self.ends_of_teleport(line))
        return found

    def pairs(self, number: int) -> list[tuple[int, int]]:
        """The sectors on both sides of a line, in both orders; none of a wall. A line with the same sector on both
        sides has beside it what the nodes say."""
        if number not in self.beside:
            return []
        front, back = self.beside[number]
        if front == back:
            front, back = self.sectors_by_nodes(number)
        return [(front, back), (back, front)] if front != back else []

    def sectors_by_nodes(self, number: int) -> list[int]:
        """The sectors a unit off the middle of a line, to its right and its left."""
        (x1, y1), (x2, y2) = self.plan.ends(number)
        length = ((x2 - x1) ** 2 + (y2 - y1) ** 2) ** .5 or 1
        off_x, off_y = (y2 - y1) / length, (x1 - x2) / length
        return [self.level.sector_at((x1 + x2) / 2 + side * off_x, (y1 + y2) / 2 + side * off_y) for side in (1, -1)]

    def leads(self, line: Line, one: int, other: int) -> bool:
        """Whether a player gets over a line from one sector into another."""
        sectors = self.level.sectors
        return bool(line.special or {one, other} & self.moving or ground.is_step(sectors[one], sectors[other]))

    def ends_of_teleport(self, line: Line) -> Sectors:
        """The sectors to which a line teleports."""
        if line.special in TO_LINES:
            return {sector for number, other in enumerate(self.level.lines) if other.tag == line.tag
                    for sector in self.plan.beside[number] if sector is not None}
        if line.special in TO_THINGS:
            return {number for number in self.destinations if self.level.sectors[number].tag == line.tag}
        return set()

    @functools.cached_property
    def destinations(self) -> Sectors:
        """The sectors in which a teleport may end."""
        return {self.level.sector_at(thing.x, thing.y) for thing in self.level.things if thing.type == DESTINATION}

    def flood(self, sectors: Sectors) -> Sectors:
        """The sectors to which a way leads from some of them."""
        found, left = set(sectors), list(sectors)
        while left:
            more = self.steps[left.pop()] - found
            found |= more
            left += more
        return found

    def with_jumps(self, sectors: Sectors) -> Sectors:
        """The sectors to which ways and running jumps lead from some of them."""
        found = self.flood(sectors)
        while True:
            more = self.ends_of_jumps(found)
            if not more:
                return found
            found = self.flood(found | more)

    def ends_of_jumps(self, found: Sectors) -> Sectors:
        """The sectors outside of some to which a player jumps from these."""
        goals = [(line, other) for number in found for line in self.lines_of[number]
                 for other in [self.across(line, number)] if other not in found and self.passes(number, other)]
        lowest, near = min((self.low[other] for _, other in goals), default=0), self.by_square(goals)
        reached: Sectors = set()
        for jump in self.edges(found) if goals else ():
            length = jump_length(jump.height - lowest)
            if any(other not in reached and self.may_come(jump, line, other)
                   for square in squares_near(self.boxes[jump.line], length) for line, other in near.get(square, ())):
                reached |= self.below_jump(jump) - found
        return reached

    def by_square(self, goals: Iterable[Goal]) -> dict[Square, list[Goal]]:
        """Lines, each with the sector behind it, by the squares of the map that their boxes lie over."""
        found = collections.defaultdict(list)
        for goal, square in ((goal, square) for goal in goals for square in squares_near(self.boxes[goal[0]], 0)):
            found[square].append(goal)
        return found

    def edges(self, found: Sectors) -> Iterator[Jump]:
        """The edges from which a player may jump."""
        for number in sorted(found):
            for line in self.lines_of[number]:
                below = self.across(line, number)
                if (self.high[number] > self.level.sectors[below].floor
                        and room_over(self.level.sectors[number], self.level.sectors[below]) >= HEIGHT):
                    yield Jump(line, self.high[number], below)

    def may_come(self, jump: Jump, line: int, sector: int) -> bool:
        """Whether a line is near enough for a player who jumps to come over it into a sector."""
        length = jump_length(jump.height - self.low[sector])
        return (length >= 0 and line != jump.line and are_near(self.boxes[jump.line], self.boxes[line], length)
                and segments_apart(self.plan.ends(jump.line), self.plan.ends(line)) <= length * length)

    def below_jump(self, jump: Jump) -> Sectors:
        """The sectors over which a jump may lead: a player may come down in each of them."""
        found, left = {jump.below}, [jump.below]
        while left:
            number = left.pop()
            for line in self.lines_of[number]:
                other = self.across(line, number)
                if other not in found and self.passes(number, other) and self.may_come(jump, line, other):
                    found.add(other)
                    left.append(other)
        return found

    def passes(self, one: int, other: int) -> bool:
        """Whether the opening over a line is high enough for a player in the air."""
        sectors = self.level.sectors
        return bool({one, other} & self.moving) or room_over(sectors[one], sectors[other]) >= HEIGHT

    def is_in_grasp(self, number: int, sector: int, found: Sectors) -> bool:
        """Whether a player in one of some sectors takes a thing of another sector without a step into it: he touches
        it, also through a line that stops him, and its floor is no higher than he is."""
        thing, floor = self.level.things[number], self.level.sectors[sector].floor
        place = thing.x, thing.y, thing.x, thing.y
        return any(are_near(self.boxes[line], place, RADIUS + THING_RADIUS)
                   and any(floor - self.high[side] <= HEIGHT for side in found.intersection(pair))
                   for line, pair in enumerate(self.plan.beside) if None not in pair)

    def wanted_things(self) -> Wanted:
        """The things that a player wants, by their sectors; none that never appears or is in the void."""
        place, found = ground.Ground(self.plan), collections.defaultdict(list)
        for number, thing in enumerate(self.level.things):
            is_wanted = thing.type in WANTED and thing.options & EVERY_SKILL
            if is_wanted and not all(place.is_void(thing.x, thing.y + off) for off in (-.5, .5)):
                found[self.level.sector_at(thing.x, thing.y)].append(number)
        return found


def are_near(one: Box, other: Box, length: int) -> bool:
    """Whether two boxes are no farther apart than a length on either axis."""
    return (one[0] - other[2] <= length and other[0] - one[2] <= length
            and one[1] - other[3] <= length and other[1] - one[3] <= length)


def squares_near(box: Box, length: int) -> Iterator[Square]:
    """The squares of the map over which a box lies that is wider by a length on each side; none of a length below 0."""
    low_x, low_y, high_x, high_y = box
    columns = range((low_x - length) // AREA, (high_x + length) // AREA + 1) if length >= 0 else ()
    return itertools.product(columns, range((low_y - length) // AREA, (high_y + length) // AREA + 1))


def moving_sectors(plan: Plan) -> Sectors:
    """The sectors that may move: by their tag, those that are shut, and what stairs and donuts move without a tag."""
    found = {number for number, sector in enumerate(plan.level.sectors) if ground.is_shut(sector)} | plan.tagged_sectors()
    return found | steps_of_stairs(plan, tagged_by(plan, STAIRS)) | beside_sectors(plan, tagged_by(plan, DONUT))


def tagged_by(plan: Plan, specials: set[int]) -> Sectors:
    """The sectors with the tag of a line that has one of some specials."""
    tags = {line.tag for line in plan.level.lines if line.special in specials}
    return {number for number, sector in enumerate(plan.level.sectors) if sector.tag in tags}


def beside_sectors(plan: Plan, sectors: Sectors) -> Sectors:
    """The sectors that have a line together with one of some sectors."""
    return {sector for pair in plan.beside if sectors.intersection(pair) for sector in pair if sector is not None}


def steps_of_stairs(plan: Plan, first: Sectors) -> Sectors:
    """The steps of stairs that begin at some sectors: each is behind a line of the one before it, with its flat."""
    behind: dict[int, Sectors] = collections.defaultdict(set)
    for front, back in plan.neighbours():
        if plan.level.sectors[front].floor_flat == plan.level.sectors[back].floor_flat:
            behind[front].add(back)
    found, left = set(first), list(first)
    while left:
        more = behind[left.pop()] - found
        found |= more
        left += more
    return found


def reach(plan: Plan) -> Reach:
    """Where a player gets from the starts of a level; nowhere if it has none."""
    ways = PlayerWays(plan)
    starts = {plan.level.sector_at(thing.x, thing.y) for thing in plan.level.things if thing.type in STARTS}
    if not starts:
        return Reach(set(), {})
    found, wanted = ways.with_jumps(starts), ways.wanted_things()
    left = {number: things for number, things in sorted(wanted.items()) if number not in found}
    far = {number: [thing for thing in things if not ways.is_in_grasp(thing, number, found)]
           for number, things in left.items()}
    return Reach(ways.with_jumps(found | set(left)), {number: things for number, things in far.items() if things})
