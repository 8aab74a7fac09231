"""What checks of a map find: how grave it is, what it is about, where, and a sentence; and how numbers are written."""
import re
import typing
from collections.abc import Iterable

from .levels import Level

Place = tuple[float, float]
ERROR, HOLE, FAULT, ODD = 'error', 'hole', 'fault', 'odd'
GRADES = {ERROR: 'doomview refuses the map, or the original ends there or reads past the data of the map',
          HOLE: 'a part of a wall that a player can see has no texture',
          FAULT: 'the map does not do there what it was made for',
          ODD: 'looks like a mistake, and may be meant so'}
COUNTED = (ERROR, HOLE, FAULT)  # the grades for which a map is not right
SHOWN = 8
NUMBERED = re.compile(r'(line|sector|thing)s? ((?:\d+ ?)+)')  # the head of where a finding is


class Finding(typing.NamedTuple):
    """A thing in a map that looks like a mistake."""

    grade: str
    what: str
    where: str
    told: str


def some(numbers: Iterable[typing.Any]) -> str:
    """Numbers, or names, in order, not too many."""
    numbers = sorted(set(numbers))
    more = f' and {len(numbers) - SHOWN} more' if len(numbers) > SHOWN else ''
    return ' '.join(map(str, numbers[:SHOWN])) + more


def several(word: str, numbers: Iterable[int]) -> str:
    """Numbers with the word for what they count."""
    numbers = set(numbers)
    return f'{word}{"s" if len(numbers) > 1 else ""} {some(numbers)}'


def sectors(numbers: Iterable[int]) -> str:
    return several('sector', numbers)


def lines(numbers: Iterable[int], level: Level) -> str:
    """Lines with the coordinates of the first."""
    numbers = set(numbers)
    start, end = (level.vertexes[vertex] for vertex in level.lines[min(numbers)][:2])
    first = 'the first ' if len(numbers) > 1 else ''
    return f'{several("line", numbers)} ({first}{start.x},{start.y} to {end.x},{end.y})'


def places(finding: Finding, level: Level) -> list[Place]:
    """Where on a map the numbers are that a finding shows: x and y of each."""
    found = NUMBERED.match(finding.where)
    if not found:
        return []
    return [place_of(found[1], int(number), level) for number in found[2].split()]


def place_of(word: str, number: int, level: Level) -> Place:
    """The place of a thing, the middle of a line, or that of the first line of a sector."""
    if word == 'thing':
        return level.things[number][:2]
    if word == 'sector':
        number = next((line for line, ends in enumerate(level.lines) for side in ends.sides if side is not None
                       and side < len(level.sides) and level.sides[side].sector == number), 0)
    (x1, y1), (x2, y2) = (level.vertexes[vertex] for vertex in level.lines[number][:2])
    return (x1 + x2) / 2, (y1 + y2) / 2
