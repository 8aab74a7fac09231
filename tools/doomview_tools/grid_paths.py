"""Camera paths over a grid: every place of it at which a player can stand, in directions that are turned by chance."""
import random
from collections.abc import Iterator

from .ground import Ground, Plan
from .levels import EYE_HEIGHT, TURN, UNIT, Level
from .paths import Row


def places(ground: Ground, step: int) -> Iterator[tuple[int, float, int]]:
    """The x, the y and the floor of each place of a grid at which a player can stand."""
    low_x, low_y, high_x, high_y = ground.plan.box()
    for y in range(low_y + step // 2, high_y, step):
        for x in range(low_x + step // 2, high_x, step):
            number = ground.sector_at(x, y + .5)
            if number is not None:
                yield x, y + .5, ground.plan.level.sectors[number].floor


def rows(level: Level, step: int, directions: int, seed: int) -> list[Row]:
    """The rows of a grid: from each place so many directions, evenly apart, the first by chance from the seed."""
    found = []
    for x, y, floor in places(Ground(Plan(level)), step):
        first = random.Random(f'{seed} {level.name} {x} {y}').randrange(TURN)
        for number in range(directions):
            angle = (first + TURN * number // directions) % TURN
            found.append(Row(x * UNIT, round(y * UNIT), (floor + EYE_HEIGHT) * UNIT, angle))
    return found
