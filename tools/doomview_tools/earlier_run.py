"""An earlier run of limits-map, as --json wrote it, beside a new one: what got worse and what better, place by place.

A place is compared with the one that was at the same x and y; the new run looks from the grid of the earlier one, so
that there is one. A quarter of a square that was not cut in both runs is left out: its square speaks for it. What
version 1.0 wrote has no places, and sums alone are compared."""
import json
import typing
from collections.abc import Iterator

from .counting import COUNTS
from .list_counts import Counts
from .trouble import Trouble

SHOWN = 4  # places in a line
NUMBERS = 3  # before the counts of a place: its x, its y, the side of its square

Numbers = dict[str, typing.Any]  # of a map, of a state of its doors, or of a count, as JSON has them
Place = tuple[int, int]  # its x and y


class Start(typing.NamedTuple):
    """A place of a grid, and the step to the next."""

    x: int
    y: int
    step: int


class Square(typing.NamedTuple):
    """The side of a square and one of its counts."""

    side: int
    count: int  # type: ignore[assignment]  # in the place of a method of tuples


class Change(typing.NamedTuple):
    """A count of a place, with the doors shut or open, that differs and is or was over its limit. `before` and `now` are
    None where there was no such place, or is none."""

    doors: str
    count: str  # type: ignore[assignment]  # in the place of a method of tuples
    x: int
    y: int
    before: typing.Optional[int]
    now: typing.Optional[int]

    @property
    def is_worse(self) -> bool:
        return self.now is not None and self.now > (self.before or 0)

    @property
    def difference(self) -> int:
        """How much it is worse or better."""
        return abs((self.now or 0) - (self.before or 0))


class Comparison(typing.NamedTuple):
    """What differs between two runs: as lines, and place by place, what grew most first. `is_worse` if something over a
    limit got worse."""

    lines: list[str]
    changes: list[Change]
    is_worse: bool


def numbers_of(path: str) -> dict[str, Numbers]:
    """The numbers of an earlier run by the names of maps: of one map, or of a map in each line."""
    try:
        with open(path, encoding='utf-8') as file:
            found = runs_in(file.read().strip())
        for state in (state for numbers in found for state in numbers.get('states', ())):
            check_state(state)
        return {numbers['map']: numbers for numbers in found if 'states' in numbers}
    except OSError as error:
        raise Trouble(f'cannot read {path}: {error.strerror}') from error
    except (ValueError, KeyError, TypeError, AttributeError, IndexError) as error:
        raise Trouble(f'{path} is nothing that limits-map --json wrote') from error


def runs_in(text: str) -> list[Numbers]:
    """The numbers of a text: of one map, or of a map in each line."""
    return [json.loads(text)] if '\n}' in text else [json.loads(line) for line in text.splitlines()]


def check_state(state: Numbers) -> None:
    """A ValueError or the like where the numbers of a state are none."""
    for count in state['counts'].values():
        sums_of(count)
    if any(len(square) != NUMBERS + len(COUNTS) or not all(isinstance(part, int) for part in square)
           for square in state.get('squares', ())):
        raise ValueError
    if 'squares' in state and state['step'] < 1:
        raise ValueError


def state_of(numbers: Numbers, doors: str) -> Numbers:
    """The numbers with the doors shut or open; none where it was not counted so."""
    return next((state for state in numbers.get('states', ()) if state['doors'] == doors), {})


def start_of(numbers: Numbers, doors: str) -> typing.Optional[Start]:
    """A place of the grid of an earlier run; None if it had none."""
    state = state_of(numbers, doors)
    if not state.get('squares'):
        return None
    x, y, *_ = state['squares'][0]
    return Start(x, y, state['step'])


def comparison_of(before: Numbers, now: Numbers, limits: Counts) -> Comparison:
    """What differs between two runs over a map."""
    parts = [comparison_of_count(state_of(before, state['doors']), state, name, limits[name])
             for state in now['states'] for name in COUNTS if name in state_of(before, state['doors']).get('counts', ())]
    return Comparison([line for lines, _, _ in parts for line in lines],
                      [change for _, changes, _ in parts for change in changes], any(is_worse for *_, is_worse in parts))


def comparison_of_count(before: Numbers, now: Numbers, name: str, limit: int) -> Comparison:
    """The same of one count, with the doors shut or open."""
    sums, old_sums = sums_of(now['counts'][name]), sums_of(before['counts'][name])
    changes: list[Change] = []
    lines: list[str] = []
    if 'squares' in before:
        changes = changes_of(before, now, name, limit)
        worse, better = ([change for change in changes if change.is_worse == is_worse] for is_worse in (True, False))
        verdict = 'worse' if worse else 'better' if better else 'more' if sums > old_sums else 'fewer'
        lines = [places_in_words(word, some) for word, some in (('worse', worse), ('better', better)) if some]
        is_worse = bool(worse)
    else:
        is_worse = sums > old_sums and sums[0] > 0
        verdict = 'worse' if sums > old_sums else 'better'
    if sums == old_sums and not changes:
        return Comparison([], [], False)
    head = (f'{verdict}, doors {now["doors"]}: {name} most {sums[1]}, before {old_sums[1]}; views over {sums[0]}, before '
            f'{old_sums[0]}')
    return Comparison([head, *lines], changes, is_worse)


def sums_of(count: Numbers) -> tuple[int, int]:
    """How many views are over the limit, and the greatest count."""
    return int(count['over']), int(count['most'])


def changes_of(before: Numbers, now: Numbers, name: str, limit: int) -> list[Change]:
    """The places at which a count differs and is over its limit, now or before; what differs most first."""
    old, new = squares_of(before, name), squares_of(now, name)
    found = [change for place in old.keys() | new.keys() for change in change_at(place, old, new, now['doors'], name)]
    return sorted((change for change in found if max(change.before or 0, change.now or 0) > limit),
                  key=lambda change: (-change.difference, change.x, change.y))


def squares_of(state: Numbers, name: str) -> dict[Place, Square]:
    """The squares of a state by the x and y of their middles, with one of their counts."""
    at = NUMBERS + COUNTS.index(name)
    return {(square[0], square[1]): Square(square[2], square[at]) for square in state['squares']}


def change_at(place: Place, old: dict[Place, Square], new: dict[Place, Square], doors: str,
              name: str) -> Iterator[Change]:
    """The change of a count at a place, if it is one. A quarter in one run alone is none."""
    before, now = (squares[place].count if place in squares else None for squares in (old, new))
    is_in_both = before is not None and now is not None
    if before != now and (is_in_both or not is_quarter(place, new if before is None else old)):
        yield Change(doors, name, *place, before, now)


def is_quarter(place: Place, squares: dict[Place, Square]) -> bool:
    """Whether a square is the quarter of another."""
    (x, y), side = place, squares[place].side
    return any(squares.get((x + i, y + j), Square(0, 0)).side == 2 * side
               for i in (-side // 2, side // 2) for j in (-side // 2, side // 2))


def places_in_words(word: str, changes: list[Change]) -> str:
    """The places that got worse or better in words, those that differ most first."""
    shown = '; '.join(f'x {change.x} y {change.y}: {count_in_words(change.now)}, before '
                      f'{count_in_words(change.before)}'
                      for change in changes[:SHOWN])
    more = f'; and {len(changes) - SHOWN} more' if len(changes) > SHOWN else ''
    return f'  {word} at {len(changes)} place{"s" * (len(changes) > 1)}: {shown}{more}'


def count_in_words(count: typing.Optional[int]) -> str:
    """The count of a place, or that it is none."""
    return 'no place' if count is None else str(count)
