"""Camera paths: rows of x, y, z in 16.16 map units and an angle, 2^32 a turn; maybe extra light and a colormap.

`rows` reads a file of rows, `text` writes rows; `turn` and `places` choose them, `row_of` reads one as an editor or the
cheat idmypos shows it, and `in_words` says one in both forms. z is the height of the eye."""
import csv
import random
import re
import typing
from collections.abc import Callable, Iterable, Sequence

from .levels import EYE_HEIGHT, TURN, UNIT, Level, Thing
from .trouble import Trouble

HEADER = ['x', 'y', 'z', 'angle']
LIGHT = ['extralight', 'colormap']
NEAR = 24 * UNIT
MARGIN = 64
MOST_ROWS = 10000
FARTHEST = 32767  # map units
IDMYPOS = re.compile(r'ang=(0x[0-9a-f]+);x,y=\((0x[0-9a-f]+),(0x[0-9a-f]+)\)')
FORMS = 'X,Y,DEGREES or X,Y,DEGREES,Z in map units, or the line of idmypos, ang=0x..;x,y=(0x..,0x..)'


class Row(typing.NamedTuple):
    """A row of a path: where the eye is, its direction, and light."""

    x: int
    y: int
    z: int
    angle: int
    extralight: int = 0
    colormap: int = 0


def rows(path: str) -> list[Row]:
    """The rows of a file."""
    try:
        with open(path, newline='', encoding='utf-8-sig') as file:
            header, *found = [record for record in csv.reader(file) if record]
            if header not in (HEADER, HEADER + LIGHT) or any(len(record) != len(header) for record in found):
                raise ValueError
            return [Row(*map(int, record)) for record in found]
    except OSError as error:
        raise Trouble(f'cannot read {path}: {error.strerror}') from error
    except (ValueError, csv.Error) as error:
        raise Trouble(f'{path} is no camera path: lines of numbers under the header {",".join(HEADER)}') from error


def text(rows: Sequence[Row]) -> str:
    """The text of a file of rows; with the columns of light where a row has any."""
    is_lit = any(row.extralight or row.colormap for row in rows)
    names = HEADER + LIGHT if is_lit else HEADER
    line = ','.join(['%d'] * len(names)) + '\n'
    return ','.join(names) + '\n' + ''.join(line % row[:len(names)] for row in rows)


def number_of(word: int) -> int:
    """A word of 32 bits as a number with a sign."""
    return (word + TURN // 2) % TURN - TURN // 2


def of_numbers(level: Level, x: float, y: float, degrees: float, z: typing.Optional[float] = None) -> Row:
    """The row of a place in map units and degrees; the eye is 41 above the floor where z is not given."""
    if not max(abs(x), abs(y), abs(z or 0)) <= FARTHEST or not abs(degrees) < TURN:
        raise ValueError
    z = level.floor_at(x, y) + EYE_HEIGHT if z is None else z
    return Row(round(x * UNIT), round(y * UNIT), round(z * UNIT), round(degrees * TURN / 360) % TURN)


def of_idmypos(level: Level, angle: int, x: int, y: int) -> Row:
    """The row of a place by the words of idmypos; the eye is 41 above the floor."""
    if max(angle, x, y) >= TURN:
        raise ValueError
    x, y = number_of(x), number_of(y)
    return Row(x, y, (level.floor_at(x / UNIT, y / UNIT) + EYE_HEIGHT) * UNIT, angle)


def of_place(text: str, level: Level) -> Row:
    """The row of a place; a ValueError where the text is none."""
    found = IDMYPOS.fullmatch(text.strip().lower())
    if found:
        return of_idmypos(level, *(int(number, 16) for number in found.groups()))
    numbers = [float(word) for word in text.split(',')]
    if len(numbers) not in (3, 4):
        raise ValueError
    return of_numbers(level, *numbers)


def of_row(words: Iterable[str]) -> Row:
    """A row of a camera path; a ValueError where its numbers are none."""
    row = Row(*map(int, words))
    if any(not -FARTHEST * UNIT <= place <= FARTHEST * UNIT for place in row[:3]) or not 0 <= row.angle < TURN:
        raise ValueError
    return row


def row_at(text: str, level: Level) -> Row:
    """The row of a place as an editor shows it, or as the cheat idmypos does; a Trouble where it is none."""
    try:
        return of_place(text, level)
    except ValueError as error:
        raise Trouble(f'{text.strip()} is no place: {FORMS}') from error


def row_of(text: str, level: Level) -> Row:
    """The row of a view that a word names: by a place, or by a row of a camera path."""
    words = text.split(',')
    try:
        if len(words) in (len(HEADER), len(HEADER + LIGHT)) and not IDMYPOS.fullmatch(text.strip().lower()):
            return of_row(words)
        return of_place(text, level)
    except ValueError as error:
        raise Trouble(f'{text.strip()} is no view: X,Y,ANGLE in map units and degrees, X,Y,Z,ANGLE as in a camera path, '
                      'or the line of idmypos') from error


def number_in_words(value: float) -> str:
    """A number of map units or degrees, without zeros behind its point."""
    return f'{value:.3f}'.rstrip('0').rstrip('.')


def in_words(row: Row) -> str:
    """A place in words: as in an editor, and as a row of a path."""
    numbers = row.x / UNIT, row.y / UNIT, row.z / UNIT, row.angle * 360 / TURN
    x, y, eye, angle = map(number_in_words, numbers)
    return f'x {x} y {y} eye {eye} angle {angle}, row {",".join(map(str, row[:4]))}'


def start_angle(thing: Thing) -> int:
    """The direction of a thing, cut to eighths of a turn."""
    return int(thing.angle / 45) * (TURN // 8) % TURN


def turn(level: Level, views: int) -> list[Row]:
    """A turn to the left on the spot, at the player start."""
    start = level.player_start()
    z = (level.floor_at(start.x, start.y) + EYE_HEIGHT) * UNIT
    return [Row(start.x * UNIT, start.y * UNIT, z, (start_angle(start) + view * TURN // views) % TURN)
            for view in range(views)]


class RandomPlaces:
    """Places of a level that are chosen at random, the same for the same words."""

    def __init__(self, level: Level, words: str) -> None:
        self.level, self.draw = level, random.Random(words)
        self.things = [(thing.x * UNIT, thing.y * UNIT) for thing in level.things]
        self.vertexes = [(vertex.x * UNIT, vertex.y * UNIT) for vertex in level.vertexes]

    def row(self, x: int, y: int, angle: int, any_height: bool = False) -> Row:
        """The row of a place: an eye over the floor, or at any height."""
        number = self.level.sector_at(x / UNIT, y / UNIT)
        if number >= len(self.level.sectors):
            raise self.level.damage()
        floor, ceiling = self.level.sectors[number][:2]
        low, high = (floor - MARGIN) * UNIT, (max(floor, ceiling) + MARGIN) * UNIT
        z = self.draw.randrange(low, high) if any_height else (floor + EYE_HEIGHT) * UNIT
        return Row(x, y, z, angle)

    def beside_thing(self, any_height: bool = False) -> Row:
        x, y = self.draw.choice(self.things)
        return self.row(x + self.draw.randint(-NEAR, NEAR), y + self.draw.randint(-NEAR, NEAR),
                        self.draw.randrange(TURN), any_height)

    def on_vertex(self) -> Row:
        x, y = self.draw.choice(self.vertexes)
        return self.row(x, y, self.draw.randrange(TURN))

    def on_thing(self) -> Row:
        x, y = self.draw.choice(self.things)
        return self.row(x, y, self.draw.randrange(8) * (TURN // 8))

    def anywhere(self) -> Row:
        self.draw.choice(self.things)  # so that the choices are those of earlier versions
        xs, ys = zip(*self.vertexes)
        return self.row(self.draw.randint(min(xs), max(xs)), self.draw.randint(min(ys), max(ys)),
                        self.draw.randrange(TURN), True)

    def wild(self, number: int) -> Row:
        """A place of each kind by turns."""
        kinds: list[Callable[[], Row]] = [lambda: self.beside_thing(True), self.on_vertex, self.on_thing, self.anywhere]
        return kinds[number % len(kinds)]()


def places(level: Level, count: int, seed: int, wild: bool = False) -> list[Row]:
    """The player start and `count` places more, chosen at random: the same for the same words."""
    start = level.player_start()
    chosen = RandomPlaces(level, f'{seed} {count} {wild}')
    first = chosen.row(start.x * UNIT, start.y * UNIT, start_angle(start))
    return [first] + [chosen.wild(number) if wild else chosen.beside_thing() for number in range(count)]
