"""Trials of the set-up: our side drawn again with what ports get wrong, to find what makes its frames the port's.

Changes of the rows (eye, angle, place, light) are drawn all in one run, alone and two at once, and then those of the words
(skill, size, spans, weapon), alone and with the best of the rows."""
import csv
import itertools
import os
import tempfile
import typing
from collections.abc import Callable, Sequence

from . import differences, job_options, paths, program, weapons
from .frames import SIZE
from .levels import EYE_HEIGHT, TURN, UNIT
from .paths import Row
from .trouble import Trouble

SOME, MANY = 4, 12  # views by which changes are ruled out, and by which what is left is checked
KEPT = 3  # changes of rows that are checked
MOST_EXTRA = 15  # of extra light
CUT = TURN // 65536  # of an angle of 16 bits
SKILLS = [(1, 2), (3,), (4, 5)]  # that place the same things
WORDS = ('--skill', '--size', '--spans', '--weapon', '--things')  # of a run that the comparison has to know


class Change(typing.NamedTuple):
    """Something that a port gets wrong: what our side is drawn with, what that says of the port, what it makes of a row,
    and words in the place of others."""

    drawn: str
    cause: str
    row: Callable[[Row], Row] = lambda row: row
    words: tuple[str, ...] = ()


class Tried(typing.NamedTuple):
    """Changes at once, and how many pixels of the views that were tried still differ."""

    changes: tuple[Change, ...]
    left: int


def eye(step: int) -> Change:
    cause = {EYE_HEIGHT: 'it adds 41 to z, which is the height of the eye already',
             -EYE_HEIGHT: 'it takes 41 from z, which is the height of the eye'}
    word = 'higher' if step > 0 else 'lower'
    return Change(f'the eye {abs(step)} {word}', cause.get(step, f'its eye is {abs(step)} {word} than z'),
                  lambda row: row._replace(z=wrapped(row.z + step * UNIT)))


def turned(degrees: int, sign: int = 1) -> Change:
    words = f'angles {degrees} degrees more' if sign > 0 else 'angles clockwise' + (f' from {NAMES[degrees]}' if degrees else '')
    cause = 'an angle is counted from east, and counterclockwise' if sign > 0 or degrees else 'an angle is counted counterclockwise'
    return Change(words, cause, lambda row: row._replace(angle=(sign * row.angle + degrees * TURN // 360) % TURN))


def wrapped(number: int) -> int:
    return paths.number_of(number % TURN)


def place_of(of: Callable[[int], int]) -> Callable[[Row], Row]:
    return lambda row: row._replace(x=of(row.x), y=of(row.y))


NAMES = {90: 'north', 180: 'west', 270: 'south'}
EYES = [eye(step) for step in (EYE_HEIGHT, -EYE_HEIGHT, 1, -1)]
ANGLES = [*(turned(degrees) for degrees in (90, 180, 270)), *(turned(degrees, -1) for degrees in (0, 90, 180, 270)),
          Change('angles cut to 16 bits', 'an angle has 32 bits, and it takes the first 16',
                 lambda row: row._replace(angle=row.angle // CUT * CUT))]
WHOLE = 'x and y are 16.16, and it takes whole map units'
PLACES = [Change('x and y cut to whole units', WHOLE, place_of(lambda value: value // UNIT * UNIT)),
          Change('x and y cut to whole units towards 0', WHOLE, place_of(lambda value: int(value / UNIT) * UNIT))]
LIGHTS = [Change(f'{step} more of extra light', 'it has extra light, as of a weapon that fires',
                 lambda row, step=step: row._replace(extralight=min(row.extralight + step, MOST_EXTRA))) for step in (1, 2)]  # type: ignore
LIGHTS += [Change('no extra light', 'it leaves out the extra light of the rows', lambda row: row._replace(extralight=0)),
           Change('no fixed colormap', 'it leaves out the colormap of the rows', lambda row: row._replace(colormap=0))]
OF_ROWS: list[tuple[Change, ...]] = [(), *((one,) for one in [*EYES, *ANGLES, *PLACES, *LIGHTS]),
                                     *(pair for first, second in ((EYES, ANGLES), (EYES, PLACES), (PLACES, ANGLES))
                                       for pair in itertools.product(first, second))]


class Run:
    """How our side is drawn: the map, the WADs, the rows of the path, and the words that are not usual."""

    def __init__(self, name: str, files: list[str], path: str, words: list[str]) -> None:
        self.name, self.files, self.rows = name, files, paths.rows(path)
        self.words = dict(zip(words[::2], words[1::2]))
        self.layers: dict[int, list[str]] = {}
        if '--weapon' in self.words:
            self.read_layers(self.words.pop('--weapon'))

    def read_layers(self, path: str) -> None:
        """Reads the weapon layers by their views."""
        try:
            with open(path, newline='', encoding='utf-8') as file:
                for view, *fields in list(csv.reader(file))[1:]:
                    self.layers.setdefault(int(view), []).append(','.join(fields))
        except (OSError, ValueError) as error:
            raise Trouble(f'{path} is no file of weapon layers') from error

    def value(self, option: str) -> str:
        return self.words.get(option) or job_options.options()[option].default

    def of_words(self) -> list[Change]:
        """The changes of the words of this run."""
        skill, size, spans = int(self.value('--skill')), int(self.value('--size')), self.value('--spans')
        found = [Change('skill ' + ' or '.join(map(str, group)), f'it places the things of another skill than {skill}',
                        words=('--skill', str(group[0]))) for group in SKILLS if skill not in group]
        found += [Change(f'size {other}', f'its view size is {other}, and not {size} (screenblocks)', words=('--size', str(other)))
                  for other in (11, 10, 9, 8) if other != size]
        other = 'packed' if spans == 'full' else 'full'
        found.append(Change(f'{other} spans', f'its floors are those of {SPANS[other]}: --spans {other}', words=('--spans', other)))
        if self.layers:
            found.append(Change('no weapon', 'it draws no weapon', words=('--weapon', '')))
        return found

    def draw(self, views: Sequence[int], changes: Sequence[Sequence[Change]]) -> list[bytes]:
        """The frames of some views, drawn with each of some changes of rows; those of words have to be the same of all."""
        rows, layers = [], []
        for view, own in itertools.product(views, changes):
            row = self.rows[view]
            for change in own:
                row = change.row(row)
            rows.append(row)
            layers.append(self.layers.get(view, []))
        words = {**self.words, **LIMITS}
        for change in changes[0]:
            words.update(zip(change.words[::2], change.words[1::2]))
        has_weapon = self.layers and words.pop('--weapon', None) is None
        data = self.frames(rows, layers if has_weapon else [], words)
        return [data[SIZE * at:SIZE * at + SIZE] for at in range(len(rows))]

    def frames(self, rows: list[Row], layers: list[list[str]], words: dict[str, str]) -> bytes:
        """What the program draws of some rows."""
        with tempfile.TemporaryDirectory(prefix='doomview-') as folder:
            path, weapon = os.path.join(folder, 'path.csv'), os.path.join(folder, 'weapon.csv')
            with open(path, 'w', encoding='utf-8') as file:
                file.write(paths.text(rows))
            if layers:
                words = {**words, '--weapon': weapon}
                lines = [f'{view},{layer}' for view, own in enumerate(layers) for layer in own]
                with open(weapon, 'w', encoding='utf-8') as file:
                    file.write(''.join(f'{line}\n' for line in [weapons.HEADER, *lines]))
            given = [part for option in words.items() for part in option]
            return program.run(['render', self.name, *self.files, '--path', path, *given]).output


SPANS = {'full': 'the Linux sources', 'packed': 'Chocolate Doom and the DOS program'}
LIMITS = {'--planes': '1024', '--openings': '245760'}  # so that no view ends a run


class Trials:
    """Trials over some views: both frames by their numbers."""

    def __init__(self, run: Run, both: Callable[[int], tuple[bytes, bytes]], different: list[int]) -> None:
        self.run, self.both = run, both
        self.some, self.many = ([different[len(different) * i // count] for i in range(count)]
                                for count in (min(SOME, len(different)), min(MANY, len(different))))
        self.frames = {view: both(view) for view in self.many + self.some}

    def left(self, view: int, frame: bytes) -> int:
        """How many pixels of the port's frame of a view are not those of a frame."""
        port = self.frames[view][1]
        return differences.count_of(differences.marks_of(frame, port)) if len(frame) == len(port) else SIZE

    def is_own(self) -> bool:
        """Whether the run draws our frames."""
        drawn = self.run.draw(self.some, [()])
        return all(frame == self.frames[view][0] for view, frame in zip(self.some, drawn))

    def tried(self, views: list[int], changes: list[tuple[Change, ...]]) -> list[Tried]:
        """What is left with each of some changes, the least first."""
        drawn = self.run.draw(views, changes)
        left = [0] * len(changes)
        for (view, number), frame in zip(itertools.product(views, range(len(changes))), drawn):
            left[number] += self.left(view, frame)
        found = [Tried(own, pixels) for own, pixels in zip(changes, left)]
        return sorted(found, key=lambda it: (it.left, len(it.changes)))

    def before(self) -> int:
        return sum(self.left(view, self.frames[view][0]) for view in self.some)

    def best(self, is_far: bool) -> Tried:
        """The changes with which least is left over some views; another size is tried where most differs alone."""
        rows = self.tried(self.some, OF_ROWS)[0]
        found = [rows]
        for change in self.run.of_words():
            if is_far or change.words[0] != '--size':
                found += self.tried(self.some, [(change,)])
                if rows.changes and rows.left:
                    found += self.tried(self.some, [(*rows.changes, change)])
        return min(found, key=lambda it: (it.left, len(it.changes)))

    def sentences(self, is_far: bool) -> list[str]:
        """A sentence on what makes our frames the port's, or none."""
        if not self.is_own():
            return [f'set-up: the words of the comparison do not draw our frames; name those of their run '
                    f'({", ".join(WORDS)}, and all WADs), so that other set-ups can be tried']
        best = self.best(is_far)
        if not best.changes or 4 * best.left >= self.before():
            return []
        left = [self.left(view, frame) for view, frame in zip(self.many, self.run.draw(self.many, [best.changes]))]
        return [sentence(best.changes, left)]


def sentence(changes: Sequence[Change], left: list[int]) -> str:
    """What makes our frames the port's, but for the pixels of each view that are left."""
    whole, same = len(left), left.count(0)
    rest = '' if same == whole else f'; {sum(left)} pixels of the others differ'
    views = f'{"all" if same == whole else same} of {whole} views tried' if whole > 1 else 'the view'
    return (f'set-up: drawn with {" and ".join(change.drawn for change in changes)} {views} '
            f'{"is" if whole == 1 else "are"} the port\'s{rest}: {", and ".join(change.cause for change in changes)}')
