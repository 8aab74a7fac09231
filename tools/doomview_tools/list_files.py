"""Lists: what the views of a path are made of, item by item, as `doomview list` writes them (docs/FORMATS.md, "Lines").

`ListFile(path)` reads such a file; `view(number)` has the fragments, planes and sprites of a view by the numbers of a
trace. map_places says where in a map an item is."""
import re
import typing
from collections.abc import Sequence

from .files import check_source
from .frames import WIDTH
from .trouble import Trouble

LONGEST = 400  # bytes of a line


class Fragment(typing.NamedTuple):
    """A part of a wall: its seg, and its first and last column."""

    seg: int
    first: int
    last: int


class Plane(typing.NamedTuple):
    """A plane: its height in 16.16, its flat, which is a lump, or None for sky, its light, the word for what made it, leaf
    or fragment, the number of that, and in how many columns it has rows."""

    height: int
    flat: typing.Optional[int]
    light: int
    maker: str
    number: int
    columns: int


class Sprite(typing.NamedTuple):
    """A sprite: its thing, its picture, and its first and last column."""

    thing: int
    lump: int
    first: int
    last: int


class Sums(typing.NamedTuple):
    """How many of each a view has, and how many fragments and sprites without limits."""

    fragments: int
    all_fragments: int
    planes: int
    openings: int
    sprites: int
    all_sprites: int


class View(typing.NamedTuple):
    """What a view is made of. One over a limit has the name and the number of that, and nothing else."""

    fragments: list[Fragment]
    planes: list[Plane]
    sprites: list[Sprite]
    sums: typing.Optional[Sums]
    over: typing.Optional[tuple[str, int]]


Items = dict[str, list[typing.Any]]  # of a view, by their kinds

# The name of the group that a line has is the kind of the line.
LINE = re.compile(r'view (\d+) (?:'
                  r'(?P<fragment>fragment (\d+) seg (\d+) first (\d+) last (\d+))|'
                  r'(?P<plane>plane (\d+) height (-?\d+) flat (\d+|sky) light (-?\d+) (leaf|fragment) (\d+) '
                  r'columns (\d+))|'
                  r'(?P<sprite>sprite (\d+) thing (\d+) lump (\d+) first (-?\d+) last (-?\d+))|'
                  r'(?P<sums>fragments (\d+) of (\d+) planes (\d+) openings (\d+) sprites (\d+) of (\d+))|'
                  r'(?P<over>over (planes|openings) (\d+)))\n')
ITEMS = ['fragment', 'plane', 'sprite']  # in the order of their lines


def item(kind: str, values: Sequence[str]) -> typing.Union[Fragment, Plane, Sprite]:
    """A fragment, a plane or a sprite by the words of its line."""
    if kind == 'plane':
        height, flat, light, maker, number, columns = values
        return Plane(int(height), None if flat == 'sky' else int(flat), int(light), maker, int(number), int(columns))
    return (Fragment if kind == 'fragment' else Sprite)(*map(int, values))


class ListFile:
    """A file that `doomview list` wrote, which is read and checked to its end; views are read where they are asked."""

    def __init__(self, path: str) -> None:
        check_source(path)
        self.path, self.line = path, 0
        self.places: list[tuple[int, int]] = []  # of the views in the file: bytes and lines before each
        with open(path, 'rb') as file:
            while True:
                place = file.tell(), self.line
                if self.read_view(file, len(self.places)) is None:
                    break
                self.places.append(place)

    @property
    def count(self) -> int:
        return len(self.places)

    def view(self, number: int) -> View:
        """What a view is made of."""
        with open(self.path, 'rb') as file:
            place, self.line = self.places[number]
            file.seek(place)
            view = self.read_view(file, number)
            assert view is not None, 'the file was read to its end before'
            return view

    def wrong(self, what: str) -> Trouble:
        return Trouble(f'{self.path}, line {self.line}: {what}; name the whole of what doomview list wrote')

    def read_view(self, file: typing.BinaryIO, number: int) -> typing.Optional[View]:
        """The view of a number, which is the next of a file; None at the end of the file."""
        items: Items = {kind: [] for kind in ITEMS}
        while True:
            text = file.readline(LONGEST)
            if not text and not any(items.values()):
                return None
            self.line += 1
            found = LINE.fullmatch(text.decode('latin-1'))
            if not found:
                raise self.wrong('the file ends within a view' if not text else 'this is no line of a list')
            if int(found[1]) != number:
                raise self.wrong(f'the line of view {number} that has its sums is missing' if any(items.values())
                                 else f'view {found[1]} stands where view {number} should')
            kind, values = found.lastgroup or '', [value for value in found.groups() if value is not None][2:]
            if kind not in ITEMS:
                return self.whole_view(number, items, kind, values)
            self.check_order(items, kind, int(values[0]))
            last = item(kind, values[1:])
            items[kind].append(last)
            if isinstance(last, Plane) and last.maker == 'fragment' and last.number >= len(items['fragment']):
                raise self.wrong(f'view {number} has no fragment {last.number}')

    def check_order(self, items: Items, kind: str, number: int) -> None:
        """A Trouble where an item is not the next of its kind, or stands behind items that come after it."""
        if number != len(items[kind]) or any(items[later] for later in ITEMS[ITEMS.index(kind) + 1:]):
            raise self.wrong(f'{kind} {number} stands where {kind} {len(items[kind])} or a later item should')

    def whole_view(self, number: int, items: Items, kind: str, values: Sequence[str]) -> View:
        """A view by its last line."""
        fragments, planes, sprites = (items[kind] for kind in ITEMS)
        if kind == 'over':
            if fragments or planes or sprites:
                raise self.wrong(f'view {number} has items, and passes a limit')
            return View([], [], [], None, (values[0], int(values[1])))
        sums = Sums(*map(int, values))
        if (len(fragments), len(planes), len(sprites)) != (sums.fragments, sums.planes, sums.sprites):
            raise self.wrong(f'the sums of view {number} are not those of its lines')
        return View(fragments, planes, sprites, sums, None)


def narrow(view: View, least: int) -> set[int]:
    """The numbers of a view's sprites that have fewer columns than the least, and are not cut by an edge of the screen."""
    return {number for number, sprite in enumerate(view.sprites)
            if 0 < sprite.first <= sprite.last < WIDTH - 1 and sprite.last - sprite.first + 1 < least}
