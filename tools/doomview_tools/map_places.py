"""Where in a map the items of a list are: which line, sector or thing, as a map editor shows it.

`Places` says it of the items of a view; `Placing` has the list of a trace, with the map that it is of."""
import argparse
import collections
import csv
import functools
import typing
from collections.abc import Sequence

from . import installation, levels, wads
from .doom import FRONT_AND_BACK, SKY, TWO_SIDED
from .files import Source
from .levels import UNIT, Level, Seg, Side
from .list_files import Fragment, ListFile, Plane, Sprite, View
from .traces import COMPOSITE, MIDDLE, PLANE, SKY as SKY_PLANE, SPRITE, WALL, Names, Painter, Record
from .trouble import Trouble

SHOWN_SECTORS = 6


class Key(typing.NamedTuple):
    """What planes share: a height in map units, the name of a flat, and a light."""

    height: float
    flat: str
    light: int


class Group(typing.NamedTuple):
    """Planes of a key: whether they are floors, ceilings or sky, in words, and the sectors that have such."""

    key: Key
    sides: str
    sectors: list[int]


class Position(typing.NamedTuple):
    """Where in a map an item is, and what it is, in words; what it is in its view, and what more is known."""

    where: str
    what: str
    by: str
    more: str


Item = typing.TypeVar('Item', Fragment, Plane, Sprite)
Sides = set[str]  # floor, ceiling


def some_of(words: Sequence[object], most: int) -> str:
    """Words in a row, of which some are shown at most."""
    more = f' and {len(words) - most} more' if len(words) > most else ''
    return ', '.join(map(str, words[:most])) + more


def sectors_in_words(sectors: Sequence[int], most: int = SHOWN_SECTORS) -> str:
    return ('sector ' if len(sectors) == 1 else 'sectors ') + some_of(sectors, most)


class Places:
    """Says of the items of a list what a map editor shows, by the map and the names of its WADs."""

    def __init__(self, level: Level, names: Names, path: str) -> None:
        self.level, self.names, self.path = level, names, path
        self.known: tuple[typing.Optional[View], dict[Key, str]] = (None, {})  # sides of planes of a view
        self.having: dict[str, dict[Key, list[int]]] = {
            'floor': collections.defaultdict(list), 'ceiling': collections.defaultdict(list)}
        for number in range(len(level.sectors)):
            for side, key in self.keys_of(number).items():
                self.having[side][key].append(number)

    def keys_of(self, number: int) -> dict[str, Key]:
        """The planes of a sector: of its floor and of its ceiling."""
        sector = self.level.sectors[number]
        pairs = {'floor': (sector.floor, sector.floor_flat), 'ceiling': (sector.ceiling, sector.ceiling_flat)}
        return {side: Key(0, SKY, 0) if flat == SKY else Key(height, flat, sector.light)
                for side, (height, flat) in pairs.items()}

    def other(self, what: str) -> Trouble:
        """The Trouble of a list that is not of this map, or not of the trace."""
        return Trouble(f'{self.path} does not fit: {what}; name the list, the trace, the WADs and the map of the same '
                       'words')

    @functools.cached_property
    def leaf_of_seg(self) -> dict[int, int]:
        return {seg: number for number, leaf in enumerate(self.level.leaves)
                for seg in range(leaf.first, leaf.first + leaf.count)}

    def seg(self, number: int) -> Seg:
        """A seg, whose line is there."""
        segs = self.level.segs
        if (number >= len(segs) or segs[number].line >= len(self.level.lines)
                or segs[number].side >= len(FRONT_AND_BACK)):
            raise self.other(f'{self.level.name} has no seg {number}')
        return segs[number]

    def line_of(self, fragment: Fragment) -> str:
        """The line of a fragment, and which of its sides, in words."""
        seg = self.seg(fragment.seg)
        return f'line {seg.line}, {FRONT_AND_BACK[seg.side]} side'

    def side_of(self, fragment: Fragment) -> Side:
        """The side of the line of a fragment."""
        seg = self.seg(fragment.seg)
        number = self.level.lines[seg.line].sides[seg.side]
        if number is None or number >= len(self.level.sides):
            raise self.no_side(seg)
        return self.level.sides[number]

    def no_side(self, seg: Seg) -> Trouble:
        return self.other(f'line {seg.line} of {self.level.name} has no such side')

    def sector_of_leaf(self, leaf: int) -> int:
        try:
            sector = self.level.sector_of_leaf(leaf)
        except (IndexError, TypeError) as error:
            raise self.no_leaf(leaf) from error
        if sector >= len(self.level.sectors):
            raise self.no_leaf(leaf)
        return sector

    def no_leaf(self, leaf: int) -> Trouble:
        return self.other(f'{self.level.name} has no leaf {leaf}')

    def sector_of_fragment(self, fragment: Fragment) -> int:
        """The sector in front of a fragment: that of its leaf."""
        if fragment.seg not in self.leaf_of_seg:
            raise self.other(f'{self.level.name} has no leaf with seg {fragment.seg}')
        return self.sector_of_leaf(self.leaf_of_seg[fragment.seg])

    def maker_of(self, view: View, plane: Plane) -> tuple[int, str]:
        """The sector that made a plane, and how, in words."""
        if plane.maker == 'leaf':
            sector = self.sector_of_leaf(plane.number)
            return sector, f'made by leaf {plane.number} of sector {sector}'
        fragment = view.fragments[plane.number]
        line = self.seg(fragment.seg).line
        return self.sector_of_fragment(fragment), f'split by fragment {plane.number} of line {line}'

    def key_of(self, plane: Plane) -> Key:
        """The height, flat and light of a plane."""
        if plane.flat is None:
            return Key(0, SKY, 0)
        if plane.flat >= len(self.names.lumps):
            raise self.other(f'the WADs have no lump {plane.flat}')
        return Key(plane.height / UNIT, self.names.lumps[plane.flat], plane.light)

    def sides_of(self, view: View) -> dict[Key, str]:
        """Of each plane's key whether it is a floor's or a ceiling's, or both in words where nothing tells.

        The list does not say it. The sector that made a plane does, unless its floor and ceiling are the same, as of a
        door that is shut; then another plane of the view may, since floors are below the eye and ceilings above it."""
        if self.known[0] is not view:
            found: dict[Key, Sides] = collections.defaultdict(set)
            for plane in view.planes:
                key, sector = self.key_of(plane), self.maker_of(view, plane)[0]
                sides = {side for side, own in self.keys_of(sector).items() if own == key}
                if not sides:
                    raise self.other(f'sector {sector} has no floor or ceiling with flat {key.flat} at {key.height:g}')
                found[key] = found[key] & sides or sides
            self.known = view, self.words_of_sides(found)
        return self.known[1]

    def words_of_sides(self, found: dict[Key, Sides]) -> dict[Key, str]:
        """The sides of keys, which are more than one of some, in words."""
        plain = {key: sides for key, sides in found.items() if key.flat != SKY}
        floors = [key.height for key, sides in plain.items() if sides == {'floor'}]
        ceilings = [key.height for key, sides in plain.items() if sides == {'ceiling'}]
        words = {}
        for key, sides in found.items():
            if key.flat == SKY:
                words[key] = 'sky'
            elif len(sides) == 1:
                words[key], = sides
            elif floors and key.height <= max(floors):
                words[key] = 'floor'
            elif ceilings and key.height >= min(ceilings):
                words[key] = 'ceiling'
            else:
                words[key] = 'floor or ceiling'
        return words

    def group(self, view: View, plane: Plane) -> Group:
        """What a plane is, with all the sectors that have such a floor or ceiling."""
        key = self.key_of(plane)
        sides = self.sides_of(view)[key]
        having = [side for side in self.having if side in sides or sides == 'sky']
        return Group(key, sides, sorted({number for side in having for number in self.having[side][key]}))

    def parts(self, fragment: Fragment, kind: int) -> list[tuple[str, str]]:
        """The parts of a wall that a fragment may show: pairs of the part and the name of its texture."""
        seg, side = self.seg(fragment.seg), self.side_of(fragment)
        line = self.level.lines[seg.line]
        behind = line.sides[1 - seg.side]
        if kind == MIDDLE or not line.flags & TWO_SIDED or behind is None:
            return [('middle', side.middle)]
        front = self.level.sectors[self.sector_of_fragment(fragment)]
        try:
            back = self.level.sectors[self.level.sides[behind].sector]
        except IndexError as error:
            raise self.no_side(seg) from error
        has_upper = back.ceiling < front.ceiling and not front.ceiling_flat == back.ceiling_flat == SKY
        return [('upper', side.upper)] * has_upper + [('lower', side.lower)] * (back.floor > front.floor)

    def lit_by(self, fragment: Fragment, kind: int) -> int:
        """The sector that lights a wall: that of its leaf, or of a middle texture that of its side."""
        return self.side_of(fragment).sector if kind == MIDDLE else self.sector_of_fragment(fragment)

    def light_in_words(self, fragment: Fragment, kind: int) -> str:
        """The same in words, with its light."""
        sector = self.lit_by(fragment, kind)
        return f', sector {sector}, light {self.level.sectors[sector].light}'

    def light(self, view: View, kind: int, number: int) -> typing.Optional[int]:
        """The light of an item of a view, by its kind and its number; None of what is nowhere in the map."""
        if kind == PLANE:
            return self.item(view.planes, 'plane', number).light
        if kind == SPRITE:
            thing = self.level.things[self.item(view.sprites, 'sprite', number).thing]
            return self.level.sectors[self.level.sector_at(thing.x, thing.y)].light
        if kind in (WALL, MIDDLE):
            return self.level.sectors[self.lit_by(self.item(view.fragments, 'fragment', number), kind)].light
        return None

    @functools.cached_property
    def bright_types(self) -> set[int]:
        """The types of things that are full bright in the frame in which they are placed, by the tools' own table."""
        with open(installation.data('things.csv'), newline='', encoding='utf-8') as file:
            return {int(row['type']) for row in csv.DictReader(file) if row['bright'] == '1'}

    def is_bright(self, view: View, kind: int, number: int) -> bool:
        """Whether an item of a view is a thing that is full bright."""
        if kind != SPRITE:
            return False
        thing = self.item(view.sprites, 'sprite', number).thing
        return thing < len(self.level.things) and self.level.things[thing].type in self.bright_types

    def wall(self, view: View, painter: Painter, number: int) -> Position:
        fragment = self.item(view.fragments, 'fragment', number)
        source = self.names.source(painter)
        textures = [source] if painter.source_kind == COMPOSITE else self.names.textures_of(painter)
        parts = [(part, name) for part, name in self.parts(fragment, painter.kind) if name in textures]
        where = self.line_of(fragment)
        if not parts:
            raise self.other(f'{where} has no part with {source}, which the trace has of fragment {number}')
        if len({name for _, name in parts}) == 1:
            parts = [(' or '.join(part for part, _ in parts), parts[0][1])]
        what = ' or '.join(f'{part} texture {name}' for part, name in parts) + self.light_in_words(fragment, painter.kind)
        is_patch = painter.source_kind != COMPOSITE and (len(parts) > 1 or source != parts[0][1])
        return Position(where, what, f'fragment {number}, seg {fragment.seg}', f'patch {source}' if is_patch else '')

    def plane(self, view: View, painter: Painter, number: int) -> Position:
        plane = self.item(view.planes, 'plane', number)
        if (plane.flat is None) != (painter.kind == SKY_PLANE) or plane.flat not in (None, painter.source):
            raise self.other(f'plane {number} has another flat in the trace')
        key, sides, sectors = self.group(view, plane)
        by = f'plane {number}, {self.maker_of(view, plane)[1]}'
        if plane.flat is None:
            known = self.names.source_of(painter)
            return Position(f'sky of {sectors_in_words(sectors)}', f'{known.word} {known.name}', by, known.more)
        return Position(f'{sides} of {sectors_in_words(sectors)} at height {key.height:g}',
                        f'flat {key.flat}, light {key.light}', by, '')

    def sprite(self, view: View, painter: Painter, number: int) -> Position:
        sprite = self.item(view.sprites, 'sprite', number)
        if sprite.lump != painter.source:
            raise self.other(f'sprite {number} has another picture in the trace')
        if sprite.thing >= len(self.level.things):
            raise self.other(f'{self.level.name} has no thing {sprite.thing}')
        thing = self.level.things[sprite.thing]
        return Position(f'thing {sprite.thing} of type {thing.type} at {thing.x},{thing.y}',
                        f'lump {self.names.source(painter)}', f'sprite {number}', '')

    def item(self, items: Sequence[Item], word: str, number: int) -> Item:
        if number >= len(items):
            raise self.other(f'the trace has {word} {number}, and the list has {len(items)} of them in the view')
        return items[number]

    def position(self, view: View, painter: Painter, number: int) -> typing.Optional[Position]:
        """Where in the map an item of a view is, by its painter and its number; None of what is nowhere in it."""
        kinds = {WALL: self.wall, MIDDLE: self.wall, PLANE: self.plane, SKY_PLANE: self.plane, SPRITE: self.sprite}
        return kinds[painter.kind](view, painter, number) if painter.kind in kinds else None

    def place(self, view: View, painter: Painter, number: int) -> str:
        """The same in words, without what counts in the view alone; an empty text of what is nowhere."""
        position = self.position(view, painter, number)
        return f'{position.where}, {position.what}' if position else ''

    def in_words(self, view: View, record: Record, word: str) -> typing.Optional[str]:
        """A record of a trace in words, or None of what is nowhere in the map."""
        kind, source_kind, number, source, colour, _ = record
        position = self.position(view, Painter(kind, source_kind, source), number)
        if position is None:
            return None
        head = position.where if position.where.startswith(word) else f'{word}, {position.where}'
        more = f', {position.more}' if position.more else ''
        return f'{head}, {position.what} ({position.by}){more}, colour {colour}'


class Placing:
    """The list of a trace, with the map that it is of."""

    def __init__(self, path: str, count: int, files: list[str], name: typing.Optional[str], names: Names,
                 trace: str) -> None:
        self.list = ListFile(path)
        if self.list.count != count:
            raise Trouble(f'{path} is the list of {self.list.count} views, and {trace} the trace of {count}; name '
                          'those of the same words')
        self.places = Places(levels.read(files, name or only_map(files)), names, path)

    def view(self, number: int) -> View:
        """What a view is made of; of a view over a limit a trace has nothing, and so it is never asked for."""
        return self.list.view(number)


def only_map(files: list[str]) -> str:
    """The name of the map of some WADs that have one alone."""
    found = wads.map_labels([lump for file in files for lump in wads.read(file)])
    if len(found) != 1:
        raise Trouble(f'the WADs have {len(found)} maps; name that of the list by --map NAME')
    return next(iter(found))


def add_words(parser: argparse.ArgumentParser) -> None:
    """The words of a tool that takes a list."""
    parser.add_argument('--list', metavar='FILE', type=Source, help='what doomview list wrote for the same words: names '
                        'lines, sectors and things too; needs the WADs')
    parser.add_argument('--map', metavar='NAME', help='the map of the list, where the WADs have more than one')


def placing_of(options: argparse.Namespace, files: list[str], count: int, names: Names,
               has_map: bool = False) -> typing.Optional[Placing]:
    """The list that the words of a tool name, or None; its trace has a number of views. Where `has_map` holds a map may be
    named without a list."""
    if not options.list:
        if options.map and not has_map:
            raise Trouble('--map is the map of a list; name that by --list FILE')
        return None
    if not options.trace:
        raise Trouble('--list needs the trace of the same words; name it by --trace FILE')
    if not files:
        raise Trouble('--list needs the WADs of the run too, in their order')
    return Placing(options.list, count, files, options.map, names, options.trace)
