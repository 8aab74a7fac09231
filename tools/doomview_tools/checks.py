"""Checks of a map: all that looks like a mistake, and all that doomview refuses a level for, at once.

`findings(level, wads)` gives Findings. What the original makes of specials, tags and tables is in game_checks."""
import collections
import csv
import difflib
import functools
import typing
from collections.abc import Callable, Iterable, Iterator

from . import ground, levels, player_reach, program
from .art import Art, Texture
from .doom import (EVERY_SKILL, FRONT_AND_BACK, LOWER_UNPEGGED, PLACES, PLAYER_1, SKY, SPECTRE, THINGS, TWO_SIDED,
                   UPPER_UNPEGGED)
from .findings import ERROR, FAULT, HOLE, ODD, Finding, lines, sectors, several, some
from .game_checks import GameCheck

TALL = 128  # rows of a wall after which its texture begins anew
PARTS = ('upper', 'lower', 'middle')
UNDRAWN = {*PLACES, SPECTRE, *THINGS['last_boss']}  # and two of the last boss, which the thing table leaves out
NO_THING: int = THINGS['none']  # a type for which ports place nothing


Findings = Iterator[Finding]
Vertexes = set[levels.Vertex]
# A line with one sector on both sides, or none: the sector, and both ends.
OwnLine = tuple[typing.Optional[int], levels.Vertex, levels.Vertex]
# Which side of a line it is, the side, and the sectors in front of it and behind it.
Beside = tuple[int, levels.Side, levels.Sector, typing.Optional[levels.Sector]]
# A type of things with its row, and the numbers of the things of that type.
Things = tuple[tuple[int, typing.Optional[str]], list[int]]


class Part(typing.NamedTuple):
    """A part of a wall: whether its texture hangs from above by its own height, the texel row at its top without that,
    and the row offset of its side."""

    side: int
    name: str
    texture: str
    height: int
    hangs: bool
    start: int
    offset: int


def guess(name: str, names: Iterable[str]) -> str:
    """What a name may have been meant to be."""
    found = difflib.get_close_matches(name, names, 1, .75)
    return f'; is it {found[0]}?' if found else ''


def first_row(part: Part, texture: Texture) -> int:
    """The texel row of a texture at the top of a part, which goes round after TALL rows."""
    return (part.start + texture.height * part.hangs) % TALL


def runs_out(part: Part, texture: Texture) -> bool:
    """Whether rows past the end of a texture show, since it is lower than the rows after which it begins anew."""
    first = first_row(part, texture)
    return 0 < texture.height < TALL and any((first + row) % TALL >= texture.height
                                             for row in range(min(part.height, TALL)))


def runs_out_told(part: Part, texture: Texture) -> str:
    """What is wrong with a part that is higher than the rest of its texture."""
    first = first_row(part, texture)
    begins = f', and begins in row {first} (row offset {part.offset})' if part.offset else (
        f', and begins in row {first}' if first else '')
    return (f'{part.name} {texture.name} is {texture.height} high and the wall {part.height}{begins}: rows of other '
            'pictures show')


def findings(level: levels.Level, files: list[str]) -> Findings:
    """All that looks like a mistake."""
    check = Check(level, Art(files))
    for part in (check.missing_textures, check.lists, check.missing_flats, check.lost_flats, check.odd_lines,
                 check.walls, check.middles, check.sectors, check.pictures, check.things, check.unclosed_sectors):
        yield from part()
    yield from GameCheck(level, check.plan, check.reached).findings()


class Check:
    """The checks of one map."""

    def __init__(self, level: levels.Level, art: Art) -> None:
        self.level, self.art, self.plan = level, art, ground.Plan(level)
        self.reached = functools.cache(lambda: player_reach.reach(self.plan).sectors or set(range(len(level.sectors))))
        self.lines_of = collections.defaultdict(list)
        for number, line in enumerate(level.lines):
            for side in line.sides:
                self.lines_of[side].append(number)

    def lines(self, numbers: Iterable[int]) -> str:
        return lines(numbers, self.level)

    def lines_with(self, sides: Iterable[int]) -> list[int]:
        return [line for side in sides for line in self.lines_of[side]]

    def sides(self, number: int) -> Iterator[Beside]:
        """The sides of a line that are there: which it is, the side, and the sectors in front of it and behind it."""
        line, beside = self.level.lines[number], self.plan.beside[number]
        for which, (side, in_front) in enumerate(zip(line.sides, beside)):
            if side is not None and in_front is not None:
                behind = beside[1 - which] if line.flags & TWO_SIDED else None
                yield (which, self.level.sides[side], self.level.sectors[in_front],
                       None if behind is None else self.level.sectors[behind])

    def missing(self) -> dict[str, list[tuple[int, str]]]:
        """The textures that no list has: by name the sides, and the parts of walls."""
        found = collections.defaultdict(list)
        for number, side in enumerate(self.level.sides):
            for part in PARTS:
                name = getattr(side, part)
                if not name.startswith('-') and name not in self.art.textures:
                    found[name].append((number, part))
        return found

    def missing_textures(self) -> Findings:
        found = self.missing()
        for name, places in sorted(found.items()):
            parts = ' '.join(part for part in PARTS if part in {which for _, which in places})
            lines_here = self.lines_with(side for side, _ in places)
            of_no_line = several('side', (side for side, _ in places)) + ', of no line'
            where = self.lines(lines_here) if lines_here else of_no_line
            if name:
                yield Finding(ERROR, 'texture', where, f'{parts} {name} is in no list of textures'
                              + guess(name, self.art.textures))
            else:
                yield Finding(ERROR, 'texture', where, f'{parts}: the name is empty; write - for no texture')
        for name, file, hiding in self.art.hidden_textures(set(found)):
            yield Finding(ERROR, 'list', hiding, f'its TEXTURE1 hides that of {file}, which has {name}; it needs all '
                                                 'textures of both')

    def lists(self) -> Findings:
        """What is wrong with the lists of textures: the original looks at all of them when it begins."""
        hidden = list(self.art.hiding_names())
        for name, file, hiding, texture, meant, instead in hidden:
            yield Finding(ERROR, 'list', hiding, f'its PNAMES hides that of {file}, on which {name} counts: {texture} '
                          f'needs the patch {meant}, and gets {instead}; begin it with all names of the other')
        for patch, textures in sorted(self.art.missing_patches().items() if not hidden else ()):
            more = f' and {len(textures) - 1} more' if len(textures) > 1 else ''
            yield Finding(ERROR, 'patch', patch, f'no WAD has this patch of the texture {textures[0]}{more}: the '
                          'original ends before it draws anything')

    def missing_flats(self) -> Findings:
        found = collections.defaultdict(list)
        for number, sector in enumerate(self.level.sectors):
            for part, name in (('floor', sector.floor_flat), ('ceiling', sector.ceiling_flat)):
                if name not in self.art.flats:
                    found[name].append((number, part))
        for name, places in sorted(found.items()):
            parts = ' '.join(sorted({part for _, part in places}, reverse=True))
            why = (': there is a lump of that name, but not between F_START and F_END' if name in self.art.lumps
                   else guess(name, self.art.flats))
            yield Finding(ERROR, 'flat', sectors(number for number, _ in places),
                          f'{parts} {name or "(no name)"} is no flat{why}')

    def lost_flats(self) -> Findings:
        """Flats that doomview draws and the original does not find."""
        used = collections.defaultdict(list)
        for number, sector in enumerate(self.level.sectors):
            for name in (sector.floor_flat, sector.ceiling_flat):
                used[name].append(number)
        before, behind = self.art.lost_flats(self.art.flats & set(used))
        file = ''.join(self.art.files[number] for number in self.art.having('F_START')[-1:])
        for names, why in ((before, f'before the F_START of {file}, with which the flats of the original begin; call '
                            'that mark FF_START'),
                           (behind, 'after the last F_END, with which the flats of the original end; a PWAD has its '
                            'own between FF_START and F_END')):
            if names:
                yield Finding(ERROR, 'flat', sectors(number for name in names for number in used[name]),
                              f'{some(names)} {"comes" if len(names) == 1 else "come"} {why}. The original ends there')

    def odd_lines(self) -> Findings:
        for which in (0, 1):
            lost = [number for number, line in enumerate(self.level.lines)
                    if line.sides[which] is not None and self.plan.beside[number][which] is None]
            if lost:
                yield Finding(ERROR, 'line', self.lines(lost),
                              f'its {FRONT_AND_BACK[which]} side, or the sector of that, is not there')
        for number, line in enumerate(self.level.lines):
            back = self.plan.beside[number][1]
            if line.start == line.end:
                yield Finding(ODD, 'line', self.lines([number]), 'has no length')
            if line.front is None:
                yield Finding(ERROR, 'line', self.lines([number]), 'has no front side')
            if line.flags & TWO_SIDED and back is None and line.back is None:
                yield Finding(FAULT, 'line', self.lines([number]), 'is two-sided and has no back side')
            if not line.flags & TWO_SIDED and back is not None:
                yield Finding(ODD, 'line', self.lines([number]), 'has two sides and is not two-sided: it is drawn as a '
                              'wall')

    def parts(self, number: int) -> Iterator[Part]:
        """The wall parts of a line that are seen."""
        flags = self.level.lines[number].flags
        for which, side, front, back in self.sides(number):
            high = front.ceiling - front.floor
            if back is None:
                if high > 0:
                    hangs = bool(flags & LOWER_UNPEGGED)
                    yield Part(which, 'middle', side.middle, high, hangs, side.y_offset - high * hangs,
                               side.y_offset)
                continue
            if back.ceiling < front.ceiling and not front.ceiling_flat == back.ceiling_flat == SKY:
                hangs, below = not flags & UPPER_UNPEGGED, front.ceiling - back.ceiling
                yield Part(which, 'upper', side.upper, min(below, high), hangs, side.y_offset - below * hangs,
                           side.y_offset)
            if back.floor > front.floor:
                start = (front.ceiling - back.floor) * bool(flags & LOWER_UNPEGGED)
                height = min(back.floor - front.floor, high)
                yield Part(which, 'lower', side.lower, height, False, side.y_offset + start, side.y_offset)

    def walls(self) -> Findings:
        """Parts without a texture, and those past the end of theirs."""
        for number in range(len(self.level.lines)):
            for part in self.parts(number):
                texture = self.art.textures.get(part.texture)
                if part.texture.startswith('-'):
                    yield self.hole(number, part)
                elif texture and runs_out(part, texture):
                    yield Finding(ODD, 'tutti-frutti', self.where(number, part), runs_out_told(part, texture))

    def where(self, number: int, part: Part) -> str:
        return f'{self.lines([number])} {FRONT_AND_BACK[part.side]}'

    def hole(self, number: int, part: Part) -> Finding:
        """The Finding of a part without a texture. One is odd in front of which no player can be, though he may see it
        from afar."""
        in_front = self.plan.beside[number][part.side]
        assert in_front is not None  # the sector of a side with a part
        sector = self.level.sectors[in_front]
        told = f'needs a texture: {part.name}, {part.height} high'
        if not ground.has_height(sector) and in_front not in self.plan.rising_sectors():
            return Finding(ODD, 'texture', self.where(number, part), f'{told}; seen from afar at most, since sector '
                           f'{in_front} in front of it is {sector.ceiling - sector.floor} high')
        if in_front not in self.reached():
            return Finding(ODD, 'texture', self.where(number, part), f'{told}; seen from afar at most, since no way '
                           f'leads to sector {in_front} in front of it')
        return Finding(HOLE, 'texture', self.where(number, part), told)

    def medusa(self) -> Iterator[tuple[str, list[int], int, int]]:
        """The middle textures with several patches, or none, in a column: by name the lines and the first column."""
        found = collections.defaultdict(list)
        for number, line in enumerate(self.level.lines):
            for _, side, _, back in self.sides(number):
                if back is not None and side.middle in self.art.textures:
                    found[side.middle].append(number)
        for name, numbers in sorted(found.items()):
            counts = self.art.counts(self.art.textures[name])
            wrong = next((x for x, count in enumerate(counts) if count != 1), None)
            if wrong is not None:
                yield name, numbers, wrong, counts[wrong]

    def middles(self) -> Findings:
        for name, numbers, column, count in self.medusa():
            yield Finding(ERROR, 'Medusa', self.lines(numbers), f'middle {name} has {count or "no"} patches in column '
                          f'{column}: the Medusa effect; take a texture of one patch a column')

    def sectors(self) -> Findings:
        for number, sector in enumerate(self.level.sectors):
            if sector.ceiling < sector.floor:
                yield Finding(ODD, 'sector', sectors([number]),
                              f'its ceiling {sector.ceiling} is below its floor {sector.floor}')

    def things_of(self, is_wrong: Callable[[typing.Optional[str]], object]) -> list[Things]:
        """The things whose type has no row in the thing table, or a wrong one: by type and row."""
        try:
            with open(program.things_file(), newline='', encoding='utf-8') as file:
                known = {int(row['type']): row['sprite'] + row['frame'] for row in csv.DictReader(file)}
        except (OSError, ValueError, KeyError, TypeError):
            return []
        found = collections.defaultdict(list)
        for number, thing in enumerate(self.level.things):
            if thing.type not in UNDRAWN and is_wrong(known.get(thing.type)):
                found[thing.type, known.get(thing.type)].append(number)
        return sorted(found.items())

    def pictures(self) -> Findings:
        for (kind, frame), numbers in self.things_of(lambda frame: frame and frame not in self.art.frames):
            yield Finding(ERROR, 'thing', several('thing', numbers), f'type {kind} needs the picture {frame}, which no '
                          'WAD has between S_START and S_END')

    def things(self) -> Findings:
        if not any(thing.type == PLAYER_1 for thing in self.level.things):
            yield Finding(ERROR, 'thing', 'map', 'has no start of player 1 (thing of type 1)')
        for (kind, _), numbers in self.things_of(lambda frame: frame is None):
            yield from self.unknown_things(kind, numbers)
        place = ground.Ground(self.plan)
        for number, thing in enumerate(self.level.things):
            if all(place.is_void(thing.x, thing.y + off) for off in (-.5, .5)):
                yield Finding(FAULT, 'thing', f'thing {number}',
                              f'type {thing.type} at {thing.x}, {thing.y} is outside the level')

    def unknown_things(self, kind: int, numbers: list[int]) -> Findings:
        """Findings of things of a type that there is not: the original ends where it would place one."""
        placed = [number for number in numbers if kind != NO_THING and self.level.things[number].options & EVERY_SKILL]
        at = [f'{self.level.things[number].x}, {self.level.things[number].y}' for number in numbers[:1]]
        where = several('thing', placed or numbers)
        if placed:
            yield Finding(ERROR, 'thing', where, f'type {kind} at {at[0]} is none of the game: the original ends there')
        else:
            yield Finding(ODD, 'thing', where, f'type {kind} at {at[0]} is none of the game, and never appears')

    def unclosed_sectors(self) -> Findings:
        """Sectors whose lines do not close: at a vertex where an odd number of them end, and no line that has one
        sector on both sides, as of deep water. Where such a line alone closes the gap of another sector, it has the
        wrong one on a side."""
        gaps, tricks = self.gaps(), self.own_lines()
        closing = gap_lines(gaps, tricks)
        exempt = {vertex for _, start, end in tricks for vertex in (start, end)}
        for sector, open_ends in sorted(gaps.items()):
            found = sorted({*(open_ends - exempt), *(closing[sector] & open_ends)})
            if found:
                some_here = ' and '.join(f'{vertex.x}, {vertex.y}' for vertex in found[:2])
                yield Finding(FAULT, 'sector', sectors([sector]), f'is not closed: its lines end at {some_here}')

    def gaps(self) -> dict[int, Vertexes]:
        """The vertexes at which an odd number of a sector's lines end, by sector."""
        found: dict[int, Vertexes] = collections.defaultdict(set)
        for number, line in enumerate(self.level.lines):
            pair = self.plan.beside[number]
            for sector in set(pair) - {None} if pair[0] != pair[1] else ():
                for vertex in line[:2]:
                    found[typing.cast(int, sector)] ^= {self.level.vertexes[vertex]}
        return found

    def own_lines(self) -> list[OwnLine]:
        """The lines that have one sector on both sides, or none: the sector, and both ends."""
        return [(front, *self.plan.ends(number)) for number, (front, back) in enumerate(self.plan.beside) if front == back]


def gap_lines(gaps: dict[int, Vertexes], tricks: list[OwnLine]) -> dict[int, Vertexes]:
    """Of each sector the ends of lines that close its gap, and have on both sides one other sector that closes none
    elsewhere: one that does is a bridge or the like."""
    closed: dict[typing.Optional[int], list[tuple[int, Vertexes]]] = collections.defaultdict(list)
    for sector, open_ends in gaps.items():
        for own, start, end in tricks:
            if own not in (sector, None) and start != end and {start, end} <= open_ends:
                closed[own].append((sector, {start, end}))
    found: dict[int, Vertexes] = collections.defaultdict(set)
    for sector, ends in (pairs[0] for pairs in closed.values() if len(pairs) == 1):
        found[sector] |= ends
    return found
