"""A game at rest: what makes an installed port show a map as doomview draws it, with no change of its sources.

A PWAD has the map without the specials of its sectors and lines, with demons for spectres, and an empty picture for the
word of the pause; a DeHackEd patch lets each thing stay in the first frame of its spawn state; a demo stands still
until the weapon is up, then pauses at each view and turns. Animated flats and textures still go on until the pause, so a
second WAD has the names that are shown then, and doomview draws that one."""
import re
import struct
import typing
from collections.abc import Iterable

from . import art, doom, levels, paths, wads
from .doom import DEMON, LAYOUTS, PLAYER_1, SPECTRE
from .levels import EYE_HEIGHT, TURN, UNIT
from .trouble import Trouble

TICS = 33  # before the first pause: the weapon is up
Place = typing.Optional[tuple[int, int, int]]  # x and y in map units, and degrees
STEP = 37  # of a turn of 256, from view to view
MOST_VIEWS = 8
UNDER_CEILING = 4  # the least map units between eye and ceiling
FIRST_FRAME, LAST_FRAME = 90, 966  # of things in DeHackEd: before them are those of weapons
PAUSE = bytes([0, 0, 0, 0x81])
STILL = bytes(4)
SAVE = 0x82  # the button that saves the game
EMPTY_PICTURE = struct.pack('<4hI', 1, 1, 0, 0, 12) + b'\xff'
MAP_LUMPS = doom.MAP_LUMPS + doom.TABLES
# The first and the last picture of each animation, as P_InitPicAnims has them.
FLATS = ['NUKAGE1 NUKAGE3', 'FWATER1 FWATER4', 'SWATER1 SWATER4', 'LAVA1 LAVA4', 'BLOOD1 BLOOD3', 'RROCK05 RROCK08',
         'SLIME01 SLIME04', 'SLIME05 SLIME08', 'SLIME09 SLIME12']
TEXTURES = ['BLODGR1 BLODGR4', 'SLADRIP1 SLADRIP3', 'BLODRIP1 BLODRIP4', 'FIREWALA FIREWALL', 'GSTFONT1 GSTFONT3',
            'FIRELAV3 FIRELAVA', 'FIREMAG1 FIREMAG3', 'FIREBLU1 FIREBLU2', 'ROCKRED1 ROCKRED3', 'BFALL1 BFALL4',
            'SFALL1 SFALL4', 'WFALL1 WFALL4', 'DBRAIN1 DBRAIN4']


def lump_of(layout: str, records: Iterable[levels.Record]) -> bytes:
    """The bytes of a lump, its names as they are in records."""
    return b''.join(struct.pack(layout, *(part.encode('latin-1') if isinstance(part, str) else part for part in record))
                    for record in records)


def shown_names(names: list[str], animations: Iterable[str], tic: int, ahead: int = 0) -> dict[str, str]:
    """For each animated name the one that P_UpdateSpecials shows after a tic, by its number among all names."""
    found = {}
    for first, last in (words.split() for words in animations):
        if first in names and last in names:
            base = names.index(first)
            count = names.index(last) - base + 1
            for number in range(base, base + count):
                found[names[number]] = names[base + (tic // 8 + number + ahead) % count]
    return found


class MapAtRest:
    """A map at rest: its lumps by name, the row of the player start, and the lists of flats and textures."""

    def __init__(self, files: list[str], name: str, at: Place = None) -> None:
        self.lumps = [lump for file in files for lump in wads.read(file)]
        self.level = levels.read(files, name)
        label = wads.map_labels(self.lumps)[self.level.name]
        self.parts = dict(self.lumps[label + 1:label + 1 + len(MAP_LUMPS)])
        if list(self.parts) != MAP_LUMPS:
            raise self.level.error('has no REJECT and BLOCKMAP behind it, which ports need; build its nodes')
        self.start = self.start_at(at)
        self.parts['THINGS'] = lump_of(LAYOUTS['THINGS'], self.things())
        self.parts['SECTORS'] = self.sectors({})
        self.parts['LINEDEFS'] = lump_of(LAYOUTS['LINEDEFS'], [
            (*record[:3], 0, *record[4:]) for record in levels.records(self.parts['LINEDEFS'], LAYOUTS['LINEDEFS'])])

    def start_at(self, at: Place) -> levels.Thing:
        """The player start, or one at x, y and degrees of an eighth of a turn."""
        start = self.level.player_start()
        return start._replace(x=at[0], y=at[1], angle=at[2]) if at else start

    def things(self) -> list[levels.Thing]:
        """The things of the level: one player start behind all others, and demons in the place of spectres."""
        others = [thing for thing in self.level.things if thing.type != PLAYER_1]
        return [thing._replace(type=DEMON) if thing.type == SPECTRE else thing for thing in others] + [self.start]

    def row(self) -> paths.Row:
        """The viewpoint of the player start."""
        sector = self.level.sectors[self.level.sector_at(self.start.x, self.start.y)]
        eye = min(sector.floor + EYE_HEIGHT, sector.ceiling - UNDER_CEILING)
        return paths.Row(self.start.x * UNIT, self.start.y * UNIT, eye * UNIT, paths.start_angle(self.start))

    def rows(self, views: int) -> list[paths.Row]:
        """The viewpoints of a demo."""
        row = self.row()
        return [row._replace(angle=(row.angle + view * STEP * (TURN // 256)) % TURN) for view in range(views)]

    def sectors(self, names: dict[str, str]) -> bytes:
        return lump_of(LAYOUTS['SECTORS'], [
            sector._replace(floor_flat=names.get(sector.floor_flat, sector.floor_flat), special=0,
                            ceiling_flat=names.get(sector.ceiling_flat, sector.ceiling_flat))
            for sector in self.level.sectors])

    def sides(self, names: dict[str, str]) -> bytes:
        return lump_of(LAYOUTS['SIDEDEFS'], [(*side[:2], *(names.get(name, name) for name in side[2:5]), side.sector)
                                            for side in self.level.sides])

    def wad(self) -> bytes:
        """The PWAD for a port."""
        return wads.wad_of([('M_PAUSE', EMPTY_PICTURE), (self.level.name, b''), *self.parts.items()], b'PWAD')

    def shown_wad(self, tic: int = TICS - 1, ahead: int = 0) -> bytes:
        """The PWAD for doomview: the same map with the names that are shown after a tic, by a port that counts
        textures from `ahead` on."""
        names = [lump.name for lump in self.lumps]
        flats = names[names.index('F_START') + 1:] if 'F_START' in names else []
        textures = [texture.name for texture in art.textures_of(dict(self.lumps))]
        parts = {**self.parts, 'SECTORS': self.sectors(shown_names(flats, FLATS, tic)),
                 'SIDEDEFS': self.sides(shown_names(textures, TEXTURES, tic, ahead))}
        return wads.wad_of([(self.level.name, b''), *parts.items()], b'PWAD')


def patch() -> str:
    """The DeHackEd patch: each frame of a thing lasts for ever."""
    frames = ''.join(f'Frame {number}\nDuration = -1\n\n' for number in range(FIRST_FRAME, LAST_FRAME + 1))
    return f'Patch File for DeHackEd v3.0\nDoom version = 19\nPatch format = 6\n\n{frames}'


def number_of(name: str) -> tuple[int, int]:
    """The episode and number of a map, by its name."""
    found = re.fullmatch(r'E([1-9])M([1-9])|MAP(\d\d)', name)
    if not found:
        raise Trouble(f'{name} is no name of a map that a demo can start, such as MAP01 or E1M1')
    return (1, int(found[3])) if found[3] else (int(found[1]), int(found[2]))


def demo_head(name: str, skill: int) -> bytes:
    """The head of a demo of version 1.9, of one player."""
    episode, number = number_of(name)
    return bytes([109, skill - 1, episode, number, 0, 0, 0, 0, 0, 1, 0, 0, 0])


def demo(name: str, skill: int, views: int, tics: int) -> bytes:
    """The demo that pauses for so many tics at each of the views."""
    turn = bytes([0, 0, STEP, 0x81])
    return demo_head(name, skill) + STILL * TICS + turn.join([PAUSE + STILL * tics] * views) + b'\x80'


def saving_demo(name: str, skill: int) -> bytes:
    """The demo that saves the game at rest in the first slot."""
    return demo_head(name, skill) + STILL * TICS + bytes([0, 0, 0, SAVE]) + STILL * 5 + b'\x80'
