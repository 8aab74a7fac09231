"""The input files of the cases, by name: what the program makes, what is made here, and changed copies of both."""
import os
import re
import typing
from collections.abc import Callable, Iterable

import angles
import art
import bad_wads
import chance
import large
import levels
import more_wads
import odd_art
import odd_levels
import texts
from wads import NamedFiles, beside, wad

FILE_NAME = re.compile(r'(?:^|[=/])([\w-]+\.(?:wad|csv|bin))$')  # at the end of a word
ABSENT = ('absent.wad', 'absent.csv', 'absent.bin', '-made1.wad')
SEVERAL_WADS = 'made1.wad other-lists.wad other-map.wad other-flat0.wad'
COURT_FILES = '--tables angles.bin --things kinds.csv --path court.csv'
BytesOf = Callable[[str], bytes]  # of a file, by its name
# What the program itself writes for these words.
WRITTEN = {
    'angles.bin': 'make tables',
    'things.csv': 'make things',
    'trimmed-made1.wad': 'trim MAP01 made1.wad --tables angles.bin --things things.csv --path path1.csv',
    'trimmed-made10.wad': 'trim MAP01 made10.wad --tables angles.bin --things things.csv --path path10.csv',
    'trimmed-court.wad': f'trim MAP01 art.wad court.wad {COURT_FILES}',
    'trimmed-armed.wad': f'trim MAP01 art.wad court.wad {COURT_FILES} --weapon court-weapons.csv',
    'trimmed-chance.wad': 'trim MAP01 art.wad chance8.wad --tables angles.bin --things kinds.csv --path chance8.csv',
    'trimmed-several.wad': f'trim MAP01 {SEVERAL_WADS} --tables angles.bin --things things.csv --path path2.csv',
}
NUMBERED_WRITTEN = {'made.wad': 'make wad', 'path.csv': 'make path'}
# Files of a kind and a number, as hall64.wad.
NUMBERED: dict[str, Callable[[int], typing.Union[str, bytes]]] = {
    'chain.wad': bad_wads.chain_file,
    'chance.csv': texts.chance_text,
    'chance.wad': lambda seed: beside(*chance.chance_level('MAP01', seed)),
    'colormap.csv': texts.colormap_text,
    'crowd.wad': odd_levels.crowd_file,
    'extralight.csv': texts.extralight_text,
    'fan.wad': odd_levels.fan_file,
    'hall.wad': odd_levels.hall_file,
    'lumps.wad': bad_wads.many_lumps,
}
# Files of a kind and a number that are made of another: faulty0.wad, torn1.wad.
NUMBERED_CHANGED: dict[str, Callable[[int, BytesOf], bytes]] = {
    'cut.wad': lambda number, bytes_of: bytes_of('made1.wad')[:number],
    'faulty.wad': lambda number, bytes_of: bad_wads.faulty(bytes_of('made2.wad'), number),
    'torn.wad': lambda number, bytes_of: chance.torn(bytes_of(('made2.wad', 'court-and-art.wad')[number % 2]), number),
}
# What makes several files at once, each by its name, and the files that these are made of.
GROUPS: list[tuple[Callable[..., NamedFiles], list[str]]] = [
    (lambda: {'art.wad': wad(art.art()), 'court-and-art.wad': wad([*art.art(), *levels.court('MAP01')])}, []),
    (odd_levels.court_files, []),
    (odd_levels.room_files, []),
    (odd_levels.grated_files, []),
    (odd_levels.hanging_files, []),
    (odd_art.art_files, []),
    (bad_wads.tiny_files, []),
    (bad_wads.large_files, []),
    (angles.angle_files, ['angles.bin']),
    (bad_wads.colour_files, ['made1.wad']),
    (bad_wads.map_files, ['made1.wad']),
    (bad_wads.record_files, ['made1.wad']),
    (bad_wads.list_files, ['made1.wad']),
    (bad_wads.patch_files, ['made1.wad']),
    (bad_wads.name_files, ['made1.wad']),
    (bad_wads.sprite_files, ['made1.wad']),
    (bad_wads.masked_files, ['made2.wad']),
    (odd_levels.level_files, ['made3.wad']),
    (more_wads.more_files, ['made1.wad', 'made2.wad']),
    (odd_levels.open_files, ['made7.wad']),
    (lambda made: {'other-art.wad': odd_levels.other_art(made)}, ['made1.wad']),
    (lambda trimmed: {'trimmed-cut.wad': trimmed[:-1]}, ['trimmed-made1.wad']),
]
UNREADABLE = {'unreadable.wad', 'unreadable.csv'}


def put_unreadable(place: str) -> None:
    os.close(os.open(place, os.O_CREAT, mode=0))


# Names that no plain file has.
PLACES: dict[str, Callable[[str], None]] = {
    'folder.wad': os.mkdir,
    'loop.wad': lambda place: os.symlink(place, place),
    'link.wad': lambda place: os.symlink('made1.wad', place),
    **{name: put_unreadable for name in UNREADABLE},
    'dead-link.wad': lambda place: os.symlink('absent.wad', place),
}


class Unknown(Exception):
    """There is no file of that name."""


class Files:
    """The files of a folder, each made once. `written` gives what the program writes there for some words."""

    def __init__(self, folder: str, written: Callable[[str], bytes]) -> None:
        self.folder, self.written = folder, written
        self.known = {name: text if isinstance(text, bytes) else text.encode() for name, text in texts.TEXTS.items()}
        self.groups = list(GROUPS)

    def bytes_of(self, name: str) -> bytes:
        if name not in self.known:
            self.known[name] = self.make(name)
        return self.known[name]

    def make(self, name: str) -> bytes:
        if name in WRITTEN:
            self.put_all(WRITTEN[name].split())
            return self.written(WRITTEN[name])
        numbered = re.fullmatch(r'([a-z]+)(\d+)(\.\w+)', name)
        if numbered:
            return self.make_numbered(numbered[1] + numbered[3], int(numbered[2]))
        court = re.fullmatch(r'court-([A-Z]\w+)\.wad', name)
        if court:
            return odd_levels.court_file(court[1])
        while self.groups:
            make, inputs = self.groups.pop(0)
            self.known.update(make(*map(self.bytes_of, inputs)))
            if name in self.known:
                return self.known[name]
        raise Unknown(name)

    def make_numbered(self, kind: str, number: int) -> bytes:
        if kind in NUMBERED_WRITTEN:
            return self.written(f'{NUMBERED_WRITTEN[kind]} {number}')
        if kind in NUMBERED_CHANGED:
            return NUMBERED_CHANGED[kind](number, self.bytes_of)
        if kind in NUMBERED:
            made = NUMBERED[kind](number)
            return made if isinstance(made, bytes) else made.encode()
        raise Unknown(f'{kind} of {number}')

    def put_all(self, words: Iterable[str]) -> None:
        """Puts the files that are named among words into the folder."""
        for name in names_in(words):
            self.put(name)

    def put(self, name: str) -> None:
        place = os.path.join(self.folder, name)
        if name in ABSENT or os.path.lexists(place):
            return
        if name in PLACES:
            PLACES[name](place)
            return
        if name in large.LARGE:
            large.put_large(place, name, self.bytes_of)
            return
        with open(place, 'wb') as file:
            file.write(self.bytes_of(name))


def names_in(words: Iterable[str]) -> list[str]:
    """The names of files among words."""
    return [match[1] for match in map(FILE_NAME.search, words) if match]
