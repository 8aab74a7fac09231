"""What doomview accepts without a word, and may still be a mistake: paths in other units, an IWAD behind its PWAD."""
import contextlib
import os
from collections.abc import Iterator

from . import levels, paths
from .call_words import Words
from .jobs import LEVEL_JOBS
from .levels import EYE_HEIGHT, UNIT
from .refusals import head_of
from .trouble import Trouble

MOST_ROWS = 200  # of a path that are looked at
LEAST_ANGLE = 361  # a BAM as small as a number of degrees is 0


def of_units(path: str, rows: list[paths.Row]) -> Iterator[str]:
    """Sentences on a path whose numbers are too small."""
    places: list[int] = [place for row in rows for place in row[:2]]
    if any(places) and max(abs(place) for place in places) < UNIT:
        yield (f'all x and y of {path} are within one map unit of 0: they are 16.16, {UNIT} a map unit. doomview path '
               'writes rows of numbers as an editor shows them')
    angles = [row.angle for row in rows]
    if any(angles) and max(angles) < LEAST_ANGLE:
        yield (f'all angles of {path} are less than {LEAST_ANGLE}: they are BAMs, 2^32 a turn, and no degrees. '
               'doomview path writes rows of degrees')


def of_height(path: str, rows: list[paths.Row], level: levels.Level) -> Iterator[str]:
    """A sentence on a path with all eyes on the floor."""
    heights: list[int] = [row.z - level.floor_at(row.x / UNIT, row.y / UNIT) * UNIT for row in rows]
    if rows and max(abs(height) for height in heights) <= UNIT:
        yield (f'all eyes of {path} are on the floor: z is the height of the eye, {EYE_HEIGHT} units above the feet of '
               'a player who stands')


def of_path(words: Words) -> Iterator[str]:
    """Sentences on the path of a job, as far as it and the map can be read."""
    path = words.value('--path')
    if not path or not os.path.isfile(path):
        return
    with contextlib.suppress(Trouble):
        rows = paths.rows(path)[:MOST_ROWS]
        found = list(of_units(path, rows))
        yield from found
        if not found and all(map(os.path.isfile, words.wads)):
            yield from of_height(path, rows, levels.read(words.wads, words.map_name))


def of_wads(words: Words) -> Iterator[str]:
    """A sentence on each IWAD that comes behind a PWAD."""
    heads = [head_of(wad) for wad in words.wads]
    for number, wad in enumerate(words.wads):
        if heads[number] == b'IWAD' and b'PWAD' in heads[:number]:
            pwad = words.wads[heads.index(b'PWAD')]
            yield (f'{wad} is an IWAD and comes behind {pwad}, so its maps and pictures count before those of that '
                   'WAD. Put the IWAD first')


def of_words(words: Words) -> list[str]:
    """Sentences without their full stop on the words of a job over a level: WADs found, tables named."""
    if words.job not in LEVEL_JOBS or not words.wads:
        return []
    return [*of_wads(words), *of_path(words)]
