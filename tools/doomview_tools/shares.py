"""What differs most: of all pixels that differ the shares by the kind of what doomview painted there, and within each by
texture, flat or sprite; with a list by light too.

All pictures of a sprite (POSSA1, POSSB2B8 ..) count as one, by the four letters that they have in common."""
import collections
import typing
from collections.abc import Iterator

from . import traces
from .traces import SPRITE, WEAPON, Names, Painter

SHOWN_NAMES, SHOWN_LIGHTS = 4, 4
SPRITE_LETTERS = 4

Weights = collections.Counter[tuple[str, str]]  # pixels by the word of a kind and a name


def percent(part: int, whole: int) -> str:
    """A share in words: 0 and 100 % are said of none and all alone."""
    share = 100 * part / whole
    if 0 < share < 1:
        return '<1 %'
    return '>99 %' if 99.5 <= share < 100 else f'{share:.0f} %'


def name_of(painter: Painter, names: Names) -> str:
    """What a painter is counted under: a texture, a patch of several, a flat, or a sprite."""
    if painter.kind in (SPRITE, WEAPON) and painter.source < len(names.lumps):
        return names.source(painter)[:SPRITE_LETTERS]
    return names.source_of(painter).name


class Shares:
    """The pixels that differ, by kinds, names and lights."""

    def __init__(self) -> None:
        self.pixels: Weights = collections.Counter()
        self.lights: collections.Counter[int] = collections.Counter()
        self.all = 0

    def add(self, painter: Painter, pixels: int, names: Names) -> None:
        word = traces.KINDS.get(painter.kind, ('nothing', ''))[0]
        self.pixels[word, name_of(painter, names)] += pixels
        self.all += pixels

    def add_light(self, light: typing.Optional[int], pixels: int) -> None:
        if light is not None:
            self.lights[light] += pixels

    def move(self, painter: Painter, to: Painter, pixels: int, names: Names) -> None:
        """Counts pixels of a painter under another."""
        self.add(painter, -pixels, names)
        self.add(to, pixels, names)

    def update(self, other: 'Shares') -> None:
        self.pixels.update(other.pixels)
        self.lights.update(other.lights)
        self.all += other.all

    def of_kinds(self) -> list[tuple[str, int]]:
        """The words of kinds with their pixels, the most first."""
        found: collections.Counter[str] = collections.Counter()
        for (word, _), pixels in self.pixels.items():
            found[word] += pixels
        return [(word, pixels) for word, pixels in found.most_common() if pixels > 0]

    def names_of(self, word: str) -> list[tuple[str, int]]:
        """The names of a kind with their pixels, the most first."""
        found = collections.Counter({name: pixels for (kind, name), pixels in self.pixels.items() if kind == word})
        return [(name, pixels) for name, pixels in found.most_common() if pixels > 0]

    def share_of(self, word: str) -> float:
        return dict(self.of_kinds()).get(word, 0) / self.all if self.all else 0.0

    def in_words(self, word: str, pixels: int) -> str:
        """A kind with its share, and with those of its names."""
        names = self.names_of(word)
        if word == 'nothing':
            return f'{percent(pixels, self.all)} {word}'
        if len(names) == 1:
            return f'{percent(pixels, self.all)} {word} ({names[0][0]})'
        return f'{percent(pixels, self.all)} {word} ({", ".join(self.some(names, SHOWN_NAMES, "others"))})'

    def some(self, found: list[tuple[str, int]], most: int, others: str) -> Iterator[str]:
        """Names with their shares, those that are too many in one."""
        shown, rest = found[:most], found[most:]
        yield from (f'{name} {percent(pixels, self.all)}' for name, pixels in shown)
        if rest:
            word = others if len(rest) > 1 else others[:-1]
            yield f'{len(rest)} {word} {percent(sum(pixels for _, pixels in rest), self.all)}'

    def line(self) -> str:
        """The line on what differs most, or an empty text where no painter is known."""
        if not self.all:
            return ''
        text = ', '.join(self.in_words(word, pixels) for word, pixels in self.of_kinds())
        lights = [(f'{light}', pixels) for light, pixels in self.lights.most_common()]
        if lights:
            text += f'; by light: {", ".join(self.some(lights, SHOWN_LIGHTS, "other lights"))}'
        return f'of the pixels that differ: {text}'
