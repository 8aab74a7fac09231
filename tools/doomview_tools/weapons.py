"""Weapon layers: what `--weapon` paints over a frame (docs/FORMATS.md, "Tables of rows")."""
import typing
from collections.abc import Iterable

from .levels import UNIT

HEADER = 'view,sprite,frame,bright,sx,sy'


class Layer(typing.NamedTuple):
    """A layer: four letters and a frame, whether it is full bright (1), and its place on the screen in 16.16."""

    sprite: str
    frame: str
    bright: int
    sx: int
    sy: int


def raised_layer(sprite: str, frame: str = 'A', bright: int = 0) -> Layer:
    """A layer where a weapon at rest has it."""
    return Layer(sprite, frame, bright, UNIT, 32 * UNIT)


def text(views: Iterable[Iterable[Layer]]) -> str:
    """The text of a file with the layers of each view, in their order."""
    lines = [','.join(map(str, (view, *layer))) for view, layers in enumerate(views) for layer in layers]
    return ''.join(line + '\n' for line in [HEADER, *lines])


def word(layers: Iterable[Layer]) -> str:
    """Layers as one word for a table: fields with spaces between them, layers with a semicolon."""
    return ';'.join(' '.join(map(str, layer)) for layer in layers)


def of_word(text: str) -> tuple[Layer, ...]:
    """The layers of such a word."""
    parts = [part.split() for part in text.split(';') if part]
    return tuple(Layer(sprite, frame, *map(int, numbers)) for sprite, frame, *numbers in parts)
