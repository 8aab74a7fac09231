"""The page of compare: the views that differ, with the painter of each pixel."""
import collections
import heapq
import typing
from collections.abc import Callable

from . import pages, traces
from .frames import HEIGHT, SIZE, WIDTH
from .png import GREYS, RGB, whole

TEMPLATE = 'compare.html'
MOST_VIEWS = 60
Both = tuple[bytes, bytes]  # doomview's frame of a view, and the port's
PlaceOf = typing.Optional[Callable[[traces.Painter, int], str]]  # where in the map an item is, with a list
Numbered = tuple[str, list[list[str]], dict[bytes, int]]
KEY = 6  # bytes of a record that tell its painter: all but the colour


def painter_numbers(trace: bytes, names: traces.Names, place_of: PlaceOf) -> Numbered:
    """A picture of the number of each pixel's painter, and the painters: kind, name, number, what more is known, and
    where in the map that is."""
    numbers: dict[bytes, int] = {}
    told: list[list[str]] = []
    pixels = bytearray(3 * SIZE)
    for place in range(SIZE):
        key = trace[8 * place:8 * place + KEY]
        number = numbers.get(key)
        if number is None:
            number = numbers[key] = len(told)
            told.append(painter_row(key, names, place_of))
        pixels[3 * place:3 * place + 2] = divmod(number, 256)
    return pages.text_of(whole(WIDTH, HEIGHT, RGB, bytes(pixels), b'')), told, numbers


def painter_row(key: bytes, names: traces.Names, place_of: PlaceOf) -> list[str]:
    """A painter for the page: kind, name, number, what more is known, and with a list where in the map that is."""
    kind, source_kind, number, source, _, _ = traces.RECORD.unpack(key + bytes(2))
    word, thing = traces.KINDS.get(kind, (f'kind {kind}', 'number'))
    painter = traces.Painter(kind, source_kind, source)
    known = names.source_of(painter)
    return [word, known.name, f'{thing} {number}' if thing else '', known.more,
            place_of(painter, number) if place_of else '']


class ComparePage:
    """The views that differ in most pixels, and how many pixels each painter has in them."""

    def __init__(self, names: traces.Names) -> None:
        self.names, self.different = names, 0
        self.kept: list[tuple[tuple[bool, int], int, dict[str, typing.Any]]] = []

    def add(self, view: int, told: str, known: str, frames: Both, places: list[int], trace: bytes,
            place_of: PlaceOf = None) -> None:
        """Takes a view that differs, in place of one that is known or differs less where there are too many."""
        self.different += 1
        weight = not known, len(places)
        if len(self.kept) == MOST_VIEWS and weight <= self.kept[0][0]:
            return
        entry = weight, -view, {**self.entry_of(view, told, frames, places, trace, place_of), 'known': bool(known)}
        (heapq.heappush if len(self.kept) < MOST_VIEWS else heapq.heappushpop)(self.kept, entry)

    def entry_of(self, view: int, told: str, frames: Both, places: list[int], trace: bytes,
                 place_of: PlaceOf) -> dict[str, typing.Any]:
        ours, port = frames
        both = int.from_bytes(ours, 'big') ^ int.from_bytes(port, 'big')
        entry = {'view': view, 'told': told, 'first': places[0], 'ours': pages.picture(ours, GREYS),
                 'both': pages.picture(both.to_bytes(SIZE, 'big'), GREYS)}
        if trace:
            entry['ids'], entry['painters'], numbers = painter_numbers(trace, self.names, place_of)
            pixels = collections.Counter(numbers[trace[8 * place:8 * place + KEY]] for place in places)
            entry['pixels'] = pixels.most_common()
        return entry

    def page(self, head: str) -> bytes:
        """The bytes of the page."""
        if self.different > len(self.kept):
            head += f'; here are the {len(self.kept)} that differ in most pixels'
        views = sorted((entry for *_, entry in self.kept), key=lambda view: view['view'])
        return pages.page(TEMPLATE, {'head': head, 'palette': list(self.names.palette), 'views': views})
