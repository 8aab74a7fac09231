"""Lights: whether a port painted what doomview painted, but under another light.

The original has one colormap for each column of a wall, each row of a plane and each sprite, by its number: 4 more for
16 of light less, fewer for what is near, and cut to 0 to 31 (R_ExecuteSetViewSize, R_InitLightTables). So where the light
alone is another, each of these has the same texels through one colormap in doomview's frame and through one in the port's
whose number is 4 more or less for each 16 of light, both cut. This is said of a fragment, a plane or a sprite if it can be
so in each of its columns or rows in which something differs, whole, and of enough colours that it is no accident."""
import collections
import itertools
import sys
import typing
from collections.abc import Callable, Collection, Iterable, Sequence

from . import differences, traces
from .doom import COLORMAP_SIZE, COLORMAPS as MAPS
from .frames import HEIGHT, SIZE, WIDTH
from .traces import MIDDLE, PLANE, SPRITE, WALL, WEAPON

STEP = 4  # how many colormaps are one step of light
LIGHT, LIGHTS, MOST_STEPS = 16, 256, 15  # of a step, all lights, and the most steps
LEAST_PAIRS = 8  # of colours that differ: doomview's and the port's
MOST_SAMPLED = 2000  # places of a view by which most painters are ruled out
LIT = (WALL, PLANE, MIDDLE, SPRITE, WEAPON)  # kinds of painters: all but the sky
IS_LIT = [kind in LIT for kind in range(256)]
IN_COLUMNS, IN_LINES = (WALL, MIDDLE), (WALL, MIDDLE, PLANE)  # of each column, or of each column or row, one colormap
COLOURS = 256
# Of lines of pixels of a length a number with a byte for each pixel, which is not 0 where a line begins.
BOUNDS = {length: differences.number_of((b'\1' + bytes(length - 1)) * (SIZE // length)) for length in (WIDTH, HEIGHT)}

Pairs = set[int]  # doomview's colour, and 256 times the port's
Groups = dict[int, Pairs]  # of a painter, by its columns or rows
Key = tuple[int, int, int]  # of a painter: its kind, and its number as two bytes
ByPainter = dict[Key, Groups]
Found = dict[Key, set[int]]  # of painters the steps that there may be
LightOf = Callable[[int, int], typing.Optional[int]]  # the light of a painter by its kind and number, if it is known
IsBright = Callable[[int, int], bool]  # whether a painter is full bright, as far as it is known


def nearest_map(number: int) -> int:
    return max(0, min(MAPS - 1, number))


def bit(ours: int, port: int) -> int:
    """The bit of a pair of colormaps."""
    return 1 << MAPS * ours + port


def pairs_of(steps: int) -> int:
    """The bits of the pairs of colormaps between which there are so many steps of light, darker ones if it is more than
    none."""
    farthest = STEP * MOST_STEPS
    return sum({bit(nearest_map(number), nearest_map(number + STEP * steps))
                for number in range(-farthest, MAPS + farthest)})


STEPS = {steps: pairs_of(steps) for step in range(1, MOST_STEPS + 1) for steps in (step, -step)}


def line_of(kind: int, place: int) -> int:
    """The number of the column or row of a pixel, all of which has one colormap."""
    return place // WIDTH if kind == PLANE else place % WIDTH if kind in (WALL, MIDDLE) else 0


def key_at(records: bytes, place: int) -> Key:
    """The painter of a pixel."""
    at = traces.RECORD.size * place
    return records[at], records[at + 2], records[at + 3]


class Lights:
    """What the colormaps of the WADs tell of two colours: under which pairs of them a texel has both."""

    def __init__(self, colormaps: bytes):
        self.known: dict[int, int] = {}
        self.texels = []  # of each texel that is lit, by its colours the numbers of the colormaps, as bits
        for texel in range(COLORMAP_SIZE if len(colormaps) >= COLORMAP_SIZE * MAPS else 0):
            found: dict[int, int] = collections.defaultdict(int)
            for number in range(MAPS):
                found[colormaps[COLORMAP_SIZE * number + texel]] |= 1 << number
            self.texels.append(found)

    def ways(self, pair: int) -> int:
        """The bits of the pairs of colormaps under which some texel has these two colours."""
        if pair not in self.known:
            self.known[pair], (port, ours) = 0, divmod(pair, COLOURS)
            for texel in self.texels:
                if ours in texel and port in texel:
                    firsts = sum(1 << MAPS * number for number in range(MAPS) if texel[ours] >> number & 1)
                    self.known[pair] |= firsts * texel[port]
        return self.known[pair]

    def steps(self, groups: Groups) -> list[int]:
        """The steps of light that can be between the colours of all columns, or rows, of a painter."""
        found, known = list(STEPS), self.known
        for pairs in groups.values():
            ways = -1
            for pair in pairs:
                own = known.get(pair)
                ways &= self.ways(pair) if own is None else own
                if not ways:
                    return []
            found = [steps for steps in found if ways & STEPS[steps]]
            if not found:
                return []
        return found

    def likely(self, records: bytes, marks: bytes, ours: bytes, port: bytes) -> set[Key]:
        """The painters that may differ by their light, by some of the places at which a view differs."""
        places = differences.places_of(marks)
        kinds, low, high = keys_of(records)
        found: ByPainter = collections.defaultdict(lambda: collections.defaultdict(set))
        for place in places[::len(places) // MOST_SAMPLED + 1]:
            kind = kinds[place]
            if IS_LIT[kind]:
                found[kind, low[place], high[place]][line_of(kind, place)].add(ours[place] + COLOURS * port[place])
        return {key for key, groups in found.items() if self.steps(groups)}

    def painters(self, records: bytes, marks: bytes, ours: bytes, port: bytes) -> Found:
        """Of a view the painters whose pixels differ as under another light, each in whole columns or rows, with the steps
        of which it may be any."""
        found = {}
        for key, groups in groups_of(records, self.likely(records, marks, ours, port), ours, port).items():
            other = {line: {pair for pair in pairs if pair % COLOURS != pair // COLOURS} for line, pairs in groups.items()}
            if len(set().union(*other.values())) < LEAST_PAIRS:
                continue
            steps = self.steps({line: groups[line] for line, pairs in other.items() if pairs})
            if steps and min(steps) * max(steps) > 0:
                found[key] = set(steps)
        return found

    def lines(self, records: bytes, marks: bytes, both: tuple[bytes, bytes], painted: traces.Pixels,
              light_of: LightOf = lambda kind, number: None,
              is_bright: IsBright = lambda kind, number: False) -> list[str]:
        """Lines on what differs by its light alone, in a view with the marks of what differs and what painted there: that of most
        pixels first."""
        lines, found = [], self.painters(records, marks, *both)
        pixels: collections.Counter[Key] = collections.Counter()
        for painter, numbers in painted.items() if found else ():
            for number, count in numbers.items():
                pixels[painter.kind, number & 255, number >> 8] += count
        bright = {key for key in found if is_bright(key[0], key[1] + 256 * key[2])}
        if bright and all(min(found[key]) > 0 for key in bright):
            lines.append(dimmed(sum(pixels[key] for key in bright), bright, light_of))
            found = {key: them for key, them in found.items() if key not in bright}
        while found:
            counts = collections.Counter({step: sum(pixels[key] for key in found if step in found[key])
                                          for step in STEPS})
            steps = max(STEPS, key=lambda step: (counts[step], -abs(step)))
            alike = {key for key in found if steps in found[key]}
            lines.append(sentence(counts[steps], steps, alike, light_of))
            found = {key: them for key, them in found.items() if key not in alike}
        return lines


def lights_of(keys: set[Key], light_of: LightOf) -> set[typing.Optional[int]]:
    return {light_of(kind, low + 256 * high) for kind, low, high in keys}


def dimmed(pixels: int, keys: set[Key], light_of: LightOf) -> str:
    """The line on painters that are full bright, and are not in the port."""
    own = lights_of(keys, light_of)
    light = f', the sector there has light {min(filter(None, own), default=0)}' if len(own) == 1 else ''
    return f'  darker   not full bright, as it is here{light}: all {pixels} pixels that differ of {names_of(keys)}'


def sentence(pixels: int, steps: int, keys: set[Key], light_of: LightOf) -> str:
    """The line on painters of which the port has the light by some steps other."""
    word, much = ('darker', 'less') if steps > 0 else ('lighter', 'more')
    lights = lights_of(keys, light_of)
    own = lights.pop() if len(lights) == 1 else None
    step, other = abs(steps) * LIGHT, None if own is None else own - LIGHT * steps
    is_known = other is not None and 0 <= other < LIGHTS
    light = f'light {other} in the place of {own}' if is_known else f'a light of {step} {much}'
    return f'  {word:8} as under {light}: all {pixels} pixels that differ of {names_of(keys)}'


def groups_of(records: bytes, keys: Collection[Key], ours: bytes, port: bytes) -> ByPainter:
    """The pairs of colours of some painters of a view: of walls by columns, of planes by rows, of all else together."""
    found: ByPainter = {key: collections.defaultdict(set) for key in keys}
    parts = [*keys_of(records), ours, port]
    across = {key for key in keys if key[0] not in IN_COLUMNS}
    if across:
        add_groups(found, across, parts, WIDTH)
    if len(across) < len(keys):
        add_groups(found, {*keys} - across, [turned(part) for part in parts], HEIGHT)
    return found


def add_groups(found: ByPainter, keys: Collection[Key], parts: Sequence[bytes], length: int) -> None:
    """Adds pairs of painters, run by run of pixels of one of them; the lines of pixels have a length."""
    *of_keys, ours, port = parts
    pairs = bytearray(2 * SIZE)
    pairs[0::2], pairs[1::2] = (ours, port) if sys.byteorder == 'little' else (port, ours)
    numbers, changes = memoryview(pairs).cast('H'), BOUNDS[length]
    for part in of_keys:
        number = differences.number_of(part)
        changes |= number ^ number >> 8
    starts = [0, *differences.ends_of_runs(changes, SIZE)]
    own = [place in keys for place in zip(*(map(part.__getitem__, starts[:-1]) for part in of_keys))]
    for start, end in itertools.compress(zip(starts, starts[1:]), own):
        key = of_keys[0][start], of_keys[1][start], of_keys[2][start]
        found[key][start // length if key[0] in IN_LINES else 0].update(numbers[start:end])


def turned(data: bytes) -> bytes:
    """What a view has by rows, by columns."""
    return b''.join([data[column::WIDTH] for column in range(WIDTH)])


def keys_of(records: bytes) -> tuple[bytes, bytes, bytes]:
    """Of each pixel of a view the parts of the painter's key."""
    return records[::traces.RECORD.size], records[2::traces.RECORD.size], records[3::traces.RECORD.size]


def names_of(keys: Iterable[Key]) -> str:
    """Painters by what their numbers count."""
    numbers = collections.defaultdict(set)
    for kind, low, high in keys:
        word, thing = traces.KINDS[kind]
        numbers[f'{word} {thing}' if kind == WEAPON else thing].add(low + 256 * high)
    return ', '.join(f'{thing} {traces.some_of(found)}' for thing, found in sorted(numbers.items()))
