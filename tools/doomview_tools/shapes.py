"""The shapes of what differs, by which a symptom is known: whether one picture is another one moved, mirrored, under another
light, or of the same texels; whether it is the last pixel of columns; and the like. Each looks at some views."""
import collections
import typing
from collections.abc import Callable, Collection, Iterable, Iterator

from . import differences, lights, list_files, traces
from .doom import COLORMAP_SIZE
from .frames import HEIGHT, SIZE, WIDTH
from .texels import Texels
from .traces import MIDDLE, PLANE, SKY, SPRITE, WALL, Pixels

MOST_PLACES = 160  # of an item by which it is looked for elsewhere
FARTHEST, NEAR = 40, 8  # pixels, along rows or columns, and in both directions
LEAST_ALIKE, LESS = 0.7, 0.2  # of its pixels that are the same where it was moved to, and how many less where it was
LEAST_MIRRORED = 0.5  # of its pixels, which are other texels where it is small
SEVERAL = 3  # textures
LEAST_PIXELS, LEAST_COLOURS = 24, 3  # of an item, and of a line of it
MOST = 0.9  # of what is looked at
MOST_BY_CHANCE = 0.1  # of the lines of a view that look lit where they have other texels; at most 0.07 where it was tried


class Sample(typing.NamedTuple):
    """A view that differs, with its trace, and what it is made of, where there is a list."""

    ours: bytes
    port: bytes
    records: bytes
    marks: bytes
    pixels: Pixels
    items: typing.Optional[list_files.View]


Step = tuple[int, int]  # rows and columns
Item = tuple[int, int]  # a kind and a number
Pairs = set[tuple[int, int]]  # of doomview's colour and the port's


def kinds_in(sample: Sample) -> bytes:
    return sample.records[differences.KIND::differences.RECORD]


def places_of(sample: Sample, kind: int, number: typing.Optional[int] = None) -> list[int]:
    """The places of an item of a view, or of a whole kind."""
    kinds = kinds_in(sample)
    if number is None:
        return [place for place, own in enumerate(kinds) if own == kind]
    low = sample.records[differences.NUMBER::differences.RECORD]
    return [place for place, own in enumerate(kinds) if own == kind and low[place] == number & 255]


def differing_items(sample: Sample, kind: int, least: int = LEAST_PIXELS) -> list[Item]:
    """The items of a kind of which enough differs, by their numbers."""
    found: collections.Counter[int] = collections.Counter()
    for painter, numbers in sample.pixels.items():
        if painter.kind == kind:
            found.update(numbers)
    return [(kind, number) for number, count in found.items() if count >= least]


def alike(sample: Sample, places: list[int], step: Step) -> float:
    """The share of the places at which the port has, some rows and columns on, what we have."""
    rows, columns = step
    same = whole = 0
    for place in places:
        row, column = divmod(place, WIDTH)
        if 0 <= row + rows < HEIGHT and 0 <= column + columns < WIDTH:
            whole += 1
            same += sample.port[place + WIDTH * rows + columns] == sample.ours[place]
    return same / whole if 2 * whole > len(places) else 0.0


def moved(sample: Sample, places: list[int], rows: int = FARTHEST, columns: int = FARTHEST) -> typing.Optional[Step]:
    """How far the port has what we have at some places, or None where that is nowhere near, or where it is."""
    some = places[::len(places) // MOST_PLACES + 1]
    if len(some) < LEAST_PIXELS:
        return None
    near = range(-NEAR, NEAR + 1)
    steps = {*((row, 0) for row in range(-rows, rows + 1)), *((0, column) for column in range(-columns, columns + 1)),
             *((row, column) for row in near for column in near if abs(row) <= rows and abs(column) <= columns)}
    shares = {step: alike(sample, some, step) for step in steps}
    best = max(sorted(steps), key=lambda step: (shares[step], -abs(step[0]) - abs(step[1])))
    return best if shares[best] >= max(LEAST_ALIKE, shares[0, 0] + LESS) else None


def directions(steps: Iterable[typing.Optional[Step]]) -> str:
    """The direction in which most things are moved, if half of them at least are, in words, or an empty text."""
    found = list(steps)
    words: collections.Counter[str] = collections.Counter()
    for row, column in filter(None, found):
        words[' and '.join(filter(None, ['lower' if row > 0 else 'higher' if row else '',
                                         'to the right' if column > 0 else 'to the left' if column else '']))] += 1
    word, count = words.most_common(1)[0] if words else ('', 0)
    is_most = 2 * sum(words.values()) >= len(found) and count >= LEAST_ALIKE * sum(words.values())
    return word if found and is_most else ''


def is_mirrored(sample: Sample, places: list[int], number: int) -> bool:
    """Whether the port has a sprite mirrored, left for right, within the columns that the list has, or near."""
    columns = [place % WIDTH for place in places]
    own = sample.items.sprites[number] if sample.items and number < len(sample.items.sprites) else None
    middle = own.first + own.last if own else min(columns) + max(columns)
    some = places[::len(places) // MOST_PLACES + 1]
    best = max(mirrored(sample, some, both) for both in range(middle - NEAR, middle + NEAR + 1))
    return best >= max(LEAST_MIRRORED, alike(sample, some, (0, 0)) + LESS)


def mirrored(sample: Sample, places: list[int], both: int) -> float:
    """The share of the places at which the port has what we have, mirrored; `both` is the sum of two columns."""
    pairs = [(place, both - place % WIDTH) for place in places if 0 <= both - place % WIDTH < WIDTH]
    same = sum(sample.port[place - place % WIDTH + column] == sample.ours[place] for place, column in pairs)
    return same / len(places)


def lines_in(sample: Sample, kinds: Collection[int]) -> Iterator[tuple[Item, Pairs]]:
    """The pairs of colours of each line that differs: of a column of a wall or of the sky, of a row of a plane, of a whole
    sprite."""
    kept = kinds_in(sample).translate(bytes(kind in kinds for kind in range(256)))
    marks = differences.bytes_of(differences.number_of(kept) & differences.number_of(sample.marks))
    found: dict[tuple[Item, int], Pairs] = collections.defaultdict(set)
    for place in differences.places_of(marks):
        kind, low, high = lights.key_at(sample.records, place)
        line = place % WIDTH if kind == SKY else lights.line_of(kind, place)
        found[(kind, low + 256 * high), line].add((sample.ours[place], sample.port[place]))
    for (item, _), pairs in found.items():
        yield item, pairs


def is_line_lit(pairs: Pairs, known: lights.Lights) -> bool:
    """Whether a line has the same texels as ours, under another colormap."""
    ways = -1
    for ours, port in pairs:
        ways &= known.ways(ours + lights.COLOURS * port)
    return ways != 0


def lit_lines(sample: Sample, kinds: Collection[int], known: lights.Lights) -> tuple[int, int]:
    """How many lines of a view differ as by light, and how many there are that have enough colours."""
    found = [is_line_lit(pairs, known) for _, pairs in lines_in(sample, kinds) if len(pairs) >= LEAST_COLOURS]
    return sum(found), len(found)


def is_lit(samples: list[Sample], kinds: Collection[int], known: lights.Lights) -> bool:
    """Whether each line has the same texels as ours, under another colormap."""
    counts = [lit_lines(sample, kinds, known) for sample in samples]
    lit, whole = map(sum, zip(*counts)) if counts else (0, 0)
    return whole > 0 and lit >= MOST * whole


def has_lit_view(samples: list[Sample], kinds: Collection[int], known: lights.Lights) -> bool:
    """Whether a view differs in part as by light: more of its lines than chance makes look so."""
    counts = (lit_lines(sample, kinds, known) for sample in samples)
    return any(lit > MOST_BY_CHANCE * whole for lit, whole in counts)


def has_same_texels(samples: list[Sample], kinds: Collection[int], texels: Texels, colormaps: bytes) -> bool:
    """Whether each line has texels of the same flat or texture, under one colormap."""
    same = whole = 0
    for sample in samples:
        painters = {(painter.kind, number): painter for painter, numbers in sample.pixels.items() for number in numbers}
        for item, pairs in lines_in(sample, kinds):
            port = {colour for _, colour in pairs}
            if len(port) >= LEAST_COLOURS and item in painters:
                whole += 1
                own = texels.colours(painters[item], item[0] == PLANE)
                same += any(port <= mapped(colormaps, number, own) for number in range(len(colormaps) // COLORMAP_SIZE))
    return whole > 0 and same >= MOST * whole


def is_recoloured(samples: list[Sample], kind: int) -> bool:
    """Whether each of our colours of a kind that differs is always the same other one."""
    found: dict[int, collections.Counter[int]] = collections.defaultdict(collections.Counter)
    for sample in samples:
        for _, pairs in lines_in(sample, (kind,)):
            for ours, port in pairs:
                found[ours][port] += 1
    whole = sum(sum(counts.values()) for counts in found.values())
    return sum(max(counts.values()) for counts in found.values()) >= MOST * whole > 0


def mapped(colormaps: bytes, number: int, texels: frozenset[int]) -> set[int]:
    """Texels through a colormap."""
    own = colormaps[COLORMAP_SIZE * number:COLORMAP_SIZE * (number + 1)]
    return {own[texel] for texel in texels} if own else set()


def columns_of(sample: Sample, places: list[int]) -> dict[int, list[int]]:
    """The places of an item by their columns, those alone that are long enough, without a gap."""
    found: dict[int, list[int]] = collections.defaultdict(list)
    for place in places:
        found[place % WIDTH].append(place)
    return {column: own for column, own in found.items()
            if len(own) >= LEAST_PIXELS and own[-1] - own[0] == WIDTH * (len(own) - 1)}


def part_alike(ours: bytes, port: bytes, step: int) -> float:
    """The share of a column that is ours, some rows on, of the part that both have; 0 where that is small."""
    first, second = (ours[step:], port) if step >= 0 else (ours, port[-step:])
    size = min(len(first), len(second))
    if 3 * size < len(ours) or size < LEAST_PIXELS // 2:
        return 0.0
    return sum(map(int.__eq__, first[:size], second[:size])) / size


def is_column_moved(ours: bytes, port: bytes) -> bool:
    """Whether the port has a column of ours higher or lower."""
    shares = [part_alike(ours, port, step) for step in range(-len(ours) + 1, len(ours)) if step]
    return max(shares) >= max(LEAST_ALIKE, part_alike(ours, port, 0) + LESS)


def directions_of_columns(sample: Sample, item: Item) -> tuple[int, int, int]:
    """How many of some columns of a wall were looked at, and how many of these the port has higher or lower, or from another
    column of ours that is near."""
    columns = columns_of(sample, places_of(sample, *item))
    some = sorted(columns)[len(columns) // 6::len(columns) // 3 + 1]
    rows = sides = 0
    for column in some:
        own = columns[column]
        ours, port = (frame[own[0]:own[-1] + 1:WIDTH] for frame in (sample.ours, sample.port))
        if ours == port:
            continue
        is_moved = is_column_moved(ours, port)
        near = [sample.ours[own[0] + step:own[-1] + step + 1:WIDTH] for step in range(-FARTHEST, FARTHEST + 1)
                if step and column + step in columns]
        is_beside = any(part_alike(other, port, 0) >= max(LEAST_ALIKE, part_alike(ours, port, 0) + LESS) for other in near)
        rows += is_moved and not is_beside
        sides += is_beside and not is_moved
    return len(some), rows, sides


def is_end_of_columns(samples: list[Sample]) -> bool:
    """Whether what differs is the last pixel of columns alone, the one below another item's: mostly columns of several pixels,
    of which those above are the same; and one in three of all columns at least, since a few may have it by another mistake."""
    ends = longer = whole = 0
    for sample in samples:
        for place in differences.places_of(sample.marks):
            key, above, below = lights.key_at(sample.records, place), place - WIDTH, place + WIDTH
            is_first = above < 0 or not sample.marks[above]
            whole += 1
            ends += is_first and (below >= SIZE or lights.key_at(sample.records, below) != key)
            longer += is_first and above >= 0 and lights.key_at(sample.records, above) == key
    return whole > 0 and ends >= MOST * whole and longer * 2 > whole and SEVERAL * ends >= sum(map(ends_of_columns, samples))


def ends_of_columns(sample: Sample) -> int:
    """How many columns of walls, middle textures and sprites end in a view, above something else or at its last row."""
    kinds = kinds_in(sample)
    places = (place for place in range(SIZE) if kinds[place] in (WALL, MIDDLE, SPRITE))
    return sum(place + WIDTH >= SIZE or lights.key_at(sample.records, place) != lights.key_at(sample.records, place + WIDTH)
               for place in places)


def is_edge_of_planes(samples: list[Sample]) -> bool:
    """Whether most of what differs is single pixels of planes or skies, each above or below another item."""
    edges = whole = 0
    for sample in samples:
        for place in differences.places_of(sample.marks):
            key, near = lights.key_at(sample.records, place), [at for at in (place - WIDTH, place + WIDTH) if 0 <= at < SIZE]
            is_single = key[0] in (PLANE, SKY) and not any(sample.marks[at] for at in near)
            edges += is_single and any(lights.key_at(sample.records, at) != key for at in near)
            whole += 1
    return whole > 0 and edges >= LEAST_ALIKE * whole


def is_of_middles(samples: list[Sample]) -> bool:
    """Whether middle textures differ, and all else that differs is in the same columns: what is behind them, or before."""
    middles = beside = whole = 0
    for sample in samples:
        places = differences.places_of(sample.marks)
        own = [place for place in places if sample.records[differences.RECORD * place] == MIDDLE]
        columns = {place % WIDTH for place in own}
        middles += len(own)
        beside += sum(place % WIDTH in columns for place in places)
        whole += len(places)
    return middles * 3 > whole and beside >= MOST * whole


def is_unpainted(samples: list[Sample]) -> bool:
    """Whether the port has 0, as where nothing is painted, wherever it differs; a few pixels may be 0 by chance."""
    whole = sum(sample.marks.count(1) for sample in samples)
    zeros = sum(differences.count_of(bytes(map(lambda mark, colour: mark and not colour, sample.marks, sample.port)))
                for sample in samples)
    return zeros >= MOST * whole and whole >= LEAST_PIXELS


def differ_by(samples: list[Sample], texels: Texels, is_usual: Callable[[typing.Any], bool]) -> bool:
    """Whether walls differ where their texture is not as usual, and where it is they do not: most of those that are not as
    usual, or of several textures."""
    differing: collections.Counter[bool] = collections.Counter()
    whole: collections.Counter[bool] = collections.Counter()
    names: set[str] = set()
    for sample in samples:
        for marks, counts in ((sample.marks, differing), (bytes([1]) * SIZE, whole)):
            for painter, numbers in traces.pixels_of(sample.records, marks).items():
                texture = texels.texture_of(painter) if painter.kind in (WALL, MIDDLE) else None
                if texture:
                    counts[is_usual(texture)] += sum(numbers.values())
                    names.update([texture.name] if counts is differing and not is_usual(texture) else [])
    is_most, are_several = differing[False] * 5 > whole[False] > 100, len(names) >= SEVERAL and whole[True] > whole[False]
    return whole[True] > 500 and differing[True] * 50 < min(whole[True], differing[False]) and (is_most or are_several)


def planes_by_key(sample: Sample) -> dict[tuple[int, typing.Optional[int], int], list[int]]:
    """The planes of a view by height, flat and light."""
    found: dict[tuple[int, typing.Optional[int], int], list[int]] = collections.defaultdict(list)
    for number, plane in enumerate(sample.items.planes if sample.items else []):
        found[plane.height, plane.flat, plane.light].append(number)
    return found


def pixels_of_planes(sample: Sample) -> tuple[collections.Counter[int], collections.Counter[int]]:
    """The pixels of each plane of a view: those that differ, and all."""
    both: list[collections.Counter[int]] = []
    for marks in (sample.marks, bytes([1]) * SIZE):
        found: collections.Counter[int] = collections.Counter()
        for painter, numbers in traces.pixels_of(sample.records, marks).items():
            if painter.kind in (PLANE, SKY):
                found.update(numbers)
        both.append(found)
    return both[0], both[1]


def differ_where(samples: list[Sample], chosen: Callable[[Sample], set[int]]) -> bool:
    """Whether some planes of each view have all that differs, and the others are there and do not differ."""
    own = other = others = 0
    for sample in samples:
        differing, whole = pixels_of_planes(sample)
        numbers = chosen(sample)
        own += sum(count for number, count in differing.items() if number in numbers)
        other += sum(count for number, count in differing.items() if number not in numbers)
        others += sum(count for number, count in whole.items() if number not in numbers)
    return own > 0 and 50 * other < own and others > own // 4


def split_planes(sample: Sample) -> set[int]:
    """The planes of a view that R_CheckPlane split: of one height, flat and light."""
    return {number for numbers in planes_by_key(sample).values() if len(numbers) > 1 for number in numbers}


def like_planes(sample: Sample) -> set[int]:
    """The planes of a view that have one like them, but for the height, or for the light."""
    keys = planes_by_key(sample)
    return {number for (height, flat, light), numbers in keys.items() for number in numbers
            if any((height, flat, light) != key and flat == key[1] and (height == key[0] or light == key[2]) for key in keys)}


def pixels_by_order(samples: list[Sample]) -> tuple[int, int]:
    """How many pixels differ of planes whose like are all behind them in the order of the list, and of those whose like are all
    before them; the nearer plane is found first."""
    first = last = 0
    for sample in samples:
        differing, _ = pixels_of_planes(sample)
        keys = planes_by_key(sample)
        for (height, flat, light), numbers in keys.items():
            like = [number for key, others in keys.items() for number in others
                    if key != (height, flat, light) and flat == key[1] and (height == key[0] or light == key[2])]
            first += sum(differing[number] for number in numbers if like and number < min(like))
            last += sum(differing[number] for number in numbers if like and number > max(like))
    return first, last


def wholly_differing(sample: Sample, kind: int) -> list[bool]:
    """Of each item of a kind, a small one too, whether nearly all of its pixels differ."""
    found = []
    for item in differing_items(sample, kind, 1):
        places = places_of(sample, *item)
        found.append(sum(sample.marks[place] for place in places) >= LEAST_ALIKE * len(places))
    return found
