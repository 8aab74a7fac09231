"""Mistakes of whole frames: what is wrong with all of a port's frames at once, and what differs in every view, as
sentences.

A mistake is called so if the port's frames are doomview's once it is undone, but for a quarter of what differed. So it
is found beside packed spans and the like too."""
import collections
import itertools
import statistics
import typing
from collections.abc import Callable, Sequence

from . import differences
from .doom import COLORMAP_SIZE
from .frames import HEIGHT, ROWS_ABOVE_BAR, SIZE, WIDTH, window

SAMPLES = 8  # of the views that differ
FARTHEST_VIEW, FARTHEST_SHIFT = 32, 32  # views, and pixels
MOST_SEARCHED = 1000  # views among which a frame is looked for
LEAST_PART = 50  # a mistake of whole frames changes one pixel of so many
MOST_LINES, MOST_RANGES = 40, 3  # of rows or columns that differ in every view
FAR_MORE = 8  # times the pixels of the usual row or column
FULL_SIZE, FULL_WIDTH_SIZE = 11, 10  # view sizes: of the whole frame, and of a window as wide as it
HALF_BAR = 16  # rows: the middle of a view is higher by so many where a status bar is below it


class Pair(typing.NamedTuple):
    """Both frames of a view."""

    view: int
    ours: bytes
    port: bytes


class Case(typing.NamedTuple):
    """Views that differ, some of many; doomview's frame of a view by its number; how many views both have; and the
    colormaps of the WADs, 256 bytes each."""

    pairs: list[Pair]
    ours: Callable[[int], bytes]
    count: int  # type: ignore[assignment]  # in the place of a method of tuples
    colormaps: bytes


def count(ours: bytes, port: bytes) -> int:
    """In how many bytes two frames, or equal parts of frames, differ."""
    both = int.from_bytes(ours, 'big') ^ int.from_bytes(port, 'big')
    return len(ours) - both.to_bytes(len(ours), 'big').count(0)


def rows_of(frame: bytes) -> list[bytes]:
    return [frame[WIDTH * row:WIDTH * row + WIDTH] for row in range(HEIGHT)]


def of_planes(frame: bytes) -> bytes:
    """A frame that was written as four planes, each of every fourth column."""
    found = bytearray(SIZE)
    for plane in range(4):
        found[plane::4] = frame[SIZE // 4 * plane:SIZE // 4 * (plane + 1)]
    return bytes(found)


LAYOUTS = {
    'upside down': lambda frame: b''.join(reversed(rows_of(frame))),
    'mirrored, left for right': lambda frame: b''.join(row[::-1] for row in rows_of(frame)),
    'turned by half a turn': lambda frame: frame[::-1],
    'written column by column': lambda frame: b''.join(frame[row::HEIGHT] for row in range(HEIGHT)),
    'written as four planes of every fourth column': of_planes,
}


def before(case: Case) -> int:
    """The pixels that differ as the frames are."""
    return sum(count(pair.ours, pair.port) for pair in case.pairs)


def is_cause(left: int, whole: int) -> bool:
    """Whether few enough pixels differ once a mistake is undone."""
    return 4 * left < whole


def beside(left: int) -> str:
    return f'; {left} pixels of the views looked at differ beside that' if left else ''


def one_colour(case: Case) -> str:
    """Frames of one colour, such as all black."""
    colours = {colour for pair in case.pairs for colour in set(pair.port)}
    if len(colours) > 1 or all(len(set(pair.ours)) == 1 for pair in case.pairs):
        return ''
    name = ' (black)' if colours == {0} else ''
    return f'each of the port\'s frames is all of colour {min(colours)}{name}: nothing was drawn into what it wrote'


def low_detail(case: Case) -> str:
    """Frames in which each column is there twice."""
    is_doubled = [all(frame[::2] == frame[1::2] for frame in frames) for frames in zip(*(pair[1:] for pair in case.pairs))]
    if is_doubled != [False, True]:
        return ''
    return 'the port draws in low detail: each of its columns is there twice (detailLevel of the original; 0 is high)'


def repeated(case: Case) -> str:
    """One frame in the place of several views."""
    frame = case.pairs[0].port
    if len({pair.ours for pair in case.pairs}) == 1 or any(pair.port != frame for pair in case.pairs):
        return ''
    view = next((view for view in range(min(case.count, MOST_SEARCHED)) if case.ours(view) == frame), None)
    what = 'none of ours' if view is None else f'our view {view}'
    return (f'each of the port\'s frames that differ is the same one, {what}: it draws one row again and again, or '
            'writes one frame for all')


def nearest_view(case: Case, pair: Pair) -> tuple[int, int]:
    """The number of doomview's view that is nearest to a port's frame, and the pixels that differ from it."""
    near = range(max(0, pair.view - FARTHEST_VIEW), min(case.count, pair.view + FARTHEST_VIEW + 1))
    counts = {view: count(case.ours(view), pair.port) for view in {*near, case.count - 1 - pair.view}}
    view = min(counts, key=lambda number: (counts[number], number != pair.view, number))
    return view, counts[view]


def order(case: Case) -> str:
    """Views that come late, or in another order."""
    found = [(pair, *nearest_view(case, pair)) for pair in case.pairs]
    moved = [(pair.view, view) for pair, view, left in found
             if view != pair.view and is_cause(left, count(pair.ours, pair.port))]
    if 4 * len(moved) < 3 * len(found):
        return ''
    (step, times), = collections.Counter(number - view for number, view in moved).most_common(1)
    if 2 * times > len(moved):
        views = f'{abs(step)} view{"s" if abs(step) > 1 else ""}'
        word, number = 'late' if step > 0 else 'early', next(number for number, view in moved if number - view == step)
        return f'the port is {views} {word}: its view {number} is our view {number - step}'
    if all(number + view == case.count - 1 for number, view in moved):
        return 'the port has the views in the order from the last to the first'
    some = ', '.join(f'its view {number} is our view {view}' for number, view in moved[:3])
    return f'the port has the views in another order: {some}'


def layout(case: Case) -> str:
    """Frames that are flipped, or written in another order of pixels."""
    counts = {name: sum(count(pair.ours, undo(pair.port)) for pair in case.pairs) for name, undo in LAYOUTS.items()}
    name = min(counts, key=lambda name: counts[name])
    if not is_cause(counts[name], before(case)):
        return ''
    return f'the port\'s frames are {name}{beside(counts[name])}'


def part_of(frame: bytes, rows: int, columns: int) -> bytes:
    """A frame without so many rows at the top, or at the bottom where the number is negative; and likewise columns."""
    lines = rows_of(frame)[max(rows, 0):HEIGHT + min(rows, 0)]
    return b''.join(line[max(columns, 0):WIDTH + min(columns, 0)] for line in lines)


def count_shifted(case: Case, rows: int, columns: int) -> int:
    """The pixels that differ where the port is so many rows and columns late."""
    return sum(count(part_of(pair.ours, -rows, -columns), part_of(pair.port, rows, columns)) for pair in case.pairs)


def shift(case: Case) -> str:
    """Frames that are some rows or columns off."""
    steps = [step for near in range(1, FARTHEST_SHIFT + 1) for step in (near, -near)]
    some = case._replace(pairs=case.pairs[:2])
    rows, columns = min([(step, 0) for step in steps] + [(0, step) for step in steps],
                        key=lambda both: count_shifted(some, *both))
    left = count_shifted(case, rows, columns)
    if not is_cause(left, before(case)):
        return ''
    if (rows, columns) == (-HALF_BAR, 0) and has_other_bottom(case):
        return (f'the port has view size {FULL_WIDTH_SIZE} (screenblocks of the original), and below that a status bar or '
                f'the like: its rows 0 to {ROWS_ABOVE_BAR - 1} are our rows {HALF_BAR} to {ROWS_ABOVE_BAR + HALF_BAR - 1}')
    step, word, late, early = (rows, 'row', 'late (lower)', 'early (higher)') if rows else \
        (columns, 'column', 'late (to the right)', 'early (to the left)')
    return (f'the port\'s picture is {abs(step)} {word}{"s" if abs(step) > 1 else ""} {late if step > 0 else early}'
            f'{beside(left)}')


def has_other_bottom(case: Case) -> bool:
    """Whether the rows of a status bar have something else than our picture, also where that is moved."""
    first, last = WIDTH * ROWS_ABOVE_BAR, WIDTH * (ROWS_ABOVE_BAR + HALF_BAR)
    different = sum(count(pair.ours[last:], pair.port[first:last]) for pair in case.pairs)
    return 2 * different > (last - first) * len(case.pairs)


def is_within(frame: bytes, size: int) -> bool:
    """Whether all outside the window of a view size is 0."""
    left, top, width, height = window(size)
    rows = rows_of(frame)
    outside = rows[:top] + rows[top + height:]
    sides = [part for row in rows[top:top + height] for part in (row[:left], row[left + width:])]
    return not b''.join(outside + sides).strip(b'\0')


def size_of(frames: Sequence[bytes]) -> int:
    """The least view size in whose window some frames are."""
    return next(size for size in range(3, FULL_SIZE + 1) if all(is_within(frame, size) for frame in frames))


def other_size(case: Case) -> str:
    ours, port = sizes(case)
    return (f'the port has another view size: its frames are within the window of size {port}, and doomview has size '
            f'{ours} (--size; screenblocks of the original)')


def sizes(case: Case) -> tuple[int, int]:
    """The view sizes of doomview's frames and of the port's, as far as their windows show them."""
    return size_of([pair.ours for pair in case.pairs]), size_of([pair.port for pair in case.pairs])


def smaller_view(case: Case) -> str:
    """Frames of a smaller view size. A picture that is as many rows early as a status bar has is in such a window too."""
    ours, port = sizes(case)
    if port >= ours or port == FULL_WIDTH_SIZE and is_cause(count_shifted(case, ROWS_ABOVE_BAR - HEIGHT, 0), before(case)):
        return ''
    return other_size(case)


def larger_view(case: Case) -> str:
    """Frames of a larger view size, or with something outside the window of ours."""
    ours, port = sizes(case)
    if ours >= port:
        return ''
    left, top, width, height = window(ours)
    inside = sum(count(*(part_of(part_of(frame, top, left), top + height - HEIGHT, left + width - WIDTH)
                         for frame in pair[1:])) for pair in case.pairs)
    if is_cause(inside, before(case)):
        return (f'the port paints outside the window of view size {ours}, which doomview leaves at 0: a status bar, a '
                'border or messages')
    return other_size(case)


def colour_map(case: Case) -> tuple[dict[int, int], int]:
    """Of each of doomview's colours the colour that the port has most often there; and how many pixels have it."""
    pairs: collections.Counter[tuple[int, int]] = collections.Counter()
    for pair in case.pairs:
        pairs.update(zip(pair.ours, pair.port))
    found: dict[int, tuple[int, int]] = {}
    for (ours, port), number in pairs.most_common():
        found.setdefault(ours, (port, number))
    return {ours: port for ours, (port, _) in found.items()}, sum(number for _, number in found.values())


def colormap_of(mapping: dict[int, int], colormaps: bytes) -> typing.Optional[int]:
    """The number of the colormap that maps colours so, or None."""
    for number in range(len(colormaps) // COLORMAP_SIZE):
        if all(colormaps[COLORMAP_SIZE * number + ours] == port for ours, port in mapping.items()):
            return number
    return None


def colours(case: Case) -> str:
    """Frames in which each colour is always the same other one."""
    mapping, explained = colour_map(case)
    if not is_cause(SIZE * len(case.pairs) - explained, before(case)):
        return ''
    number = colormap_of(mapping, case.colormaps)
    changed = [f'{ours} is {port}' for ours, port in sorted(mapping.items()) if ours != port]
    what = f'colormap {number} of COLORMAP' if number is not None else 'another palette, gamma, or a colormap'
    some = ', '.join(changed[:4]) + (' ..' if len(changed) > 4 else '')
    return f'the port has other colours, always in the same way ({some}): {what}'


def of_picture(ours: bytes, found: list[tuple[int, ...]], palette: bytes) -> str:
    """Why the colours of a picture, three bytes a pixel, are in no entry of the palette, or an empty text."""
    pairs = collections.Counter(zip(ours, found))
    mapping: dict[int, tuple[int, ...]] = {}
    for (index, colour), _ in pairs.most_common():
        mapping.setdefault(index, colour)
    if not is_cause(SIZE - sum(pairs[pair] for pair in mapping.items()), SIZE):
        return ''
    parts: dict[int, int] = {}
    is_gamma = all(parts.setdefault(palette[3 * index + part], colour[part]) == colour[part]
                   for index, colour in mapping.items() for part in range(3))
    if is_gamma:
        return 'each brightness is always the same other one: turn off gamma'
    return 'each colour is always the same other one: the port has another palette'


MISTAKES = (one_colour, repeated, low_detail, order, layout, smaller_view, shift, larger_view, colours)


def whole_frames(case: Case) -> list[str]:
    """The mistake that all frames have, as a sentence, or none."""
    if LEAST_PART * before(case) < SIZE * len(case.pairs):
        return []
    found = (find(case) for find in MISTAKES)
    return list(itertools.islice(filter(None, found), 1))


class Everywhere:
    """In which rows and columns of how many views something differs."""

    def __init__(self) -> None:
        self.different = self.pixels = 0
        self.rows: collections.Counter[int] = collections.Counter()  # views
        self.columns: collections.Counter[int] = collections.Counter()
        self.in_rows: collections.Counter[int] = collections.Counter()  # pixels
        self.in_columns: collections.Counter[int] = collections.Counter()

    def add(self, marks: bytes, pixels: int) -> None:
        """Takes the marks of a view that differs in some pixels."""
        self.different += 1
        self.pixels += pixels
        for views, counts, found in ((self.rows, self.in_rows, differences.in_rows(marks)),
                                     (self.columns, self.in_columns, differences.in_columns(marks))):
            own = {line: number for line, number in enumerate(found) if number}
            views.update(own.keys())
            counts.update(own)

    def update(self, other: 'Everywhere') -> None:
        """Takes what was found of other views."""
        self.different += other.different
        self.pixels += other.pixels
        for own, more in ((self.rows, other.rows), (self.columns, other.columns), (self.in_rows, other.in_rows),
                          (self.in_columns, other.in_columns)):
            own.update(more)

    def lines(self, views: dict[int, int], pixels: dict[int, int], count: int) -> list[int]:
        """The rows or columns that differ in nine of ten views and far more than most, if they are few and have a tenth
        of the pixels."""
        usual = statistics.median(pixels[line] for line in range(count))
        found = sorted(line for line, number in views.items()
                       if 10 * number >= 9 * self.different and pixels[line] > FAR_MORE * usual)
        is_much = 10 * sum(pixels[line] for line in found) >= self.pixels
        return found if is_much and len(found) <= MOST_LINES and ranges(found).count(',') < MOST_RANGES else []

    def sentences(self, count: int, by_rows: bool = True) -> list[str]:
        """A sentence on the rows or columns that differ in every view, of so many views, or none. Without `by_rows` rows
        are not told: what is of one kind is in some rows more than in others, whatever is wrong with it."""
        for word, views, pixels, lines in (('column', self.columns, self.in_columns, WIDTH),
                                           ('row', self.rows, self.in_rows, HEIGHT))[:1 + by_rows]:
            found = self.lines(views, pixels, lines) if self.different > 1 else []
            if found:
                number, some = min(views[line] for line in found), sum(pixels[line] for line in found)
                return [f'{word}{"s" if len(found) > 1 else ""} {ranges(found)} in {number} of {count} views: {some} '
                        f'of the {self.pixels} pixels that differ']
        return []


def ranges(numbers: list[int]) -> str:
    """Numbers in their order as words, those that follow each other as a range."""
    parts: list[list[int]] = []
    for number in numbers:
        if parts and parts[-1][1] == number - 1:
            parts[-1][1] = number
        else:
            parts.append([number, number])
    return ', '.join(str(first) if first == last else f'{first} to {last}' for first, last in parts)
