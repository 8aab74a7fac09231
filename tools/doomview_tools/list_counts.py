"""What `list` says of views beyond what `limits` counts: all fragments and sprites, and the solid ranges.

The original keeps the columns that walls have filled as ranges in an array of 32, solidsegs, with one range at each
edge of the view. A solid wall makes a range more, or joins those that it touches; `list` of a map of the solid walls
alone (`walls`) has them in order."""
import re
import typing
from collections.abc import Iterable, Iterator

from .frames import WIDTH

LAST = re.compile(rb'view \d+ (?:fragments \d+ of (?P<fragments>\d+) planes (?P<planes>\d+) openings (?P<openings>\d+) '
                  rb'sprites \d+ of (?P<sprites>\d+)|over (?P<over>planes|openings) (?P<count>\d+))\n')
NO_NUMBERS = bytes(code for code in range(256) if code not in b'0123456789 \n')  # what is in no number, and between none
FIELDS = [slice(place, None, 5) for place in (2, 3, 4)]  # of the numbers in lines of fragments: the seg, and its columns
EDGES = 2  # ranges at the edges of a view, which are there from the beginning
COLUMN = {b'%d' % column: column for column in range(WIDTH)}  # by its digits
FILLED = [bytes((1,)) * width for width in range(WIDTH + 1)]
NEARLY = 7, 8  # the part of a view's bytes after which its end is looked for: most are about as long as the one before

Counts = dict[str, int]  # of a view, by name
Wall = list[tuple[int, int]]  # of each fragment its first and its last column, from left to right


def most_ranges(walls: Iterable[Wall]) -> int:
    """The most solid ranges at a time in a view, by its solid walls in order."""
    return max(range_counts(walls), default=EDGES)


def range_counts(walls: Iterable[Wall]) -> Iterator[int]:
    """The number of solid ranges after each solid wall of a view. No two share a column (R_ClipSolidWallSegment).

    A wall that touches none makes a range more. One that touches several joins them, and the original moves the rest of
    the array down by one too little: so a wall between two of them takes away none."""
    filled = bytearray(WIDTH + EDGES)  # of each column, with one more at each edge
    filled[0] = filled[-1] = 1
    count = EDGES
    for fragments in walls:
        touched = filled[fragments[0][0]] + len(fragments) - 1 + filled[fragments[-1][1] + 2]
        count += 2 - touched if touched > 1 else 1 - touched
        yield count
        for first, last in fragments:
            filled[first + 1:last + 2] = FILLED[last + 1 - first]


def walls_of(items: bytes) -> list[Wall]:
    """The solid walls of a view in order, by the lines of its items in a map of these alone."""
    behind = items.rfind(b' seg ') + 1
    numbers = items[:items.find(b'\n', behind) if behind else 0].translate(None, NO_NUMBERS).split()
    walls: list[Wall] = []
    before = None
    for seg, first, last in zip(*map(numbers.__getitem__, FIELDS)):
        if seg == before:
            walls[-1].append((COLUMN[first], COLUMN[last]))
        else:
            walls.append([(COLUMN[first], COLUMN[last])])
        before = seg
    return walls


def ranges_of(output: bytes) -> Iterator[int]:
    """The most solid ranges of each view of what `list` writes of a map of the solid walls alone."""
    return (most_ranges(walls_of(view.items())) for view in views_of(output))


def counts_of(output: bytes) -> Iterator[Counts]:
    """The counts of each view of what `list` writes, by name, without solid ranges. Of a view over a raised limit it is
    that count alone."""
    return (view.counts() for view in views_of(output))


class Listed(typing.NamedTuple):
    """What `list` writes of a view: its lines in the whole output, from one byte to another, and where the last begins,
    which has its sums."""

    output: bytes
    begin: int
    last: int
    end: int

    def items(self) -> bytes:
        """The lines of its items."""
        return self.output[self.begin:self.last]

    def counts(self) -> Counts:
        """Its counts by name, without solid ranges; over a raised limit that count alone."""
        found = LAST.fullmatch(self.output, self.last, self.end)
        assert found, 'the last line of a view has its sums'
        if found['over']:
            return {found['over'].decode(): int(found['count'])}
        return {name: int(found[name]) for name in ('planes', 'openings', 'fragments', 'sprites')}


def views_of(output: bytes) -> Iterator[Listed]:
    """The views of what `list` writes."""
    begin = number = size = 0
    while begin < len(output):
        behind = output.find(b'\n', begin) + 1
        if output.find(b' over ', begin, behind) >= 0:  # its only line
            last, end = begin, behind
        else:
            sums = output.index(b' sprites ', line_near(output, begin, size, number))
            last, end = output.rfind(b'\n', begin, sums) + 1 or begin, output.find(b'\n', sums) + 1
        yield Listed(output, begin, last, end)
        begin, size, number = end, end - begin, number + 1


def line_near(output: bytes, begin: int, size: int, number: int) -> int:
    """Where a line of a view begins that is near its end, if it is about as long as the view before; else where the view
    begins."""
    line = output.find(b'\n', begin + size * NEARLY[0] // NEARLY[1]) + 1
    return line if output.startswith(b'view %d ' % number, line) else begin
