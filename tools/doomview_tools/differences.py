"""Where two frames differ, and what painted there: by operations on whole frames, since comparisons have thousands of them.

The marks of a view are a byte for each pixel: 1 where the frames differ and the pixel counts, else 0."""
import collections
import itertools
import re
import sys
import typing

from .frames import HEIGHT, SIZE, WIDTH

MARK = 1
MARKS = bytes([0]) + bytes([MARK]) * 255
NONZERO = re.compile(b'[^\\0]')
RECORD, KEY = 8, 6  # bytes of a record of a trace, and of its painter: all but the colour
KIND, NUMBER, COLOUR = 0, 2, 6  # places in a record
PAINTER_BYTES = (0, 2, 3, 4, 5)  # of a record, that tell its painter and its number; the kind of source goes with these

PLACES = list(range(SIZE))

Box = tuple[int, int, int, int]  # the first and last row, the first and last column
Painted = dict[bytes, int]  # of painters, as bytes of their records, how many pixels


def number_of(data: typing.Union[bytes, bytearray]) -> int:
    return int.from_bytes(data, 'big')


def bytes_of(number: int, size: int = SIZE) -> bytes:
    return number.to_bytes(size, 'big')


def marks_of(ours: bytes, port: bytes, mask: bytes = b'') -> bytes:
    """The marks of two frames; with a mask those where it is 255."""
    both = number_of(ours) ^ number_of(port)
    if mask:
        both &= number_of(mask)
    return bytes_of(both).translate(MARKS)


def count_of(marks: bytes) -> int:
    """How many pixels are marked."""
    return len(marks.translate(None, b'\0'))


def places_of(marks: bytes) -> list[int]:
    """The places that are marked, in ascending order."""
    return list(itertools.compress(PLACES, marks))


def in_rows(marks: bytes) -> list[int]:
    """How many pixels of each row are marked."""
    return [marks.count(MARK, at, at + WIDTH) for at in range(0, SIZE, WIDTH)]


def in_columns(marks: bytes) -> list[int]:
    """How many pixels of each column are marked."""
    return [marks[column::WIDTH].count(MARK) for column in range(WIDTH)]


def box_of(marks: bytes) -> Box:
    """The least box around all that is marked."""
    first, last = marks.find(MARK) // WIDTH, marks.rfind(MARK) // WIDTH
    row = 0
    for number in range(first, last + 1):
        row |= number_of(marks[WIDTH * number:WIDTH * number + WIDTH])
    columns = bytes_of(row, WIDTH)
    return first, last, columns.find(MARK), columns.rfind(MARK)


def other_colour(records: bytes, ours: bytes, marks: bytes) -> typing.Optional[int]:
    """The first place that is marked at which the records of a view have another colour than its frame, or None."""
    wrong = (number_of(records[COLOUR::RECORD]) ^ number_of(ours)) & number_of(marks.translate(bytes([0]) + bytes([255]) * 255))
    if not wrong:
        return None
    found = NONZERO.search(bytes_of(wrong))
    return found.start() if found else None


def ends_of(records: typing.Union[bytes, bytearray]) -> list[int]:
    """The places at which runs of pixels of one painter end, row after row."""
    changes = 0
    for part in PAINTER_BYTES:
        number = number_of(records[part::RECORD])
        changes |= number ^ number >> 8
    return ends_of_runs(changes, len(records) // RECORD)


def ends_of_runs(changes: int, size: int) -> list[int]:
    """The places at which runs end, of a number with a byte for each place, which is not 0 where another run begins."""
    runs = bytes_of(changes, size).translate(MARKS)[1:].split(bytes([MARK]))
    return list(itertools.accumulate(len(run) + 1 for run in runs))


def painted(records: bytes, marks: bytes) -> Painted:
    """Of each painter of pixels that are marked how many it has, by the first bytes of its records."""
    first, last = marks.find(MARK) // WIDTH * WIDTH, (marks.rfind(MARK) // WIDTH + 1) * WIDTH
    painters, marks = bytearray(records[RECORD * first:RECORD * last]), marks[first:last]
    ends = ends_of(painters)
    starts = [0, *ends[:-1]]
    for part in range(KEY, RECORD):
        painters[part::RECORD] = bytes(len(marks))
    numbers = memoryview(painters).cast('Q')
    found: dict[int, int] = collections.defaultdict(int)
    for number, pixels in zip(map(numbers.__getitem__, starts), map(marks.count, itertools.repeat(MARK), starts, ends)):
        if pixels:
            found[number] += pixels
    return {number.to_bytes(RECORD, sys.byteorder)[:KEY]: pixels for number, pixels in found.items()}


def lines_of(marks: bytes, columns: bool) -> list[bytes]:
    """The columns or the rows of the marks."""
    if columns:
        return [marks[column::WIDTH] for column in range(WIDTH)]
    return [marks[WIDTH * row:WIDTH * row + WIDTH] for row in range(HEIGHT)]
