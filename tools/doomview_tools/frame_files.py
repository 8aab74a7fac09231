"""Files of frames, in the forms in which doomview and ports write them; and what a file is that is none."""
import os
import re
import typing

from . import frames, pictures, traces
from .diagnoses import count, ranges
from .files import check_source
from .frames import SIZE, WIDTH
from .trouble import Trouble

FORM = 'frames are to be written as palette indices, one behind the other'
# What files are that begin so, and how a file is called that has frames.
HEADS = [(b'view 0 ', 'is text that doomview list or limits wrote'), (b'x,y,z,angle', 'is a camera path'),
         (b'IWAD', 'is a WAD'), (b'PWAD', 'is a WAD'), (b'set,map,view', 'is a file of vectors')]
# Pictures that begin so; a PNG comes here where its name has another ending.
PICTURES = [(b'BM', 'BMP'), (b'GIF8', 'GIF'), (b'\xff\xd8\xff', 'JPEG'), (b'II*\0', 'TIFF')]
PNG = b'\x89PNG'
BY_NAME = {'.tga': 'TGA', '.bmp': 'BMP', '.gif': 'GIF', '.jpg': 'JPEG', '.jpeg': 'JPEG', '.webp': 'WebP', '.tif': 'TIFF'}
MANY = {3: 'three bytes a pixel (RGB)', 4: 'four bytes a pixel (RGBA or BGRA)'}
MOST_SAMPLE = 65536
NUMBERED = re.compile('(.*?)([0-9]+)([^0-9]*)')  # the name of a file by its last number
MOST_MISSING = 1000  # numbers


def check_form(path: str) -> None:
    """A Trouble where a file is something else than frames."""
    if not os.path.isfile(path):
        return
    check_source(path)
    with open(path, 'rb') as file:
        head = file.read(MOST_SAMPLE)
    check_pictures(path, head)
    what = next((word for start, word in HEADS if head.startswith(start)), '')
    if not what and os.path.getsize(path) % traces.VIEW_SIZE == 0 and is_trace(head):
        what = 'is a trace, which has eight bytes a pixel; it is named by --trace'
    if what:
        raise Trouble(f'{path} {what}, and has no frames; {FORM}')


def check_pictures(path: str, head: bytes) -> None:
    """A Trouble where a file is a picture of a form that is not read, or not under this name."""
    ending = os.path.splitext(path)[1].lower()
    form = BY_NAME.get(ending) or next((form for start, form in PICTURES if head.startswith(start)), '')
    if head.startswith(PNG):
        raise Trouble(f'{path} is a PNG, and its name has to end in .png')
    if form and os.path.getsize(path) % SIZE:
        raise Trouble(f'{path} is a {form}, which is not read here: write each frame as PNG, PCX or PPM, or as palette '
                      'indices')


def is_trace(data: bytes) -> bool:
    """Whether bytes are records of a trace: their kinds, and the 0 at the end of each."""
    kinds = set(data[::traces.RECORD.size])
    return kinds <= set(traces.KINDS) and kinds != {0} and set(data[7::traces.RECORD.size]) == {0}


class OfIndices:
    """The frames of files, one behind the other in each."""

    def __init__(self, files: list[str], views: int = 0) -> None:
        for path in files:
            check_form(path)
            check_size(path, views)
        self.places = [(path, SIZE * view) for path in files for view in range(frames.count_views(path))]
        self.count = len(self.places)

    def frame(self, view: int, _: bytes = b'') -> bytes:
        path, place = self.places[view]
        with open(path, 'rb') as file:
            file.seek(place)
            return file.read(SIZE)

    def sentences(self) -> list[str]:
        return []


Frames = typing.Union[OfIndices, pictures.OfPictures]


def of_path(path: str, wads: list[str], palette: bytes, views: int = 0) -> Frames:
    """The frames of a file or a folder, as they are written, of which there should be as many as `views`. Those of
    pictures need the palette of WADs."""
    files = pictures.files_of(path)
    is_picture = os.path.isfile(files[0]) and (pictures.is_picture(files[0]) or pictures.is_ppm(files[0]))
    if not is_picture:
        return OfIndices(files, views)
    if not wads:
        raise Trouble(f'{path}: the colours of pictures are those of the palette of a WAD; name it by --wad')
    return pictures.OfPictures(files, palette)


# Of bytes a view the size of the frames that have as many, of one byte a pixel.
SIZES = {width * height: f'{width} by {height}' for width, height in (
    (320, 240), (640, 400), (640, 480), (800, 600), (960, 600), (1280, 800), (160, 200), (320, 168), (426, 200), (426, 240),
    (1280, 960))}
LARGE, TIMES = 640, 4  # the width of a frame of 640 by 400, and how many times as many bytes it has


def check_pixels(ours: Frames, port: Frames, path: str) -> list[str]:
    """A sentence where a port has three or four times as many views; a Trouble where these are bytes of colours, or frames
    of 640 by 400."""
    times = port.count // ours.count if ours.count and port.count % ours.count == 0 else 1
    if times not in MANY or not isinstance(port, OfIndices):
        return []
    first = b''.join(port.frame(view) for view in range(times))
    if times == TIMES and is_large(ours.frame(0), first):
        raise Trouble(f'{path} has {times} times as many views: its frames are of 640 by 400; let the port draw 320 by 200')
    colours: dict[int, tuple[int, ...]] = {}
    pairs = list(zip(ours.frame(0), zip(*(first[part::times] for part in range(times)))))
    for colour, pixel in pairs:
        colours.setdefault(colour, pixel)
    wrong = sum(colours[colour] != pixel for colour, pixel in pairs)
    if len(set(colours.values())) > 1 and 4 * wrong < SIZE:
        raise Trouble(f'{path} has {times} times as many views: it has {MANY[times]}; {FORM}, or as pictures')
    what = MANY[times].split(" (")[1][:-1] + (', or frames of 640 by 400' if times == TIMES else '')
    return [f'{path} has {times} times as many views: {what}?']


def is_large(ours: bytes, large: bytes) -> bool:
    """Whether a frame of 640 by 400 shows what ours does: at a third of its pixels of even rows and columns, and more
    than where it is moved by a few rows."""
    small = b''.join(large[at:at + LARGE:2] for at in range(0, len(large), 2 * LARGE))
    same = SIZE - count(ours, small)
    return 3 * same > SIZE and same > SIZE - count(ours, small[-8 * WIDTH:] + small[:-8 * WIDTH])


def check_size(path: str, views: int) -> None:
    """A Trouble where the bytes of a file are no views of 320 by 200, and their number says what they are."""
    length = os.path.getsize(path) if os.path.isfile(path) else 0
    each = length // views if views and length % views == 0 else 0
    if length % SIZE and each in SIZES:
        raise Trouble(f'{path} has {length} bytes, {each} for each of the {views} views of ours, as frames of '
                      f'{SIZES[each]} have; let the port draw 320 by 200')


def missing_numbers(path: str, views: int) -> list[str]:
    """A sentence on numbers that are missing in the names of a folder's files, where each has one view."""
    files = pictures.files_of(path) if os.path.isdir(path) else []
    if len(files) != views:
        return []
    names = [os.path.basename(file) for file in files]
    found = [NUMBERED.fullmatch(name) for name in names]
    parts = {part[1] + part[3] if part else '' for part in found}
    if len(parts) > 1 or not all(found):
        return []
    numbers = [int(part[2]) for part in found if part]
    there, steps = {*numbers}, {second - first for first, second in zip(numbers, numbers[1:])}
    lacking = [number for number in range(numbers[0], numbers[-1]) if number not in there]
    if len(steps) < 2 or not 0 < len(lacking) <= MOST_MISSING:
        return []
    first = next(place for place, number in enumerate(numbers) if number > lacking[0])
    return [f'{path} lacks number {ranges(lacking)} between {names[0]} and {names[-1]}: its files are views 0, 1, 2 .. in '
            f'their order, so {names[first]} is view {first}']
