"""Frames: 320 by 200 palette indices, 64,000 bytes, row by row from the top."""
import os
import re
from collections.abc import Sequence

from .trouble import Trouble

WIDTH, HEIGHT = 320, 200
SIZE = WIDTH * HEIGHT
ROWS_ABOVE_BAR = 168
PPM_HEAD = b'P6\n%d %d\n255\n' % (WIDTH, HEIGHT)
NONZERO = re.compile(b'[^\\0]')


def count_views(path: str) -> int:
    """The number of views in a file of frames."""
    return count_parts(path, SIZE, 'frames are to be written as palette indices, one behind the other')


def count_parts(path: str, size: int, form: str) -> int:
    """The number of views in a file, of which each has that size; `form` says how they are to be written."""
    if not os.path.isfile(path):
        raise Trouble(f'{path} is no plain file' if os.path.exists(path) else f'there is no file {path}')
    length = os.path.getsize(path)
    if length % size:
        raise Trouble(f'{path} has {length} bytes, and a view has {size}; {form}')
    return length // size


def window(size: int) -> tuple[int, int, int, int]:
    """Where the window of a view size is in a frame: left, top, width and height (R_ExecuteSetViewSize)."""
    if size == 11:
        return 0, 0, WIDTH, HEIGHT
    width, height = 32 * size, size * ROWS_ABOVE_BAR // 10 & ~7
    return (WIDTH - width) // 2, 0 if width == WIDTH else (ROWS_ABOVE_BAR - height) // 2, width, height


def differing(ours: bytes, port: bytes, mask: bytes = b'') -> list[int]:
    """The places, in ascending order, at which two frames differ; with a mask those where it is not 0."""
    both = int.from_bytes(ours, 'big') ^ int.from_bytes(port, 'big')
    if mask:
        both &= int.from_bytes(mask, 'big')
    return [match.start() for match in NONZERO.finditer(both.to_bytes(len(ours), 'big'))]


def rgb_of(frame: bytes, palette: bytes) -> bytearray:
    """The pixels of a frame as bytes red, green, blue."""
    rgb = bytearray(3 * SIZE)
    for part in range(3):
        rgb[part::3] = frame.translate(palette[part::3])
    return rgb


def beside(pictures: Sequence[bytes]) -> bytes:
    """Pictures of the size of a frame beside each other, as bytes red, green, blue."""
    step = 3 * WIDTH
    return b''.join(picture[step * row:step * (row + 1)] for row in range(HEIGHT) for picture in pictures)


def pixels_of_ppm(data: bytes) -> bytes:
    """The pixels of a frame that doomview wrote as a PPM."""
    if not data.startswith(PPM_HEAD) or len(data) < len(PPM_HEAD) + 3 * SIZE:
        raise Trouble('what was drawn is no frame of 320 by 200')
    return data[len(PPM_HEAD):len(PPM_HEAD) + 3 * SIZE]
