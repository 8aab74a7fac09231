"""What ports write as a picture of their screen: PCX, PNG and raw video, as pixels; and colours as indices."""
import struct
import zlib
from collections.abc import Iterator

from doomview_tools.frames import HEIGHT, SIZE, WIDTH
from doomview_tools.trouble import Trouble

PCX_HEAD, RUN = 128, 0xc0
CHANNELS = {2: 3, 6: 4, 3: 1}  # of a PNG by its kind of colours


def pcx_indices(data: bytes) -> bytes:
    """The palette indices of a PCX of 320 by 200."""
    left, top, right, bottom = struct.unpack_from('<4H', data, 4)
    if (right - left + 1, bottom - top + 1) != (WIDTH, HEIGHT):
        raise Trouble(f'the screenshot has {right - left + 1} by {bottom - top + 1} pixels, and not '
                      f'{WIDTH} by {HEIGHT}')
    found, at = bytearray(), PCX_HEAD
    while len(found) < SIZE:
        count = data[at] & ~RUN if data[at] >= RUN else 1
        at += data[at] >= RUN
        found += data[at:at + 1] * count
        at += 1
    return bytes(found)


def chunks(data: bytes) -> Iterator[tuple[bytes, bytes]]:
    """The kinds and bytes of the parts of a PNG."""
    at = 8
    while at < len(data):
        size, kind = struct.unpack_from('>I4s', data, at)
        yield kind, data[at + 8:at + 8 + size]
        at += 12 + size


def nearest(left: int, up: int, corner: int) -> int:
    """The guess of a PNG's filter 4."""
    guess = left + up - corner
    return min((abs(guess - left), 0, left), (abs(guess - up), 1, up), (abs(guess - corner), 2, corner))[2]


def unfiltered(kind: int, line: bytearray, before: bytes, step: int) -> bytearray:
    """A line of a PNG as it was before its filter."""
    for i, byte in enumerate(line):
        left, corner = (line[i - step], before[i - step]) if i >= step else (0, 0)
        up = before[i]
        line[i] = byte + (0, left, up, (left + up) // 2, nearest(left, up, corner))[kind] & 255
    return line


def png_pixels(data: bytes) -> tuple[int, int, bytes]:
    """The pixels of a PNG of eight bits: width, height, and bytes red, green, blue."""
    parts = list(chunks(data))
    head, palette = dict(parts)[b'IHDR'], dict(parts).get(b'PLTE')
    width, height, _, colours = struct.unpack('>IIBB', head[:10])
    step = CHANNELS[colours]
    raw = zlib.decompress(b''.join(part for kind, part in parts if kind == b'IDAT'))
    before, lines = bytes(width * step), []
    for at in range(0, len(raw), width * step + 1):
        before = unfiltered(raw[at], bytearray(raw[at + 1:at + 1 + width * step]), before, step)
        lines.append(before)
    body = b''.join(lines)
    if palette:
        return width, height, b''.join(palette[3 * i:3 * i + 3] for i in body)
    return width, height, body if step == 3 else b''.join(body[i:i + 3] for i in range(0, len(body), step))


def sampled(width: int, height: int, rgb: bytes) -> bytes:
    """320 by 200 pixels of a picture that was scaled up by nearest neighbours."""
    if width < WIDTH or height < HEIGHT:
        raise Trouble(f'the screenshots have {width} by {height} pixels, fewer than {WIDTH} by {HEIGHT}')
    columns = [(2 * x + 1) * width // (2 * WIDTH) for x in range(WIDTH)]
    lines = [(2 * y + 1) * height // (2 * HEIGHT) * width for y in range(HEIGHT)]
    return b''.join(rgb[3 * (line + x):3 * (line + x) + 3] for line in lines for x in columns)


class Palette:
    """From colours to indices. Of indices with one colour the least stands for all: `plain` makes them that one."""

    def __init__(self, data: bytes) -> None:
        self.colours = [data[3 * i:3 * i + 3] for i in range(256)]
        self.index: dict[bytes, int] = {}
        for i, colour in enumerate(self.colours):
            self.index.setdefault(colour, i)
        self.table = bytes(self.index[colour] for colour in self.colours)
        self.strange: set[bytes] = set()  # colours that are not in the palette

    def plain(self, frame: bytes) -> bytes:
        return frame.translate(self.table)

    def index_of(self, colour: bytes) -> int:
        """The index of a colour, or that of the nearest."""
        if colour not in self.index:
            self.strange.add(colour)
            near = min(range(256), key=lambda i: sum((a - b) ** 2 for a, b in zip(colour, self.colours[i])))
            self.index[colour] = self.table[near]
        return self.index[colour]

    def frame(self, pixels: bytes) -> bytes:
        """The plain frame of what a port wrote: indices, or bytes red, green, blue."""
        if len(pixels) == SIZE:
            return self.plain(pixels)
        return bytes(self.index_of(pixels[i:i + 3]) for i in range(0, 3 * SIZE, 3))
