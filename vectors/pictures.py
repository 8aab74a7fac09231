"""Pictures that ports write, PNG, PCX and PPM, as pixels: for `check` beside it, and for the tools of doomview.

`read(path)` gives the picture of a file, `of_ppm(data)` that of a PPM; a Refused says what is wrong with one. Needs
Python 3.9 alone."""
import collections
import operator
import os
import re
import struct
import typing
import zlib
from collections.abc import Iterator

WIDTH, HEIGHT = 320, 200
SIZE = WIDTH * HEIGHT
ENDINGS = ('.png', '.pcx', '.ppm')
PPM_HEAD = b'P6\n320 200\n255\n'
PPM_SIZE = len(PPM_HEAD) + 3 * SIZE
SIGNATURE = b'\x89PNG\r\n\x1a\n'
GREY, RGB, INDEXED, GREY_ALPHA, RGB_ALPHA = 0, 2, 3, 4, 6  # colour types of a PNG
PARTS = {GREY: 1, RGB: 3, INDEXED: 1, GREY_ALPHA: 2, RGB_ALPHA: 4}
UP = 2  # a filter of a PNG
PCX_HEAD = struct.Struct('<4B4H')
PCX_PALETTE, PCX_COLOURS = 769, 12  # bytes of the palette at the end, and the byte before it
RUN = 0xc0


class Refused(Exception):
    """What is wrong with a picture, as a sentence without its full stop."""


class Picture(typing.NamedTuple):
    """A picture of 320 by 200: bytes a pixel (1 or 3), the pixels, and where it is one byte their palette."""

    parts: int
    pixels: bytes
    palette: bytes


Read = tuple[int, int, typing.Optional[Picture]]  # width, height and the picture, None of one of another kind


def is_picture(path: str) -> bool:
    return path.lower().endswith(ENDINGS)


def in_order(name: str) -> list[tuple[bool, int, str]]:
    """The key by which names are in the order of the numbers in them."""
    return [(part.isdecimal(), int(part) if part.isdecimal() else 0, part) for part in re.split(r'(\d+)', name.lower())]


def of_folder(folder: str) -> list[str]:
    """The pictures of a folder, in the order of the numbers in their names."""
    names = [name for name in os.listdir(folder) if name[0] != '.' and is_picture(name)]
    return [os.path.join(folder, name) for name in sorted(names, key=in_order)]


def nearest(left: int, above: int, corner: int) -> int:
    """The guess of the last filter of a PNG (Paeth)."""
    guess = left + above - corner
    from_left, from_above, from_corner = abs(guess - left), abs(guess - above), abs(guess - corner)
    if from_left <= from_above and from_left <= from_corner:
        return left
    return above if from_above <= from_corner else corner


def unfiltered(kind: int, line: bytes, above: bytes, step: int) -> bytes:
    """A line of a PNG as it was before its filter."""
    if kind not in range(5):
        raise ValueError
    if kind == 0:
        return bytes(line)
    if kind == UP:
        return bytes(both & 255 for both in map(operator.add, line, above))
    found = bytearray(line)
    for i in range(len(found)):
        left, corner = (found[i - step], above[i - step]) if i >= step else (0, 0)
        add = left if kind == 1 else (left + above[i]) // 2 if kind == 3 else nearest(left, above[i], corner)
        found[i] = (found[i] + add) & 255
    return bytes(found)


def spread(line: bytes, depth: int) -> bytes:
    """The pixels of a line that has several in a byte."""
    if depth == 8:
        return line
    return bytes(byte >> shift & (1 << depth) - 1 for byte in line for shift in range(8 - depth, -1, -depth))


def chunks(data: bytes) -> Iterator[tuple[bytes, bytes]]:
    at = len(SIGNATURE)
    while at + 8 <= len(data):
        size, kind = struct.unpack_from('>I4s', data, at)
        yield kind, data[at + 8:at + 8 + size]
        at += 12 + size


def lines_of_png(packed: bytes, size: int, depth: int, step: int) -> Iterator[bytes]:
    """The lines of a PNG of so many bytes each, without their filters."""
    above = bytes(size)
    for row in range(HEIGHT):
        at = (size + 1) * row
        above = unfiltered(packed[at], packed[at + 1:at + 1 + size], above, step)
        yield spread(above, depth)


def without_alpha(colour: int, pixels: bytes) -> bytes:
    """The pixels of a PNG with grey or with alpha as red, green, blue."""
    if colour in (GREY, GREY_ALPHA):
        return bytes(grey for grey in pixels[::PARTS[colour]] for _ in 'rgb')
    found = bytearray(3 * (len(pixels) // 4))
    for part in range(3):
        found[part::3] = pixels[part::4]
    return bytes(found)


def read_png(data: bytes) -> Read:
    """Width, height and the picture of a PNG, or None where it is of another kind; a ValueError where it is damaged."""
    found: dict[bytes, bytes] = collections.defaultdict(bytes)
    for kind, part in chunks(data):
        found[kind] += part
    width, height, depth, colour, _, _, interlaced = struct.unpack('>IIBBBBB', found[b'IHDR'])
    if interlaced or depth > 8 or depth < 8 and colour != INDEXED or (width, height) != (WIDTH, HEIGHT):
        return width, height, None
    parts = PARTS[colour]
    size = (width * parts * depth + 7) // 8
    lines = lines_of_png(zlib.decompress(found[b'IDAT']), size, depth, max(1, parts * depth // 8))
    pixels = b''.join(line[:width * parts] for line in lines)
    if colour == INDEXED:
        return width, height, Picture(1, pixels, found[b'PLTE'])
    return width, height, Picture(3, pixels if colour == RGB else without_alpha(colour, pixels), b'')


def read_pcx(data: bytes) -> Read:
    """The same of a PCX of 8 bits: of one plane with 256 colours, or of three."""
    maker, _, packs, bits, left, top, right, bottom = PCX_HEAD.unpack_from(data)
    planes, size = struct.unpack_from('<BH', data, 65)
    width, height = right - left + 1, bottom - top + 1
    if maker != 10 or bits != 8:
        raise ValueError
    if planes not in (1, 3) or size < width or (width, height) != (WIDTH, HEIGHT):
        return width, height, None
    found, at = bytearray(), 128
    while len(found) < size * planes * height:
        byte, at = data[at], at + 1
        if packs and byte >= RUN:
            found += bytes([data[at]]) * (byte - RUN)
            at += 1
        else:
            found.append(byte)
    lines = [[found[size * (planes * row + plane):][:width] for plane in range(planes)] for row in range(height)]
    pixels = bytes(part for line in lines for pixel in zip(*line) for part in pixel)
    palette = data[-PCX_PALETTE + 1:] if planes == 1 and data[-PCX_PALETTE] == PCX_COLOURS else b''
    return width, height, Picture(planes, pixels, palette)


def read_ppm(data: bytes) -> Read:
    """The same of a PPM of bytes (P6); its head may have comments."""
    head = re.match(rb'P6(?:\s+|#[^\n]*\n)+(\d+)(?:\s+|#[^\n]*\n)+(\d+)(?:\s+|#[^\n]*\n)+(\d+)\s', data)
    if not head:
        raise ValueError
    width, height, most = map(int, head.groups())
    if (width, height, most) != (WIDTH, HEIGHT, 255):
        return width, height, None
    return width, height, Picture(3, data[head.end():head.end() + 3 * SIZE], b'')


def of_bytes(data: bytes, name: str) -> Picture:
    """The picture that bytes are; a Refused where they are none, or no frame. `name` is that of their file."""
    reader = read_png if data.startswith(SIGNATURE) else read_ppm if data.startswith(b'P6') else read_pcx
    try:
        width, height, picture = reader(data)
        if picture and len(picture.pixels) != picture.parts * SIZE:
            raise ValueError
    except (ValueError, KeyError, IndexError, struct.error, zlib.error) as error:
        raise Refused(f'{name} is no PNG, PCX or PPM, or is damaged') from error
    if picture is None:
        raise Refused(f'{name} is {width} by {height}, or of a kind that is not read: a frame is {WIDTH} by {HEIGHT}, '
                      'of 8 bits a colour')
    return picture


def read(path: str) -> Picture:
    """The picture of a file; a Refused where it is none, or no frame."""
    try:
        with open(path, 'rb') as file:
            data = file.read()
    except OSError as error:
        raise Refused(f'cannot read {path}: {error.strerror}') from error
    return of_bytes(data, path)


def colours_of(picture: Picture, name: str) -> list[bytes]:
    """The colour of each pixel of a picture, three bytes each."""
    if picture.parts == 3:
        return [picture.pixels[at:at + 3] for at in range(0, 3 * SIZE, 3)]
    if len(picture.palette) < 3 * (max(picture.pixels) + 1):
        raise Refused(f'{name} has pixels without a colour in its palette')
    entries = [picture.palette[at:at + 3] for at in range(0, len(picture.palette), 3)]
    return [entries[pixel] for pixel in picture.pixels]


def entries_of(palette: bytes) -> dict[bytes, list[int]]:
    """Of each colour of a palette the numbers of the entries that have it, in their order."""
    entries = collections.defaultdict(list)
    for entry in range(len(palette) // 3):
        entries[bytes(palette[3 * entry:3 * entry + 3])].append(entry)
    return dict(entries)


def least(palette: bytes) -> bytes:
    """Of each entry of a palette the first one with its colour."""
    entries = entries_of(palette)
    return bytes(entries[bytes(palette[3 * i:3 * i + 3])][0] for i in range(len(palette) // 3))


def palette_of_wad(path: str) -> bytes:
    """The first palette of a WAD: the first 768 bytes of its last PLAYPAL; a Refused where it has none."""
    try:
        with open(path, 'rb') as file:
            count, directory = struct.unpack('<4xII', file.read(12))
            file.seek(directory)
            entries = [struct.unpack('<II8s', file.read(16)) for _ in range(count)]
            offsets = [offset for offset, _, name in entries if name.split(b'\0')[0].upper() == b'PLAYPAL']
            file.seek(offsets[-1])
            palette = file.read(768)
    except OSError as error:
        raise Refused(f'cannot read {path}: {error.strerror}') from error
    except (struct.error, IndexError) as error:
        raise Refused(f'{path} is no WAD with a PLAYPAL') from error
    if len(palette) < 768:
        raise Refused(f'{path} is cut short: its PLAYPAL has no whole palette')
    return palette
