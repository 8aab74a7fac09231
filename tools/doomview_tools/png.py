"""Pictures as PNG files, with nothing but Python."""
import struct
import zlib

from .files import write_whole

SIGNATURE = b'\x89PNG\r\n\x1a\n'
RGB, INDEXED = 2, 3  # colour types
GREYS = bytes(shade for shade in range(256) for _ in 'rgb')


def chunk(kind: bytes, data: bytes) -> bytes:
    return struct.pack('>I', len(data)) + kind + data + struct.pack('>I', zlib.crc32(kind + data))


def png(width: int, height: int, rgb: bytes) -> bytes:
    """The bytes of a PNG of three bytes a pixel."""
    return whole(width, height, RGB, rgb, b'')


def indexed_png(width: int, height: int, pixels: bytes, palette: bytes) -> bytes:
    """The bytes of a PNG of one byte a pixel, with the palette that gives their colours."""
    return whole(width, height, INDEXED, pixels, chunk(b'PLTE', bytes(palette)))


def whole(width: int, height: int, kind: int, pixels: bytes, more: bytes) -> bytes:
    """The bytes of a PNG, with chunks before those of the pixels."""
    step = (3 if kind == RGB else 1) * width
    lines = b''.join(b'\0' + pixels[step * row:step * (row + 1)] for row in range(height))
    return (SIGNATURE + chunk(b'IHDR', struct.pack('>IIBBBBB', width, height, 8, kind, 0, 0, 0)) + more
            + chunk(b'IDAT', zlib.compress(lines, 9)) + chunk(b'IEND', b''))


def write_png(path: str, width: int, height: int, rgb: bytes) -> None:
    """Writes a picture as a file, whole or not at all."""
    write_whole(path, png(width, height, rgb))
