"""The tables of angles (docs/FORMATS.md): 65,540 bytes, all 16,385 words of which equal those of the original's tables.c.

Sines, tangents and angles are computed by formula, with pi as 3.141592657 and some steps in single precision."""
import hashlib
import math
import struct

from . import installation
from .trouble import Trouble

PI = 3.141592657


def single(number: float) -> float:
    """The number rounded to single precision."""
    return struct.unpack('<f', struct.pack('<f', number))[0]


def fine_angle(index: int) -> float:
    """The middle of a fine angle (8192 a turn), in radians."""
    return single((index + 0.5) * PI * 2 / 8192)


def compute() -> bytes:
    sines = [int(65536 * math.sin(fine_angle(i))) for i in range(10240)]
    tangents = [int(single(65536 * math.tan(fine_angle(i - 2048)))) for i in range(4096)]
    angles = [int(single(0xffffffff * single(math.atan(i / 2048) / (PI * 2)))) for i in range(2049)]
    return struct.pack('<10240i4096i2049I', *sines, *tangents, *angles)


def known_sum() -> str:
    """The SHA-256 of the original's tables."""
    path = installation.data('tables.sha256')
    try:
        with open(path, encoding='ascii') as file:
            return file.read().split()[0]
    except (OSError, IndexError, UnicodeDecodeError) as error:
        raise Trouble(f'{path} is missing or empty; take the whole folder of doomview anew') from error


def is_right(data: bytes) -> bool:
    return hashlib.sha256(data).hexdigest() == known_sum()


def tables() -> bytes:
    """The bytes of the tables; a Trouble where this machine computes others than the original's."""
    data = compute()
    if not is_right(data):
        raise Trouble("the tables differ from tables.sha256: this Python's sin, tan or atan rounds otherwise; "
                      'make them on another machine, and name them by --tables')
    return data
