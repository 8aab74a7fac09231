"""Tables of angles beside the made ones: those of the original, and such as are refused or just taken."""
import math
import struct

from damage import put, word
from wads import NamedFiles

SINES, TANGENTS, ANGLES = 10240, 4096, 2049
TANGENT, ANGLE = 4 * SINES, 4 * (SINES + TANGENTS)  # where the second and the third table begin
PI = 3.141592657  # as the original has it


def single(number: float) -> float:
    return struct.unpack('<f', struct.pack('<f', number))[0]


def fine_angle(index: int) -> float:
    """The middle of a fine angle, 8192 a turn, in radians."""
    return single((index + 0.5) * PI * 2 / 8192)


def original() -> bytes:
    """The tables as the original has them, by formula, with some steps in single precision."""
    sines = [int(65536 * math.sin(fine_angle(index))) for index in range(SINES)]
    tangents = [int(single(65536 * math.tan(fine_angle(index - 2048)))) for index in range(TANGENTS)]
    angles = [int(single(0xffffffff * single(math.atan(index / 2048) / (PI * 2)))) for index in range(ANGLES)]
    return struct.pack(f'<{SINES}i{TANGENTS}i{ANGLES}I', *sines, *tangents, *angles)


def coarse() -> bytes:
    """Tables that are just taken: no sine, no angle, and one step among the tangents."""
    return bytes(TANGENT) + bytes(4 * 3072) + word(65536) * 1024 + bytes(4 * ANGLES)


def sine(data: bytes, index: int, value: int) -> bytes:
    return put(data, 4 * index, word(value))


def tangent(data: bytes, index: int, value: int) -> bytes:
    return put(data, TANGENT + 4 * index, word(value))


def angle(data: bytes, index: int, value: int) -> bytes:
    return put(data, ANGLE + 4 * index, word(value))


def steep(data: bytes, factor: int) -> bytes:
    """Tables whose tangents are so many times (over 16) as great."""
    tangents = struct.unpack_from(f'<{TANGENTS}i', data, TANGENT)
    held = [max(-2 ** 31, min(2 ** 31 - 1, value * factor // 16)) for value in tangents]
    return put(data, TANGENT, struct.pack(f'<{TANGENTS}i', *held))


def angle_files(made: bytes) -> NamedFiles:
    return {
        'original.bin': original(),
        'coarse.bin': coarse(),
        'no-angles.bin': b'',
        'angles-65539.bin': made[:-1],
        'angles-65541.bin': made + b'\0',
        'sine-too-great.bin': sine(made, 0, 65537),
        'sine-too-small.bin': sine(made, SINES - 1, -65537),
        'sines-at-edges.bin': sine(sine(made, 7, 65536), 9, -65536),
        'tangents-fall.bin': tangent(made, 2048, -100),
        'tangents-fall-at-once.bin': tangent(made, 0, 5),
        'tangents-equal.bin': tangent(made, 2047, 25),
        'angle-too-great.bin': angle(made, 2048, 2 ** 29 + 1),
        'angle-falls.bin': angle(made, 1000, 0),
        'angle-huge.bin': angle(made, 0, 0xffffffff),
        'too-wide.bin': steep(made, 33),
        'wide.bin': steep(made, 31),
        'too-narrow.bin': steep(made, 7),
        'narrow.bin': steep(made, 9),
        'all-wrong.bin': steep(tangent(angle(sine(made, 5, 70000), 5, 0), 3, 9), 40),
        'tangents-and-angles-wrong.bin': tangent(angle(made, 5, 0), 4095, 9),
        'angles-and-field-wrong.bin': angle(steep(made, 40), 1500, 0),
    }
