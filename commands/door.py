"""The C door from Python, in a shared library that is named: MANUAL's table of three words, read to its end and past it."""

import ctypes
import sys

HSTADRL, HSTADRH, HSTDATA, HSTCTL = range(4)
BOTH, INCR = 3, 0x1000
INSIDE, EMPTY = 1, 2

door = ctypes.CDLL(sys.argv[1])
numbers = [ctypes.c_uint32, ctypes.c_uint32]
lent = [ctypes.c_char_p, ctypes.c_size_t, ctypes.c_char_p, ctypes.c_size_t]
door.host_port_read.argtypes = [*lent, *numbers]
door.host_port_write.argtypes = [*lent, *numbers, ctypes.c_uint16]
door.host_port_read.restype = door.host_port_write.restype = ctypes.c_uint64

image = ctypes.create_string_buffer(bytes([0, 0, 0, 0, 0, 0, 0, 0x80, 1]), 9)
memory = ctypes.create_string_buffer(b"\x11\x11\x22\x22\x33\x33", 6)


def parts(answer):
    """Word, number, hollow mark and cycle."""
    return answer & 0xFFFF, answer >> 16 & 0xFF, answer >> 24 & 1, answer >> 25


def write(register, word):
    return parts(door.host_port_write(image, 9, memory, 6, register, BOTH, word))


def read(register):
    return parts(door.host_port_read(image, 9, memory, 6, register, BOTH))


answers = [write(HSTCTL, INCR), write(HSTADRL, 0), write(HSTADRH, 0), *(read(HSTDATA) for _ in range(4)), read(4)]
expected = [
    (0, 0, 0, 0),
    (0, 0, 0, 0),
    (0, 0, 0, INSIDE),
    (0x1111, 0, 0, INSIDE),
    (0x2222, 0, 0, INSIDE),
    (0x3333, 0, 0, EMPTY),
    (0xFFFF, 0, 1, EMPTY),
    (0, 2, 0, 0),
]
if answers != expected or memory.raw != b"\x11\x11\x22\x22\x33\x33":
    sys.exit(f"commands/door.py: {answers}, and not {expected}")
