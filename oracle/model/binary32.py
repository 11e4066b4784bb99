"""Binary32 arithmetic: a double result of two binary32 numbers, rounded once more, is the binary32 result."""
import struct


def f32(x):
    try:
        return struct.unpack("<f", struct.pack("<f", x))[0]
    except OverflowError:
        return float("inf") if x > 0 else float("-inf")


def from_bits(b):
    return struct.unpack("<f", struct.pack("<I", b))[0]


def to_bits(x):
    return struct.unpack("<I", struct.pack("<f", x))[0]


def add(a, b):
    return f32(a + b)


def sub(a, b):
    return f32(a - b)


def mul(a, b):
    return f32(a * b)


def div(a, b):
    if a != a or b != b:
        return float("nan")
    if b == 0.0:
        if a == 0.0:
            return float("nan")
        return float("inf") if (a > 0) == (str(b)[0] != "-") else float("-inf")
    return f32(a / b)
