"""Lanes and distances, and entries: (distance, node), so that Python's order is 01's."""
from binary32 import add, f32, from_bits, mul, sub, to_bits
from readings import wrong

# The distance of an empty entry.
EMPTY = 0x7F7FFFFF
UNFILLED = from_bits(EMPTY)


class Lanes:
    """The lanes of n nodes; distances are worked out once a pair."""

    def __init__(self, dimension, n, bits):
        self.dimension = dimension
        self.n = n
        self.values = [from_bits(b) for b in bits]
        self.known = {}

    def of(self, node):
        return self.values[node * self.dimension : (node + 1) * self.dimension]

    def distance(self, a, b):
        if (a, b) not in self.known:
            self.known[a, b] = distance(self.of(a), self.of(b))
        return self.known[a, b]


def distance(a, b):
    total = 0.0
    lanes = list(zip(a, b))
    if wrong("lanes-falling"):
        lanes.reverse()
    for x, y in lanes:
        t = sub(x, y)
        total = f32(total + t * t) if wrong("fused-square") else add(total, mul(t, t))
    return total


def fit(d):
    return to_bits(d) <= 0x7F7FFFFE


def bits_of(entries):
    return [to_bits(d) for d, _ in entries]


def nodes_of(entries, n):
    return [n if to_bits(d) == EMPTY else node for d, node in entries]
