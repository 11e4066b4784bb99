"""The text of statements: numbers, floats, entries and lists of them, and the statements that were written."""


def nat(xs):
    return " ∷ ".join([str(x) for x in xs] + ["[]"])


def nats(xs):
    return "(" + nat(xs) + ")"


def listing(xs):
    return "(" + " ∷ ".join(list(xs) + ["[]"]) + ")"


def flo(x):
    return f"f {x}"


def floats(xs):
    return listing(flo(x) for x in xs)


def entry(node, bits):
    return f"Lists.neighbor {node} ({flo(bits)})"


def entries(nodes, bits):
    return listing(entry(a, b) for a, b in zip(nodes, bits))


def slots(nodes, bits):
    return nats(x for pair in zip(nodes, bits) for x in pair)


def rows(xs, width):
    return [xs[i : i + width] for i in range(0, len(xs), width)]


def lists_of(nodes, bits, k):
    return listing(entries(a, b) for a, b in zip(rows(nodes, k), rows(bits, k)))


class Writer:
    def __init__(self):
        self.out = []
        self.count = {}
        self.calls = {}

    def same(self, name, left, right):
        self.out.append((name, left, right))

    def few(self, call):
        """Whole calls, with their lent buffers, are computed on the first three cases of a kind."""
        self.calls[call] = self.calls.get(call, 0) + 1
        return self.calls[call] <= 3

    def did(self, kind):
        self.count[kind] = self.count.get(kind, 0) + 1
