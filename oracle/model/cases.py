"""The lists' numbers, and each kind of case: its input read, its answer worked out."""
import readings
from binary32 import from_bits
from build import build, link
from descent import State, begin, iterate
from entries import Lanes, bits_of, nodes_of
from relay import demand_three, relay
from search import search


class Numbers:
    def __init__(self, text):
        self.numbers = []
        for text_line in text.splitlines():
            for word in text_line.split("#")[0].split():
                if word[0].isdigit():
                    self.numbers.append(int(word))
                    assert self.numbers[-1] < 1 << 32
                else:
                    assert all(c.isalpha() or c in "_-" for c in word), word
        self.at = 0

    def one(self):
        self.at += 1
        return self.numbers[self.at - 1]

    def run(self, length):
        self.at += length
        assert self.at <= len(self.numbers), "the list ends early"
        return self.numbers[self.at - length : self.at]

    def counted(self):
        return self.run(self.one())

    def entries(self, length):
        nodes = self.run(length)
        return [(from_bits(b), node) for node, b in zip(nodes, self.run(length))]

    def state(self, n, k):
        state = State(n, k)
        flat = self.entries(n * k)
        state.lists = [flat[i * k : (i + 1) * k] for i in range(n)]
        state.contexts = [[self.counted() for _ in range(4)] for _ in range(n)]
        words = self.run((n * n + 31) // 32)
        pairs = [p for p in range(n * n) if words[p // 32] >> (p % 32) & 1]
        state.visited = {divmod(p, n) for p in pairs}
        return state

    def lanes(self, dimension, n):
        return Lanes(dimension, n, self.run(n * dimension))


def flat_entries(entries, n):
    return nodes_of(entries, n) + bits_of(entries)


def build_answer(numbers, dimension, n):
    init_k, index_size, limit, threshold = numbers.run(4)
    lists, pruned, rows, graph = build(numbers.lanes(dimension, n), init_k, index_size, limit, from_bits(threshold))
    out = []
    for members in lists:
        out += [len(members)] + members
    return out + flat_entries(pruned, n) + flat_entries(rows, n) + graph


def search_answer(numbers, dimension, n):
    index_size, k = numbers.run(2)
    roots = numbers.counted()
    lanes = numbers.lanes(dimension, n)
    query = [from_bits(b) for b in numbers.run(dimension)]
    best, takings = search(lanes, index_size, k, roots, query, numbers.run(n * index_size))
    return [len(best)] + flat_entries(best, n) + [takings]


def descent_answer(numbers, dimension, n):
    k, s = numbers.run(2)
    lanes = numbers.lanes(dimension, n)
    state = begin(n, k, s, numbers.counted())
    out = state.numbers()
    for draws in [numbers.counted() for _ in range(numbers.one())]:
        out += list(iterate(lanes, state, s, draws)) + state.numbers()
    return out


def iterate_answer(numbers, dimension, n):
    k, s = numbers.run(2)
    lanes = numbers.lanes(dimension, n)
    state = numbers.state(n, k)
    return list(iterate(lanes, state, s, numbers.counted())) + state.numbers()


def relay_answer(numbers, dimension, n):
    k = numbers.one()
    lanes = numbers.lanes(dimension, n)
    flat = numbers.entries(n * k)
    lists = [flat[i * k : (i + 1) * k] for i in range(n)]
    held = [list(entries) for entries in lists]
    flat_jobs = numbers.run(2 * numbers.one())
    jobs = list(zip(flat_jobs[::2], flat_jobs[1::2]))
    left, reports = relay(lanes, k, lists, jobs, numbers.counted())
    if readings.taken is None:
        demand_three(lanes, k, held, lists, jobs)
    out = []
    for entries in left:
        out += [len(entries)] + flat_entries(entries, n)
    return out + flat_entries([e for l in lists for e in l], n) + reports


def links_answer(numbers, dimension, n):
    index_size, threshold = numbers.run(2)
    lanes = numbers.lanes(dimension, n)
    rows = numbers.entries(n * index_size)
    link(lanes, rows, index_size, from_bits(threshold))
    return flat_entries(rows, n)


# By their numbers, from 1 on.
KINDS = [
    ("build", build_answer),
    ("search", search_answer),
    ("descent", descent_answer),
    ("iterate", iterate_answer),
    ("relay", relay_answer),
    ("links", links_answer),
]


def case_answer(numbers):
    """Reads the input of a case; gives the name of its kind and the numbers of its answer."""
    kind, dimension, n = numbers.run(3)
    assert 1 <= kind <= len(KINDS), "no such kind"
    name, answer = KINDS[kind - 1]
    return name, answer(numbers, dimension, n)
