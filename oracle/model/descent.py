"""Descent, from document 01's words."""
from entries import UNFILLED, bits_of, nodes_of
from readings import wrong


class State:
    def __init__(self, n, k):
        self.n = n
        self.k = k
        self.lists = [[(UNFILLED, n)] * k for _ in range(n)]
        self.contexts = [[[], [], [], []] for _ in range(n)]
        self.visited = set()

    def numbers(self):
        flat = [e for entries in self.lists for e in entries]
        out = nodes_of(flat, self.n) + bits_of(flat)
        for context in self.contexts:
            for members in context:
                out += [len(members)] + members
        words = [0] * ((self.n * self.n + 31) // 32)
        for i, j in self.visited:
            words[(i * self.n + j) // 32] |= 1 << ((i * self.n + j) % 32)
        return out + words


class Draws:
    def __init__(self, draws):
        self.draws = list(draws)

    def modulo(self, m):
        return self.draws.pop(0) % m

    def shuffle(self, items):
        places = range(len(items) - 1, 0, -1)
        for p in reversed(places) if wrong("shuffle-rises") else places:
            other = self.modulo(p + 1)
            items[p], items[other] = items[other], items[p]


def begin(n, k, s, draws):
    state = State(n, k)
    draws = Draws(draws)
    for node in range(n):
        state.contexts[node][0] = [draws.modulo(n) for _ in range(s)]
        state.contexts[node][2] = [draws.modulo(n) for _ in range(s)]
    return state


def offer_to_list(entries, entry):
    """The whole of an offer: taken up unless farther than the last, then the least k."""
    if entry[0] > entries[-1][0]:
        return
    entries.append(entry)
    entries.sort()
    entries.pop()


def update(lanes, state, a, b):
    """Offers each to the other's list and marks the pair; gives what it costs."""
    if a != b:
        offer_to_list(state.lists[a], (lanes.distance(a, b), b))
        offer_to_list(state.lists[b], (lanes.distance(b, a), a))
    if a != b or not wrong("no-diagonal"):
        state.visited.add((a, b))
        state.visited.add((b, a))
    return int(a != b or wrong("cost-counts-equal"))


def pairs_of(context):
    """The pairs of a context in the order in which they are updated."""
    new, old, reversed_new, reversed_old = context
    for place, a in enumerate(new):
        yield from ((a, b) for b in new[place:])
    yield from ((a, b) for a in new for b in old)
    for place, a in enumerate(reversed_new):
        for b in reversed_new[place + 1 :]:
            if a < b:
                yield a, b
            elif a > b and wrong("turned-round"):
                yield b, a
    for one, other in ((reversed_new, reversed_old), (new, reversed_old), (new, reversed_new), (old, reversed_new)):
        yield from ((a, b) for a in one for b in other)


def renew(state, s, draws):
    """Makes the new and old lists of every context from the lists and the marks; gives the total of new."""
    total_of_new = 0
    cleared = []
    for node in range(state.n):
        filled = [member for _, member in state.lists[node] if member != state.n]
        new = [m for m in filled if ((node, m) in state.visited) != wrong("new-and-old-swapped")]
        old = [m for m in filled if ((node, m) in state.visited) == wrong("new-and-old-swapped")]
        total_of_new += len(new)
        whole = list(new)
        if len(new) > s:
            draws.shuffle(new)
            new = new[:s] if wrong("first-s-kept") else new[s:]
            if wrong("total-after-cut"):
                total_of_new += len(new) - len(whole)
        if not (wrong("only-cut-unvisits") and len(whole) <= s):
            cleared += [(node, m) for m in (whole if wrong("cut-pairs-unvisited") else new)]
        state.contexts[node][:2] = new, old
    for i, j in cleared:
        state.visited.discard((i, j))
        if wrong("unvisited-both-ways"):
            state.visited.discard((j, i))
    return total_of_new


def iterate(lanes, state, s, draws):
    draws = Draws(draws)
    cost = sum(update(lanes, state, a, b) for context in state.contexts for a, b in pairs_of(context))
    total_of_new = renew(state, s, draws)
    reverse(state, s, draws)
    return cost, total_of_new


def reverse(state, s, draws):
    """The one reversed-old and the one reversed-new list that all nodes share."""
    if wrong("own-reversed-lists"):
        return reverse_each(state, s, draws)
    old = [node for node, c in enumerate(state.contexts) for _ in c[1]]
    new = [node for node, c in enumerate(state.contexts) for _ in c[0]]
    for members in (new, old) if wrong("new-before-old") else (old, new):
        cut(members, s, draws)
    for context in state.contexts:
        context[2] = list(new)
        context[3] = list(old)


def cut(members, s, draws):
    if len(members) > s:
        draws.shuffle(members)
        if wrong("reversed-tail-kept"):
            del members[: len(members) - s]
        else:
            del members[s:]


def reverse_each(state, s, draws):
    for j, context in enumerate(state.contexts):
        context[3] = [i for i, c in enumerate(state.contexts) for m in c[1] if m == j]
        context[2] = [i for i, c in enumerate(state.contexts) for m in c[0] if m == j]
        cut(context[3], s, draws)
        cut(context[2], s, draws)
