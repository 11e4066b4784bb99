"""A relay, from document 01's words."""
from readings import wrong


def push(entries, entry):
    if wrong("push-behind-equal"):
        entries.insert(len([e for e in entries if e[0] <= entry[0]]), entry)
    else:
        entries.append(entry)
        entries.sort()


def refuses(entries, k, entry):
    """The look: whether an offer is farther than the last."""
    last = entries[k - 1 if wrong("look-at-place-k") else -1][0]
    return entry[0] >= last if wrong("look-refuses-equal") else entry[0] > last


class Half:
    """Half of a job: whether its offer was taken up, and whether its list was too long when it was measured."""

    def __init__(self):
        self.taken = False
        self.over = False

    def move(self, step, entries, k, entry):
        if step == 0:
            self.taken = not refuses(entries, k, entry)
        elif self.taken and step == 1:
            push(entries, entry)
        elif self.taken and step == 2:
            self.over = len(entries) > k
        elif self.taken and self.over:
            entries.pop()


def relay(lanes, k, lists, jobs, moves):
    """Each move's list as the move left it, and the reports."""
    done = [0] * len(jobs)
    halves = [(Half(), Half()) for _ in jobs]
    left = []
    for job in moves:
        half, step = divmod(done[job], 4)
        me, other = jobs[job] if half == 0 else jobs[job][::-1]
        if me != other or wrong("equal-nodes-offered"):
            halves[job][half].move(step, lists[me], k, (lanes.distance(me, other), other))
        done[job] += 1
        left.append(list(lists[me]))
    return left, [int(half.taken) for both in halves for half in both]


def demand_three(lanes, k, held, lists, jobs):
    """Every list holds exactly the least k of what it held and what was offered to it."""
    for u, v in jobs:
        if u != v:
            held[u].append((lanes.distance(u, v), v))
            held[v].append((lanes.distance(v, u), u))
    assert [sorted(entries)[:k] for entries in held] == lists, "demand 3"
