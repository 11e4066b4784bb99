"""Build, from document 01's words."""
from binary32 import add, div, mul, sub
from entries import UNFILLED
from readings import wrong


def exact_lists(lanes, init_k):
    lists = []
    for q in range(lanes.n):
        others = sorted((lanes.distance(q, p), p) for p in range(lanes.n) if p != q)
        lists.append([p for _, p in others[:init_k]][::-1])
    return lists


def two_hop(lanes, lists, q, limit):
    taken = list(lists[q]) if wrong("own-members-first") else []

    def walk():
        for member in lists[q][:: -1 if wrong("nearest-first") else 1]:
            for node in lists[member][:: -1 if wrong("nearest-first") else 1]:
                if node == q or node in taken:
                    continue
                taken.append(node)
                if len(taken) >= limit and not wrong("limit-late"):
                    return
            if len(taken) >= limit:
                return

    walk()
    for member in lists[q]:
        if member not in taken and not (wrong("own-members-limited") and len(taken) >= limit):
            taken.append(member)
    return [(lanes.distance(q, p), p) for p in taken]


def cosine(dp, dr, djk):
    above = sub(add(mul(dp, dp), mul(dr, dr)), mul(djk, djk))
    if wrong("sum-regrouped"):
        above = add(mul(dp, dp), sub(mul(dr, dr), mul(djk, djk)))
    below = mul(mul(2.0, dp), dr) if wrong("two-dp-first") else mul(2.0, mul(dp, dr))
    return div(above, below)


def occludes(lanes, p, r, threshold):
    if p[1] == r[1] and not wrong("equal-node-passes"):
        return True
    djk = abs(sub(p[0], r[0])) if wrong("djk-stored") else lanes.distance(p[1], r[1])
    c = cosine(p[0], r[0], djk)
    if wrong("nan-occludes") and c != c:
        return True
    if wrong("threshold-occludes") and c == threshold:
        return True
    return c > threshold


def choose(lanes, entries, index_size, threshold):
    kept = []
    for p in sorted(entries):
        if len(kept) == index_size:
            break
        if not any(occludes(lanes, p, r, threshold) for r in kept):
            kept.append(p)
    return kept


def live_part(row):
    for place, (d, _) in enumerate(row):
        if d == UNFILLED:
            return place
    return len(row)


def link(lanes, rows, index_size, threshold):
    """Step 5, on one array of n times index_size slots."""
    for v in range(lanes.n):
        for i in range(index_size):
            slot = v * index_size + i if wrong("slot-of-row-v") else i + v
            d, w = rows[slot]
            start = slot - slot % index_size
            if wrong("stale-is-empty") and slot - start >= live_part(rows[start : start + index_size]):
                continue
            if d == UNFILLED:
                continue
            if wrong("own-row-not-offered") and v == w:
                continue
            if wrong("recomputed-offer"):
                d = lanes.distance(v, w)
            offer(lanes, rows, index_size, threshold, w, (d, v))


def offer(lanes, rows, index_size, threshold, w, entry):
    start = w * index_size
    row = rows[start : start + index_size]
    live = live_part(row)
    if any(node == entry[1] for _, node in row[:live]):
        return
    if live == index_size:
        chosen = choose(lanes, row + [entry], index_size, threshold)
        rows[start : start + len(chosen)] = chosen
        if len(chosen) < index_size and not wrong("no-mark-after-choice"):
            rows[start + len(chosen)] = (UNFILLED, lanes.n)
        if wrong("all-marked-after-choice"):
            rows[start + len(chosen) : start + index_size] = [(UNFILLED, lanes.n)] * (index_size - len(chosen))
    elif live == index_size - 1 or wrong("store-at-two-empty"):
        rows[start + live] = entry


def build(lanes, init_k, index_size, limit, threshold):
    lists = exact_lists(lanes, init_k)
    rows = []
    for q in range(lanes.n):
        kept = choose(lanes, two_hop(lanes, lists, q, limit), index_size, threshold)
        rows += kept + [(UNFILLED, lanes.n)] * (index_size - len(kept))
    pruned = list(rows)
    link(lanes, rows, index_size, threshold)
    graph = []
    for q in range(lanes.n):
        row = rows[q * index_size : (q + 1) * index_size]
        live = live_part(row)
        graph += [node for _, node in row[:live]] + [lanes.n] * (index_size - live)
    return lists, pruned, rows, graph
