"""Search, from document 01's words."""
from entries import distance, fit
from readings import wrong


def unseen(n, row, seen):
    """The nodes of a row that were not seen, now seen; a row ends at its first value of n or more."""
    for member in row:
        if member >= n and not wrong("row-past-end"):
            return
        if member < n and member not in seen:
            seen.add(member)
            yield member


def search(lanes, index_size, k, roots, query, graph):
    far = {}

    def to_query(node):
        if node not in far:
            far[node] = distance(lanes.of(node), query)
            assert fit(far[node]), "an unfit distance was worked out"
        return far[node]

    ordered = sorted((to_query(r), r) for r in roots)
    seen = {r for _, r in (ordered[:k] if wrong("later-roots-unseen") else ordered)}
    best = ordered[:k]
    queue = [node for _, node in best]
    takings = 0
    while queue:
        node = queue.pop(0)
        if wrong("replaced-not-taken") and node not in [b for _, b in best]:
            continue
        takings += 1
        row = graph[node * index_size : (node + 1) * index_size]
        for entry in sorted((to_query(member), member) for member in unseen(lanes.n, row, seen)):
            farthest = best[-1][0]
            if entry[0] > farthest or (wrong("break-on-equal") and entry[0] == farthest):
                break
            if not (wrong("best-grows") and len(best) < k):
                best.pop()
            best = sorted(best + [entry])
            queue.append(entry[1])
    return best, takings
