"""Builds, step 5 alone, and searches, as statements."""
from antt import entries, flo, floats, listing, nats, slots


def build(r, w):
    dimension, n, init_k, index_size, hops, threshold = r.take("dimension")
    lanes = r.take("lanes")
    d = f"(Distance.between {floats(lanes)} {dimension})"
    sizes = f"(sizes {init_k} {index_size} {hops} ({flo(threshold)}))"
    lists = [r.take("exact")[1:] for _ in range(n)]
    name = f"build-{r.number}"
    w.same(name + "-exact", f"map (Build.exact_list {d} {n} {init_k}) {nats(range(n))}", listing(nats(x) for x in lists))
    nodes, bits = r.take("pruned_nodes"), r.take("pruned_bits")
    w.same(name + "-pruned", f"shown {n} (Build.pruned_slots {d} {n} {sizes})", slots(nodes, bits))
    linked = f"(Build.linked_slots {d} {n} {sizes} {entries(nodes, bits)})"
    nodes, bits = r.take("linked_nodes"), r.take("linked_bits")
    w.same(name + "-linked", f"shown {n} {linked}", slots(nodes, bits))
    graph = r.take("graph")
    w.same(name + "-graph", f"Build.graph_from {n} {index_size} {entries(nodes, bits)}", nats(graph))
    if w.few("build"):
        words = 4 * n * (init_k + index_size) + 4096
        call = f"(BuildCall.build_rule (built {sizes} {dimension} {n} {floats(lanes)} (replicate {n * index_size} 7) {words}))"
        w.same(name + "-call", f"{call}.said ∷ []", "Refusals.no_refusal ∷ []")
        w.same(name + "-call-graph", f"{call}.graph", nats(graph))


def links(r, w):
    dimension, n, index_size, threshold = r.take("dimension")
    d = f"(Distance.between {floats(r.take('lanes'))} {dimension})"
    sizes = f"(sizes 1 {index_size} 1 ({flo(threshold)}))"
    before = entries(r.take("rows_nodes"), r.take("rows_bits"))
    nodes, bits = r.take("linked_nodes"), r.take("linked_bits")
    w.same(f"links-{r.number}", f"shown {n} (Build.linked_slots {d} {n} {sizes} {before})", slots(nodes, bits))


def search(r, w):
    dimension, n, index_size, k = r.take("dimension")
    roots = r.take("roots")[1:]
    lanes, query, graph = r.take("lanes"), r.take("query"), r.take("graph")
    m = r.take("found")[0]
    nodes, bits = r.take("found_nodes"), r.take("found_bits")
    takings = r.take("takings")[0]
    walk = (
        f"(Search.search_of (Distance.query_apart {floats(lanes)} {dimension} {floats(query)})"
        f" (Rows.graph_row {n} {index_size} {nats(graph)}) {n} {k} {nats(roots)})"
    )
    w.same(f"search-{r.number}", f"answered {walk}", f"answer {m} {takings} {nats(nodes)} {nats(bits)}")
