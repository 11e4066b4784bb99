"""Descents and single iterations, as statements."""
from antt import floats, flo, listing, lists_of, nats


def state(r, n, k):
    nodes, bits = r.take("lists_nodes"), r.take("lists_bits")
    contexts = []
    for _ in range(n):
        numbers, at, four = r.take("context"), 0, []
        for _ in range(4):
            four.append(numbers[at + 1 : at + 1 + numbers[at]])
            at += 1 + numbers[at]
        contexts.append("(context " + " ".join(nats(x) for x in four) + ")")
    words = r.take("visited")
    return lists_of(nodes, bits, k), listing(contexts), nats(words)


def hold_state(w, name, n, k, model, expected):
    lists, contexts, words = expected
    w.same(name + "-lists", f"{model}.lists", lists)
    w.same(name + "-contexts", f"{model}.contexts", contexts)
    w.same(name + "-visited", f"DescentPlaces.pair_words (({n} * {n} + 31) / 32) ({model}.visited)", words)
    state_u, state_f = f"(DescentPlaces.descent_state {n} {model})", f"(Places.list_floats ({model}.lists))"
    w.same(name + "-formed", f"DescentPlaces.descent_formed {n} {k} {state_u} {state_f}", "true")


def descent_lent(dimension, n, lanes, k, s, draws, model):
    words = n * k + 260 * n + (n * n + 31) // 32
    state_u = f"(replicate {words} 7)" if model is None else f"(DescentPlaces.descent_state {n} {model})"
    state_f = f"(replicate {n * k} ({flo(0)}))" if model is None else f"(Places.list_floats ({model}.lists))"
    return f"(descending {dimension} {n} {floats(lanes)} {k} {s} {nats(draws)} {state_u} {state_f} {512 * n + 4096})"


def hold_call(w, name, n, call, code, after):
    """An entry's whole outcome: no refusal, and the state that encodes the Rust's."""
    model = f"(descent {after[0]} {after[1]} (flags {n} {after[2]}))"
    w.same(name + "-said", f"{code} ∷ []", "Refusals.no_refusal ∷ []")
    w.same(name + "-words", f"{call}.left.state_u", f"DescentPlaces.descent_state {n} {model}")
    w.same(name + "-floats", f"{call}.left.state_f", f"Places.list_floats {after[0]}")


def descent(r, w):
    dimension, n, k, s = r.take("dimension")
    lanes = r.take("lanes")
    d = f"(Distance.between {floats(lanes)} {dimension})"
    draws = r.take("begin_draws")[1:]
    count = r.take("iterations")[0]
    all_draws = [r.take("iteration_draws")[1:] for _ in range(count)]
    name = f"descent-{r.number}"
    model = f"(Descent.begun {nats(draws)} {n} {k} {s})"
    before = state(r, n, k)
    hold_state(w, name + "-begun", n, k, model, before)
    if w.few("begin"):
        call = f"(DescentCall.begin_rule {descent_lent(dimension, n, lanes, k, s, draws, None)})"
        hold_call(w, name + "-begin-call", n, call, f"{call}.said", before)
    for i, draws in enumerate(all_draws):
        cost, total = r.take("cost")
        model = f"(descent {before[0]} {before[1]} (flags {n} {before[2]}))"
        step = f"(Descent.iterated {d} {nats(draws)} {n} {k} {s} {model})"
        w.same(f"{name}-{i}-counts", f"{step}.cost ∷ {step}.new ∷ []", nats([cost, total]))
        before = state(r, n, k)
        hold_state(w, f"{name}-{i}", n, k, f"({step}.descent)", before)


def iterate(r, w):
    dimension, n, k, s = r.take("dimension")
    lanes = r.take("lanes")
    d = f"(Distance.between {floats(lanes)} {dimension})"
    before = state(r, n, k)
    draws = r.take("draws")[1:]
    cost, total = r.take("cost")
    model = f"(descent {before[0]} {before[1]} (flags {n} {before[2]}))"
    step = f"(Descent.iterated {d} {nats(draws)} {n} {k} {s} {model})"
    name = f"iterate-{r.number}"
    w.same(name + "-counts", f"{step}.cost ∷ {step}.new ∷ []", nats([cost, total]))
    after = state(r, n, k)
    hold_state(w, name, n, k, f"({step}.descent)", after)
    if w.few("iterate"):
        call = f"(DescentCall.iterate_rule {descent_lent(dimension, n, lanes, k, s, draws, model)})"
        hold_call(w, name + "-call", n, call, f"{call}.said.code", after)
        w.same(name + "-call-counts", f"{call}.said.cost ∷ {call}.said.new ∷ []", nats([cost, total]))
