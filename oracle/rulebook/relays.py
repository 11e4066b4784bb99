"""Relays, as statements: each move by itself, from the state before it to the state after it."""
import struct

from antt import entries, flo, floats, listing, lists_of, nats, rows


def stage(steps, taken):
    """A half's stage: after a push the measure says yes."""
    flag = "true" if taken else "false"
    made = ["fresh", f"(looked {flag})", f"(pushed {flag})", f"(measured {flag} {flag})", f"(popped {flag} {flag})"]
    return made[min(max(steps, 0), 4)]


class Relay:
    """A relay's input and answer, and how far it has gone; stages follow from the steps done and the reports."""

    def __init__(self, r):
        self.name = f"relay-{r.number}"
        self.dimension, self.n, self.k = r.take("dimension")
        self.lanes = r.take("lanes")
        self.nodes, self.bits = r.take("lists_nodes"), r.take("lists_bits")
        self.jobs, self.moves = rows(r.take("jobs")[1:], 2), r.take("moves")[1:]
        self.touched = [touched(r.take("list")) for _ in self.moves]
        self.final = lists_of(r.take("final_nodes"), r.take("final_bits"), self.k)
        self.reports = r.take("reports")
        self.apart = [0 if u == v else squared(self.lanes, self.dimension, u, v) for u, v in self.jobs]
        self.lists = [entries(a, b) for a, b in zip(rows(self.nodes, self.k), rows(self.bits, self.k))]
        self.steps = [0] * len(self.jobs)

    def state(self):
        made = []
        for i, (u, v) in enumerate(self.jobs):
            halves = f"{stage(self.steps[i], self.reports[2 * i])} {stage(self.steps[i] - 4, self.reports[2 * i + 1])}"
            made.append(f"(job {u} {v} ({flo(self.apart[i])}) {halves})")
        return f"(relay {listing(self.lists)} {listing(made)})"

    def move(self, i, after):
        u, v = self.jobs[i]
        self.lists[u if self.steps[i] < 4 else v] = after
        self.steps[i] += 1


def touched(numbers):
    """The list that a move left: its length, its nodes, its bits."""
    return entries(numbers[1 : 1 + numbers[0]], numbers[1 + numbers[0] :])


def relay(r, w):
    c = Relay(r)
    calls = w.few("relay")
    hold_opened(c, w, calls)
    hold_moves(c, w, calls)
    hold_closed(c, w, calls)


def hold_opened(c, w, calls):
    n, k, now = c.n, c.k, c.state()
    flat = nats(x for pair in c.jobs for x in pair)
    w.same(c.name + "-opened", f"Relay.opened (Distance.between {floats(c.lanes)} {c.dimension}) {listing(c.lists)} {flat}", now)
    if calls:
        both = f"{nats(c.nodes)} {floats(c.bits)} {flat} (replicate {n * (k + 65) + 1024} 7) (replicate {n * (k + 64) + 64} ({flo(0)}))"
        call = f"(RelayCall.open_rule (opening {c.dimension} {n} {floats(c.lanes)} {k} {both} {512 * n + 4096}))"
        hold_state(w, c.name + "-open-call", k, call, now)


def hold_moves(c, w, calls):
    n, k, now = c.n, c.k, c.state()
    for at, (i, after) in enumerate(zip(c.moves, c.touched)):
        if at % 8 == 3:
            w.same(f"{c.name}-{at}-formed", f"RelayPlaces.relay_formed {n} {k} {encoded(k, now)}", "true")
        c.move(i, after)
        before, now = now, c.state()
        w.same(f"{c.name}-{at}", f"Relay.moved {k} {before} {i}", now)
        if calls and at % 6 == 1:
            hold_state(w, f"{c.name}-{at}-call", k, f"(RelayCall.move_rule (moving {n} {k} {i} {encoded(k, before)}))", now)


def hold_closed(c, w, calls):
    n, k, now = c.n, c.k, c.state()
    w.same(c.name + "-lists", f"{now}.lists", c.final)
    w.same(c.name + "-reports", f"Relay.reports_of ({now}.jobs)", nats(c.reports))
    if calls:
        call = f"(RelayCall.close_rule (closing {n} {k} {encoded(k, now)}))"
        w.same(c.name + "-close-said", f"{call}.said ∷ []", "Refusals.no_refusal ∷ []")
        w.same(c.name + "-close-nodes", f"{call}.nodes", f"Places.list_words {c.final}")
        w.same(c.name + "-close-floats", f"{call}.distances", f"Places.list_floats {c.final}")
        w.same(c.name + "-close-reports", f"take {len(c.reports)} ({call}.reports)", nats(c.reports))


def encoded(k, state):
    return f"(RelayPlaces.relay_state {k} {state}) (RelayPlaces.relay_state_floats {k} {state})"


def hold_state(w, name, k, call, after):
    w.same(name + "-said", f"{call}.said ∷ []", "Refusals.no_refusal ∷ []")
    w.same(name + "-words", f"{call}.state_u", f"RelayPlaces.relay_state {k} {after}")
    w.same(name + "-floats", f"{call}.state_f", f"RelayPlaces.relay_state_floats {k} {after}")


def single(x):
    return struct.unpack("<f", struct.pack("<f", x))[0]


def squared(lanes, dimension, u, v):
    """The bits of 01's distance: a double holds each exact result, so that one rounding follows."""
    at = [struct.unpack("<f", struct.pack("<I", x))[0] for x in lanes]
    total = 0.0
    for a, b in zip(at[u * dimension : (u + 1) * dimension], at[v * dimension : (v + 1) * dimension]):
        t = single(a - b)
        total = single(total + single(t * t))
    return struct.unpack("<I", struct.pack("<f", total))[0]
