//! Lists and descent states that are not well formed: one way of harming them for each way in which 01's words can fail, and as far as may be no other.

use super::descent::Lent;
use super::fill;
use super::plain::fit;
use crate::cases::EMPTY;
use crate::prng::Prng;

/// A way by its name, and what it does to a T; false where the T has no place for it.
pub type Way<T> = (&'static str, fn(&mut Prng, &mut T) -> bool);

/// One list: its nodes and its distance bits.
struct List {
    n: u32,
    nodes: Vec<u32>,
    bits: Vec<u32>,
}

const MINUS_ZERO: u32 = 0x8000_0000;
const INFINITE: u32 = 0x7F80_0000;

/// Distance bits that are unfit and not the mark of an unfilled entry.
pub fn unfit(rng: &mut Prng) -> u32 {
    let nan = fill::nan(rng);
    rng.pick(&[INFINITE, MINUS_ZERO, nan, u32::MAX, MINUS_ZERO | 1])
}

/// A float that is not 0.0 by its bits.
pub fn not_zero(rng: &mut Prng) -> u32 {
    let nan = fill::nan(rng);
    rng.pick(&[1, MINUS_ZERO, EMPTY, 1f32.to_bits(), nan])
}

/// Nodes of n or more.
pub fn beyond(rng: &mut Prng, n: u32) -> u32 {
    rng.pick(&[n, n + 1, u32::MAX])
}

/// The first way that has a place, from a random one on: its name.
pub fn one_of<T>(rng: &mut Prng, ways: &[Way<T>], it: &mut T) -> &'static str {
    let from = rng.below(ways.len());
    let mut order = ways[from..].iter().chain(&ways[..from]);
    let found = order.find(|way| (way.1)(rng, it));
    found.expect("a way that has a place").0
}

impl List {
    /// The first unfilled place, or the last: an entry there that is greater than all filled ones leaves the list ascending.
    fn end(&self) -> usize {
        let filled = self.nodes.iter().take_while(|v| **v < self.n).count();
        filled.min(self.nodes.len() - 1)
    }

    fn set(&mut self, at: usize, node: u32, bits: u32) -> bool {
        self.nodes[at] = node;
        self.bits[at] = bits;
        true
    }

    fn some_node(&self, rng: &mut Prng) -> u32 {
        rng.below(self.n as usize) as u32
    }

    fn last(&self) -> usize {
        self.nodes.len() - 1
    }
}

const LIST_WAYS: [Way<List>; 11] = [
    ("distances that fall", distances_fall),
    ("nodes that fall at one distance", nodes_fall),
    ("an unfilled entry before a filled one", unfilled_first),
    ("a node above n at a fit distance", |rng, l| {
        let node = rng.pick(&[l.n + 1, u32::MAX]);
        l.set(l.end(), node, EMPTY - 1)
    }),
    (
        "a node above n at the distance of an unfilled entry",
        |rng, l| {
            let node = rng.pick(&[l.n + 1, u32::MAX]);
            l.set(l.last(), node, EMPTY)
        },
    ),
    ("node n at a fit distance", |_, l| {
        l.set(l.end(), l.n, EMPTY - 1)
    }),
    ("node n at another unfit distance", |rng, l| {
        let bits = unfit(rng);
        l.set(l.last(), l.n, bits)
    }),
    ("a node at the distance of an unfilled entry", |rng, l| {
        let node = l.some_node(rng);
        l.set(l.end(), node, EMPTY)
    }),
    ("a node at an infinite distance", |rng, l| {
        let node = l.some_node(rng);
        l.set(l.last(), node, INFINITE)
    }),
    ("a node at NaN", |rng, l| {
        let (node, at) = (l.some_node(rng), rng.below(l.nodes.len()));
        l.set(at, node, fill::nan(rng))
    }),
    ("a node at minus zero", |rng, l| {
        let (node, at) = (l.some_node(rng), rng.pick(&[0, l.last()]));
        l.set(at, node, MINUS_ZERO)
    }),
];

fn distances_fall(_: &mut Prng, l: &mut List) -> bool {
    let rises = |i: &usize| l.bits[*i] < l.bits[*i + 1];
    let Some(i) = (0..l.last()).find(rises) else {
        return false;
    };
    l.nodes.swap(i, i + 1);
    l.bits.swap(i, i + 1);
    true
}

fn nodes_fall(_: &mut Prng, l: &mut List) -> bool {
    if l.last() == 0 {
        return false;
    }
    let bits = if fit(l.bits[0]) { l.bits[0] } else { 0 };
    l.set(0, 1, bits) && l.set(1, 0, bits)
}

fn unfilled_first(_: &mut Prng, l: &mut List) -> bool {
    let at = l.end();
    at > 0 && l.set(at - 1, l.n, EMPTY) && l.set(at, 0, EMPTY - 1)
}

/// A list that was well formed, harmed in one way: its name.
pub fn list(rng: &mut Prng, n: u64, nodes: &mut [u32], bits: &mut [u32]) -> &'static str {
    let mut one = List {
        n: n as u32,
        nodes: nodes.to_vec(),
        bits: bits.to_vec(),
    };
    let name = one_of(rng, &LIST_WAYS, &mut one);
    nodes.copy_from_slice(&one.nodes);
    bits.copy_from_slice(&one.bits);
    name
}

/// One of n lists of k entries, harmed in one way: its name.
pub fn lists(
    rng: &mut Prng,
    (n, k): (u64, u64),
    nodes: &mut [u32],
    bits: &mut [u32],
) -> &'static str {
    let at = rng.below(n as usize) * k as usize;
    let places = at..at + k as usize;
    list(rng, n, &mut nodes[places.clone()], &mut bits[places])
}

/// Some context list of which this holds, given its length: the length and its 64 places.
fn context<'a>(rng: &mut Prng, d: &'a mut Lent, holds: fn(u32) -> bool) -> Option<&'a mut [u32]> {
    let (from, to) = ((d.game.n * d.k) as usize, (d.game.n * (d.k + 260)) as usize);
    let lists = d.state_u[from..to].chunks_mut(65);
    let mut fitting: Vec<&mut [u32]> = lists.filter(|c| holds(c[0])).collect();
    let which = rng.below(fitting.len().max(1));
    (!fitting.is_empty()).then(|| fitting.swap_remove(which))
}

const CONTEXT_WAYS: [Way<Lent>; 4] = [
    ("a context list longer than 64", |rng, d| {
        let length = rng.pick(&[65, 66, 260, u32::MAX]);
        let list = context(rng, d, |_| true);
        list.map(|c| c[0] = length).is_some()
    }),
    ("a context list with a node of n or more", |rng, d| {
        let (node, place) = (beyond(rng, d.game.n as u32), rng.below(64));
        let list = context(rng, d, |length| length > 0);
        list.map(|c| c[1 + place % c[0] as usize] = node).is_some()
    }),
    ("an unused place of a context list", |rng, d| {
        let (word, place) = (rng.pick(&[1, u32::MAX]), rng.below(64));
        let list = context(rng, d, |length| length < 64);
        list.map(|c| c[64 - place % (64 - c[0] as usize)] = word)
            .is_some()
    }),
    ("an unused bit behind the visited pairs", |rng, d| {
        let used = (d.game.n * d.game.n % 32) as usize;
        let last = d.state_u.last_mut().expect("visited pairs");
        *last |= ((used > 0) as u32) << rng.from_to(used, 31);
        used > 0
    }),
];

/// A descent's state that was well formed, harmed in one way: its name.
pub fn descent(rng: &mut Prng, d: &mut Lent) -> &'static str {
    if rng.below(CONTEXT_WAYS.len() + LIST_WAYS.len()) < CONTEXT_WAYS.len() {
        return one_of(rng, &CONTEXT_WAYS, d);
    }
    lists(rng, (d.game.n, d.k), &mut d.state_u, &mut d.state_f)
}

/// The names of the ways to harm a list, and those of the ways to harm a context.
pub fn names() -> (Vec<&'static str>, Vec<&'static str>) {
    let lists = LIST_WAYS.iter().map(|way| way.0);
    (
        lists.collect(),
        CONTEXT_WAYS.iter().map(|way| way.0).collect(),
    )
}
