//! Relays through both sides: moved in seeded orders with stray calls between, and closed; the state held after every call.

use super::lend::{Call, Outcome, CLOSE, MOVE};
use super::parts::{Bench, Kind};
use super::state::split;
use super::steps::{relay_floats, relay_words, Steps};
use super::{damage, fill, ill_relay, opening, table};
use crate::cases::*;
use crate::make;
use crate::prng::Prng;
use crate::run;
use crate::some;

/// A relay's state as it is lent to a move or a close.
#[derive(Clone)]
pub struct Lent {
    pub n: u64,
    pub k: u64,
    pub words: Vec<u32>,
    pub bits: Vec<u32>,
}

impl Lent {
    /// Rows 2, 4, 6 (the state's, and then whether another buffer is wrong) and 12; or the relay that the state holds.
    fn read(&self, other: bool) -> Result<Steps, table::Code> {
        let (n, k) = (self.n, self.k);
        let exact = || {
            [
                (relay_words(n, k), self.words.len()),
                (relay_floats(n, k), self.bits.len()),
            ]
        };
        let refusal = table::nodes(1024, n)
            .or_else(|| table::parameters(&[(1, 64, k)]))
            .or_else(|| table::buffers(&exact(), &[(other as u64, 0)]));
        if let Some(code) = refusal {
            return Err(code);
        }
        Steps::read(n as usize, k as usize, &self.words, &self.bits).ok_or((12, 0, 0))
    }

    pub fn moving(&self, job: u64) -> (Call, Outcome) {
        let call = Call {
            entry: MOVE,
            numbers: vec![self.n, self.k, job],
            slices: vec![self.words.clone(), self.bits.clone()],
        };
        let mut slices = call.slices.clone();
        let said = match self.read(false) {
            Err((number, first, second)) => [number, first, second, 0, 0],
            Ok(r) if job >= r.jobs.len() as u64 || r.finished(job as usize) => [13, job, 0, 0, 0],
            Ok(mut r) => {
                r.step(job as usize);
                let (words, bits) = r.written();
                slices = vec![words, bits];
                [0; 5]
            }
        };
        (call, Outcome { said, slices })
    }

    fn closing(&self, nodes: Vec<u32>, bits: Vec<u32>, reports: Vec<u32>) -> (Call, Outcome) {
        let lists = self.n.saturating_mul(self.k);
        let lengths = [
            nodes.len() as u64 != lists,
            bits.len() as u64 != lists,
            reports.len() != 128,
        ];
        let call = Call {
            entry: CLOSE,
            numbers: vec![self.n, self.k],
            slices: vec![self.words.clone(), self.bits.clone(), nodes, bits, reports],
        };
        let mut slices = call.slices.clone();
        let said = match self.read(lengths.contains(&true)) {
            Err((number, first, second)) => [number, first, second, 0, 0],
            Ok(r) => match (0..r.jobs.len()).find(|i| !r.finished(*i)) {
                Some(job) => [13, job as u64, 0, 0, 0],
                None => {
                    let (bits, nodes) = r.lists.iter().flatten().copied().unzip();
                    slices[2] = nodes;
                    slices[3] = bits;
                    let reports = r.jobs.iter().flat_map(|j| j.report);
                    reports.enumerate().for_each(|(i, x)| slices[4][i] = x);
                    [0; 5]
                }
            },
        };
        (call, Outcome { said, slices })
    }
}

/// A close into buffers for `length` entries, of any contents.
fn closing(rng: &mut Prng, lent: &Lent, length: usize) -> (Call, Outcome) {
    let (nodes, bits, reports) = (
        fill::words(rng, length),
        fill::nans(rng, length),
        fill::words(rng, 128),
    );
    lent.closing(nodes, bits, reports)
}

/// A call that has no part in the relay, on a copy of its state: harmed, for an absent or finished job, or a close before the end.
fn stray(rng: &mut Prng, lent: &Lent, jobs: usize) -> (Call, Outcome) {
    let mut lent = lent.clone();
    let length = (lent.n * lent.k) as usize;
    let job = rng.below(jobs + 1) as u64;
    match rng.below(9) {
        0 => lent.n = rng.pick(&[0, 1, 1025, u64::MAX]),
        1 => lent.k = damage::number(rng, 64),
        2 => damage::length(rng, &mut lent.words),
        3 => damage::length(rng, &mut lent.bits),
        4 => return closing(rng, &lent, length),
        5 => {
            let mut lent_out = [
                fill::words(rng, length),
                fill::nans(rng, length),
                fill::words(rng, 128),
            ];
            let which = rng.below(3);
            damage::length(rng, &mut lent_out[which]);
            let [nodes, bits, reports] = lent_out;
            return lent.closing(nodes, bits, reports);
        }
        6 => return lent.moving(rng.pick(&[job, jobs as u64, 64, 65, u64::MAX])),
        7 => {
            let from = (lent.n * (lent.k + 64)) as usize;
            let to = from + lent.n as usize + 1 + 15 * jobs;
            damage::state(rng, &mut lent.words[from..to], &mut [], lent.n as u32);
        }
        _ => damage::state(rng, &mut lent.words, &mut lent.bits, lent.n as u32),
    }
    if rng.one_in(4) {
        return closing(rng, &lent, length);
    }
    lent.moving(job)
}

/// A move or a close on a copy of the relay's state that is not well formed.
fn ill_formed(bench: &mut Bench, rng: &mut Prng, kind: Kind, mut lent: Lent, jobs: usize) {
    let length = (lent.n * lent.k) as usize;
    let way = ill_relay::relay(rng, &mut lent);
    if rng.one_in(2) {
        bench.ill(kind, ("close", way), &closing(rng, &lent, length));
    } else {
        let job = rng.below(jobs + 1) as u64;
        bench.ill(kind, ("move", way), &lent.moving(job));
    }
}

/// Opened, moved in the case's order, and closed; lists and reports are hora's. Stray calls come between.
fn whole(bench: &mut Bench, kind: Kind, c: Relay) {
    let rng = &mut Prng::new(kind.1);
    let often = if c.jobs.len() < 16 { 4 } else { 16 };
    let rust = run::relay(&c);
    let mut steps = Steps::opened(&c);
    let mut lent = opening::open(bench, kind, &c);
    for (job, (node, list)) in c.moves.iter().zip(&rust.moved) {
        if rng.one_in(often) {
            let (call, outcome) = stray(rng, &lent, c.jobs.len());
            bench.call(kind, &call, &outcome);
        }
        if rng.one_in(often) {
            ill_formed(bench, rng, kind, lent.clone(), c.jobs.len());
        }
        let (call, outcome) = lent.moving(*job as u64);
        let left = bench.call(kind, &call, &outcome);
        [lent.words, lent.bits] = left.slices.try_into().expect("two slices");
        steps.step(*job as usize);
        let plain: Vec<Entry> = steps.lists[*node].iter().map(|e| (e.1, e.0)).collect();
        if plain != *list {
            bench.differs(kind, "the plain reading of a step is not the Rust's list");
        }
    }
    let (call, outcome) = closing(rng, &lent, rust.lists.len());
    let left = bench.call(kind, &call, &outcome);
    let (nodes, bits) = split(&rust.lists);
    let reports = &left.slices[4][..rust.reports.len()];
    if left.slices[2] != nodes || left.slices[3] != bits || reports != rust.reports {
        bench.differs(kind, "a close did not give the Rust's lists and reports");
    }
}

pub fn relay_of(case: Case) -> Relay {
    match case {
        Case::Relay(c) => c,
        _ => panic!("a relay"),
    }
}

fn few_jobs(rng: &mut Prng) -> Relay {
    let mut relay = relay_of(some::any_relay(rng));
    let order = rng.pick(&some::ORDERS);
    relay.moves = make::moves(rng, relay.jobs.len(), order);
    relay
}

/// 16 to 64 jobs on few nodes, so that they meet; the moves in an order of the seed's.
fn many_jobs(rng: &mut Prng) -> Relay {
    let (n, dimension, style) = (rng.from_to(2, 12), rng.pick(&[1, 2, 3]), make::style(rng));
    let (k, count) = (rng.pick(&[1, 2, 3, 8]), rng.pick(&[16, 16, 17, 20, 24, 64]));
    relay_of(some::relay_at(rng, (n, dimension), style, k, count))
}

/// Any sizes within the ranges.
fn larger(rng: &mut Prng) -> Relay {
    let (n, dimension) = (rng.pick(&[2, 33, 64, 200]), rng.pick(&[1, 2, 64]));
    let (k, jobs, style) = (rng.from_to(1, 64), rng.from_to(1, 12), make::style(rng));
    relay_of(some::relay_at(rng, (n, dimension), style, k, jobs))
}

fn largest(rng: &mut Prng) -> Relay {
    let (k, style) = (rng.pick(&[1, 8, 64]), make::style(rng));
    relay_of(some::relay_at(rng, (1024, 1), style, k, 4))
}

pub fn all(bench: &mut Bench) {
    bench.each(
        &[
            ("relays, 1 to 7 jobs", 3_000, few_jobs),
            ("relays, 16 to 64 jobs", 2_000, many_jobs),
            ("relays, n to 200, k to 64", 200, larger),
            ("relays, n 1,024", 40, largest),
        ],
        whole,
    );
}
