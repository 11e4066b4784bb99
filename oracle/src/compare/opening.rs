//! Openings of relays through both sides: those of whole relays, and damaged ones judged by 01's table.

use super::game::Game;
use super::lend::{Call, Outcome, OPEN};
use super::parts::{Bench, Judged, Kind};
use super::relay::{relay_of, Lent};
use super::state::{lists_formed, split};
use super::steps::{relay_floats, relay_words, Steps};
use super::{damage, fill, ill, table};
use crate::cases::*;
use crate::make;
use crate::prng::Prng;
use crate::some;

/// An opening with everything that it is lent.
#[derive(Clone)]
struct Opening {
    game: Game,
    k: u64,
    nodes: Vec<u32>,
    bits: Vec<u32>,
    jobs: Vec<u32>,
    state_u: Vec<u32>,
    state_f: Vec<u32>,
    words: Vec<u32>,
    floats: Vec<u32>,
}

impl Opening {
    fn of(rng: &mut Prng, c: &Relay) -> Self {
        let (n, k) = (c.lanes.nodes as u64, c.k as u64);
        let scratch = [512 * n as usize + 4096; 2].map(|least| fill::at_least(rng, least));
        let (nodes, bits) = split(&c.lists);
        Opening {
            game: Game::of(&c.lanes),
            k,
            nodes,
            bits,
            jobs: c.jobs.iter().flat_map(|(u, v)| [*u, *v]).collect(),
            state_u: fill::words(rng, relay_words(n, k) as usize),
            state_f: fill::nans(rng, relay_floats(n, k) as usize),
            words: fill::words(rng, scratch[0]),
            floats: fill::nans(rng, scratch[1]),
        }
    }

    fn opened(&self) -> Steps {
        let jobs = self.jobs.chunks(2).map(|j| (j[0], j[1])).collect();
        Steps::opened(&Relay {
            lanes: self.game.fit(),
            k: self.k as usize,
            lists: self
                .nodes
                .iter()
                .copied()
                .zip(self.bits.iter().copied())
                .collect(),
            jobs,
            moves: Vec::new(),
        })
    }
}

impl Judged for Opening {
    /// In the order of `spoonmeadow_open`.
    fn call(&self) -> Call {
        let lent = self.clone();
        Call {
            entry: OPEN,
            numbers: vec![self.game.dimension, self.game.n, self.k],
            slices: vec![
                lent.game.lanes,
                lent.nodes,
                lent.bits,
                lent.jobs,
                lent.state_u,
                lent.state_f,
                lent.words,
                lent.floats,
            ],
        }
    }

    fn refusal(&self) -> Option<table::Code> {
        let (n, k) = (self.game.n, self.k);
        self.game
            .refusal(1024)
            .or_else(|| table::parameters(&[(1, 64, k)]))
            .or_else(|| {
                let scratch = 512 * n + 4096;
                table::buffers(
                    &[
                        (n * k, self.nodes.len()),
                        (n * k, self.bits.len()),
                        (0, self.jobs.len() % 2),
                        (relay_words(n, k), self.state_u.len()),
                        (relay_floats(n, k), self.state_f.len()),
                    ],
                    &[(scratch, self.words.len()), (scratch, self.floats.len())],
                )
            })
            .or_else(|| table::jobs(n, &self.jobs))
            .or_else(|| table::unfit_job(&self.game.lanes, self.game.dimension, &self.jobs))
            .or_else(|| table::formed(lists_formed(n, k, &self.nodes, &self.bits)))
    }

    fn done(&self, mut slices: Vec<Vec<u32>>) -> Outcome {
        (slices[4], slices[5]) = self.opened().written();
        slices[6].fill(0);
        slices[7].fill(0);
        let said = [0; 5];
        Outcome { said, slices }
    }
}

const HARMS: usize = 17;

/// Harms one place of what an opening is lent.
fn harm(rng: &mut Prng, c: &mut Opening) {
    let scratch = 512 * c.game.n.min(1024) as usize + 4096;
    match rng.below(HARMS) {
        which @ 0..=3 => c.game.harm(rng, which, 1024),
        4 => c.k = damage::number(rng, 64),
        5 => damage::length(rng, &mut c.nodes),
        6 => damage::length(rng, &mut c.bits),
        7 => damage::length(rng, &mut c.jobs),
        8 => damage::length(rng, &mut c.state_u),
        9 => damage::length(rng, &mut c.state_f),
        10 => damage::shorten(rng, &mut c.words, scratch),
        11 => damage::shorten(rng, &mut c.floats, scratch),
        12 => damage::lane(rng, &mut c.game.lanes),
        13 => damage::state(rng, &mut c.jobs, &mut [], c.game.n as u32),
        14 => damage::edge_nodes(rng, &mut c.game.lanes, c.game.dimension),
        15 => harm_job(rng, c),
        _ => damage::state(rng, &mut c.nodes, &mut c.bits, c.game.n as u32),
    }
}

/// The lanes of a job's two nodes at the end of the fit distances, or one of them unfit.
fn harm_job(rng: &mut Prng, c: &mut Opening) {
    let dimension = c.game.dimension.min(64) as usize;
    let nodes = c.game.lanes.len() / dimension.max(1);
    let of = |v: &u32| (*v as usize) < nodes;
    let (Some([u, v]), true) = (c.jobs.last_chunk::<2>(), dimension > 0) else {
        return;
    };
    if u == v || !of(u) || !of(v) {
        return;
    }
    let (u, v) = (*u as usize * dimension, *v as usize * dimension);
    let (mut one, mut other) = (vec![0; dimension], vec![0; dimension]);
    damage::edge(&mut one, &mut other);
    if rng.one_in(2) {
        damage::lane(rng, &mut other);
    }
    c.game.lanes[u..u + dimension].copy_from_slice(&one);
    c.game.lanes[v..v + dimension].copy_from_slice(&other);
}

fn small(rng: &mut Prng) -> Opening {
    let case = relay_of(some::any_relay(rng));
    Opening::of(rng, &case)
}

fn damaged(rng: &mut Prng) -> Opening {
    let mut opening = small(rng);
    if rng.one_in(10) {
        let jobs = make::jobs(rng, opening.game.n as usize, 65);
        opening.jobs = jobs.iter().flat_map(|j| [j.0, j.1]).collect();
    }
    damage::some(rng, opening, harm)
}

/// Lanes of one node at which distances are unfit, and no job of unequal nodes that names it: its distances are not worked out.
fn unmeasured(rng: &mut Prng) -> Opening {
    let mut opening = small(rng);
    let (node, other) = (0, 1);
    let lanes = opening.game.dimension as usize;
    damage::lane(rng, &mut opening.game.lanes[..lanes]);
    for job in opening.jobs.chunks_mut(2) {
        if job.contains(&node) {
            job.fill(rng.pick(&[node, other]));
        }
    }
    opening
}

/// Lists that are not well formed, and in which way.
fn ill_formed(rng: &mut Prng) -> (Opening, &'static str) {
    let mut o = small(rng);
    let way = ill::lists(rng, (o.game.n, o.k), &mut o.nodes, &mut o.bits);
    (o, way)
}

fn refused(bench: &mut Bench, kind: Kind, (lent, way): (Opening, &'static str)) {
    bench.ill(kind, ("open", way), &(lent.call(), lent.expected()));
}

/// The opening of a relay through the library: the state that it left.
pub fn open(bench: &mut Bench, kind: Kind, c: &Relay) -> Lent {
    let opening = Opening::of(&mut Prng::new(kind.1), c);
    let mut left = bench.judge(kind, &opening).slices;
    let bits = left.swap_remove(5);
    let words = left.swap_remove(4);
    let (n, k) = (opening.game.n, opening.k);
    Lent { n, k, words, bits }
}

pub fn all(bench: &mut Bench) {
    bench.each(
        &[
            ("openings, damaged", 6_000, damaged),
            ("openings, lanes that no job measures", 1_000, unmeasured),
        ],
        Bench::lend,
    );
    bench.each(
        &[("openings, lists not well formed", 2_000, ill_formed)],
        refused,
    );
}
