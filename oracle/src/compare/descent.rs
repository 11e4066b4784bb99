//! Begin and an iteration: what they are lent, and what 01 and hora's Rust say of it; begins through both sides.

use super::game::Game;
use super::lend::{Call, Outcome, BEGIN, ITERATE};
use super::parts::{Bench, Judged};
use super::{damage, fill, state, table};
use crate::cases::*;
use crate::make;
use crate::prng::Prng;
use crate::run;
use crate::some;

/// Begin or an iteration with everything that it is lent.
#[derive(Clone)]
pub struct Lent {
    pub entry: u64,
    pub game: Game,
    pub k: u64,
    pub s: u64,
    pub draws: Vec<u32>,
    pub state_u: Vec<u32>,
    pub state_f: Vec<u32>,
    pub words: Vec<u32>,
    pub floats: Vec<u32>,
}

impl Lent {
    pub fn of(rng: &mut Prng, lanes: &Lanes, (k, s): (usize, usize), draws: &[u32]) -> Self {
        let n = lanes.nodes;
        let scratch = [512 * n + 4096; 2].map(|least| fill::at_least(rng, least));
        Lent {
            entry: BEGIN,
            game: Game::of(lanes),
            k: k as u64,
            s: s as u64,
            draws: draws.to_vec(),
            state_u: fill::words(rng, state::descent_words(n as u64, k as u64) as usize),
            state_f: fill::nans(rng, n * k),
            words: fill::words(rng, scratch[0]),
            floats: fill::nans(rng, scratch[1]),
        }
    }

    /// The next iteration, on a state and with scratch of any contents.
    pub fn iteration(
        &mut self,
        rng: &mut Prng,
        (words, bits): (Vec<u32>, Vec<u32>),
        draws: &[u32],
    ) {
        self.entry = ITERATE;
        self.state_u = words;
        self.state_f = bits;
        self.draws = draws.to_vec();
        self.words = fill::words(rng, self.words.len());
        self.floats = fill::nans(rng, self.floats.len());
    }

    /// hora's counts and state.
    fn rust(&self) -> ([u64; 2], State) {
        let (k, s) = (self.k as usize, self.s as usize);
        if self.entry == BEGIN {
            let (begun, _) = run::descended(&Descent {
                lanes: self.game.fit(),
                k,
                s,
                begin_draws: self.draws.clone(),
                iteration_draws: Vec::new(),
            });
            return ([0, 0], begun);
        }
        let done = run::iterated(&Iterate {
            lanes: self.game.fit(),
            k,
            s,
            state: state::descent_in(self.game.n, self.k, &self.state_u, &self.state_f),
            draws: self.draws.clone(),
        });
        ([done.cost as u64, done.total_of_new as u64], done.state)
    }
}

impl Judged for Lent {
    /// In the order of `spoonmeadow_begin` and `spoonmeadow_iterate`.
    fn call(&self) -> Call {
        let lent = self.clone();
        Call {
            entry: self.entry,
            numbers: vec![self.game.dimension, self.game.n, self.k, self.s],
            slices: vec![
                lent.game.lanes,
                lent.draws,
                lent.state_u,
                lent.state_f,
                lent.words,
                lent.floats,
            ],
        }
    }

    fn refusal(&self) -> Option<table::Code> {
        let (n, k, s) = (self.game.n, self.k, self.s);
        self.game
            .refusal(1024)
            .or_else(|| table::parameters(&[(1, 64, k), (1, k, s)]))
            .or_else(|| {
                let scratch = 512 * n + 4096;
                table::buffers(
                    &[
                        (state::descent_words(n, k), self.state_u.len()),
                        (n * k, self.state_f.len()),
                    ],
                    &[(scratch, self.words.len()), (scratch, self.floats.len())],
                )
            })
            .or_else(|| self.game.unfit_pair())
            .or_else(|| {
                let each = if self.entry == BEGIN { s } else { k };
                table::draws(2 * n * each, self.draws.len())
            })
            .or_else(|| {
                let formed = self.entry == BEGIN
                    || state::descent_formed(n, k, &self.state_u, &self.state_f);
                table::formed(formed)
            })
    }

    fn done(&self, mut slices: Vec<Vec<u32>>) -> Outcome {
        let ([cost, new], left) = self.rust();
        (slices[2], slices[3]) = state::descent(&left);
        slices[4].fill(0);
        slices[5].fill(0);
        let said = [0, 0, 0, cost, new];
        Outcome { said, slices }
    }
}

pub fn descent_of(case: Case) -> Descent {
    match case {
        Case::Descent(c) => c,
        _ => panic!("a descent"),
    }
}

const HARMS: usize = 14;

/// Harms one place of what begin or an iteration is lent.
pub fn harm(rng: &mut Prng, c: &mut Lent) {
    let scratch = 512 * c.game.n.min(1024) as usize + 4096;
    match rng.below(HARMS) {
        which @ 0..=3 => c.game.harm(rng, which, 1024),
        4 => c.k = damage::number(rng, 64),
        5 => c.s = damage::number(rng, c.k.min(64)),
        6 => damage::length(rng, &mut c.state_u),
        7 => damage::length(rng, &mut c.state_f),
        8 => damage::shorten(rng, &mut c.words, scratch),
        9 => damage::shorten(rng, &mut c.floats, scratch),
        10 => damage::lane(rng, &mut c.game.lanes),
        11 => damage::edge_nodes(rng, &mut c.game.lanes, c.game.dimension),
        12 => damage::length(rng, &mut c.draws),
        _ => damage::state(rng, &mut c.state_u, &mut c.state_f, c.game.n as u32),
    }
}

/// Any sizes within the ranges.
fn larger(rng: &mut Prng) -> Lent {
    let n = rng.pick(&[2, 33, 64, 256, 400]);
    let (dimension, style) = (rng.pick(&[1, 2, 64]), make::style(rng));
    let k = rng.from_to(1, 64);
    let s = rng.from_to(1, k);
    let c = descent_of(some::descent_at(rng, (n, dimension), style, (k, s), 0));
    Lent::of(rng, &c.lanes, (c.k, c.s), &c.begin_draws)
}

fn small(rng: &mut Prng) -> Lent {
    let c = descent_of(some::any_descent(rng));
    Lent::of(rng, &c.lanes, (c.k, c.s), &c.begin_draws)
}

fn damaged(rng: &mut Prng) -> Lent {
    let lent = small(rng);
    damage::some(rng, lent, harm)
}

pub fn all(bench: &mut Bench) {
    bench.each(
        &[
            ("begins, n to 16", 4_000, small),
            ("begins, n to 400", 200, larger),
            ("begins, damaged", 4_000, damaged),
        ],
        Bench::lend,
    );
}
