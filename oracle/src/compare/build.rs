//! Builds through both sides: random ones, those kept by hand, large ones, and damaged ones judged by 01's table.

use super::game::Game;
use super::lend::{Call, Outcome, BUILD};
use super::parts::{Bench, Judged};
use super::{damage, fill, table};
use crate::by_hand;
use crate::cases::*;
use crate::make::{self, Style};
use crate::prng::Prng;
use crate::run;
use crate::some;

/// A build with everything that it is lent.
#[derive(Clone)]
struct Lent {
    init_k: u64,
    index_size: u64,
    neighbor_neighbor_size: u64,
    threshold: u32,
    game: Game,
    graph: Vec<u32>,
    words: Vec<u32>,
    floats: Vec<u32>,
}

fn least_scratch(n: u64, init_k: u64, index_size: u64) -> u64 {
    4 * n * (init_k + index_size) + 4096
}

impl Lent {
    fn of(rng: &mut Prng, c: Build) -> Self {
        let n = c.lanes.nodes;
        let scratch = least_scratch(n as u64, c.init_k as u64, c.index_size as u64) as usize;
        let lengths = [scratch, scratch].map(|least| fill::at_least(rng, least));
        Lent {
            init_k: c.init_k as u64,
            index_size: c.index_size as u64,
            neighbor_neighbor_size: c.neighbor_neighbor_size as u64,
            threshold: c.threshold,
            game: Game::of(&c.lanes),
            graph: fill::words(rng, n * c.index_size),
            words: fill::words(rng, lengths[0]),
            floats: fill::nans(rng, lengths[1]),
        }
    }

    /// hora's graph.
    fn rust(&self) -> Vec<u32> {
        run::graph_of(&Build {
            lanes: self.game.fit(),
            init_k: self.init_k as usize,
            index_size: self.index_size as usize,
            neighbor_neighbor_size: self.neighbor_neighbor_size as usize,
            threshold: self.threshold,
        })
    }
}

impl Judged for Lent {
    /// In the order of `spoonmeadow_build`.
    fn call(&self) -> Call {
        let lent = self.clone();
        Call {
            entry: BUILD,
            numbers: vec![
                self.init_k,
                self.index_size,
                self.neighbor_neighbor_size,
                self.threshold as u64,
                self.game.dimension,
                self.game.n,
            ],
            slices: vec![lent.game.lanes, lent.graph, lent.words, lent.floats],
        }
    }

    fn refusal(&self) -> Option<table::Code> {
        let (n, init_k, index_size) = (self.game.n, self.init_k, self.index_size);
        self.game
            .refusal(4096)
            .or_else(|| {
                let limit = (1, 256, self.neighbor_neighbor_size);
                table::parameters(&[(1, 64, init_k), (1, 64, index_size), limit])
            })
            .or_else(|| table::threshold(self.threshold))
            .or_else(|| {
                let scratch = least_scratch(n, init_k, index_size);
                table::buffers(
                    &[(n * index_size, self.graph.len())],
                    &[(scratch, self.words.len()), (scratch, self.floats.len())],
                )
            })
            .or_else(|| self.game.unfit_pair())
    }

    fn done(&self, mut slices: Vec<Vec<u32>>) -> Outcome {
        slices[1] = self.rust();
        slices[2].fill(0);
        slices[3].fill(0);
        let said = [0; 5];
        Outcome { said, slices }
    }
}

fn build_of(case: Case) -> Build {
    match case {
        Case::Build(c) => c,
        _ => panic!("a build"),
    }
}

fn small(rng: &mut Prng) -> Lent {
    let case = build_of(some::any_build(rng));
    Lent::of(rng, case)
}

/// A build of n nodes with any parameters.
fn sized(rng: &mut Prng, n: usize, dimension: usize, style: Style) -> Lent {
    let lanes = make::lanes(rng, n, dimension, style);
    let threshold = make::threshold(rng, &lanes);
    let case = Build {
        init_k: rng.pick(&[1, 2, 5, 16, 64]),
        index_size: rng.pick(&[1, 2, 4, 8, 64]),
        neighbor_neighbor_size: rng.pick(&[1, 10, 100, 256]),
        threshold,
        lanes,
    };
    Lent::of(rng, case)
}

fn larger(rng: &mut Prng) -> Lent {
    let (n, dimension) = (rng.from_to(25, 200), rng.pick(&[1, 2, 3, 8, 64]));
    let style = make::style(rng);
    sized(rng, n, dimension, style)
}

fn large(rng: &mut Prng) -> Lent {
    let (n, dimension) = (
        rng.pick(&[512, 512, 520, 600, 777]),
        rng.pick(&[1, 2, 3, 8]),
    );
    let style = make::style(rng);
    sized(rng, n, dimension, style)
}

fn largest(rng: &mut Prng) -> Lent {
    let style = rng.pick(&[Style::Plain, Style::Grid(40), Style::Huge, Style::Mixed]);
    let dimension = rng.pick(&[1, 1, 2, 4]);
    sized(rng, 4096, dimension, style)
}

const HARMS: usize = 13;

/// Harms one place of what a build is lent.
fn harm(rng: &mut Prng, c: &mut Lent) {
    let ends = [c.game.n.min(4096), c.init_k.min(64), c.index_size.min(64)];
    let scratch = least_scratch(ends[0], ends[1], ends[2]) as usize;
    match rng.below(HARMS) {
        which @ 0..=3 => c.game.harm(rng, which, 4096),
        4 => c.init_k = damage::number(rng, 64),
        5 => c.index_size = damage::number(rng, 64),
        6 => c.neighbor_neighbor_size = damage::number(rng, 256),
        7 => c.threshold = bad_threshold(rng),
        8 => damage::length(rng, &mut c.graph),
        9 => damage::shorten(rng, &mut c.words, scratch),
        10 => damage::shorten(rng, &mut c.floats, scratch),
        11 => damage::lane(rng, &mut c.game.lanes),
        _ => damage::edge_nodes(rng, &mut c.game.lanes, c.game.dimension),
    }
}

/// NaN, infinite, and just outside; the ends and the zeros, which pass, too.
fn bad_threshold(rng: &mut Prng) -> u32 {
    let nan = fill::nan(rng);
    rng.pick(&[
        nan,
        0x7F80_0000,
        0xFF80_0000,
        0x3F80_0001,
        0xBF80_0001,
        0x3F80_0000,
        0xBF80_0000,
        0x8000_0000,
        0x0000_0001,
    ])
}

fn damaged(rng: &mut Prng) -> Lent {
    let lent = small(rng);
    damage::some(rng, lent, harm)
}

/// The builds kept by hand, which read a stale live slot or tell readings of step 2 apart.
fn kept(bench: &mut Bench) {
    let kind = ("builds kept by hand", bench.seed);
    let hands = by_hand::STALE.iter().chain(&by_hand::WALK);
    for hand in hands.chain([&by_hand::READING]) {
        let case = build_of(by_hand::by_hand(hand));
        bench.tally.case(kind.0);
        bench.lend(kind, Lent::of(&mut Prng::new(kind.1), case));
    }
}

pub fn all(bench: &mut Bench) {
    kept(bench);
    bench.each(
        &[
            ("builds, n to 24", 15_000, small),
            ("builds, n 25 to 200", 1_000, larger),
            ("builds, n 512 to 777", 500, large),
            ("builds, n 4,096", 20, largest),
            ("builds, damaged", 10_000, damaged),
        ],
        Bench::lend,
    );
}
