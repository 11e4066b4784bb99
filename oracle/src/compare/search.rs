//! Searches through both sides: random ones, large ones, and damaged ones judged by 01's table.

use super::game::Game;
use super::lend::{Call, Outcome, SEARCH};
use super::parts::{Bench, Judged, Kind};
use super::plain::{Searched, Walked};
use super::{damage, fill, table};
use crate::cases::*;
use crate::make::{self, Style};
use crate::prng::Prng;
use crate::run;
use crate::some;

/// A search with everything that it is lent.
#[derive(Clone)]
struct Lent {
    game: Game,
    graph: Vec<u32>,
    index_size: u64,
    roots: Vec<u32>,
    query: Vec<u32>,
    k: u64,
    nodes: Vec<u32>,
    bits: Vec<u32>,
    words: Vec<u32>,
    floats: Vec<u32>,
}

impl Lent {
    fn of(rng: &mut Prng, c: Search) -> Self {
        let n = c.lanes.nodes;
        let scratch = 4 * n + 1024;
        let lengths = [c.k, c.k, scratch, scratch].map(|least| fill::at_least(rng, least));
        Lent {
            game: Game::of(&c.lanes),
            graph: c.graph,
            index_size: c.index_size as u64,
            roots: c.roots,
            query: c.query,
            k: c.k as u64,
            nodes: fill::words(rng, lengths[0]),
            bits: fill::words(rng, lengths[1]),
            words: fill::words(rng, lengths[2]),
            floats: fill::nans(rng, lengths[3]),
        }
    }

    fn walked(&self) -> Walked {
        Searched {
            dimension: self.game.dimension as usize,
            n: self.game.n as usize,
            lanes: &self.game.lanes,
            graph: &self.graph,
            index_size: self.index_size as usize,
            roots: &self.roots,
            query: &self.query,
            k: self.k as usize,
        }
        .walked()
    }

    /// hora's answer; lanes that are not finite are never worked out here, and hora takes none.
    fn rust(&self) -> run::Found {
        run::found(&Search {
            lanes: Lanes {
                bits: damage::finite(&self.game.lanes),
                ..self.game.fit()
            },
            index_size: self.index_size as usize,
            k: self.k as usize,
            roots: self.roots.clone(),
            query: self.query.clone(),
            graph: self.graph.clone(),
        })
    }

    /// Whether the plain reading's outcome is the Rust's answer.
    fn is_rust(&self, plain: &Outcome) -> bool {
        let found = self.rust();
        let m = found.nodes.len();
        plain.said == [0, 0, 0, m as u64, found.takings as u64]
            && plain.slices[4][..m] == found.nodes
            && plain.slices[5][..m] == found.bits
    }
}

impl Judged for Lent {
    /// In the order of `spoonmeadow_search`.
    fn call(&self) -> Call {
        let lent = self.clone();
        Call {
            entry: SEARCH,
            numbers: vec![self.game.dimension, self.game.n, self.index_size, self.k],
            slices: vec![
                lent.game.lanes,
                lent.graph,
                lent.roots,
                lent.query,
                lent.nodes,
                lent.bits,
                lent.words,
                lent.floats,
            ],
        }
    }

    /// The rows that are tested before the walk.
    fn refusal(&self) -> Option<table::Code> {
        let (n, k) = (self.game.n, self.k);
        self.game
            .refusal(4096)
            .or_else(|| table::parameters(&[(1, 64, self.index_size), (1, 64, k)]))
            .or_else(|| {
                table::buffers(
                    &[(n * self.index_size, self.graph.len())],
                    &[
                        (k, self.nodes.len()),
                        (k, self.bits.len()),
                        (4 * n + 1024, self.words.len()),
                        (4 * n + 1024, self.floats.len()),
                    ],
                )
            })
            .or_else(|| table::roots(n, &self.roots))
            .or_else(|| table::query(self.game.dimension, self.query.len()))
    }

    /// The walk; at its first unfit distance row 10.
    fn done(&self, mut slices: Vec<Vec<u32>>) -> Outcome {
        slices[6].fill(0);
        slices[7].fill(0);
        match self.walked() {
            Walked::Unfit(v) => Outcome::refused((10, v as u64, self.game.n), slices),
            Walked::Found(best, takings) => {
                for (i, (bits, node)) in best.iter().enumerate() {
                    slices[4][i] = *node;
                    slices[5][i] = *bits;
                }
                let said = [0, 0, 0, best.len() as u64, takings as u64];
                Outcome { said, slices }
            }
        }
    }
}

/// One search through both sides and the plain reading.
fn compare(bench: &mut Bench, kind: Kind, lent: Lent) {
    let expected = lent.expected();
    if expected.said[0] == 0 && !lent.is_rust(&expected) {
        bench.differs(kind, "the plain reading is not the Rust's answer");
    }
    bench.call(kind, &lent.call(), &expected);
}

fn search_of(case: Case) -> Search {
    match case {
        Case::Search(c) => c,
        _ => panic!("a search"),
    }
}

fn small(rng: &mut Prng) -> Lent {
    let case = search_of(some::any_search(rng));
    Lent::of(rng, case)
}

/// Between the small ones and the limits: any sizes within the ranges.
fn larger(rng: &mut Prng) -> Lent {
    let n = rng.pick(&[2, 65, 100, 200, 300]);
    let dimension = rng.pick(&[1, 2, 3, 16, 64]);
    let (index_size, k) = (rng.from_to(1, 64), rng.from_to(1, 64));
    let roots = rng.from_to(1, n.min(64));
    let style = make::style(rng);
    let case = some::search_at(rng, (n, dimension), style, index_size, k, roots);
    Lent::of(rng, search_of(case))
}

fn largest(rng: &mut Prng) -> Lent {
    let style = rng.pick(&[Style::Plain, Style::Grid(40), Style::Mixed]);
    let (n, dimension) = (4096, rng.pick(&[1, 2, 4, 64]));
    let mut lanes = make::lanes(rng, n + 1, dimension, style);
    let query = lanes.bits.split_off(n * dimension);
    lanes.nodes = n;
    let index_size = rng.pick(&[1, 8, 64]);
    let roots = rng.from_to(1, 64);
    let case = Search {
        index_size,
        k: rng.from_to(1, 64),
        roots: make::distinct(rng, n, roots),
        query,
        graph: make::any_graph(rng, n, index_size),
        lanes,
    };
    Lent::of(rng, case)
}

const HARMS: usize = 17;

/// Harms one place of what a search is lent.
fn harm(rng: &mut Prng, c: &mut Lent) {
    let (scratch, k) = (4 * c.game.n.min(4096) as usize + 1024, c.k.min(64) as usize);
    match rng.below(HARMS) {
        which @ 0..=3 => c.game.harm(rng, which, 4096),
        4 => c.index_size = damage::number(rng, 64),
        5 => c.k = damage::number(rng, 64),
        6 => damage::length(rng, &mut c.graph),
        7 => damage::shorten(rng, &mut c.nodes, k),
        8 => damage::shorten(rng, &mut c.bits, k),
        9 => damage::shorten(rng, &mut c.words, scratch),
        10 => damage::shorten(rng, &mut c.floats, scratch),
        11 => c.roots = vec![0; rng.pick(&[0, 65, 66])],
        12 => harm_root(rng, c),
        13 => damage::length(rng, &mut c.query),
        14 => damage::lane(rng, &mut c.query),
        15 => damage::lane(rng, &mut c.game.lanes),
        _ => harm_edge(rng, c),
    }
}

/// A root of n or more, or one that repeats.
fn harm_root(rng: &mut Prng, c: &mut Lent) {
    if c.roots.is_empty() {
        return;
    }
    let at = rng.below(c.roots.len());
    let repeated = c.roots[rng.below(c.roots.len())];
    let beyond = c.game.n as u32;
    match rng.below(3) {
        0 => c.roots[at] = rng.pick(&[beyond, beyond.wrapping_add(1), u32::MAX]),
        1 => c.roots[at] = repeated,
        _ => c.roots.push(repeated),
    }
}

/// A node whose distance to the query is at the end of the fit ones.
fn harm_edge(rng: &mut Prng, c: &mut Lent) {
    let (dimension, nodes) = (c.query.len(), c.game.lanes.len() / c.query.len().max(1));
    if dimension == 0 || nodes == 0 {
        return;
    }
    let at = rng.below(nodes) * dimension;
    damage::edge(&mut c.query, &mut c.game.lanes[at..at + dimension]);
}

fn damaged(rng: &mut Prng) -> Lent {
    let lent = small(rng);
    damage::some(rng, lent, harm)
}

pub fn all(bench: &mut Bench) {
    bench.each(
        &[
            ("searches, n to 24", 40_000, small),
            ("searches, sizes to 64, n to 300", 2_000, larger),
            ("searches, n 4,096", 60, largest),
            ("searches, damaged", 20_000, damaged),
        ],
        compare,
    );
}
