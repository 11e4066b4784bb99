//! Makers of inputs: lanes, thresholds, graphs, lists, states and orders of moves, each from a seeded source.

use crate::cases::*;
use crate::core::metrics::{metric, Metric};
use crate::prng::Prng;
use crate::run;

/// How the lanes of a case are chosen.
#[derive(Clone, Copy, Debug, PartialEq)]
pub enum Style {
    /// Whole numbers below the bound: ties and equal points are common.
    Grid(usize),
    /// Halves below the bound.
    Halves(usize),
    /// Any finite value of moderate size, both signs.
    Plain,
    /// Up to the largest lane whose distance from 0 is fit, so that squares of distances overflow.
    Huge,
    /// So small that squares of distances, or the distances, are zero or subnormal.
    Tiny,
    /// Such that products of two distances are subnormal and rounded there.
    Subnormal,
    /// Sizes mixed over the whole range.
    Mixed,
}

/// The largest lane whose distance from 0 is fit at dimension 1.
const LARGEST: u32 = 0x5F7F_FFFF;

fn lane(rng: &mut Prng, style: Style, dimension: usize) -> f32 {
    // At more lanes the total must stay fit, so each lane is smaller.
    let huge = f32::from_bits(LARGEST) / (dimension as f32).sqrt()
        * if dimension == 1 { 1.0 } else { 0.999 };
    let unit = rng.below(1 << 24) as f32 / (1 << 24) as f32;
    let sign = if rng.one_in(2) { -1.0 } else { 1.0 };
    match style {
        Style::Grid(bound) => rng.below(bound) as f32,
        Style::Halves(bound) => rng.below(bound) as f32 * 0.5,
        Style::Plain => sign * unit * 100.0,
        Style::Huge => match rng.below(4) {
            0 => 0.0,
            1 => huge,
            2 => huge * unit,
            _ => huge * 0.5,
        },
        Style::Tiny => match rng.below(4) {
            0 => 0.0,
            1 => sign * unit * 1e-19,
            2 => sign * unit * 1e-22,
            _ => sign * unit * 1e-12,
        },
        Style::Subnormal => rng.below(24) as f32 * (0.5f32).powi(38),
        Style::Mixed => {
            let powers = [1e-20f32, 1e-12, 1e-6, 1.0, 1e3, 1e9, 4e18];
            sign * unit * rng.pick(&powers) * 0.1
        }
    }
}

/// Lanes whose distances are all fit.
pub fn lanes(rng: &mut Prng, nodes: usize, dimension: usize, style: Style) -> Lanes {
    loop {
        let bits = (0..nodes * dimension)
            .map(|_| lane(rng, style, dimension).to_bits())
            .collect();
        let lanes = Lanes {
            dimension,
            nodes,
            bits,
        };
        if run::unfit_pair(&lanes).is_none() {
            return lanes;
        }
    }
}

pub fn style(rng: &mut Prng) -> Style {
    match rng.below(13) {
        0..=2 => Style::Grid(4),
        3..=4 => Style::Grid(10),
        5 => Style::Halves(8),
        6..=7 => Style::Plain,
        8..=9 => Style::Huge,
        10 => Style::Tiny,
        11 => Style::Subnormal,
        _ => Style::Mixed,
    }
}

pub fn distance(lanes: &Lanes, a: usize, b: usize) -> f32 {
    metric(&lanes.of(a), &lanes.of(b), Metric::Euclidean).unwrap()
}

/// The cosine of document 01's step 3 for three nodes, if it can serve as a threshold.
fn cosine_of(lanes: &Lanes, q: usize, p: usize, r: usize) -> Option<f32> {
    let (dp, dr, djk) = (
        distance(lanes, q, p),
        distance(lanes, q, r),
        distance(lanes, p, r),
    );
    let c = ((dp * dp + dr * dr) - djk * djk) / (2.0 * (dp * dr));
    (-1.0..=1.0).contains(&c).then_some(c)
}

/// A threshold: the ends, the default, zero, any, or a cosine that three of the nodes have.
pub fn threshold(rng: &mut Prng, lanes: &Lanes) -> u32 {
    let value = match rng.below(8) {
        0 => -1.0,
        1 => 1.0,
        2 | 3 => 0.5,
        4 => rng.below(2001) as f32 / 1000.0 - 1.0,
        _ => {
            let mut trio: Vec<usize> = (0..lanes.nodes).collect();
            let found = (0..20).find_map(|_| {
                rng.shuffle(&mut trio);
                trio.get(2)
                    .and_then(|r| cosine_of(lanes, trio[0], trio[1], *r))
            });
            found.unwrap_or(0.0)
        }
    };
    value.to_bits()
}

/// Rows of any contents: repeats, own nodes, ends at any place and values far above n.
pub fn any_graph(rng: &mut Prng, n: usize, index_size: usize) -> Vec<u32> {
    let rarely = rng.pick(&[3usize, 6, 12, 1000]);
    (0..n * index_size)
        .map(|_| {
            if !rng.one_in(rarely) {
                return rng.below(n) as u32;
            }
            match rng.below(3) {
                0 => n as u32,
                1 => n as u32 + rng.below(5) as u32,
                _ => u32::MAX - rng.below(3) as u32,
            }
        })
        .collect()
}

pub fn distinct(rng: &mut Prng, n: usize, count: usize) -> Vec<u32> {
    let mut all: Vec<u32> = (0..n as u32).collect();
    rng.shuffle(&mut all);
    all.truncate(count);
    all
}

/// A distance for an entry: a small whole number, one of the lanes', or any fit one.
fn entry_bits(rng: &mut Prng, lanes: &Lanes, small: bool) -> u32 {
    if small || rng.one_in(2) {
        return (rng.below(10) as f32).to_bits();
    }
    match rng.below(4) {
        0 => EMPTY - 1,
        1 => rng.below(EMPTY as usize) as u32,
        _ => distance(lanes, rng.below(lanes.nodes), rng.below(lanes.nodes)).to_bits(),
    }
}

/// Well-formed lists of any contents, ascending, some unfilled.
pub fn any_lists(rng: &mut Prng, lanes: &Lanes, k: usize, small: bool) -> Vec<Entry> {
    let n = lanes.nodes;
    let fill = rng.below(4);
    let mut lists = Vec::new();
    for i in 0..n {
        let filled = match fill {
            0 => 0,
            1 => k,
            _ => rng.from_to(0, k),
        };
        let mut list: Vec<Entry> = (0..filled)
            .map(|_| {
                let node = rng.below(n);
                if rng.one_in(2) {
                    (node as u32, distance(lanes, i, node).to_bits())
                } else {
                    (node as u32, entry_bits(rng, lanes, small))
                }
            })
            .collect();
        list.sort_by_key(|e| (e.1, e.0));
        list.resize(k, (n as u32, EMPTY));
        lists.extend(list);
    }
    lists
}

/// A well-formed descent state of any contents.
pub fn any_state(rng: &mut Prng, lanes: &Lanes, k: usize, longest: usize, small: bool) -> State {
    let n = lanes.nodes;
    let lists = any_lists(rng, lanes, k, small);
    let contexts = (0..n)
        .map(|_| {
            [(); 4].map(|_| {
                let length = rng.from_to(0, longest);
                (0..length).map(|_| rng.below(n) as u32).collect()
            })
        })
        .collect();
    let often = rng.from_to(1, 4);
    let mut visited = vec![0u32; (n * n + 31) / 32];
    for pair in 0..n * n {
        if rng.below(4) < often {
            visited[pair / 32] |= 1 << (pair % 32);
        }
    }
    State {
        lists,
        contexts,
        visited,
    }
}

pub fn draws(rng: &mut Prng, count: usize) -> Vec<u32> {
    let full = rng.one_in(4);
    (0..count)
        .map(|_| {
            if full {
                rng.next() as u32
            } else {
                rng.below(100) as u32
            }
        })
        .collect()
}

pub fn jobs(rng: &mut Prng, n: usize, count: usize) -> Vec<(u32, u32)> {
    (0..count)
        .map(|_| (rng.below(n) as u32, rng.below(n) as u32))
        .collect()
}

/// The orders in which a relay's moves are made.
#[derive(Clone, Copy, Debug)]
pub enum Order {
    RoundRobin,
    OneAtATime,
    Reversed,
    RoundRobinReversed,
    Shuffled,
}

pub fn moves(rng: &mut Prng, jobs: usize, order: Order) -> Vec<u32> {
    let round: Vec<u32> = (0..8 * jobs).map(|i| (i % jobs) as u32).collect();
    let whole: Vec<u32> = (0..8 * jobs).map(|i| (i / 8) as u32).collect();
    match order {
        Order::RoundRobin => round,
        Order::OneAtATime => whole,
        Order::Reversed => whole.into_iter().rev().collect(),
        Order::RoundRobinReversed => round.into_iter().rev().collect(),
        Order::Shuffled => {
            let mut moves = whole;
            rng.shuffle(&mut moves);
            moves
        }
    }
}
