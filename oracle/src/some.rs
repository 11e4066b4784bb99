//! One case at a time of each kind, from a seeded source.

use crate::cases::*;
use crate::make::{self, Order, Style};
use crate::prng::Prng;
use crate::run;

// Builds.

fn some_nodes(rng: &mut Prng) -> usize {
    match rng.below(12) {
        0 => 2,
        1..=6 => rng.from_to(3, 8),
        7..=10 => rng.from_to(9, 16),
        _ => rng.from_to(17, 24),
    }
}

fn some_dimension(rng: &mut Prng) -> usize {
    if rng.one_in(40) {
        64
    } else {
        rng.from_to(1, 4)
    }
}

pub fn any_build(rng: &mut Prng) -> Case {
    let (n, dimension, style) = (some_nodes(rng), some_dimension(rng), make::style(rng));
    let lanes = make::lanes(rng, n, dimension, style);
    let threshold = make::threshold(rng, &lanes);
    Case::Build(Build {
        init_k: rng.from_to(1, 8),
        index_size: rng.from_to(1, 6),
        neighbor_neighbor_size: rng.pick(&[1, 2, 3, 5, 8, 20, 256]),
        threshold,
        lanes,
    })
}

/// A build with the ends of the ranges set by name.
pub fn build_at(
    rng: &mut Prng,
    (n, dimension): (usize, usize),
    style: Style,
    (init_k, index_size, neighbor_neighbor_size): (usize, usize, usize),
    threshold: f32,
) -> Case {
    Case::Build(Build {
        lanes: make::lanes(rng, n, dimension, style),
        init_k,
        index_size,
        neighbor_neighbor_size,
        threshold: threshold.to_bits(),
    })
}

// Step 5 alone.

pub fn any_links(rng: &mut Prng) -> Case {
    let (n, dimension, style) = (rng.from_to(2, 8), rng.from_to(1, 3), make::style(rng));
    let lanes = make::lanes(rng, n, dimension, style);
    let index_size = rng.from_to(1, 5);
    let often = rng.from_to(2, 6);
    let rows = (0..n * index_size)
        .map(|slot| {
            if rng.one_in(often) {
                return (n as u32, EMPTY);
            }
            let node = rng.below(n);
            let bits = match rng.below(3) {
                0 => (rng.below(6) as f32).to_bits(),
                _ => make::distance(&lanes, slot / index_size, node).to_bits(),
            };
            (node as u32, bits)
        })
        .collect();
    let threshold = make::threshold(rng, &lanes);
    Case::Links(Links {
        lanes,
        index_size,
        threshold,
        rows,
    })
}

// Searches.

pub fn any_search(rng: &mut Prng) -> Case {
    let (n, dimension, style) = (some_nodes(rng), some_dimension(rng), make::style(rng));
    let most = n.min(5);
    let roots = rng.from_to(1, most);
    let (index_size, k) = (rng.from_to(1, 5), rng.from_to(1, 5));
    search_at(rng, (n, dimension), style, index_size, k, roots)
}

/// A search on a graph of any contents or on a built one; each node's distance to the query is fit.
pub fn search_at(
    rng: &mut Prng,
    (n, dimension): (usize, usize),
    style: Style,
    index_size: usize,
    k: usize,
    roots: usize,
) -> Case {
    let mut lanes = make::lanes(rng, n + 1, dimension, style);
    let query = lanes.bits.split_off(n * dimension);
    lanes.nodes = n;
    let graph = if rng.one_in(3) {
        run::graph_of(&Build {
            lanes: lanes.clone(),
            init_k: rng.from_to(1, 8),
            index_size,
            neighbor_neighbor_size: 20,
            threshold: make::threshold(rng, &lanes),
        })
    } else {
        make::any_graph(rng, n, index_size)
    };
    Case::Search(Search {
        index_size,
        k,
        roots: make::distinct(rng, n, roots),
        query,
        graph,
        lanes,
    })
}

/// A node whose distance to the query is unfit, and which no walk reaches: it is never worked out.
pub fn unreached_unfit(rng: &mut Prng) -> Case {
    let Case::Search(mut search) = search_at(rng, (6, 1), Style::Grid(9), 2, 2, 2) else {
        panic!("a search")
    };
    search.lanes.bits[5] = f32::MAX.to_bits();
    search.roots = vec![1, 0];
    search
        .graph
        .iter_mut()
        .filter(|x| **x == 5)
        .for_each(|x| *x = 4);
    Case::Search(search)
}

// Descents.

pub fn descent_at(
    rng: &mut Prng,
    (n, dimension): (usize, usize),
    style: Style,
    (k, s): (usize, usize),
    iterations: usize,
) -> Case {
    let spare = rng.below(3);
    Case::Descent(Descent {
        lanes: make::lanes(rng, n, dimension, style),
        k,
        s,
        begin_draws: make::draws(rng, 2 * n * s + spare),
        iteration_draws: (0..iterations)
            .map(|_| make::draws(rng, 2 * n * k + spare))
            .collect(),
    })
}

pub fn any_descent(rng: &mut Prng) -> Case {
    let n = rng.pick(&[2, 3, 4, 5, 6, 7, 8, 9, 12, 16]);
    let k = rng.from_to(1, 5);
    let s = rng.from_to(1, k);
    let (dimension, style) = (rng.from_to(1, 4), make::style(rng));
    let iterations = rng.from_to(3, 5);
    descent_at(rng, (n, dimension), style, (k, s), iterations)
}

pub fn any_iterate(rng: &mut Prng) -> Case {
    let longest = rng.pick(&[2, 4, 6]);
    iterate_at(rng, longest)
}

/// One iteration from a state of any well-formed contents, context lists up to `longest` long.
pub fn iterate_at(rng: &mut Prng, longest: usize) -> Case {
    let (n, k) = (rng.from_to(2, 9), rng.from_to(1, 5));
    let s = rng.from_to(1, k);
    let (dimension, style) = (rng.from_to(1, 3), make::style(rng));
    let lanes = make::lanes(rng, n, dimension, style);
    Case::Iterate(Iterate {
        state: make::any_state(rng, &lanes, k, longest, false),
        draws: make::draws(rng, 2 * n * k),
        lanes,
        k,
        s,
    })
}

// Relays.

pub fn relay_at(
    rng: &mut Prng,
    (n, dimension): (usize, usize),
    style: Style,
    k: usize,
    count: usize,
) -> Case {
    let lanes = make::lanes(rng, n, dimension, style);
    Case::Relay(Relay {
        lists: make::any_lists(rng, &lanes, k, false),
        jobs: make::jobs(rng, n, count),
        moves: make::moves(rng, count, Order::Shuffled),
        lanes,
        k,
    })
}

pub fn any_relay(rng: &mut Prng) -> Case {
    let (n, dimension, style) = (rng.from_to(2, 12), some_dimension(rng), make::style(rng));
    let (k, count) = (rng.from_to(1, 4), rng.from_to(1, 7));
    relay_at(rng, (n, dimension), style, k, count)
}

pub const ORDERS: [Order; 6] = [
    Order::RoundRobin,
    Order::OneAtATime,
    Order::Reversed,
    Order::RoundRobinReversed,
    Order::Shuffled,
    Order::Shuffled,
];

/// The same relay once in each order.
pub fn in_orders(rng: &mut Prng, case: Case, orders: &[Order]) -> Vec<Case> {
    let Case::Relay(relay) = case else {
        panic!("a relay")
    };
    orders
        .iter()
        .map(|order| {
            let mut relay = relay.clone();
            relay.moves = make::moves(rng, relay.jobs.len(), *order);
            Case::Relay(relay)
        })
        .collect()
}

// Small cases of every kind.

fn small_style(rng: &mut Prng) -> Style {
    rng.pick(&[
        Style::Grid(3),
        Style::Grid(5),
        Style::Grid(9),
        Style::Halves(6),
    ])
}

pub fn small_build(rng: &mut Prng) -> Case {
    let (n, dimension) = (rng.from_to(3, 6), rng.from_to(1, 2));
    let style = small_style(rng);
    let lanes = make::lanes(rng, n, dimension, style);
    let threshold = make::threshold(rng, &lanes);
    Case::Build(Build {
        init_k: rng.from_to(1, 5),
        index_size: rng.from_to(1, 3),
        neighbor_neighbor_size: rng.from_to(1, 6),
        threshold,
        lanes,
    })
}

pub fn small_search(rng: &mut Prng) -> Case {
    let (n, dimension) = (rng.from_to(3, 8), rng.from_to(1, 2));
    let style = small_style(rng);
    let lanes = make::lanes(rng, n, dimension, style);
    let index_size = rng.from_to(1, 3);
    let roots = rng.from_to(1, 3);
    Case::Search(Search {
        index_size,
        k: rng.from_to(1, 3),
        roots: make::distinct(rng, n, roots),
        query: make::lanes(rng, 1, dimension, style).bits,
        graph: make::any_graph(rng, n, index_size),
        lanes,
    })
}

pub fn small_descent(rng: &mut Prng) -> Case {
    let (n, k) = (rng.from_to(3, 5), rng.from_to(1, 3));
    let s = rng.from_to(1, k);
    let (dimension, style) = (rng.from_to(1, 2), small_style(rng));
    let iterations = rng.from_to(1, 3);
    Case::Descent(Descent {
        lanes: make::lanes(rng, n, dimension, style),
        k,
        s,
        begin_draws: make::draws(rng, 2 * n * s),
        iteration_draws: (0..iterations)
            .map(|_| make::draws(rng, 2 * n * k))
            .collect(),
    })
}

pub fn small_iterate(rng: &mut Prng) -> Case {
    let (n, k) = (rng.from_to(3, 5), rng.from_to(1, 3));
    let s = rng.from_to(1, k);
    let (dimension, style) = (rng.from_to(1, 2), small_style(rng));
    let lanes = make::lanes(rng, n, dimension, style);
    Case::Iterate(Iterate {
        state: make::any_state(rng, &lanes, k, 3, true),
        draws: make::draws(rng, 2 * n * k),
        lanes,
        k,
        s,
    })
}

pub fn small_relay(rng: &mut Prng) -> Case {
    let (n, k) = (rng.from_to(3, 5), rng.from_to(1, 3));
    let (dimension, style) = (rng.from_to(1, 2), small_style(rng));
    let lanes = make::lanes(rng, n, dimension, style);
    let count = rng.from_to(2, 4);
    Case::Relay(Relay {
        lists: make::any_lists(rng, &lanes, k, true),
        jobs: make::jobs(rng, n, count),
        moves: make::moves(rng, count, Order::Shuffled),
        lanes,
        k,
    })
}
