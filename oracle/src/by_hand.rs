//! Builds kept by hand, because random ones seldom meet what they meet.

use crate::cases::*;

/// n, dimension, `init_k`, `index_size`, `neighbor_neighbor_size`, threshold and lanes.
pub type ByHand = (usize, usize, usize, usize, usize, f32, &'static [i32]);

/// Builds that read a stale live slot, found by a long search and kept: random ones seldom do.
/// In the first eight the graph is another one if that slot is taken for empty.
pub const STALE: [ByHand; 13] = [
    (6, 2, 6, 4, 1, 1.0, &[4, 1, 4, 1, 0, 2, 1, 1, 1, 3, 2, 4]),
    (6, 2, 6, 4, 1, 1.0, &[0, 2, 0, 3, 3, 0, 2, 0, 4, 3, 4, 2]),
    (7, 1, 4, 4, 3, 1.0, &[0, 6, 6, 2, 2, 1, 2]),
    (7, 1, 5, 4, 3, 1.0, &[4, 11, 11, 1, 3, 0, 4]),
    (8, 1, 7, 4, 100, 1.0, &[4, 1, 0, 7, 5, 4, 6, 6]),
    (
        8,
        2,
        7,
        4,
        1,
        0.25,
        &[1, 0, 0, 3, 0, 4, 2, 3, 4, 0, 3, 2, 4, 2, 4, 1],
    ),
    (
        8,
        2,
        6,
        4,
        3,
        0.5,
        &[2, 2, 0, 1, 0, 0, 2, 4, 0, 4, 2, 3, 2, 3, 4, 2],
    ),
    (
        10,
        2,
        9,
        4,
        3,
        0.25,
        &[1, 3, 8, 4, 3, 0, 4, 4, 1, 0, 7, 0, 2, 10, 0, 2, 9, 5, 3, 6],
    ),
    (7, 1, 7, 3, 100, 1.0, &[9, 6, 18, 9, 9, 6, 3]),
    (10, 1, 3, 3, 1, 1.0, &[1, 4, 4, 0, 3, 4, 1, 1, 1, 3]),
    (6, 2, 4, 4, 3, 1.0, &[3, 4, 3, 4, 1, 1, 4, 1, 3, 1, 4, 1]),
    (6, 2, 6, 4, 1, 0.25, &[4, 6, 4, 3, 5, 0, 6, 7, 2, 0, 0, 1]),
    (
        13,
        1,
        10,
        3,
        100,
        1.0,
        &[11, 10, 8, 6, 2, 9, 5, 5, 7, 9, 11, 8, 5],
    ),
];

/// The build that tells the readings of step 2 apart: own members are added after the limit.
pub const READING: ByHand = (4, 1, 1, 3, 1, 1.0, &[0, 1, 1, 1]);

/// Builds whose limit cuts the walk of step 2 short, so that the order of the walk shows in the graph.
pub const WALK: [ByHand; 3] = [
    (4, 1, 2, 3, 1, 1.0, &[3, 2, 2, 3]),
    (4, 1, 2, 3, 1, 1.0, &[0, 1, 0, 0]),
    (5, 2, 2, 3, 1, 0.5, &[0, 3, 1, 1, 3, 2, 4, 0, 4, 2]),
];

pub fn by_hand(hand: &ByHand) -> Case {
    let (nodes, dimension, init_k, index_size, neighbor_neighbor_size, threshold, lanes) = *hand;
    let bits = lanes.iter().map(|x| (*x as f32).to_bits()).collect();
    Case::Build(Build {
        lanes: Lanes {
            dimension,
            nodes,
            bits,
        },
        init_k,
        index_size,
        neighbor_neighbor_size,
        threshold: threshold.to_bits(),
    })
}
