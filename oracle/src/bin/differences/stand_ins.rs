//! What the stand-ins (a), (b) and (d) replace.

use crate::small::{built, params, MT};
use crate::tally::Tally;
use oracle::core::node::Node;
use oracle::prng::Prng;
use std::collections::BinaryHeap;

pub fn see(t: &mut Tally) {
    distance(t);
    order_and_threshold(t);
}

/// hora's own order: the distance alone.
struct ByDistance(usize, f32);

impl PartialEq for ByDistance {
    fn eq(&self, other: &Self) -> bool {
        self.cmp(other).is_eq()
    }
}
impl Eq for ByDistance {}
impl PartialOrd for ByDistance {
    fn partial_cmp(&self, other: &Self) -> Option<std::cmp::Ordering> {
        Some(self.cmp(other))
    }
}
impl Ord for ByDistance {
    fn cmp(&self, other: &Self) -> std::cmp::Ordering {
        self.1.partial_cmp(&other.1).unwrap()
    }
}

/// An exact list made as in `build_knn_graph`, with the order by distance alone.
fn exact_by_distance(distances: &[f32], init_k: usize) -> Vec<usize> {
    let mut heap = BinaryHeap::new();
    for (i, d) in distances.iter().enumerate() {
        heap.push(ByDistance(i + 1, *d));
        if heap.len() > init_k {
            heap.pop();
        }
    }
    std::iter::from_fn(|| heap.pop().map(|e| e.0)).collect()
}

/// hora's own distance without the feature "simd".
fn hora_distance(a: &[f32], b: &[f32]) -> f32 {
    a.iter().zip(b).map(|(p, q)| (p - q).powi(2)).sum::<f32>()
}

/// Sixteen lanes added as a vector unit adds them: halves onto halves.
fn halves_onto_halves(squares: &[f32]) -> f32 {
    match squares.len() {
        1 => squares[0],
        n => {
            let (low, high) = squares.split_at(n / 2);
            let sums: Vec<f32> = low.iter().zip(high).map(|(a, b)| a + b).collect();
            halves_onto_halves(&sums)
        }
    }
}

fn distance(t: &mut Tally) {
    t.see(
        "(a) hora's sum of squares without simd, 100,000 random pairs",
        "equal bits",
        || {
            let mut rng = Prng::new(5);
            let mut lanes = |n: usize| -> Vec<f32> {
                (0..n)
                    .map(|_| f32::from_bits(rng.next() as u32 & 0x5FFF_FFFF))
                    .collect()
            };
            for i in 0..100_000 {
                let (a, b) = (lanes(1 + i % 64), lanes(1 + i % 64));
                let ours = Node::<f32, usize>::new(&a)
                    .metric(&Node::new(&b), MT)
                    .unwrap();
                assert_eq!(ours.to_bits(), hora_distance(&a, &b).to_bits());
            }
            "equal bits".to_string()
        },
    );
    let mut lanes = [1.0f32; 16];
    lanes[0] = 4096.0;
    t.see(
        "(a) lanes 4096 and fifteen 1, from 0: the fold, and sixteen lanes at once",
        "16777216 and 16777230",
        || {
            let fold = Node::<f32, usize>::new(&lanes)
                .metric(&Node::new(&[0.0; 16]), MT)
                .unwrap();
            let squares: Vec<f32> = lanes.iter().map(|x| x * x).collect();
            format!("{} and {}", fold, halves_onto_halves(&squares))
        },
    );
}

fn order_and_threshold(t: &mut Tally) {
    t.see(
        "(b) lanes 0, 1, 1, 1, init_k 2: list of node 0 by distance alone, and ours",
        "[2, 3] and [2, 1]",
        || {
            let rows: [&[f32]; 4] = [&[0.0], &[1.0], &[1.0], &[1.0]];
            let ours = built(&rows, params(2, 1, 1));
            format!(
                "{:?} and {:?}",
                exact_by_distance(&[1.0, 1.0, 1.0], 2),
                ours.exact_lists()[0]
            )
        },
    );
    t.see(
        "(d) bits of hora's cosine of 60 degrees, and of 0.5",
        "3effffff and 3f000000",
        || {
            let cosine = (60.0f32 / 180.0 * std::f32::consts::PI).cos();
            format!("{:x} and {:x}", cosine.to_bits(), 0.5f32.to_bits())
        },
    );
}
