//! Games: uniform and clustered lanes, roots and queries, from a seed.

use oracle::core::metrics::Metric;
use oracle::core::node::Node;
use oracle::index::ssg_idx::SSGIndex;
use oracle::index::ssg_params::SSGParams;
use oracle::prng::Prng;
use spoonmeadow::{Params, Points};

pub const MT: Metric = Metric::Euclidean;

pub const INIT_K: usize = 64;
pub const INDEX_SIZE: usize = 64;
const NEIGHBOR_NEIGHBOR_SIZE: usize = 100;
const THRESHOLD: f32 = 0.5;
pub const ROOTS: usize = 64;
pub const QUERIES: usize = 64;

#[derive(Clone, Copy, PartialEq)]
pub enum Style {
    Uniform,
    Clustered,
}

pub struct Game {
    pub dimension: usize,
    pub n: usize,
    pub style: Style,
    pub points: Points,
    pub roots: Vec<u32>,
    pub queries: Vec<f32>,
}

fn unit(rng: &mut Prng) -> f32 {
    rng.below(1 << 24) as f32 / (1 << 24) as f32
}

/// 16 centres in the unit cube; a counter is a centre and, on each lane, up to 0.05 more or less.
fn vectors(
    rng: &mut Prng,
    centres: &[f32],
    count: usize,
    dimension: usize,
    style: Style,
) -> Vec<f32> {
    let mut lanes = Vec::with_capacity(count * dimension);
    for _ in 0..count {
        let at = rng.below(16) * dimension;
        for l in 0..dimension {
            let x = unit(rng);
            lanes.push(match style {
                Style::Uniform => x,
                Style::Clustered => centres[at + l] + 0.1 * (x - 0.5),
            });
        }
    }
    lanes
}

impl Game {
    pub fn new(n: usize, dimension: usize, style: Style) -> Self {
        let rng = &mut Prng::new(20_261_115 + (n * 64 + dimension) as u64);
        let centres: Vec<f32> = (0..16 * dimension).map(|_| unit(rng)).collect();
        let lanes = vectors(rng, &centres, n, dimension, style);
        let queries = vectors(rng, &centres, QUERIES, dimension, style);
        let mut roots: Vec<u32> = (0..n as u32).collect();
        rng.shuffle(&mut roots);
        roots.truncate(ROOTS);
        Game {
            dimension,
            n,
            style,
            points: Points::new(dimension, lanes),
            roots,
            queries,
        }
    }

    pub fn name(&self) -> String {
        let style = match self.style {
            Style::Uniform => "uniform",
            Style::Clustered => "clustered",
        };
        format!("{} | {} | {}", self.n, self.dimension, style)
    }

    /// Our parameters; hora's are the same (`index`).
    pub fn params() -> Params {
        Params::default()
            .init_k(INIT_K)
            .index_size(INDEX_SIZE)
            .neighbor_neighbor_size(NEIGHBOR_NEIGHBOR_SIZE)
            .threshold(THRESHOLD)
    }

    pub fn query(&self, i: usize) -> &[f32] {
        &self.queries[i * self.dimension..(i + 1) * self.dimension]
    }

    pub fn nodes(&self) -> Vec<Box<Node<f32, usize>>> {
        let rows = self.points.lanes().chunks(self.dimension).enumerate();
        rows.map(|(i, row)| Box::new(Node::new_with_idx(row, i)))
            .collect()
    }

    /// hora's index, not yet built.
    pub fn index(&self) -> SSGIndex<f32, usize> {
        let params = SSGParams::default()
            .init_k(INIT_K)
            .index_size(INDEX_SIZE)
            .neighbor_neighbor_size(NEIGHBOR_NEIGHBOR_SIZE)
            .threshold(THRESHOLD);
        let mut index = SSGIndex::new(self.dimension, &params);
        for node in self.nodes() {
            index.add_node(&node).unwrap();
        }
        let roots: Vec<usize> = self.roots.iter().map(|r| *r as usize).collect();
        index.give_roots(&roots);
        index
    }
}
