//! What is lent to every call that measures: lanes; and what comes back: entries and lists of them.
use crate::lengths;

/// The lanes of some counters, node by node. They are judged by the calls that read them, not here.
#[derive(Clone, Debug)]
pub struct Points {
    dimension: usize,
    lanes: Vec<f32>,
}

impl Points {
    /// Counters of `dimension` lanes each.
    pub fn new(dimension: usize, lanes: Vec<f32>) -> Points {
        Points { dimension, lanes }
    }

    /// The lanes of a counter.
    pub fn dimension(&self) -> usize {
        self.dimension
    }

    /// How many counters there are. Lanes left over do not count; the library refuses them with 3.
    pub fn n(&self) -> usize {
        self.lanes.len().checked_div(self.dimension).unwrap_or(0)
    }

    /// All lanes, node by node.
    pub fn lanes(&self) -> &[f32] {
        &self.lanes
    }
}

/// An entry of a list or of an answer: a node and its distance, which is fit.
#[derive(Clone, Copy, Debug, PartialEq)]
pub struct Neighbor {
    /// The node's number.
    pub node: u32,
    /// Its distance; `to_bits` gives the bits that the library orders by.
    pub distance: f32,
}

/// The lists of a descent or a relay: k entries a node, ascending by distance and then node; unfilled ones last.
#[derive(Clone, Debug, PartialEq)]
pub struct Lists {
    n: usize,
    k: usize,
    nodes: Vec<u32>,
    distances: Vec<f32>,
}

impl Lists {
    /// Lists with nothing in them. Where n or k is over its range they hold no places, and every call refuses them for that number.
    pub fn unfilled(n: usize, k: usize) -> Lists {
        let length = if lengths::taught(n, k) {
            lengths::lists(n, k)
        } else {
            0
        };
        Lists::of_parts(
            n,
            k,
            vec![n as u32; length],
            vec![f32::from_bits(lengths::EMPTY); length],
        )
    }

    /// Lists from their places, node u's from u times k on. They are judged by the calls that read them, not here.
    pub fn of_parts(n: usize, k: usize, nodes: Vec<u32>, distances: Vec<f32>) -> Lists {
        Lists {
            n,
            k,
            nodes,
            distances,
        }
    }

    /// The filled entries of node u's list, nearest first; nothing where u is no node.
    pub fn list(&self, u: usize) -> Vec<Neighbor> {
        let at = u.saturating_mul(self.k);
        let nodes = self.nodes.iter().skip(at).take(self.k);
        let distances = self.distances.iter().skip(at).take(self.k);
        nodes
            .zip(distances)
            .map(|(&node, &distance)| Neighbor { node, distance })
            .take_while(|e| (e.node as usize) < self.n)
            .collect()
    }

    /// The number of lists.
    pub fn n(&self) -> usize {
        self.n
    }

    /// The places of a list.
    pub fn k(&self) -> usize {
        self.k
    }

    /// All nodes, list by list.
    pub fn nodes(&self) -> &[u32] {
        &self.nodes
    }

    /// All distances, list by list.
    pub fn distances(&self) -> &[f32] {
        &self.distances
    }
}

/// Memory that a call works in. Its contents never matter, so that one may serve call after call.
#[derive(Clone, Debug, Default)]
pub struct Scratch {
    words: Vec<u32>,
    floats: Vec<f32>,
}

impl Scratch {
    /// Scratch that grows as calls ask for it.
    pub fn new() -> Scratch {
        Scratch::default()
    }

    /// Both parts, of at least this length.
    pub(crate) fn of(&mut self, length: usize) -> (&mut [u32], &mut [f32]) {
        if self.words.len() < length {
            self.words.resize(length, 0);
            self.floats.resize(length, 0.0);
        }
        (&mut self.words, &mut self.floats)
    }
}
