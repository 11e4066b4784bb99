//! The game that a call is about, as it is lent: its dimension, the number of its nodes, and their lanes.

use super::damage;
use super::table::{self, Code};
use crate::cases::Lanes;
use crate::prng::Prng;

#[derive(Clone)]
pub struct Game {
    pub dimension: u64,
    pub n: u64,
    pub lanes: Vec<u32>,
}

impl Game {
    pub fn of(lanes: &Lanes) -> Self {
        Game {
            dimension: lanes.dimension as u64,
            n: lanes.nodes as u64,
            lanes: lanes.bits.clone(),
        }
    }

    /// As hora's side takes it, once rows 1 to 3 have passed.
    pub fn fit(&self) -> Lanes {
        Lanes {
            dimension: self.dimension as usize,
            nodes: self.n as usize,
            bits: self.lanes.clone(),
        }
    }

    /// Rows 1, 2 and 3, where n may be `most`.
    pub fn refusal(&self, most: u64) -> Option<Code> {
        table::game(self.dimension, most, self.n, self.lanes.len())
    }

    /// Row 10 of all pairs.
    pub fn unfit_pair(&self) -> Option<Code> {
        table::pairs(&self.lanes, self.dimension, self.n)
    }

    /// Harms the dimension, n or the lanes' number: `which` is 0 to 3.
    pub fn harm(&mut self, rng: &mut Prng, which: usize, most: u64) {
        match which {
            0 => self.dimension = damage::number(rng, 64),
            1 => self.n = damage::number(rng, most),
            2 => self.n = 1,
            _ => damage::length(rng, &mut self.lanes),
        }
    }
}
