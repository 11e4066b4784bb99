//! Document 01's distance and its search in plain words: which distances are worked out, which is the first unfit, and what is found.

use crate::cases::EMPTY;
use std::collections::{BTreeSet, VecDeque};

/// "The total starts at 0.0. For lanes in rising order, t = a - b and the total becomes total + t*t": its bits.
pub fn distance(a: &[u32], b: &[u32]) -> u32 {
    let mut total = 0.0f32;
    for (x, y) in a.iter().zip(b) {
        let t = f32::from_bits(*x) - f32::from_bits(*y);
        let square = t * t;
        total += square;
    }
    total.to_bits()
}

/// "its bits, as a whole number, are at most 0x7F7FFFFE"
pub fn fit(bits: u32) -> bool {
    bits < EMPTY
}

/// The first unfit pair i < j, i rising and then j.
pub fn unfit_pair(lanes: &[u32], dimension: usize, n: usize) -> Option<(usize, usize)> {
    let of = |v: usize| &lanes[v * dimension..(v + 1) * dimension];
    (0..n)
        .flat_map(|i| (i + 1..n).map(move |j| (i, j)))
        .find(|(i, j)| !fit(distance(of(*i), of(*j))))
}

/// What a search is about, once no row of the table up to 8 holds.
pub struct Searched<'a> {
    pub dimension: usize,
    pub n: usize,
    pub lanes: &'a [u32],
    pub graph: &'a [u32],
    pub index_size: usize,
    pub roots: &'a [u32],
    pub query: &'a [u32],
    pub k: usize,
}

#[derive(Debug, PartialEq)]
pub enum Walked {
    /// The first node whose distance is unfit.
    Unfit(u32),
    /// (bits, node) of the best set, nearest first, and the nodes taken from the queue.
    Found(Vec<(u32, u32)>, usize),
}

impl Searched<'_> {
    /// (bits, node), or the node where it is unfit.
    fn worked_out(&self, v: u32) -> Result<(u32, u32), u32> {
        let at = v as usize * self.dimension;
        let bits = distance(&self.lanes[at..at + self.dimension], self.query);
        if fit(bits) {
            Ok((bits, v))
        } else {
            Err(v)
        }
    }

    /// "A row is read up to its first value of n or more"
    fn row(&self, v: u32) -> impl Iterator<Item = u32> + '_ {
        let at = v as usize * self.index_size;
        let row = self.graph[at..at + self.index_size].iter().copied();
        row.take_while(|w| (*w as usize) < self.n)
    }

    fn walk(&self) -> Result<(Vec<(u32, u32)>, usize), u32> {
        let roots = self.roots.iter().map(|v| self.worked_out(*v));
        let mut best = roots.collect::<Result<Vec<_>, u32>>()?;
        best.sort();
        best.truncate(self.k);
        let mut seen: BTreeSet<u32> = self.roots.iter().copied().collect();
        let mut queue: VecDeque<u32> = best.iter().map(|e| e.1).collect();
        let mut takings = 0;
        while let Some(v) = queue.pop_front() {
            takings += 1;
            let mut found = Vec::new();
            for w in self.row(v) {
                if seen.insert(w) {
                    found.push(self.worked_out(w)?);
                }
            }
            found.sort();
            for e in found {
                if e.0 > best.last().unwrap().0 {
                    break;
                }
                best.pop();
                best.push(e);
                best.sort();
                queue.push_back(e.1);
            }
        }
        Ok((best, takings))
    }

    pub fn walked(&self) -> Walked {
        match self.walk() {
            Ok((best, takings)) => Walked::Found(best, takings),
            Err(v) => Walked::Unfit(v),
        }
    }
}
