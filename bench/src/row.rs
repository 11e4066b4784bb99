//! A row of the table: both sides of one piece of work, timed in alternating rounds or counted once.

use crate::clock;

/// One piece of work as both sides do it. `check` has run both and seen equal answers before anything is measured.
pub trait Row {
    fn name(&self) -> String;
    fn check(&mut self);
    /// What a call needs anew and no side is charged for.
    fn prepare(&mut self) {}
    fn rust(&mut self);
    fn ours(&mut self);
    /// The zeroing of scratch at the end of ours, where it is set apart.
    fn zeroing(&mut self) -> bool {
        false
    }
}

/// Times of one call each, in nanoseconds, of one round.
#[derive(Clone, Copy)]
struct Round {
    rust: f64,
    ours: f64,
    zeroing: f64,
}

const LEAST_ROUND: f64 = 20_000_000.0;

fn calls(row: &mut dyn Row, count: usize, work: fn(&mut dyn Row)) -> f64 {
    let mut total = 0.0;
    for _ in 0..count {
        row.prepare();
        total += clock::timed(|| work(row));
    }
    total / count as f64
}

fn zero(row: &mut dyn Row) {
    row.zeroing();
}

/// So many calls that a round of them is no shorter than 20 ms.
fn enough(row: &mut dyn Row, work: fn(&mut dyn Row)) -> usize {
    let once = calls(row, 1, work);
    (LEAST_ROUND / once.max(1.0)).ceil().clamp(1.0, 1000.0) as usize
}

fn round(row: &mut dyn Row, counts: (usize, usize)) -> Round {
    Round {
        rust: calls(row, counts.0, |r| r.rust()),
        ours: calls(row, counts.1, |r| r.ours()),
        zeroing: if row.zeroing() {
            calls(row, counts.1, zero)
        } else {
            0.0
        },
    }
}

fn sorted(of: impl Iterator<Item = f64>) -> Vec<f64> {
    let mut all: Vec<f64> = of.collect();
    all.sort_by(|a, b| a.partial_cmp(b).unwrap());
    all
}

fn median(of: impl Iterator<Item = f64>) -> f64 {
    let all = sorted(of);
    all[all.len() / 2]
}

/// The middle half of the ratios.
fn spread(of: impl Iterator<Item = f64>) -> (f64, f64) {
    let all = sorted(of);
    (all[all.len() / 4], all[all.len() - 1 - all.len() / 4])
}

fn micro(nanoseconds: f64) -> f64 {
    nanoseconds / 1000.0
}

/// Prints the row: times in microseconds, the ratio with zeroing, and the ratio with it set apart.
pub fn time(row: &mut dyn Row, rounds: usize) {
    row.check();
    let counts = (enough(row, |r| r.rust()), enough(row, |r| r.ours()));
    let all: Vec<Round> = (0..rounds).map(|_| round(row, counts)).collect();
    let whole = |r: &Round| r.rust / r.ours;
    let apart = |r: &Round| r.rust / (r.ours - r.zeroing);
    let (low, high) = spread(all.iter().map(apart));
    println!(
        "| {} | {:.1} | {:.1} | {:.1} | {:.2} | {:.2} | {:.2} to {:.2} |",
        row.name(),
        micro(median(all.iter().map(|r| r.rust))),
        micro(median(all.iter().map(|r| r.ours))),
        micro(median(all.iter().map(|r| r.zeroing))),
        median(all.iter().map(whole)),
        median(all.iter().map(apart)),
        low,
        high
    );
}

/// Does each side once where callgrind counts: the Rust, ours, the zeroing (an empty count where none is set apart).
pub fn count(row: &mut dyn Row) {
    row.check();
    let sides: [fn(&mut dyn Row); 3] = [|r| r.rust(), |r| r.ours(), zero];
    for side in sides {
        row.prepare();
        clock::bench_counted(&mut || side(row));
    }
    println!("{}", row.name());
}
