//! Document 01's refusal table, read anew for the comparison: a call's rows in order, and the first that holds.

use super::plain;

/// Refusal number and two places.
pub type Code = (u64, u64, u64);

fn outside(low: u64, high: u64, x: u64) -> bool {
    x < low || x > high
}

/// Row 2.
pub fn nodes(most: u64, n: u64) -> Option<Code> {
    outside(2, most, n).then_some((2, 0, 0))
}

/// Rows 1, 2 and 3.
pub fn game(dimension: u64, most: u64, n: u64, lanes: usize) -> Option<Code> {
    if outside(1, 64, dimension) {
        return Some((1, 0, 0));
    }
    nodes(most, n).or_else(|| (lanes as u64 != n * dimension).then_some((3, 0, 0)))
}

/// Row 4: parameters with their ends.
pub fn parameters(ranges: &[(u64, u64, u64)]) -> Option<Code> {
    let wrong = ranges.iter().any(|(low, high, x)| outside(*low, *high, *x));
    wrong.then_some((4, 0, 0))
}

/// Row 5, of a threshold's bits.
pub fn threshold(bits: u32) -> Option<Code> {
    let x = f32::from_bits(bits);
    (x.is_nan() || x < -1.0 || x > 1.0).then_some((5, 0, 0))
}

/// Row 6: lengths that must be met exactly, and least lengths, each (wanted, lent).
pub fn buffers(exact: &[(u64, usize)], least: &[(u64, usize)]) -> Option<Code> {
    let wrong = exact.iter().any(|(wanted, lent)| *lent as u64 != *wanted)
        || least.iter().any(|(wanted, lent)| (*lent as u64) < *wanted);
    wrong.then_some((6, 0, 0))
}

/// Row 7.
pub fn roots(n: u64, roots: &[u32]) -> Option<Code> {
    if outside(1, 64, roots.len() as u64) {
        return Some((7, 0, 0));
    }
    let bad = |i: &usize| roots[*i] as u64 >= n || roots[..*i].contains(&roots[*i]);
    (0..roots.len()).find(bad).map(|i| (7, i as u64, 0))
}

/// Row 8.
pub fn query(dimension: u64, query: usize) -> Option<Code> {
    (query as u64 != dimension).then_some((8, 0, 0))
}

/// Row 10 of all pairs.
pub fn pairs(lanes: &[u32], dimension: u64, n: u64) -> Option<Code> {
    let pair = plain::unfit_pair(lanes, dimension as usize, n as usize);
    pair.map(|(i, j)| (10, i as u64, j as u64))
}

/// Row 9, of jobs as pairs in a slice of even length.
pub fn jobs(n: u64, jobs: &[u32]) -> Option<Code> {
    if outside(1, 64, jobs.len() as u64 / 2) {
        return Some((9, 0, 0));
    }
    let bad = |job: &[u32]| job.iter().any(|v| *v as u64 >= n);
    let first = jobs.chunks(2).position(bad);
    first.map(|i| (9, i as u64, 0))
}

/// Row 10 of jobs with unequal nodes, in order.
pub fn unfit_job(lanes: &[u32], dimension: u64, jobs: &[u32]) -> Option<Code> {
    let of = |v: u32| &lanes[v as usize * dimension as usize..][..dimension as usize];
    let unfit =
        |job: &&[u32]| job[0] != job[1] && !plain::fit(plain::distance(of(job[0]), of(job[1])));
    let first = jobs.chunks(2).find(unfit);
    first.map(|job| (10, job[0] as u64, job[1] as u64))
}

/// Row 11.
pub fn draws(wanted: u64, lent: usize) -> Option<Code> {
    ((lent as u64) < wanted).then_some((11, 0, 0))
}

/// Row 12.
pub fn formed(formed: bool) -> Option<Code> {
    (!formed).then_some((12, 0, 0))
}
