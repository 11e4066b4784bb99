//! What lent buffers hold before a call: any words, and NaNs of different payloads, so that a byte written or not written shows.

use crate::prng::Prng;

pub fn words(rng: &mut Prng, length: usize) -> Vec<u32> {
    (0..length).map(|_| rng.next() as u32).collect()
}

/// NaNs by their bits: either sign, quiet or signalling, any payload.
pub fn nans(rng: &mut Prng, length: usize) -> Vec<u32> {
    (0..length).map(|_| nan(rng)).collect()
}

pub fn nan(rng: &mut Prng) -> u32 {
    let sign = (rng.below(2) as u32) << 31;
    sign | 0x7F80_0000 | rng.from_to(1, 0x7F_FFFF) as u32
}

/// A length: just the least, or a little more.
pub fn at_least(rng: &mut Prng, least: usize) -> usize {
    least + rng.pick(&[0, 0, 1, 7])
}
