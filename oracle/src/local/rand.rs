//! Stand-in (c): what hora takes from the crate `rand` comes from the caller's draws, in order, one a call.

use std::cell::RefCell;

thread_local! {
    static DRAWS: RefCell<(Vec<u32>, usize)> = const { RefCell::new((Vec::new(), 0)) };
}

/// Lends the draws that the next calls use.
pub fn lend_draws(draws: &[u32]) {
    DRAWS.with(|d| *d.borrow_mut() = (draws.to_vec(), 0));
}

fn next_draw() -> usize {
    DRAWS.with(|d| {
        let (draws, used) = &mut *d.borrow_mut();
        let draw = *draws.get(*used).expect("too few draws were lent");
        *used += 1;
        draw as usize
    })
}

pub struct ThreadRng;

pub fn thread_rng() -> ThreadRng {
    ThreadRng
}

pub trait Rng {
    fn gen_range(&mut self, range: core::ops::Range<usize>) -> usize;
}

impl Rng for ThreadRng {
    /// A draw modulo n, for the range 0..n.
    fn gen_range(&mut self, range: core::ops::Range<usize>) -> usize {
        assert_eq!(range.start, 0, "hora draws from 0 on");
        next_draw() % range.end
    }
}

pub mod seq {
    pub trait SliceRandom {
        fn shuffle(&mut self, rng: &mut super::ThreadRng);
    }

    impl<T> SliceRandom for [T] {
        /// p from length - 1 down to 1, swapped with the next draw modulo p + 1 (`rand`'s own order too).
        fn shuffle(&mut self, rng: &mut super::ThreadRng) {
            for p in (1..self.len()).rev() {
                self.swap(p, super::Rng::gen_range(rng, 0..p + 1));
            }
        }
    }
}
