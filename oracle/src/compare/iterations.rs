//! Iterations through both sides: each on what the call before it left, single ones from any state, states harmed in one place.

use super::descent::{descent_of, harm, Lent};
use super::lend::Outcome;
use super::parts::{Bench, Judged, Kind};
use super::tally::uncounted;
use super::{damage, ill, state};
use crate::cases::*;
use crate::make::{self, Style};
use crate::prng::Prng;
use crate::run;
use crate::some;

/// Begin, and each iteration on what the call before it left; at the end the state is that of hora's descent in one go.
fn whole(bench: &mut Bench, kind: Kind, c: Descent) {
    let rng = &mut Prng::new(kind.1);
    let mut lent = Lent::of(rng, &c.lanes, (c.k, c.s), &c.begin_draws);
    let mut left = bench.judge(kind, &lent);
    for draws in &c.iteration_draws {
        lent.iteration(rng, state_left(left), draws);
        left = bench.judge(kind, &lent);
    }
    let (_, iterated) = uncounted(|| run::descended(&c));
    let last = iterated.last().expect("an iteration");
    let counts = [last.cost as u64, last.total_of_new as u64];
    if left.said[3..] != counts || state_left(left) != state::descent(&last.state) {
        bench.differs(kind, "a descent did not end as the Rust's in one go");
    }
}

fn state_left(mut left: Outcome) -> (Vec<u32>, Vec<u32>) {
    let bits = left.slices.swap_remove(3);
    (left.slices.swap_remove(2), bits)
}

fn iterate_of(rng: &mut Prng, c: &Iterate) -> Lent {
    let mut lent = Lent::of(rng, &c.lanes, (c.k, c.s), &[]);
    lent.iteration(rng, state::descent(&c.state), &c.draws);
    lent
}

fn iteration_of(case: Case) -> Iterate {
    match case {
        Case::Iterate(c) => c,
        _ => panic!("an iteration"),
    }
}

/// Any k and s within their ranges, often their ends.
fn larger(rng: &mut Prng) -> Descent {
    let (n, dimension, style) = (
        rng.pick(&[2, 3, 20, 33, 64]),
        rng.pick(&[1, 2, 64]),
        make::style(rng),
    );
    let any = rng.from_to(1, 64);
    let k = rng.pick(&[any, any, 64]);
    let any = rng.from_to(1, k);
    let s = rng.pick(&[any, any, 1, k]);
    descent_of(some::descent_at(rng, (n, dimension), style, (k, s), 3))
}

fn large(rng: &mut Prng) -> Descent {
    let (n, dimension) = (rng.pick(&[256, 256, 300, 400]), rng.pick(&[1, 2, 8]));
    let k = rng.pick(&[1, 4, 8, 16]);
    let s = rng.from_to(1, k);
    let style = rng.pick(&[Style::Plain, Style::Grid(20), Style::Huge, Style::Mixed]);
    descent_of(some::descent_at(rng, (n, dimension), style, (k, s), 3))
}

fn largest(rng: &mut Prng) -> Descent {
    let (k, s) = rng.pick(&[(64, 64), (16, 4), (32, 1)]);
    descent_of(some::descent_at(rng, (1024, 2), Style::Plain, (k, s), 2))
}

fn small(rng: &mut Prng) -> Descent {
    descent_of(some::any_descent(rng))
}

/// A single iteration from a state of any well-formed contents; context lists are at times as long as they may be.
fn any(rng: &mut Prng) -> Lent {
    let longest = rng.pick(&[2, 4, 6, 6, 64]);
    let c = iteration_of(some::iterate_at(rng, longest));
    iterate_of(rng, &c)
}

/// A state with one place set to anything: well formed or not.
fn one_place(rng: &mut Prng) -> Lent {
    let mut lent = any(rng);
    damage::state(
        rng,
        &mut lent.state_u,
        &mut lent.state_f,
        lent.game.n as u32,
    );
    lent
}

/// A state that is not well formed, and in which way.
fn ill_formed(rng: &mut Prng) -> (Lent, &'static str) {
    let mut lent = any(rng);
    let way = ill::descent(rng, &mut lent);
    (lent, way)
}

fn refused(bench: &mut Bench, kind: Kind, (lent, way): (Lent, &'static str)) {
    bench.ill(kind, ("iterate", way), &(lent.call(), lent.expected()));
}

fn damaged(rng: &mut Prng) -> Lent {
    let lent = any(rng);
    damage::some(rng, lent, harm)
}

pub fn all(bench: &mut Bench) {
    bench.each(
        &[
            ("descents, n to 16", 6_000, small),
            ("descents, n to 64, k to 64", 200, larger),
            ("descents, n 256 to 400", 200, large),
            ("descents, n 1,024", 6, largest),
        ],
        whole,
    );
    bench.each(
        &[
            ("iterations from any state", 6_000, any),
            ("iterations, one place of the state set", 4_000, one_place),
            ("iterations, damaged", 4_000, damaged),
        ],
        Bench::lend,
    );
    bench.each(
        &[("iterations, state not well formed", 6_000, ill_formed)],
        refused,
    );
}
