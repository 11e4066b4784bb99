//! The floating-point environment: its flags are set on a thread of its own, and every call sees it (x86-64, whose flags they are).
//!
//! Rust knows no thread with other flags than the default ones. The tests do nothing but calls of the crate while they are set.
#![cfg(target_arch = "x86_64")]
use spoonmeadow::lent::{self, Looked};
use spoonmeadow::{environment_is_default, lengths, Descent, Error, Game, Lists, Params, Points};
use spoonmeadow::{Relay, STEPS};
use std::arch::asm;

/// Every exception masked and nothing else.
const DEFAULT: u32 = 0x1F80;
const RESULTS_FLUSHED: u32 = 0x8000;
const OPERANDS_FLUSHED: u32 = 0x0040;
const DOWNWARD: u32 = 0x2000;
const UPWARD: u32 = 0x4000;
const TOWARD_ZERO: u32 = 0x6000;
const OTHERS: [u32; 6] = [
    RESULTS_FLUSHED,
    OPERANDS_FLUSHED,
    RESULTS_FLUSHED | OPERANDS_FLUSHED,
    DOWNWARD,
    UPWARD,
    TOWARD_ZERO,
];

fn set(flags: u32) {
    // SAFETY: the flags of this thread alone, every exception masked; `within` sets the default ones again.
    unsafe { asm!("ldmxcsr [{}]", in(reg) &flags) }
}

/// What a call gives on a thread with these flags beside the default ones.
fn within<T: Send>(flags: u32, call: impl FnOnce() -> T + Send) -> T {
    let other = || {
        set(DEFAULT | flags);
        let given = call();
        set(DEFAULT);
        given
    };
    std::thread::scope(|scope| scope.spawn(other).join().unwrap())
}

/// The smallest game that another environment gets wrong: counter 1 is at the query 0, counter 0 at 1e-20.
fn smallest() -> Points {
    Points::new(1, vec![1e-20, 0.0])
}

/// The counter that the library names when nothing is checked, both of them roots of a graph without links.
fn named(points: &Points) -> u32 {
    let looked = Looked {
        graph: &[2, 2],
        index_size: 1,
        roots: &[0, 1],
        query: &[0.0],
        k: 1,
    };
    let (mut node, mut bits) = ([9], [9]);
    let length = lengths::search_scratch(2);
    let (mut words, mut floats) = (vec![0; length], vec![0.0; length]);
    let scratch = (&mut words[..], &mut floats[..]);
    let found = lent::search(points, &looked, &mut node, &mut bits, scratch);
    assert_eq!(found.refusal, 0);
    node[0]
}

#[test]
fn the_check_tells() {
    assert!(environment_is_default());
    for flags in OTHERS {
        assert!(!within(flags, environment_is_default), "{flags:#x}");
        assert!(environment_is_default());
    }
}

/// By document 01's rule counter 0 is at the square of 1e-20, some 1e-40 and above 0; flushed it is 0, ties with counter 1 and goes first by its number.
#[test]
fn unchecked_the_other_counter_is_named() {
    let points = smallest();
    assert_eq!(named(&points), 1);
    for flags in [RESULTS_FLUSHED, OPERANDS_FLUSHED] {
        assert_eq!(within(flags, || named(&points)), 0, "{flags:#x}");
    }
    assert_eq!(named(&points), 1);
}

#[test]
fn a_game_sees_it() {
    let params = Params::default().init_k(1).index_size(1);
    for flags in OTHERS {
        let taught = within(flags, || Game::teach(smallest(), params));
        assert_eq!(taught.unwrap_err(), Error::Environment, "{flags:#x}");
    }
    let game = Game::teach(smallest(), params).unwrap();
    for flags in OTHERS {
        let found = within(flags, || game.search(&[0, 1], &[0.0], 1));
        assert_eq!(found, Err(Error::Environment), "{flags:#x}");
    }
    assert_eq!(
        game.search(&[0, 1], &[0.0], 1).unwrap().neighbors[0].node,
        1
    );
}

#[test]
fn a_descent_sees_it() {
    let points = smallest();
    let draws = [1; 4];
    for flags in OTHERS {
        let begun = within(flags, || Descent::begin(&points, 1, 1, &draws));
        assert_eq!(begun.unwrap_err(), Error::Environment, "{flags:#x}");
    }
    let mut descent = Descent::begin(&points, 1, 1, &draws).unwrap();
    for flags in OTHERS {
        let before = descent.words().to_vec();
        let iterated = within(flags, || descent.iterate(&draws));
        assert_eq!(iterated, Err(Error::Environment), "{flags:#x}");
        assert_eq!(descent.words(), before);
    }
    assert!(descent.iterate(&draws).is_ok());
}

#[test]
fn a_relay_sees_it() {
    let (points, lists) = (smallest(), Lists::unfilled(2, 1));
    for flags in OTHERS {
        let opened = within(flags, || Relay::open(&points, &lists, &[(0, 1)]));
        assert_eq!(opened.unwrap_err(), Error::Environment, "{flags:#x}");
    }
    let mut relay = Relay::open(&points, &lists, &[(0, 1)]).unwrap();
    for _ in 0..STEPS {
        for flags in OTHERS {
            assert_eq!(within(flags, || relay.step(0)), Err(Error::Environment));
        }
        relay.step(0).unwrap();
    }
    for flags in OTHERS {
        let closed = within(flags, || relay.close());
        assert_eq!(closed, Err(Error::Environment), "{flags:#x}");
    }
    assert_eq!(relay.close().unwrap().taken, [(true, true)]);
}

/// The environment is a thread's own, and a thread that it starts has the same.
#[test]
fn a_thread_has_that_of_the_one_that_started_it() {
    let inner = || std::thread::scope(|scope| scope.spawn(environment_is_default).join().unwrap());
    for flags in OTHERS {
        assert!(!within(flags, inner), "{flags:#x}");
        assert!(inner());
    }
}

#[test]
fn it_is_said_in_words_and_is_no_refusal() {
    assert_eq!(Error::Environment.refusal(), None);
    assert_eq!(
        Error::Environment.to_string(),
        "the floating-point environment is not the default one: subnormals are flushed, or rounding is not to nearest"
    );
}
