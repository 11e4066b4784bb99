//! Makes the inputs of a list, seeded and repeatable; `oracle` answers them and counts the branches met.

use oracle::by_hand::*;
use oracle::cases::*;
use oracle::local::branches;
use oracle::make::{Order, Style};
use oracle::prng::Prng;
use oracle::run;
use oracle::some::*;
use oracle::text::input_lines;

fn main() {
    let words: Vec<String> = std::env::args().skip(1).collect();
    let name = words.first().expect("the name of a list").as_str();
    let seed = words.get(1).map(|w| w.parse().expect("a seed"));
    let count = words.get(2).map_or(100, |w| w.parse().expect("a count"));
    let seed: u64 = seed.unwrap_or(20_261_101);
    let rng = &mut Prng::new(seed);
    let (about, cases) = match name {
        "small" => (SMALL, small(rng)),
        "builds" => (BUILDS, builds(rng)),
        "links" => (LINKS, links(rng)),
        "searches" => (SEARCHES, searches(rng)),
        "descents" => (DESCENTS, descents(rng)),
        "relays" => (RELAYS, relays(rng)),
        "limits" => (LIMITS, limits(rng)),
        "random" => (RANDOM, (0..count).map(|_| any_case(rng)).collect()),
        other => panic!("no list is named {}", other),
    };
    println!("# The list `{}`: {}", name, about);
    println!("# Made by `generate {} {}` and answered by `oracle`, which runs hora's Rust under the four stand-ins.", name, seed);
    println!("# README.md of the oracle gives the format number by number.");
    for (i, case) in cases.iter().enumerate() {
        for line in input_lines(i + 1, case) {
            println!("{}", line.0);
        }
    }
    println!("end 0 cases {}", cases.len());
}

const SMALL: &str = "cases of every kind, small enough to compute the rulebook on.";
const BUILDS: &str =
    "builds; each branch of build that a build can meet, the ends of each range, then random ones.";
const LINKS: &str =
    "step 5 alone on rows of any contents (equal nodes in a row never come out of a build).";
const SEARCHES: &str =
    "searches; each branch, the ends of each range, built graphs and graphs of any contents.";
const DESCENTS: &str = "descents of three or more iterations from begin, then single iterations from any well-formed state.";
const RELAYS: &str = "relays; each set of jobs on the same lists in several orders of moves.";
const LIMITS: &str = "n at its limits; long, so it is not kept.";
const RANDOM: &str = "random cases of every kind; not kept, for comparing models with the Rust.";

/// Makes cases until one meets the branch, and fails loudly if none does.
fn meeting(rng: &mut Prng, branch: &str, maker: &dyn Fn(&mut Prng) -> Case) -> Case {
    for _ in 0..400_000 {
        let case = maker(rng);
        let before = branches::count(branch);
        run::answer_lines(&case);
        if branches::count(branch) > before {
            return case;
        }
    }
    panic!("no case meets: {}", branch);
}

/// The branches of build. An equal node never occludes: live parts and candidates hold no node twice.
fn build_branches() -> Vec<&'static str> {
    let mut names = branches::names(&["step", "cosine"]);
    names.retain(|n| !n.ends_with("equal node occludes"));
    names
}

// Builds.

fn build_ends(rng: &mut Prng) -> Vec<Case> {
    vec![
        build_at(rng, (2, 1), Style::Grid(3), (1, 1, 1), 0.5),
        build_at(rng, (2, 1), Style::Grid(1), (64, 3, 256), 0.5),
        build_at(rng, (2, 64), Style::Plain, (64, 2, 256), -1.0),
        build_at(rng, (3, 1), Style::Grid(4), (2, 64, 256), 1.0),
        build_at(rng, (4, 64), Style::Grid(2), (2, 2, 10), 0.5),
        build_at(rng, (5, 64), Style::Huge, (3, 2, 10), 0.0),
        build_at(rng, (66, 1), Style::Grid(40), (64, 2, 256), 0.5),
        build_at(rng, (48, 2), Style::Plain, (4, 3, 6), 1.0),
        build_at(rng, (48, 1), Style::Grid(12), (5, 4, 256), 0.5),
        build_at(rng, (40, 3), Style::Grid(3), (6, 2, 1), 0.75),
        build_at(rng, (12, 2), Style::Grid(4), (3, 1, 256), -1.0),
        build_at(rng, (12, 2), Style::Grid(4), (11, 5, 256), 1.0),
        build_at(rng, (9, 1), Style::Huge, (8, 4, 256), 0.5),
        build_at(rng, (9, 2), Style::Huge, (8, 4, 256), 1.0),
        build_at(rng, (9, 1), Style::Tiny, (8, 4, 256), 0.5),
        build_at(rng, (9, 1), Style::Subnormal, (8, 4, 256), 0.5),
        build_at(rng, (9, 2), Style::Subnormal, (8, 4, 256), 0.75),
        build_at(rng, (12, 1), Style::Subnormal, (8, 4, 256), 0.9),
    ]
}

fn builds(rng: &mut Prng) -> Vec<Case> {
    let mut cases: Vec<Case> = STALE.iter().map(by_hand).collect();
    cases.push(by_hand(&READING));
    cases.extend(build_ends(rng));
    for branch in build_branches() {
        if branch != "step five stale live slot read" {
            cases.push(meeting(rng, branch, &any_build));
        }
    }
    for branch in branches::names(&["cosine tells"]) {
        cases.push(meeting(rng, branch, &any_build));
    }
    while cases.len() < 84 {
        cases.push(any_build(rng));
    }
    cases
}

// Step 5 alone.

fn links(rng: &mut Prng) -> Vec<Case> {
    let mut cases = Vec::new();
    let names = branches::names(&["step five", "cosine"]);
    for branch in names {
        cases.push(meeting(rng, branch, &any_links));
    }
    while cases.len() < 40 {
        cases.push(any_links(rng));
    }
    cases
}

// Searches.

fn search_ends(rng: &mut Prng) -> Vec<Case> {
    vec![
        search_at(rng, (2, 1), Style::Grid(3), 1, 1, 1),
        search_at(rng, (2, 1), Style::Grid(3), 1, 64, 2),
        search_at(rng, (2, 64), Style::Plain, 2, 2, 2),
        search_at(rng, (66, 1), Style::Grid(30), 2, 64, 64),
        search_at(rng, (66, 1), Style::Grid(30), 2, 1, 64),
        search_at(rng, (66, 1), Style::Plain, 3, 64, 1),
        search_at(rng, (66, 2), Style::Plain, 3, 5, 9),
        search_at(rng, (3, 1), Style::Grid(5), 64, 2, 2),
        search_at(rng, (48, 2), Style::Plain, 4, 8, 3),
        search_at(rng, (48, 2), Style::Grid(4), 4, 8, 3),
        search_at(rng, (5, 64), Style::Huge, 3, 3, 3),
        search_at(rng, (5, 64), Style::Grid(3), 3, 3, 3),
        search_at(rng, (12, 1), Style::Huge, 3, 3, 3),
        search_at(rng, (12, 1), Style::Tiny, 3, 3, 3),
        unreached_unfit(rng),
        unreached_unfit(rng),
    ]
}

fn searches(rng: &mut Prng) -> Vec<Case> {
    let mut cases = search_ends(rng);
    for branch in branches::names(&["search"]) {
        (0..4).for_each(|_| cases.push(meeting(rng, branch, &any_search)));
    }
    while cases.len() < 240 {
        cases.push(any_search(rng));
    }
    cases
}

// Descents.

fn descent_ends(rng: &mut Prng) -> Vec<Case> {
    vec![
        descent_at(rng, (2, 1), Style::Grid(3), (1, 1), 3),
        descent_at(rng, (2, 1), Style::Grid(3), (64, 64), 3),
        descent_at(rng, (3, 1), Style::Plain, (64, 1), 3),
        descent_at(rng, (24, 2), Style::Plain, (4, 2), 4),
        descent_at(rng, (24, 1), Style::Grid(6), (3, 3), 4),
        descent_at(rng, (48, 1), Style::Plain, (2, 1), 3),
        descent_at(rng, (4, 64), Style::Plain, (3, 2), 4),
        descent_at(rng, (4, 64), Style::Huge, (3, 1), 3),
        descent_at(rng, (8, 1), Style::Huge, (4, 2), 4),
        descent_at(rng, (8, 1), Style::Tiny, (4, 2), 4),
        descent_at(rng, (6, 1), Style::Grid(1), (3, 2), 6),
        descent_at(rng, (6, 2), Style::Halves(6), (5, 5), 6),
    ]
}

fn descents(rng: &mut Prng) -> Vec<Case> {
    let mut cases = descent_ends(rng);
    for branch in branches::names(&["descent", "offer refused", "offer at", "offer repeats"]) {
        cases.push(meeting(rng, branch, &any_descent));
    }
    while cases.len() < 46 {
        cases.push(any_descent(rng));
    }
    for branch in branches::names(&["descent"]) {
        cases.push(meeting(rng, branch, &any_iterate));
    }
    cases.push(iterate_at(rng, 64));
    cases.push(iterate_at(rng, 64));
    cases
}

// Relays.

fn relays(rng: &mut Prng) -> Vec<Case> {
    let mut cases = Vec::new();
    let few = [Order::RoundRobin, Order::Shuffled];
    for (size, style, k, count) in [
        ((2, 1), Style::Grid(3), 1, 1),
        ((3, 1), Style::Grid(4), 64, 2),
        ((4, 1), Style::Plain, 1, 64),
        ((24, 64), Style::Plain, 1, 3),
        ((100, 1), Style::Grid(8), 1, 4),
    ] {
        let relay = relay_at(rng, size, style, k, count);
        cases.extend(in_orders(rng, relay, &few));
    }
    let names = branches::names(&["offer", "relay"]);
    for branch in names {
        let relay = meeting(rng, branch, &any_relay);
        cases.extend(in_orders(rng, relay, &ORDERS));
    }
    while cases.len() < 72 {
        let relay = any_relay(rng);
        cases.extend(in_orders(rng, relay, &ORDERS));
    }
    cases
}

// Small cases of every kind.

/// No stale slot that matters was found below `index_size` 4, so those kept by hand are a little larger than the rest.
fn small_builds(rng: &mut Prng) -> Vec<Case> {
    let mut cases: Vec<Case> = [0, 1, 2, 3, 8].map(|i| by_hand(&STALE[i])).to_vec();
    cases.push(by_hand(&READING));
    let beyond_small = [
        "step five stale live slot read",
        "cosine square overflows to infinity",
        "cosine square underflows to zero",
        "cosine tells 2*(dp*dr) from (2*dp)*dr",
        "cosine tells its sum from dp*dp + (dr*dr - djk*djk)",
    ];
    for branch in build_branches() {
        if !beyond_small.contains(&branch) {
            cases.push(meeting(rng, branch, &small_build));
        }
    }
    (0..12).for_each(|_| cases.push(small_build(rng)));
    cases
}

fn small(rng: &mut Prng) -> Vec<Case> {
    let mut cases = small_builds(rng);
    for branch in branches::names(&["search"]) {
        cases.push(meeting(rng, branch, &small_search));
        cases.push(meeting(rng, branch, &small_search));
    }
    (0..16).for_each(|_| cases.push(small_search(rng)));
    for branch in branches::names(&["descent"]) {
        cases.push(meeting(rng, branch, &small_descent));
    }
    (0..5).for_each(|_| cases.push(small_descent(rng)));
    for branch in branches::names(&["descent"]) {
        cases.push(meeting(rng, branch, &small_iterate));
    }
    let orders = [Order::RoundRobin, Order::Reversed, Order::Shuffled];
    let names = branches::names(&["offer", "relay"]);
    for branch in names {
        let relay = meeting(rng, branch, &small_relay);
        cases.extend(in_orders(rng, relay, &orders));
    }
    for _ in 0..5 {
        let relay = small_relay(rng);
        cases.extend(in_orders(rng, relay, &orders));
    }
    cases.extend(WALK.iter().map(by_hand));
    cases
}

// Not kept.

fn limits(rng: &mut Prng) -> Vec<Case> {
    vec![
        build_at(rng, (4096, 1), Style::Plain, (64, 64, 256), 0.5),
        build_at(rng, (4096, 64), Style::Plain, (8, 8, 100), 0.5),
        build_at(rng, (4096, 2), Style::Grid(40), (16, 8, 256), 1.0),
        search_at(rng, (4096, 1), Style::Plain, 64, 64, 64),
        search_at(rng, (4096, 64), Style::Plain, 8, 64, 64),
        descent_at(rng, (1024, 1), Style::Plain, (64, 64), 3),
        descent_at(rng, (1024, 4), Style::Grid(8), (16, 4), 3),
        relay_at(rng, (1024, 64), Style::Plain, 64, 64),
    ]
}

fn any_case(rng: &mut Prng) -> Case {
    match rng.below(12) {
        0..=2 => any_build(rng),
        3 => small_build(rng),
        4..=5 => any_search(rng),
        6 => small_search(rng),
        7 => any_descent(rng),
        8 => any_iterate(rng),
        9..=10 => any_relay(rng),
        _ => any_links(rng),
    }
}
