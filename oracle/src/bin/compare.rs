//! Runs generated calls through the proved entries and through hora's Rust, and says what ran, what differed and what was met.

use oracle::compare::lend::Library;
use oracle::compare::parts::Bench;
use oracle::compare::tally::Tally;
use oracle::compare::{build, descent, iterations, opening, relay, search};

/// Cases by name, the beginnings of the branches inside the Rust that they can meet, and the entries that they lend a state or lists to.
struct Module {
    name: &'static str,
    all: fn(&mut Bench),
    branches: &'static [&'static str],
    lends: &'static [&'static str],
}

const fn module(
    name: &'static str,
    all: fn(&mut Bench),
    branches: &'static [&'static str],
    lends: &'static [&'static str],
) -> Module {
    Module {
        name,
        all,
        branches,
        lends,
    }
}

static MODULES: [Module; 6] = [
    module("build", build::all, &["step", "cosine"], &[]),
    module("search", search::all, &["search"], &[]),
    module("begin", descent::all, &[], &[]),
    module(
        "iterate",
        iterations::all,
        &["descent", "offer"],
        &["iterate"],
    ),
    module("open", opening::all, &[], &["open"]),
    module("relay", relay::all, &["offer", "relay"], &["move", "close"]),
];

/// What is run: the modules named, or all; and one `part`th of their cases.
struct Run<'a> {
    program: &'a str,
    named: &'a [String],
    seed: u64,
    part: u64,
}

impl Run<'_> {
    fn go(&self, spoils: bool, part: u64) -> Tally {
        let mut library = Library::start(self.program, spoils);
        let mut tally = Tally::new(if spoils { 0 } else { 20 });
        for module in self.modules() {
            (module.all)(&mut Bench {
                library: &mut library,
                tally: &mut tally,
                seed: self.seed,
                part,
            });
        }
        library.end();
        tally
    }

    fn modules(&self) -> impl Iterator<Item = &'static Module> + '_ {
        let named = |name: &str| self.named.is_empty() || self.named.iter().any(|n| n == name);
        MODULES.iter().filter(move |m| named(m.name))
    }
}

fn main() {
    let words: Vec<String> = std::env::args().skip(1).collect();
    let number = |i: usize, default: u64| {
        let word = words.get(i);
        word.map_or(default, |w| w.parse().expect("a seed, then a part"))
    };
    let run = Run {
        program: words.first().expect("the program made of lend.c"),
        named: words.get(3..).unwrap_or(&[]),
        seed: number(1, 20_261_115),
        part: number(2, 1),
    };
    let known = |name: &String| MODULES.iter().any(|m| m.name == name);
    assert!(
        run.named.iter().all(known),
        "build, search, begin, iterate, open or relay"
    );
    let spoiled = run.go(true, run.part.max(100));
    let (calls, noticed) = (spoiled.calls(), spoiled.noticed());
    println!(
        "{} replies with one bit turned round, {} noticed",
        calls, noticed
    );
    oracle::local::branches::set_counts(Default::default());
    let tally = run.go(false, run.part);
    let branches: Vec<&str> = run.modules().flat_map(|m| m.branches).copied().collect();
    let lends: Vec<&str> = run.modules().flat_map(|m| m.lends).copied().collect();
    tally.print(&branches, &lends);
    if noticed < calls || tally.differing() > 0 {
        std::process::exit(1);
    }
}
