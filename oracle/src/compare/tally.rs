//! How many cases of each kind ran and differed, which refusals were given, and which seldom branches were met.

use super::ill_relay;
use super::lend::{Call, Library, Outcome, Reply};
use super::parts::Kind;
use crate::local::branches;
use std::collections::BTreeMap;

#[derive(Default)]
struct Counts {
    cases: usize,
    calls: usize,
    /// Calls whose reply was not what was expected.
    noticed: usize,
    /// Cases with a difference of any sort.
    differed: usize,
    said: [usize; 14],
}

pub struct Tally {
    kinds: Vec<(&'static str, Counts)>,
    /// For each way in which lists or a state were not well formed, the calls that were lent such ones.
    ways: BTreeMap<&'static str, BTreeMap<&'static str, usize>>,
    /// Whether the case that is run has differed.
    differs: bool,
    /// How many differences may still be told in full.
    to_show: usize,
}

/// Runs a maker of cases without counting the branches that it meets.
pub fn uncounted<T>(make: impl FnOnce() -> T) -> T {
    let counts = branches::counts();
    let made = make();
    branches::set_counts(counts);
    made
}

impl Tally {
    pub fn new(to_show: usize) -> Self {
        Tally {
            kinds: Vec::new(),
            ways: BTreeMap::new(),
            differs: false,
            to_show,
        }
    }

    fn counts(&mut self, kind: &'static str) -> &mut Counts {
        if !self.kinds.iter().any(|(k, _)| *k == kind) {
            eprintln!("{} ..", kind);
            self.kinds.push((kind, Counts::default()));
        }
        &mut self.kinds.iter_mut().find(|(k, _)| *k == kind).unwrap().1
    }

    pub fn case(&mut self, kind: &'static str) {
        self.counts(kind).cases += 1;
        self.differs = false;
    }

    /// A call is lent what is not well formed in this way.
    pub fn way(&mut self, call: &'static str, way: &'static str) {
        let calls = self.ways.entry(way).or_default();
        *calls.entry(call).or_default() += 1;
    }

    /// A difference of any sort; the first few are told in full.
    pub fn differs(&mut self, (kind, seed): Kind, what: &str) {
        self.counts(kind).differed += !self.differs as usize;
        self.differs = true;
        if self.to_show > 0 {
            println!("DIFFERS: {}, case seed {}: {}", kind, seed, what);
            self.to_show -= 1;
        }
    }

    /// One call through the library, held to what is expected of it; what it left. A difference is not carried into later calls.
    pub fn call(
        &mut self,
        library: &mut Library,
        (kind, seed): Kind,
        call: &Call,
        expected: &Outcome,
    ) -> Outcome {
        let reply = library.call(call);
        let counts = self.counts(kind);
        counts.calls += 1;
        counts.said[(reply.outcome.said[0] as usize).min(13)] += 1;
        if let Some(what) = difference(expected, &reply) {
            let what = format!("numbers {:?}: {}", call.numbers, what);
            self.counts(kind).noticed += 1;
            self.differs((kind, seed), &what);
            return expected.clone();
        }
        reply.outcome
    }

    pub fn calls(&self) -> usize {
        self.kinds.iter().map(|(_, c)| c.calls).sum()
    }

    pub fn noticed(&self) -> usize {
        self.kinds.iter().map(|(_, c)| c.noticed).sum()
    }

    pub fn differing(&self) -> usize {
        self.kinds.iter().map(|(_, c)| c.differed).sum()
    }

    /// All of it; of the seldom branches those whose names begin so, and of the ways those that these entries can be lent.
    pub fn print(&self, beginnings: &[&str], entries: &[&str]) {
        self.print_kinds();
        println!("seldom branches met in the cases compared, counted inside the Rust:");
        let counts: BTreeMap<&str, usize> = branches::counts();
        for name in branches::names(beginnings) {
            println!("  {}: {}", name, met(counts.get(name)));
        }
        println!("calls on what is not well formed (12), by the way in which it is not:");
        for (way, lent_to) in ill_relay::ways() {
            self.print_way(way, lent_to.iter().filter(|e| entries.contains(*e)));
        }
    }

    fn print_kinds(&self) {
        for (kind, c) in &self.kinds {
            let given = (0..14).filter(|i| c.said[*i] > 0);
            let said: Vec<String> = given.map(|i| format!("{}: {}", i, c.said[i])).collect();
            println!(
                "{}: {} cases, {} calls, {} cases differed; refusals by number (0 is none) {}",
                kind,
                c.cases,
                c.calls,
                c.differed,
                said.join(", ")
            );
        }
        let cases: usize = self.kinds.iter().map(|(_, c)| c.cases).sum();
        let (calls, differing) = (self.calls(), self.differing());
        println!(
            "{} cases in all, {} calls, {} cases differed",
            cases, calls, differing
        );
    }

    fn print_way<'a>(&self, way: &str, entries: impl Iterator<Item = &'a &'a str>) {
        let calls = self.ways.get(way);
        let each = |e: &&str| format!("{} {}", e, met(calls.and_then(|c| c.get(e))));
        let each: Vec<String> = entries.map(each).collect();
        if !each.is_empty() {
            println!("  {}: {}", way, each.join(", "));
        }
    }
}

fn met(count: Option<&usize>) -> String {
    count.map_or("NOT MET".to_string(), |c| c.to_string())
}

/// The first place where a reply is not what was expected.
fn difference(expected: &Outcome, reply: &Reply) -> Option<String> {
    let (said, wanted) = (reply.outcome.said, expected.said);
    if said != wanted {
        return Some(format!("said {:?}, wanted {:?}", said, wanted));
    }
    if !reply.guarded {
        return Some("a guard word is not whole".to_string());
    }
    for (i, (left, wanted)) in reply
        .outcome
        .slices
        .iter()
        .zip(&expected.slices)
        .enumerate()
    {
        if let Some(at) = (0..wanted.len()).find(|at| left[*at] != wanted[*at]) {
            let (left, wanted) = (left[at], wanted[at]);
            return Some(format!(
                "slice {} holds {:#x} at {}, wanted {:#x}",
                i, left, at, wanted
            ));
        }
    }
    None
}
