//! What the case modules share: cases of a kind by count and maker, a call with its judgement, and the bench on which they are run.

use super::lend::{Call, Library, Outcome};
use super::table::Code;
use super::tally::{uncounted, Tally};
use crate::prng::Prng;

/// A kind of case, and the seed that one of them is made from.
pub type Kind = (&'static str, u64);

/// A kind of case, how many there are, and how one is made.
pub type Part<T> = (&'static str, u64, fn(&mut Prng) -> T);

/// A call with everything that it is lent, and what 01 says of it.
pub trait Judged {
    fn call(&self) -> Call;

    /// The rows that are tested before anything is written, in order.
    fn refusal(&self) -> Option<Code>;

    /// What it says and leaves where none of them holds, given the slices as they were lent.
    fn done(&self, slices: Vec<Vec<u32>>) -> Outcome;

    fn expected(&self) -> Outcome {
        let slices = self.call().slices;
        match self.refusal() {
            Some(code) => Outcome::refused(code, slices),
            None => self.done(slices),
        }
    }
}

/// The library under comparison, what was seen of it, and which cases are run: those from `seed` on, one `part`th of each kind.
pub struct Bench<'a> {
    pub library: &'a mut Library,
    pub tally: &'a mut Tally,
    pub seed: u64,
    pub part: u64,
}

impl Bench<'_> {
    /// Every part in order, each case from a seed of its own. Branches met while a case is made do not count.
    pub fn each<T>(&mut self, parts: &[Part<T>], one: fn(&mut Self, Kind, T)) {
        for (kind, count, make) in parts {
            for _ in 0..count / self.part {
                self.seed += 1;
                let case = uncounted(|| make(&mut Prng::new(self.seed)));
                self.tally.case(kind);
                one(self, (kind, self.seed), case);
            }
        }
    }

    /// One call of a case, held to what is expected; what it left, and where that differs what it should have left.
    pub fn call(&mut self, kind: Kind, call: &Call, expected: &Outcome) -> Outcome {
        self.tally.call(self.library, kind, call, expected)
    }

    /// One call, held to its own judgement.
    pub fn judge(&mut self, kind: Kind, lent: &impl Judged) -> Outcome {
        self.call(kind, &lent.call(), &lent.expected())
    }

    /// A case that is one call.
    pub fn lend<T: Judged>(&mut self, kind: Kind, lent: T) {
        self.judge(kind, &lent);
    }

    /// One call of an entry on what is not well formed in a named way: row 12 by the reading too.
    pub fn ill(
        &mut self,
        kind: Kind,
        (entry, way): (&'static str, &'static str),
        (call, expected): &(Call, Outcome),
    ) {
        self.tally.way(entry, way);
        if expected.said[0] != 12 {
            self.differs(kind, &format!("{} passes the reading of row 12", way));
        }
        self.call(kind, call, expected);
    }

    pub fn differs(&mut self, kind: Kind, what: &str) {
        self.tally.differs(kind, what);
    }
}
