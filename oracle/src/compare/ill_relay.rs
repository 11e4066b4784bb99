//! Relay states that are not well formed: one way of harming them for each way in which 01's words can fail, and as far as may be no other.

use super::ill::{self, Way};
use super::relay::Lent;
use crate::cases::EMPTY;
use crate::prng::Prng;

/// Words of a job behind its first: u, v, steps, and each half's report and measure; then spare ones.
const U: usize = 0;
const V: usize = 1;
const STEPS: usize = 2;
const REPORT: [usize; 2] = [3, 5];
const MEASURE: [usize; 2] = [4, 6];
const JOB: usize = 15;

/// Asks something of a half of a job: the job's words, the half, and how many of the half's steps are done.
type Asks = fn(&[u32], usize, u32) -> bool;

impl Lent {
    fn room(&self) -> usize {
        self.k as usize + 64
    }

    /// The place of the number of jobs.
    fn count_at(&self) -> usize {
        self.n as usize * (self.room() + 1)
    }

    fn jobs(&self) -> usize {
        self.words[self.count_at()] as usize
    }

    fn job(&mut self, job: usize) -> &mut [u32] {
        let at = self.count_at() + 1 + JOB * job;
        &mut self.words[at..at + JOB]
    }

    fn job_bits(&mut self, job: usize) -> &mut u32 {
        let at = self.n as usize * self.room() + job;
        &mut self.bits[at]
    }

    /// Some job and half of which this holds.
    fn half(&mut self, rng: &mut Prng, holds: Asks) -> Option<(usize, usize)> {
        let all = (0..self.jobs()).flat_map(|job| [(job, 0), (job, 1)]);
        let fitting: Vec<(usize, usize)> = all
            .filter(|(job, half)| {
                let words = self.job(*job);
                let done = words[STEPS].saturating_sub(4 * *half as u32).min(4);
                holds(words, *half, done)
            })
            .collect();
        (!fitting.is_empty()).then(|| rng.pick(&fitting))
    }

    /// Sets a word of such a half; false where there is none.
    fn set_half(&mut self, rng: &mut Prng, holds: Asks, place: [usize; 2], to: u32) -> bool {
        let found = self.half(rng, holds);
        found
            .map(|(job, half)| self.job(job)[place[half]] = to)
            .is_some()
    }

    /// The place of some node's list, and that of the list's length.
    fn some_list(&self, rng: &mut Prng) -> (usize, usize) {
        let w = rng.below(self.n as usize);
        (w * self.room(), self.n as usize * self.room() + w)
    }

    /// Some unused place of some list, if that list has one.
    fn unused(&self, rng: &mut Prng) -> Option<usize> {
        let (list, length) = self.some_list(rng);
        let used = self.words[length] as usize;
        (used < self.room()).then(|| list + rng.from_to(used, self.room() - 1))
    }
}

fn taken(words: &[u32], half: usize) -> bool {
    words[REPORT[half]] == 1
}

const WAYS: [Way<Lent>; 24] = [
    ("no jobs", no_jobs),
    ("more than 64 jobs", |rng, r| {
        let at = r.count_at();
        r.words[at] = rng.pick(&[65, 66, u32::MAX]);
        true
    }),
    ("a job with a node of n or more", |rng, r| {
        let (job, node) = (rng.below(r.jobs()), ill::beyond(rng, r.n as u32));
        r.job(job)[rng.pick(&[U, V])] = node;
        true
    }),
    ("more than 8 steps", |rng, r| {
        let steps = rng.pick(&[9, 10, u32::MAX]);
        let end = |words: &[u32], _: usize, _: u32| words[STEPS] == 8;
        r.set_half(rng, end, [STEPS; 2], steps)
            || r.set_half(rng, |_, _, _| true, [STEPS; 2], steps)
    }),
    ("an unfit distance of a job", |rng, r| {
        let unfit = ill::unfit(rng);
        let bits = rng.pick(&[EMPTY, unfit, unfit]);
        let job = r.half(rng, |words, _, _| words[U] != words[V]);
        job.map(|(job, _)| *r.job_bits(job) = bits).is_some()
    }),
    ("a distance other than 0.0 of a job with u = v", |rng, r| {
        let bits = ill::not_zero(rng);
        let job = r.half(rng, |words, _, _| words[U] == words[V]);
        job.map(|(job, _)| *r.job_bits(job) = bits).is_some()
    }),
    ("a taken report before its look", |rng, r| {
        let before = |words: &[u32], _: usize, done: u32| words[U] != words[V] && done == 0;
        r.set_half(rng, before, REPORT, 1)
    }),
    ("a taken report where u = v", |rng, r| {
        let looked = |words: &[u32], _: usize, done: u32| words[U] == words[V] && done == 1;
        r.set_half(rng, looked, REPORT, 1)
    }),
    ("a taken report and a measure where u = v", u_is_v_taken),
    ("a report above 1", |rng, r| {
        let report = rng.pick(&[2, 3, u32::MAX]);
        r.set_half(rng, |_, _, done| done >= 1, REPORT, report)
    }),
    ("a measure of no after a push", |rng, r| {
        let pushed = |words: &[u32], half: usize, done: u32| taken(words, half) && done >= 3;
        r.set_half(rng, pushed, MEASURE, 0)
    }),
    ("a measure of yes without a push", |rng, r| {
        let refused = |words: &[u32], half: usize, done: u32| !taken(words, half) && done >= 3;
        r.set_half(rng, refused, MEASURE, 1)
    }),
    ("a measure before its step", |rng, r| {
        r.set_half(rng, |_, _, done| done < 3, MEASURE, 1)
    }),
    ("a measure above 1", |rng, r| {
        let measure = rng.pick(&[2, 3, u32::MAX]);
        r.set_half(
            rng,
            |words, half, done| taken(words, half) && done >= 3,
            MEASURE,
            measure,
        )
    }),
    ("a push that was counted and not made", |rng, r| {
        let looked = |words: &[u32], half: usize, done: u32| taken(words, half) && done == 1;
        one_step_on(rng, r, looked)
    }),
    ("a pop that was counted and not made", |rng, r| {
        let measured = |words: &[u32], half: usize, done: u32| taken(words, half) && done == 3;
        one_step_on(rng, r, measured)
    }),
    ("a spare word of a job", |rng, r| {
        let (job, word) = (rng.below(r.jobs()), rng.pick(&[1, u32::MAX]));
        r.job(job)[rng.from_to(7, JOB - 1)] = word;
        true
    }),
    ("a word behind the last job", |rng, r| {
        let behind = r.count_at() + 1 + JOB * r.jobs();
        let at = rng.from_to(behind, r.words.len() - 1);
        r.words[at] = rng.pick(&[1, u32::MAX]);
        true
    }),
    ("a distance behind the last job's", |rng, r| {
        let (jobs, bits) = (r.jobs(), ill::not_zero(rng));
        let absent = (jobs < 64).then(|| rng.from_to(jobs, 63));
        absent.map(|job| *r.job_bits(job) = bits).is_some()
    }),
    ("a list too short", |rng, r| {
        let (list, length) = r.some_list(rng);
        let left = r.words[length] - 1;
        r.words[length] = left;
        r.words[list + left as usize] = 0;
        r.bits[list + left as usize] = 0;
        true
    }),
    ("a list too long", |rng, r| {
        let (list, length) = r.some_list(rng);
        let used = r.words[length] as usize;
        if used < r.room() {
            r.words[length] += 1;
            r.words[list + used] = r.n as u32;
            r.bits[list + used] = EMPTY;
        }
        used < r.room()
    }),
    ("a list longer than its room", |rng, r| {
        let (_, length) = r.some_list(rng);
        r.words[length] = rng.pick(&[r.room() as u32 + 1, u32::MAX]);
        true
    }),
    ("a node in an unused place of a list", |rng, r| {
        let node = rng.pick(&[1, r.n as u32, u32::MAX]);
        let at = r.unused(rng);
        at.map(|at| r.words[at] = node).is_some()
    }),
    ("a distance in an unused place of a list", |rng, r| {
        let bits = ill::not_zero(rng);
        let at = r.unused(rng);
        at.map(|at| r.bits[at] = bits).is_some()
    }),
];

/// All of the jobs gone, their distances too.
fn no_jobs(_: &mut Prng, r: &mut Lent) -> bool {
    let (at, from) = (r.count_at(), r.n as usize * r.room());
    r.words[at..].fill(0);
    r.bits[from..].fill(0);
    true
}

/// A finished half of a job with u = v as it would be left by a push and its pop.
fn u_is_v_taken(rng: &mut Prng, r: &mut Lent) -> bool {
    let found = r.half(rng, |words, _, done| words[U] == words[V] && done == 4);
    let set = |(job, half): (usize, usize)| {
        r.job(job)[REPORT[half]] = 1;
        r.job(job)[MEASURE[half]] = 1;
    };
    found.map(set).is_some()
}

fn one_step_on(rng: &mut Prng, r: &mut Lent, holds: Asks) -> bool {
    let found = r.half(rng, holds);
    found.map(|(job, _)| r.job(job)[STEPS] += 1).is_some()
}

/// A relay's state that was well formed, harmed in one way, a third of the times in a list: its name.
pub fn relay(rng: &mut Prng, r: &mut Lent) -> &'static str {
    if !rng.one_in(3) {
        return ill::one_of(rng, &WAYS, r);
    }
    let (list, length) = r.some_list(rng);
    let places = list..list + r.words[length] as usize;
    ill::list(rng, r.n, &mut r.words[places.clone()], &mut r.bits[places])
}

/// Every way, and the entries that can be lent what it harms.
pub fn ways() -> Vec<(&'static str, &'static [&'static str])> {
    let (lists, contexts) = ill::names();
    let lists = lists.into_iter().map(|way| (way, &ALL[..]));
    let contexts = contexts.into_iter().map(|way| (way, &ALL[1..2]));
    let relays = WAYS.iter().map(|way| (way.0, &ALL[2..]));
    lists.chain(contexts).chain(relays).collect()
}

const ALL: [&str; 4] = ["open", "iterate", "move", "close"];
