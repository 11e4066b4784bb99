//! A relay in plain words: its state read from its words and written to them, whether it is well formed, and one step of one job.

use super::plain::{distance, fit};
use super::state::list_formed;
use crate::cases::Relay;

pub fn relay_words(n: u64, k: u64) -> u64 {
    n * (k + 65) + 1024
}

pub fn relay_floats(n: u64, k: u64) -> u64 {
    n * (k + 64) + 64
}

#[derive(Clone)]
pub struct Job {
    pub u: u32,
    pub v: u32,
    pub bits: u32,
    pub steps: u32,
    /// For each half whether it was taken up, and what its measure said.
    pub report: [u32; 2],
    pub measure: [u32; 2],
}

#[derive(Clone)]
pub struct Steps {
    n: usize,
    k: usize,
    /// (bits, node), ascending.
    pub lists: Vec<Vec<(u32, u32)>>,
    pub jobs: Vec<Job>,
}

impl Job {
    pub fn new(u: u32, v: u32, bits: u32) -> Self {
        let bits = if u == v { 0 } else { bits };
        Job {
            u,
            v,
            bits,
            steps: 0,
            report: [0; 2],
            measure: [0; 2],
        }
    }

    fn done(&self, half: usize) -> u32 {
        self.steps.saturating_sub(4 * half as u32).min(4)
    }

    /// "pushed to it and not yet popped"
    fn pending(&self, half: usize) -> usize {
        (self.report[half] == 1 && (2..4).contains(&self.done(half))) as usize
    }

    fn half_formed(&self, half: usize) -> bool {
        let (done, report) = (self.done(half), self.report[half]);
        let measured = if done >= 3 { report } else { 0 };
        let taken = report == 0 || (report == 1 && done >= 1 && self.u != self.v);
        taken && self.measure[half] == measured
    }

    fn formed(&self, n: usize) -> bool {
        let distance = if self.u == self.v {
            self.bits == 0
        } else {
            fit(self.bits)
        };
        let nodes = (self.u as usize) < n && (self.v as usize) < n;
        nodes && self.steps <= 8 && distance && self.half_formed(0) && self.half_formed(1)
    }
}

impl Steps {
    /// "A relay is opened on lists (nk u32, nk f32) and jobs (u, v)"; "distances are stored at opening"
    pub fn opened(c: &Relay) -> Self {
        let (n, d) = (c.lanes.nodes, c.lanes.dimension);
        let of = |v: u32| &c.lanes.bits[v as usize * d..][..d];
        let job = |(u, v): &(u32, u32)| Job::new(*u, *v, distance(of(*u), of(*v)));
        let list = |l: &[(u32, u32)]| l.iter().map(|(node, bits)| (*bits, *node)).collect();
        let lists = c.lists.chunks(c.k).map(list).collect();
        let jobs = c.jobs.iter().map(job).collect();
        Steps {
            n,
            k: c.k,
            lists,
            jobs,
        }
    }

    /// docs/LAYOUT.md, relay state: its words and its floats' bits.
    pub fn written(&self) -> (Vec<u32>, Vec<u32>) {
        let (n, room) = (self.n, self.k + 64);
        let mut words = vec![0; relay_words(n as u64, self.k as u64) as usize];
        let mut bits = vec![0; relay_floats(n as u64, self.k as u64) as usize];
        for (w, list) in self.lists.iter().enumerate() {
            for (i, e) in list.iter().enumerate() {
                bits[w * room + i] = e.0;
                words[w * room + i] = e.1;
            }
            words[n * room + w] = list.len() as u32;
        }
        words[n * (room + 1)] = self.jobs.len() as u32;
        for (i, j) in self.jobs.iter().enumerate() {
            let at = n * (room + 1) + 1 + 15 * i;
            let halves = [j.report[0], j.measure[0], j.report[1], j.measure[1]];
            words[at..at + 3].copy_from_slice(&[j.u, j.v, j.steps]);
            words[at + 3..at + 7].copy_from_slice(&halves);
            bits[n * room + i] = j.bits;
        }
        (words, bits)
    }

    /// The relay in a state of the right lengths, where that is well formed.
    pub fn read(n: usize, k: usize, words: &[u32], bits: &[u32]) -> Option<Self> {
        let room = k + 64;
        let count = words[n * (room + 1)] as usize;
        let lengths = &words[n * room..n * (room + 1)];
        if !(1..=64).contains(&count) || lengths.iter().any(|l| *l as usize > room) {
            return None;
        }
        let list = |w: usize| {
            let places = w * room..w * room + lengths[w] as usize;
            let nodes = words[places.clone()].iter().copied();
            bits[places].iter().copied().zip(nodes).collect()
        };
        let job = |i: usize| {
            let at = n * (room + 1) + 1 + 15 * i;
            Job {
                u: words[at],
                v: words[at + 1],
                bits: bits[n * room + i],
                steps: words[at + 2],
                report: [words[at + 3], words[at + 5]],
                measure: [words[at + 4], words[at + 6]],
            }
        };
        let lists = (0..n).map(list).collect();
        let jobs = (0..count).map(job).collect();
        let read = Steps { n, k, lists, jobs };
        let (same_words, same_bits) = read.written();
        let same = same_words == words && same_bits == bits;
        (same && read.formed()).then_some(read)
    }

    fn formed(&self) -> bool {
        let n = self.n;
        let list = |(w, l): (usize, &Vec<(u32, u32)>)| {
            let (bits, nodes): (Vec<u32>, Vec<u32>) = l.iter().copied().unzip();
            let at = |j: &Job| {
                let first = (j.u as usize == w) as usize * j.pending(0);
                first + (j.v as usize == w) as usize * j.pending(1)
            };
            let pending: usize = self.jobs.iter().map(at).sum();
            l.len() == self.k + pending && list_formed(n as u64, &nodes, &bits)
        };
        self.jobs.iter().all(|j| j.formed(n)) && self.lists.iter().enumerate().all(list)
    }

    pub fn finished(&self, job: usize) -> bool {
        self.jobs[job].steps == 8
    }

    /// "look ..; push in order; measure whether longer than k; pop the last if so": the node whose list the step concerns.
    pub fn step(&mut self, job: usize) -> usize {
        let k = self.k;
        let j = &mut self.jobs[job];
        let half = j.steps as usize / 4;
        let (me, other) = if half == 0 { (j.u, j.v) } else { (j.v, j.u) };
        let list = &mut self.lists[me as usize];
        match j.steps % 4 {
            0 => j.report[half] = (me != other && j.bits <= list[list.len() - 1].0) as u32,
            1 if j.report[half] == 1 => {
                list.push((j.bits, other));
                list.sort();
            }
            2 if j.report[half] == 1 => j.measure[half] = (list.len() > k) as u32,
            3 if j.measure[half] == 1 => list.truncate(list.len() - 1),
            _ => {}
        }
        j.steps += 1;
        me as usize
    }
}
