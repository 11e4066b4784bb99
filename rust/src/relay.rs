//! A relay: candidate pairs offered to lists step by step, from any number of threads in any order.
use crate::environment::expect_default;
use crate::refusal::{told, Call};
use crate::{lengths, lent, Error, Lists, Points, Scratch};
use std::sync::atomic::{AtomicUsize, Ordering};
use std::sync::{Mutex, MutexGuard, PoisonError};

/// The steps of a job: look, push, measure and pop for its first node's list, then the same for its second's.
pub const STEPS: usize = 8;

/// What a close gives: the lists, and for each job whether its two offers were taken up.
#[derive(Clone, Debug, PartialEq)]
pub struct Closed {
    /// The lists, every offer taken up or refused.
    pub lists: Lists,
    /// For each job, whether its first node's list took the second up, and whether its second's took the first.
    pub taken: Vec<(bool, bool)>,
}

/// An opened relay: the lists of 2 to 1,024 nodes and 1 to 64 jobs, each at one of its eight steps.
#[derive(Clone, Debug)]
pub struct Relay {
    n: usize,
    k: usize,
    jobs: usize,
    words: Vec<u32>,
    floats: Vec<f32>,
}

impl Relay {
    /// Opens a relay on lists and jobs (u, v): v is offered to u's list, then u to v's. Distances are worked out here, once.
    /// Refusals: 1, 2, 3, 4, 6 (lists of another length), 9, 10 at the first job whose distance is unfit, 12.
    ///
    /// ```
    /// use spoonmeadow::{Lists, Points, Relay, STEPS};
    /// let points = Points::new(1, vec![0.0, 1.0, 3.0, 7.0]);
    /// let mut relay = Relay::open(&points, &Lists::unfilled(4, 2), &[(0, 1), (0, 3), (0, 2)])?;
    /// for job in 0..3 {
    ///     for _ in 0..STEPS {
    ///         relay.step(job)?;
    ///     }
    /// }
    /// assert_eq!(relay.step(1).unwrap_err().to_string(), "13: job 1 is absent or finished");
    /// let closed = relay.close()?;
    /// let nearest: Vec<u32> = closed.lists.list(0).iter().map(|e| e.node).collect();
    /// assert_eq!(nearest, [1, 2]);
    /// # Ok::<(), spoonmeadow::Error>(())
    /// ```
    pub fn open(points: &Points, lists: &Lists, jobs: &[(u32, u32)]) -> Result<Relay, Error> {
        expect_default()?;
        let (n, k) = (points.n(), lists.k());
        let pairs: Vec<u32> = jobs.iter().flat_map(|&(u, v)| [u, v]).collect();
        let passes = lengths::taught(n, k);
        let mut relay = Relay {
            n,
            k,
            jobs: jobs.len(),
            words: vec![0; lengths::made(passes, lengths::relay_words(n, k))],
            floats: vec![0.0; lengths::made(passes, lengths::relay_floats(n, k))],
        };
        let state = (&mut relay.words[..], &mut relay.floats[..]);
        let room = lengths::made(passes, lengths::taught_scratch(n));
        let said = lent::open(points, lists, &pairs, state, Scratch::new().of(room));
        told(Call::Open, said.refusal, said.first, said.second)?;
        Ok(relay)
    }

    /// The number of jobs.
    pub fn jobs(&self) -> usize {
        self.jobs
    }

    /// Takes a job's next step. Refusal 13: the job is absent or finished, and nothing has changed.
    pub fn step(&mut self, job: usize) -> Result<(), Error> {
        expect_default()?;
        let state = (&mut self.words[..], &mut self.floats[..]);
        let said = lent::move_job((self.n, self.k), job, state);
        told(Call::Move, said.refusal, said.first, said.second)
    }

    /// The lists and the reports, when all jobs are finished. Refusal 13 names the lowest unfinished job. The relay stays as it is.
    pub fn close(&self) -> Result<Closed, Error> {
        expect_default()?;
        let length = lengths::lists(self.n, self.k);
        let mut nodes = vec![0; length];
        let mut distances = vec![0.0; length];
        let mut reports = [0; lengths::REPORTS];
        let state = (&self.words[..], &self.floats[..]);
        let lists = (&mut nodes[..], &mut distances[..]);
        let said = lent::close((self.n, self.k), state, lists, &mut reports);
        told(Call::Close, said.refusal, said.first, said.second)?;
        let taken = reports.chunks_exact(2).take(self.jobs);
        Ok(Closed {
            lists: Lists::of_parts(self.n, self.k, nodes, distances),
            taken: taken.map(|pair| (pair[0] == 1, pair[1] == 1)).collect(),
        })
    }
}

/// One relay under a lock, for threads that drive it together. The lock is held for one step at a time, as each of hora's four locks is.
///
/// ```
/// use spoonmeadow::{Heads, Lists, Points, Relay};
/// let points = Points::new(1, vec![0.0, 1.0, 3.0, 7.0]);
/// let relay = Relay::open(&points, &Lists::unfilled(4, 2), &[(0, 1), (0, 3), (0, 2), (3, 1)])?;
/// let heads = Heads::new(relay);
/// heads.drive(4)?;
/// let closed = heads.into_relay().close()?;
/// let nearest: Vec<u32> = closed.lists.list(0).iter().map(|e| e.node).collect();
/// assert_eq!(nearest, [1, 2]);
/// # Ok::<(), spoonmeadow::Error>(())
/// ```
#[derive(Debug)]
pub struct Heads {
    relay: Mutex<Relay>,
}

impl Heads {
    /// A relay to be driven by several threads.
    pub fn new(relay: Relay) -> Heads {
        Heads {
            relay: Mutex::new(relay),
        }
    }

    // A call of the library returns with its state whole, so that a lock that another thread's panic left poisoned holds nothing broken.
    fn lock(&self) -> MutexGuard<'_, Relay> {
        self.relay.lock().unwrap_or_else(PoisonError::into_inner)
    }

    /// Takes a job's next step under the lock.
    pub fn step(&self, job: usize) -> Result<(), Error> {
        self.lock().step(job)
    }

    /// Takes all steps of all jobs with this many threads at once, each on a job of its own; the first error of a thread is given.
    /// The lists do not depend on how the threads run; which offers were taken up may.
    pub fn drive(&self, threads: usize) -> Result<(), Error> {
        let jobs = self.lock().jobs();
        let next = AtomicUsize::new(0);
        let head = || loop {
            let job = next.fetch_add(1, Ordering::Relaxed);
            if job >= jobs {
                return Ok(());
            }
            for _ in 0..STEPS {
                self.step(job)?;
            }
        };
        std::thread::scope(|scope| {
            let heads: Vec<_> = (0..threads.max(1)).map(|_| scope.spawn(head)).collect();
            heads
                .into_iter()
                .map(|h| {
                    h.join()
                        .unwrap_or_else(|panic| std::panic::resume_unwind(panic))
                })
                .fold(Ok(()), Result::and)
        })
    }

    /// The relay, when the threads are done.
    pub fn into_relay(self) -> Relay {
        self.relay
            .into_inner()
            .unwrap_or_else(PoisonError::into_inner)
    }
}
