//! A descent: its beginning and its iterations.
use crate::environment::expect_default;
use crate::lent::Both;
use crate::refusal::{told, Call};
use crate::{lengths, lent, Error, Lists, Points, Scratch};

/// What one iteration answers: its cost, and the total of new.
#[derive(Clone, Copy, Debug, PartialEq, Eq)]
pub struct Iterated {
    /// The updates of unequal nodes.
    pub cost: usize,
    /// The list entries that became new.
    pub new: usize,
}

/// A descent over some counters, 2 to 1,024 of them. The random draws are the caller's.
#[derive(Clone, Debug)]
pub struct Descent<'p> {
    points: &'p Points,
    k: usize,
    s: usize,
    words: Vec<u32>,
    floats: Vec<f32>,
    scratch: Scratch,
}

impl<'p> Descent<'p> {
    /// Begins a descent with lists of k places and contexts of s. `draws` are at least [`lengths::begin_draws`].
    /// Refusals: 1, 2, 3, 4, 10 at the first unfit pair, 11.
    ///
    /// ```
    /// use spoonmeadow::{lengths, Descent, Points};
    /// let points = Points::new(1, vec![0.0, 1.0, 3.0, 7.0]);
    /// let draws = vec![1; lengths::begin_draws(4, 2)];
    /// let descent = Descent::begin(&points, 2, 2, &draws)?;
    /// assert!(descent.lists().list(0).is_empty());
    /// let refused = Descent::begin(&points, 2, 3, &draws).unwrap_err();
    /// assert_eq!(refused.to_string(), "4: a whole-number parameter is outside its range");
    /// # Ok::<(), spoonmeadow::Error>(())
    /// ```
    pub fn begin(
        points: &'p Points,
        k: usize,
        s: usize,
        draws: &[u32],
    ) -> Result<Descent<'p>, Error> {
        expect_default()?;
        let n = points.n();
        let passes = lengths::taught(n, k);
        let words = vec![0; lengths::made(passes, lengths::descent_words(n, k))];
        let floats = vec![0.0; lengths::made(passes, lengths::lists(n, k))];
        let mut descent = Descent::with_state(points, k, s, words, floats);
        let (state, scratch) = descent.lent();
        let said = lent::begin(points, (k, s), draws, state, scratch);
        told(Call::Begin, said.refusal, said.first, said.second)?;
        Ok(descent)
    }

    /// A descent from a state that was kept: any well-formed one may be iterated (docs/LAYOUT.md). It is judged by [`Descent::iterate`], not here.
    pub fn with_state(
        points: &'p Points,
        k: usize,
        s: usize,
        words: Vec<u32>,
        floats: Vec<f32>,
    ) -> Descent<'p> {
        Descent {
            points,
            k,
            s,
            words,
            floats,
            scratch: Scratch::new(),
        }
    }

    /// One iteration. `draws` are at least [`lengths::iterate_draws`]. A refusal leaves the descent as it was: 11, and of a state that was kept
    /// also 1, 2, 3, 4, 6, 10 and 12.
    ///
    /// ```
    /// use spoonmeadow::{lengths, Descent, Points};
    /// let points = Points::new(1, vec![0.0, 1.0, 3.0, 7.0]);
    /// let mut descent = Descent::begin(&points, 2, 2, &vec![1; lengths::begin_draws(4, 2)])?;
    /// let draws: Vec<u32> = (0..lengths::iterate_draws(4, 2) as u32).collect();
    /// let answer = descent.iterate(&draws)?;
    /// assert_eq!(answer.new, (0..4).map(|u| descent.lists().list(u).len()).sum());
    /// assert_eq!(descent.iterate(&[]).unwrap_err().to_string(), "11: there are too few draws");
    /// # Ok::<(), spoonmeadow::Error>(())
    /// ```
    pub fn iterate(&mut self, draws: &[u32]) -> Result<Iterated, Error> {
        expect_default()?;
        let (points, sizes) = (self.points, (self.k, self.s));
        let (state, scratch) = self.lent();
        let answer = lent::iterate(points, sizes, draws, state, scratch);
        told(Call::Iterate, answer.refusal, answer.first, answer.second)?;
        Ok(Iterated {
            cost: answer.cost,
            new: answer.total,
        })
    }

    /// The state, and scratch as long as its calls ask for.
    fn lent(&mut self) -> (Both<'_>, Both<'_>) {
        let n = self.points.n();
        let room = lengths::made(lengths::taught(n, self.k), lengths::taught_scratch(n));
        ((&mut self.words, &mut self.floats), self.scratch.of(room))
    }

    /// The lists as they are.
    pub fn lists(&self) -> Lists {
        let n = self.points.n();
        let nodes = self.words.get(..lengths::lists(n, self.k)).unwrap_or(&[]);
        Lists::of_parts(n, self.k, nodes.to_vec(), self.floats.clone())
    }

    /// The words of the state, by docs/LAYOUT.md.
    pub fn words(&self) -> &[u32] {
        &self.words
    }
}
