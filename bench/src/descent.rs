//! Rows of begin and of one iteration.

use crate::buffers::Buffers;
use crate::game::{Game, MT};
use crate::row::Row;
use oracle::core::knn::NNDescentHandler;
use oracle::core::neighbor::Neighbor;
use oracle::core::node::Node;
use oracle::local::fixedbitset::FixedBitSet;
use oracle::local::rand;
use oracle::prng::Prng;
use spoonmeadow::raw::{Iterated, Said};
use spoonmeadow::{lengths, lent};
use std::rc::Rc;

type Handler = NNDescentHandler<'static, f32, usize>;

/// The game, k and s, and hora's handler over nodes that live as long as the program.
struct Side {
    game: Rc<Game>,
    k: usize,
    s: usize,
    handler: Handler,
}

impl Side {
    fn new(game: Rc<Game>, k: usize) -> Self {
        let s = (k + 1) / 2;
        let nodes: &'static [Box<Node<f32, usize>>] = game.nodes().leak();
        let handler = Handler::new(nodes, MT, k, s);
        Side {
            game,
            k,
            s,
            handler,
        }
    }

    fn sizes(&self) -> (usize, usize) {
        (self.k, self.s)
    }

    fn draws(&self, seed: u64, count: usize) -> Vec<u32> {
        let rng = &mut Prng::new(seed);
        (0..count).map(|_| rng.below(1 << 31) as u32).collect()
    }

    fn blank(&self) -> Buffers {
        let (n, k) = (self.game.n, self.k);
        Buffers::new(lengths::descent_words(n, k), lengths::lists(n, k))
    }

    fn scratch(&self) -> Buffers {
        let room = lengths::taught_scratch(self.game.n);
        Buffers::new(room, room)
    }

    /// hora's state in the places of docs/LAYOUT.md.
    fn state(&self) -> Buffers {
        let (n, k) = (self.game.n, self.k);
        let mut state = self.blank();
        for (at, entry) in self.handler.graph().iter().flatten().enumerate() {
            state.words[at] = entry.idx() as u32;
            state.floats[at] = entry.distance();
        }
        for (i, context) in self.handler.context().iter().enumerate() {
            for (list, members) in [&context.0, &context.1, &context.2, &context.3]
                .iter()
                .enumerate()
            {
                let at = n * k + 260 * i + 65 * list;
                state.words[at] = members.len() as u32;
                for (j, member) in members.iter().enumerate() {
                    state.words[at + 1 + j] = *member as u32;
                }
            }
        }
        let marks = n * k + 260 * n;
        state.words[marks..].copy_from_slice(self.handler.visited().words());
        state
    }

    /// Puts a state of ours into hora's handler.
    fn give(&mut self, state: &Buffers) {
        let (n, k) = (self.game.n, self.k);
        let entry = |at: usize| Neighbor::new(state.words[at] as usize, state.floats[at]);
        let lists = (0..n)
            .map(|u| (u * k..u * k + k).map(entry).collect())
            .collect();
        let list = |at: usize| -> Vec<usize> {
            let members = &state.words[at + 1..at + 1 + state.words[at] as usize];
            members.iter().map(|x| *x as usize).collect()
        };
        let context = |i: usize| {
            let at = n * k + 260 * i;
            (list(at), list(at + 65), list(at + 130), list(at + 195))
        };
        let contexts = (0..n).map(context).collect();
        let visited = FixedBitSet::from_words(&state.words[n * k + 260 * n..], n * n);
        self.handler.give_state(lists, contexts, visited);
    }

    fn name(&self) -> String {
        format!("{} | {}", self.game.name(), self.k)
    }
}

pub struct BeginRow {
    side: Side,
    draws: Vec<u32>,
    state: Buffers,
    scratch: Buffers,
    said: Said,
}

impl BeginRow {
    pub fn new(game: Rc<Game>, k: usize) -> Self {
        let side = Side::new(game, k);
        BeginRow {
            draws: side.draws(1, lengths::begin_draws(side.game.n, side.s)),
            state: side.blank(),
            scratch: side.scratch(),
            said: Said::default(),
            side,
        }
    }

    /// The state that begin leaves, for an iteration.
    fn begun(mut self) -> (Side, Buffers) {
        self.prepare();
        self.rust();
        let state = self.side.state();
        (self.side, state)
    }
}

impl Row for BeginRow {
    fn name(&self) -> String {
        format!("begin | {}", self.side.name())
    }

    fn check(&mut self) {
        self.prepare();
        self.rust();
        self.ours();
        assert_eq!(self.said, Said::default(), "begin refuses");
        assert!(self.state == self.side.state(), "the states differ");
    }

    fn prepare(&mut self) {
        rand::lend_draws(&self.draws);
    }

    fn rust(&mut self) {
        self.side.handler.init();
    }

    fn ours(&mut self) {
        let (points, sizes) = (&self.side.game.points, self.side.sizes());
        let (state, scratch) = (self.state.lent(), self.scratch.lent());
        self.said = lent::begin(points, sizes, &self.draws, state, scratch);
    }
}

/// The iteration after `before` others.
pub struct IterateRow {
    side: Side,
    number: usize,
    draws: Vec<u32>,
    given: Buffers,
    state: Buffers,
    scratch: Buffers,
    said: Iterated,
    total_of_new: usize,
}

impl IterateRow {
    pub fn new(game: Rc<Game>, k: usize, before: usize) -> Self {
        let (mut side, mut given) = BeginRow::new(game, k).begun();
        let draws = side.draws(2, lengths::iterate_draws(side.game.n, k));
        for _ in 0..before {
            rand::lend_draws(&draws);
            side.handler.iterate();
            given = side.state();
        }
        IterateRow {
            number: before + 1,
            draws,
            state: given.clone(),
            given,
            scratch: side.scratch(),
            said: Iterated::default(),
            total_of_new: 0,
            side,
        }
    }
}

impl Row for IterateRow {
    fn name(&self) -> String {
        format!("iterate {} | {}", self.number, self.side.name())
    }

    fn check(&mut self) {
        self.prepare();
        self.rust();
        self.ours();
        let said = Iterated {
            cost: *self.side.handler.cost(),
            total: self.total_of_new,
            ..Iterated::default()
        };
        assert_eq!(self.said, said, "what an iteration says differs");
        assert!(self.state == self.side.state(), "the states differ");
    }

    /// Both sides start from the same state; neither is charged for putting it there.
    fn prepare(&mut self) {
        rand::lend_draws(&self.draws);
        self.side.give(&self.given);
        self.state.clone_from(&self.given);
    }

    fn rust(&mut self) {
        self.total_of_new = self.side.handler.iterate();
    }

    fn ours(&mut self) {
        let (points, sizes) = (&self.side.game.points, self.side.sizes());
        let (state, scratch) = (self.state.lent(), self.scratch.lent());
        self.said = lent::iterate(points, sizes, &self.draws, state, scratch);
    }
}
