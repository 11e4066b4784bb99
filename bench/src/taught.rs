//! Rows of build and of search.

use crate::buffers::Buffers;
use crate::game::{Game, INDEX_SIZE, INIT_K, MT, QUERIES};
use crate::row::Row;
use oracle::core::node::Node;
use oracle::index::ssg_idx::SSGIndex;
use spoonmeadow::lengths;
use spoonmeadow::lent::{self, Looked};
use spoonmeadow::raw::{Found, Said};
use std::rc::Rc;

pub struct BuildRow {
    game: Rc<Game>,
    index: SSGIndex<f32, usize>,
    pub graph: Vec<u32>,
    scratch: Buffers,
    said: Said,
}

/// hora's rows, and n in every slot left.
fn flat(index: &SSGIndex<f32, usize>, n: usize) -> Vec<u32> {
    let mut graph = Vec::new();
    for row in index.rows() {
        let live = row.iter().map(|x| *x as u32);
        let left = std::iter::repeat(n as u32).take(INDEX_SIZE - row.len());
        graph.extend(live.chain(left));
    }
    graph
}

impl BuildRow {
    pub fn new(game: Rc<Game>) -> Self {
        let room = lengths::build_scratch(game.n, INIT_K, INDEX_SIZE);
        BuildRow {
            index: game.index(),
            graph: vec![0; lengths::graph(game.n, INDEX_SIZE)],
            scratch: Buffers::new(room, room),
            said: Said::default(),
            game,
        }
    }
}

impl Row for BuildRow {
    fn name(&self) -> String {
        format!("build | {} | ", self.game.name())
    }

    fn check(&mut self) {
        self.rust();
        self.ours();
        assert_eq!(self.said, Said::default(), "build refuses");
        assert!(
            self.graph == flat(&self.index, self.game.n),
            "the graphs differ"
        );
    }

    fn rust(&mut self) {
        self.index.build(MT).unwrap();
    }

    fn ours(&mut self) {
        self.said = lent::build(
            &self.game.points,
            Game::params(),
            &mut self.graph,
            self.scratch.lent(),
        );
    }
}

/// One call is all queries, one after the other.
pub struct SearchRow {
    game: Rc<Game>,
    index: SSGIndex<f32, usize>,
    queries: Vec<Node<f32, usize>>,
    graph: Vec<u32>,
    k: usize,
    nodes: Vec<u32>,
    bits: Vec<u32>,
    scratch: Buffers,
}

impl SearchRow {
    pub fn new(game: Rc<Game>, graph: &[u32], k: usize) -> Self {
        let rows = graph.chunks(INDEX_SIZE);
        let live = rows.map(|row| {
            row.iter()
                .map(|x| *x as usize)
                .take_while(|x| *x < game.n)
                .collect()
        });
        let mut index = game.index();
        index.give_graph(MT, live.collect());
        let room = lengths::search_scratch(game.n);
        SearchRow {
            index,
            queries: (0..QUERIES).map(|i| Node::new(game.query(i))).collect(),
            graph: graph.to_vec(),
            k,
            nodes: vec![0; k],
            bits: vec![0; k],
            scratch: Buffers::new(room, room),
            game,
        }
    }

    fn look_up(&mut self, i: usize) -> Found {
        let looked = Looked {
            graph: &self.graph,
            index_size: INDEX_SIZE,
            roots: &self.game.roots,
            query: self.game.query(i),
            k: self.k,
        };
        lent::search(
            &self.game.points,
            &looked,
            &mut self.nodes,
            &mut self.bits,
            self.scratch.lent(),
        )
    }

    fn check_one(&mut self, i: usize) {
        let before = self.index.takings();
        let rust = self.index.node_search_k(&self.queries[i], self.k);
        let takings = self.index.takings() - before;
        let found = self.look_up(i);
        let m = rust.len();
        assert_eq!(
            found,
            Found {
                m,
                takings,
                ..Found::default()
            },
            "what a search says differs"
        );
        for (j, (node, distance)) in rust.iter().enumerate() {
            let here = (self.nodes[j], self.bits[j]);
            assert_eq!(
                here,
                (node.idx().unwrap() as u32, distance.to_bits()),
                "a result differs"
            );
        }
    }
}

impl Row for SearchRow {
    fn name(&self) -> String {
        format!("search | {} | {}", self.game.name(), self.k)
    }

    fn check(&mut self) {
        (0..QUERIES).for_each(|i| self.check_one(i));
    }

    fn rust(&mut self) {
        for query in &self.queries {
            std::hint::black_box(self.index.node_search_k(query, self.k));
        }
    }

    fn ours(&mut self) {
        for i in 0..QUERIES {
            std::hint::black_box(self.look_up(i));
        }
    }

    fn zeroing(&mut self) -> bool {
        (0..QUERIES).for_each(|_| self.scratch.zero());
        true
    }
}
