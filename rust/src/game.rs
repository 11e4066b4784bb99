//! A taught game: build and search.
use crate::environment::expect_default;
use crate::lent::{self, Looked};
use crate::refusal::{told, Call};
use crate::{lengths, Error, Neighbor, Points, Scratch};

/// The parameters of a build. Each setter takes them and hands them back changed.
#[derive(Clone, Copy, Debug, PartialEq)]
pub struct Params {
    pub(crate) init_k: usize,
    pub(crate) index_size: usize,
    pub(crate) neighbor_neighbor_size: usize,
    pub(crate) threshold: f32,
}

impl Default for Params {
    fn default() -> Params {
        Params {
            init_k: 64,
            index_size: 64,
            neighbor_neighbor_size: 100,
            threshold: 0.5,
        }
    }
}

impl Params {
    /// The length of the exact lists, 1 to 64 (64).
    pub fn init_k(mut self, init_k: usize) -> Params {
        self.init_k = init_k;
        self
    }

    /// The places of a graph row, 1 to 64 (64).
    pub fn index_size(mut self, index_size: usize) -> Params {
        self.index_size = index_size;
        self
    }

    /// The most two-hop candidates of a node, 1 to 256 (100).
    pub fn neighbor_neighbor_size(mut self, neighbor_neighbor_size: usize) -> Params {
        self.neighbor_neighbor_size = neighbor_neighbor_size;
        self
    }

    /// The cosine above which one entry occludes another, -1 to 1 (0.5).
    pub fn threshold(mut self, threshold: f32) -> Params {
        self.threshold = threshold;
        self
    }
}

/// The answer of a search: the named counters, nearest first, and the number of nodes taken from the queue.
#[derive(Clone, Debug, PartialEq)]
pub struct Found {
    /// The counters, nearest first, by distance and then number.
    pub neighbors: Vec<Neighbor>,
    /// How many nodes were taken from the queue.
    pub takings: usize,
}

/// A game of 2 to 4,096 counters with its graph.
#[derive(Clone, Debug)]
pub struct Game {
    points: Points,
    index_size: usize,
    graph: Vec<u32>,
}

impl Game {
    /// Teaches a game. Refusals: 1, 2, 3, 4, 5, and 10 at the first unfit pair.
    /// As every call does, it looks at the floating-point environment first and gives [`Error::Environment`] where it is not the default one.
    ///
    /// ```
    /// use spoonmeadow::{Game, Params, Points};
    /// let params = Params::default().init_k(2).index_size(2).neighbor_neighbor_size(10);
    /// let game = Game::teach(Points::new(1, vec![0.0, 1.0, 3.0, 7.0]), params)?;
    /// assert_eq!(game.graph(), [1, 2, 0, 2, 1, 2, 2, 4]);
    /// # Ok::<(), spoonmeadow::Error>(())
    /// ```
    pub fn teach(points: Points, params: Params) -> Result<Game, Error> {
        expect_default()?;
        let (n, init_k, index_size) = (points.n(), params.init_k, params.index_size);
        let passes = lengths::game(n, init_k, index_size);
        let mut graph = vec![0; lengths::made(passes, lengths::graph(n, index_size))];
        let room = lengths::made(passes, lengths::build_scratch(n, init_k, index_size));
        let said = lent::build(&points, params, &mut graph, Scratch::new().of(room));
        told(Call::Build, said.refusal, said.first, said.second)?;
        Ok(Game::with_graph(points, index_size, graph))
    }

    /// A game over a graph that was kept. Any contents are legal: a row is read up to its first value of n or more.
    pub fn with_graph(points: Points, index_size: usize, graph: Vec<u32>) -> Game {
        Game {
            points,
            index_size,
            graph,
        }
    }

    /// Names the nearest counters to a query: the less of k and the number of roots, nearest first.
    /// Refusals: 1, 2, 3, 4, 6 (a kept graph of another length), 7, 8, and 10 at the first unfit distance that is worked out.
    ///
    /// ```
    /// # use spoonmeadow::{Game, Params, Points};
    /// # let params = Params::default().init_k(2).index_size(2).neighbor_neighbor_size(10);
    /// # let game = Game::teach(Points::new(1, vec![0.0, 1.0, 3.0, 7.0]), params)?;
    /// let found = game.search(&[0, 3], &[7.0], 2)?;
    /// assert_eq!((found.neighbors[0].node, found.neighbors[0].distance), (3, 0.0));
    /// assert_eq!((found.neighbors[1].node, found.neighbors[1].distance), (2, 16.0));
    /// assert_eq!(found.takings, 3);
    ///
    /// let refused = game.search(&[0, 3], &[f32::NAN], 2).unwrap_err();
    /// assert_eq!(refused.to_string(), "10: the distance of node 0 and the query is unfit");
    /// # Ok::<(), spoonmeadow::Error>(())
    /// ```
    pub fn search(&self, roots: &[u32], query: &[f32], k: usize) -> Result<Found, Error> {
        self.search_in(&mut Scratch::new(), roots, query, k)
    }

    /// The same in scratch that is kept from call to call.
    pub fn search_in(
        &self,
        scratch: &mut Scratch,
        roots: &[u32],
        query: &[f32],
        k: usize,
    ) -> Result<Found, Error> {
        expect_default()?;
        let n = self.points.n();
        let passes = lengths::game(n, k, self.index_size);
        let mut nodes = vec![0; lengths::made(passes, k)];
        let mut bits = nodes.clone();
        let looked = Looked {
            graph: &self.graph,
            index_size: self.index_size,
            roots,
            query,
            k,
        };
        let lent = scratch.of(lengths::made(passes, lengths::search_scratch(n)));
        let found = lent::search(&self.points, &looked, &mut nodes, &mut bits, lent);
        told(Call::Search, found.refusal, found.first, found.second)?;
        let pairs = nodes.iter().zip(&bits).take(found.m);
        Ok(Found {
            neighbors: pairs
                .map(|(&node, &bits)| Neighbor {
                    node,
                    distance: f32::from_bits(bits),
                })
                .collect(),
            takings: found.takings,
        })
    }

    /// The counters' lanes.
    pub fn points(&self) -> &Points {
        &self.points
    }

    /// The graph, row by row.
    pub fn graph(&self) -> &[u32] {
        &self.graph
    }

    /// The live part of a node's row; nothing where it is no node.
    pub fn row(&self, node: usize) -> &[u32] {
        let at = node.saturating_mul(self.index_size);
        let row = self
            .graph
            .get(at..at.saturating_add(self.index_size))
            .unwrap_or(&[]);
        let live = row
            .iter()
            .take_while(|&&w| (w as usize) < self.points.n())
            .count();
        &row[..live]
    }
}
