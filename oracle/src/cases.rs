//! The kinds of case, as numbers: f32 lanes, distances and thresholds are bits throughout.

/// The distance bits of an empty slot or an unfilled entry.
pub const EMPTY: u32 = 0x7F7F_FFFF;

/// A node number beside distance bits.
pub type Entry = (u32, u32);

#[derive(Clone, Debug)]
pub struct Lanes {
    pub dimension: usize,
    pub nodes: usize,
    pub bits: Vec<u32>,
}

impl Lanes {
    pub fn of(&self, node: usize) -> Vec<f32> {
        self.bits[node * self.dimension..(node + 1) * self.dimension]
            .iter()
            .map(|b| f32::from_bits(*b))
            .collect()
    }
}

#[derive(Clone, Debug)]
pub struct Build {
    pub lanes: Lanes,
    pub init_k: usize,
    pub index_size: usize,
    pub neighbor_neighbor_size: usize,
    pub threshold: u32,
}

/// Step 5 alone, on rows of any contents.
#[derive(Clone, Debug)]
pub struct Links {
    pub lanes: Lanes,
    pub index_size: usize,
    pub threshold: u32,
    pub rows: Vec<Entry>,
}

#[derive(Clone, Debug)]
pub struct Search {
    pub lanes: Lanes,
    pub index_size: usize,
    pub k: usize,
    pub roots: Vec<u32>,
    pub query: Vec<u32>,
    pub graph: Vec<u32>,
}

/// Lists, contexts (new, old, reversed-new, reversed-old of each node) and visited pairs as words.
#[derive(Clone, Debug)]
pub struct State {
    pub lists: Vec<Entry>,
    pub contexts: Vec<[Vec<u32>; 4]>,
    pub visited: Vec<u32>,
}

/// Begin, and then one iteration for each run of draws.
#[derive(Clone, Debug)]
pub struct Descent {
    pub lanes: Lanes,
    pub k: usize,
    pub s: usize,
    pub begin_draws: Vec<u32>,
    pub iteration_draws: Vec<Vec<u32>>,
}

/// One iteration from a given state.
#[derive(Clone, Debug)]
pub struct Iterate {
    pub lanes: Lanes,
    pub k: usize,
    pub s: usize,
    pub state: State,
    pub draws: Vec<u32>,
}

#[derive(Clone, Debug)]
pub struct Relay {
    pub lanes: Lanes,
    pub k: usize,
    pub lists: Vec<Entry>,
    pub jobs: Vec<(u32, u32)>,
    pub moves: Vec<u32>,
}

#[derive(Clone, Debug)]
pub enum Case {
    Build(Build),
    Search(Search),
    Descent(Descent),
    Iterate(Iterate),
    Relay(Relay),
    Links(Links),
}

impl Case {
    pub fn kind(&self) -> u32 {
        match self {
            Case::Build(_) => 1,
            Case::Search(_) => 2,
            Case::Descent(_) => 3,
            Case::Iterate(_) => 4,
            Case::Relay(_) => 5,
            Case::Links(_) => 6,
        }
    }
}
