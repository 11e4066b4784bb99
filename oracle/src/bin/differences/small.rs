//! hora's index and handler on small inputs, and what they give as words.

use oracle::core::knn::NNDescentHandler;
use oracle::core::metrics::Metric;
use oracle::core::neighbor::Neighbor;
use oracle::core::node::Node;
use oracle::index::ssg_idx::SSGIndex;
use oracle::index::ssg_params::SSGParams;
use oracle::local::branches;
use oracle::local::fixedbitset::FixedBitSet;

pub const MT: Metric = Metric::Euclidean;
pub const TWO: [&[f32]; 2] = [&[0.0], &[1.0]];

pub type Index = SSGIndex<f32, usize>;
pub type Handler<'a> = NNDescentHandler<'a, f32, usize>;
pub type Boxed = Vec<Box<Node<f32, usize>>>;

pub fn index(rows: &[&[f32]], params: SSGParams<f32>) -> Index {
    let dimension = rows.first().map_or(1, |r| r.len());
    let mut index = Index::new(dimension, &params);
    for (i, row) in rows.iter().enumerate() {
        index.add_node(&Node::new_with_idx(row, i)).unwrap();
    }
    index
}

pub fn params(init_k: usize, index_size: usize, neighbor_neighbor_size: usize) -> SSGParams<f32> {
    SSGParams::default()
        .init_k(init_k)
        .index_size(index_size)
        .neighbor_neighbor_size(neighbor_neighbor_size)
}

pub fn built(rows: &[&[f32]], params: SSGParams<f32>) -> Index {
    let mut index = index(rows, params);
    index.build(MT).unwrap();
    index
}

pub fn graph(rows: &[&[f32]], params: SSGParams<f32>) -> String {
    format!("graph {:?}", built(rows, params).rows())
}

pub fn pruned(rows: &[&[f32]], params: SSGParams<f32>) -> String {
    let index = built(rows, params);
    let nodes: Vec<usize> = index.rows_pruned().iter().map(|e| e.idx()).collect();
    format!("{:?}", nodes)
}

pub fn search(
    rows: &[&[f32]],
    graph: Vec<Vec<usize>>,
    roots: &[usize],
    k: usize,
    query: &[f32],
) -> String {
    let mut index = index(rows, params(1, 1, 1));
    index.give_graph(MT, graph);
    index.give_roots(roots);
    let found = index.node_search_k(&Node::new(query), k);
    branches::first_unfit();
    let found: Vec<(usize, f32)> = found.iter().map(|f| (f.0.idx().unwrap(), f.1)).collect();
    format!("{:?}, {} taken", found, index.takings())
}

pub fn boxed(lanes: &[f32]) -> Boxed {
    lanes
        .iter()
        .enumerate()
        .map(|(i, x)| Box::new(Node::new_with_idx(&[*x], i)))
        .collect()
}

/// A handler whose every context is the one given, on unfilled lists of k entries.
pub fn handler<'a>(nodes: &'a Boxed, k: usize, s: usize, new: &[usize]) -> Handler<'a> {
    let n = nodes.len();
    let mut handler = Handler::new(nodes, MT, k, s);
    let lists = vec![vec![Neighbor::new(n, f32::MAX); k]; n];
    let context = (new.to_vec(), Vec::new(), Vec::new(), Vec::new());
    handler.give_state(lists, vec![context; n], FixedBitSet::with_capacity(n * n));
    handler
}

pub fn lists(handler: &Handler) -> String {
    let lists: Vec<Vec<(usize, f32)>> = handler
        .graph()
        .iter()
        .map(|l| l.iter().map(|e| (e.idx(), e.distance())).collect())
        .collect();
    format!("{:?}", lists)
}
