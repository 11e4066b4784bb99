//! Runs a case over hora's Rust and writes its answer as lines.

use crate::cases::*;
use crate::core::knn::NNDescentHandler;
use crate::core::metrics::Metric;
use crate::core::neighbor::Neighbor;
use crate::core::node::Node;
use crate::index::ssg_idx::SSGIndex;
use crate::index::ssg_params::SSGParams;
use crate::local::branches;
use crate::local::fixedbitset::FixedBitSet;
use crate::local::rand;
use crate::text::*;

const MT: Metric = Metric::Euclidean;

type Index = SSGIndex<f32, usize>;
type Handler<'a> = NNDescentHandler<'a, f32, usize>;
type Boxed = Vec<Box<Node<f32, usize>>>;

pub fn answer_lines(case: &Case) -> Vec<Line> {
    match case {
        Case::Build(c) => build(c),
        Case::Search(c) => search(c),
        Case::Descent(c) => descent(c),
        Case::Iterate(c) => iterate(c),
        Case::Relay(c) => relay_lines(c),
        Case::Links(c) => links(c),
    }
}

fn nodes(lanes: &Lanes) -> Boxed {
    (0..lanes.nodes)
        .map(|i| Box::new(Node::new_with_idx(&lanes.of(i), i)))
        .collect()
}

/// Whether a distance is fit by document 01's rule: its bits are at most 0x7F7FFFFE.
pub fn fit(distance: f32) -> bool {
    distance.to_bits() < EMPTY
}

/// The first pair whose distance is unfit, if there is one.
pub fn unfit_pair(lanes: &Lanes) -> Option<(usize, usize)> {
    let nodes = nodes(lanes);
    (0..lanes.nodes)
        .flat_map(|i| (i + 1..lanes.nodes).map(move |j| (i, j)))
        .find(|(i, j)| !fit(nodes[*i].metric(&nodes[*j], MT).unwrap()))
}

/// The oracle gets fit inputs only; refusals are not the Rust's.
fn all_pairs_fit(lanes: &Lanes) {
    if let Some((i, j)) = unfit_pair(lanes) {
        panic!("UNFIT INPUT: the distance of nodes {} and {}", i, j);
    }
}

fn index(lanes: &Lanes, params: &SSGParams<f32>) -> Index {
    let mut index = Index::new(lanes.dimension, params);
    for node in nodes(lanes) {
        index.add_node(&node).unwrap();
    }
    index
}

fn plain(entries: &[Neighbor<f32, usize>]) -> Vec<Entry> {
    entries
        .iter()
        .map(|e| (e.idx() as u32, e.distance().to_bits()))
        .collect()
}

fn neighbors(entries: &[Entry]) -> Vec<Neighbor<f32, usize>> {
    entries
        .iter()
        .map(|e| Neighbor::new(e.0 as usize, f32::from_bits(e.1)))
        .collect()
}

fn narrow(numbers: &[usize]) -> Vec<u32> {
    numbers.iter().map(|x| *x as u32).collect()
}

fn wide(numbers: &[u32]) -> Vec<usize> {
    numbers.iter().map(|x| *x as usize).collect()
}

fn built(c: &Build) -> Index {
    all_pairs_fit(&c.lanes);
    let params = SSGParams::default()
        .init_k(c.init_k)
        .index_size(c.index_size)
        .neighbor_neighbor_size(c.neighbor_neighbor_size)
        .threshold(f32::from_bits(c.threshold));
    let mut index = index(&c.lanes, &params);
    index.build(MT).unwrap();
    index
}

/// The live nodes of each row, then n in every slot left.
fn flat(index: &Index, c: &Build) -> Vec<u32> {
    let mut graph = Vec::new();
    for row in index.rows() {
        let mut row = narrow(row);
        row.resize(c.index_size, c.lanes.nodes as u32);
        graph.extend(row);
    }
    graph
}

/// The graph alone, for the generator.
pub fn graph_of(c: &Build) -> Vec<u32> {
    flat(&built(c), c)
}

fn build(c: &Build) -> Vec<Line> {
    let n = c.lanes.nodes;
    let index = built(c);
    let mut lines: Vec<Line> = index
        .exact_lists()
        .iter()
        .map(|list| counted("exact", &narrow(list)))
        .collect();
    lines.extend(entries("pruned", &plain(index.rows_pruned()), n));
    lines.extend(entries("linked", &plain(index.rows_linked()), n));
    lines.push(line("graph", &flat(&index, c)));
    lines
}

fn links(c: &Links) -> Vec<Line> {
    all_pairs_fit(&c.lanes);
    let params = SSGParams::default()
        .index_size(c.index_size)
        .threshold(f32::from_bits(c.threshold));
    let mut index = index(&c.lanes, &params);
    index.give_graph(MT, Vec::new());
    let mut rows = neighbors(&c.rows);
    index.link_rows(&mut rows);
    entries("linked", &plain(&rows), c.lanes.nodes)
}

/// A row is read up to its first value of n or more; hora's rows hold just that part.
fn live_rows(c: &Search) -> Vec<Vec<usize>> {
    c.graph
        .chunks(c.index_size)
        .map(|row| {
            wide(row)
                .into_iter()
                .take_while(|x| *x < c.lanes.nodes)
                .collect()
        })
        .collect()
}

/// What a search found, and how many nodes it took from its queue.
pub struct Found {
    pub nodes: Vec<u32>,
    pub bits: Vec<u32>,
    pub takings: usize,
}

pub fn found(c: &Search) -> Found {
    let params = SSGParams::default().index_size(c.index_size);
    let mut index = index(&c.lanes, &params);
    index.give_graph(MT, live_rows(c));
    index.give_roots(&wide(&c.roots));
    let query: Vec<f32> = c.query.iter().map(|b| f32::from_bits(*b)).collect();
    let found = index.node_search_k(&Node::new(&query), c.k);
    if let Some(node) = branches::first_unfit() {
        panic!("UNFIT INPUT: the distance of node {} and the query", node);
    }
    Found {
        nodes: found.iter().map(|f| f.0.idx().unwrap() as u32).collect(),
        bits: found.iter().map(|f| f.1.to_bits()).collect(),
        takings: index.takings(),
    }
}

fn search(c: &Search) -> Vec<Line> {
    let found = found(c);
    vec![
        labelled(&[("found", found.nodes.len())]),
        line("found_nodes", &found.nodes),
        line("found_bits", &found.bits),
        labelled(&[("takings", found.takings)]),
    ]
}

fn state_of(handler: &Handler) -> State {
    State {
        lists: handler.graph().iter().flat_map(|l| plain(l)).collect(),
        contexts: handler
            .context()
            .iter()
            .map(|c| [narrow(&c.0), narrow(&c.1), narrow(&c.2), narrow(&c.3)])
            .collect(),
        visited: handler.visited().words().to_vec(),
    }
}

fn give(handler: &mut Handler, state: &State, n: usize, k: usize) {
    let lists = state.lists.chunks(k).map(neighbors).collect();
    let contexts = state
        .contexts
        .iter()
        .map(|[a, b, c, d]| (wide(a), wide(b), wide(c), wide(d)))
        .collect();
    handler.give_state(
        lists,
        contexts,
        FixedBitSet::from_words(&state.visited, n * n),
    );
}

/// One iteration: its counts, and the state it leaves.
pub struct Iterated {
    pub cost: usize,
    pub total_of_new: usize,
    pub state: State,
}

fn one_iteration(handler: &mut Handler, draws: &[u32]) -> Iterated {
    rand::lend_draws(draws);
    let total_of_new = handler.iterate();
    Iterated {
        cost: *handler.cost(),
        total_of_new,
        state: state_of(handler),
    }
}

fn iterated_lines(iterated: &Iterated, n: usize) -> Vec<Line> {
    let mut lines = vec![labelled(&[
        ("cost", iterated.cost),
        ("total_of_new", iterated.total_of_new),
    ])];
    lines.extend(state_lines(&iterated.state, n));
    lines
}

/// The state after begin, and each iteration.
pub fn descended(c: &Descent) -> (State, Vec<Iterated>) {
    all_pairs_fit(&c.lanes);
    let nodes = nodes(&c.lanes);
    let mut handler = Handler::new(&nodes, MT, c.k, c.s);
    rand::lend_draws(&c.begin_draws);
    handler.init();
    let begun = state_of(&handler);
    let draws = c.iteration_draws.iter();
    let iterated = draws.map(|d| one_iteration(&mut handler, d)).collect();
    (begun, iterated)
}

fn descent(c: &Descent) -> Vec<Line> {
    let n = c.lanes.nodes;
    let (begun, iterated) = descended(c);
    let mut lines = state_lines(&begun, n);
    for one in &iterated {
        lines.extend(iterated_lines(one, n));
    }
    lines
}

pub fn iterated(c: &Iterate) -> Iterated {
    all_pairs_fit(&c.lanes);
    let nodes = nodes(&c.lanes);
    let mut handler = Handler::new(&nodes, MT, c.k, c.s);
    give(&mut handler, &c.state, c.lanes.nodes, c.k);
    one_iteration(&mut handler, &c.draws)
}

fn iterate(c: &Iterate) -> Vec<Line> {
    iterated_lines(&iterated(c), c.lanes.nodes)
}

/// Where a job stands: steps done, and for each half whether it was taken up and whether its measure said yes.
#[derive(Default, Clone)]
struct Job {
    steps: usize,
    taken: [bool; 2],
    over: [bool; 2],
}

/// Each move's list as the move left it, beside its node; the lists at the end; each job's reports.
pub struct RelayAnswer {
    pub moved: Vec<(usize, Vec<Entry>)>,
    pub lists: Vec<Entry>,
    pub reports: Vec<u32>,
}

/// One locked step of `update_nn_node`, and the list that it concerns.
fn step(handler: &Handler, u: usize, v: usize, job: &mut Job) -> usize {
    let half = job.steps / 4;
    let (me, candidate) = if half == 0 { (u, v) } else { (v, u) };
    let lists = handler.lists();
    if u != v {
        let dist = handler.distance(me, candidate);
        assert!(
            fit(dist),
            "UNFIT INPUT: the distance of nodes {} and {}",
            u,
            v
        );
        match job.steps % 4 {
            0 => job.taken[half] = !handler.look_refuses(me, dist, lists),
            1 if job.taken[half] => handler.push(me, candidate, dist, lists),
            2 if job.taken[half] => job.over[half] = handler.measure(me, lists),
            3 if job.taken[half] && job.over[half] => handler.pop(me, lists),
            _ => {}
        }
    }
    job.steps += 1;
    me
}

/// A handler on a relay's lists; contexts and visited pairs have no part in it.
fn relay_handler<'a>(c: &Relay, nodes: &'a Boxed) -> Handler<'a> {
    let n = c.lanes.nodes;
    let mut handler = Handler::new(nodes, MT, c.k, 1);
    let lists = c.lists.chunks(c.k).map(neighbors).collect();
    let contexts = vec![Default::default(); n];
    handler.give_state(lists, contexts, FixedBitSet::with_capacity(n * n));
    handler
}

/// The lists after hora's uncut `update` of each job in turn, with no branch counted.
fn whole_updates(c: &Relay) -> Vec<Entry> {
    let nodes = nodes(&c.lanes);
    let handler = relay_handler(c, &nodes);
    let counts = branches::counts();
    for (u, v) in &c.jobs {
        handler.update(*u as usize, *v as usize, handler.lists());
    }
    branches::set_counts(counts);
    handler.graph().iter().flat_map(|l| plain(l)).collect()
}

pub fn relay(c: &Relay) -> RelayAnswer {
    let nodes = nodes(&c.lanes);
    let n = c.lanes.nodes;
    let handler = relay_handler(c, &nodes);
    let mut jobs = vec![Job::default(); c.jobs.len()];
    let mut moved = Vec::new();
    for (u, v) in &c.jobs {
        if u == v {
            branches::met("relay job with u = v");
        }
    }
    for name in &c.moves {
        let (u, v) = c.jobs[*name as usize];
        let touched = step(&handler, u as usize, v as usize, &mut jobs[*name as usize]);
        moved.push((touched, plain(&handler.graph()[touched])));
    }
    assert!(jobs.iter().all(|j| j.steps == 8), "a job is unfinished");
    let lists: Vec<Entry> = handler.graph().iter().flat_map(|l| plain(l)).collect();
    assert_eq!(lists.len(), n * c.k);
    let reports = jobs
        .iter()
        .flat_map(|j| j.taken.map(|taken| taken as u32))
        .collect::<Vec<u32>>();
    assert_eq!(
        lists,
        whole_updates(c),
        "the cuts give what hora's update gives"
    );
    RelayAnswer {
        moved,
        lists,
        reports,
    }
}

fn relay_lines(c: &Relay) -> Vec<Line> {
    let n = c.lanes.nodes;
    let answer = relay(c);
    let moved = answer.moved.iter();
    let mut lines: Vec<Line> = moved
        .map(|(_, list)| counted_entries("list", list, n))
        .collect();
    lines.extend(entries("final", &answer.lists, n));
    lines.push(line("reports", &answer.reports));
    lines
}
