// From hora-search/hora at 239bd36669, src/index/ssg_idx.rs, Apache-2.0 (see NOTICE). Changed: each change is marked `stand-in` or `local`.
#![allow(dead_code)]
// local: ann_index and kmeans are left out
use crate::core::metrics;
use crate::core::neighbor;
use crate::core::node;
use crate::index::ssg_params::SSGParams;
use crate::vec_iter;
use crate::counted; // local: takes a count unless a bench measures
use crate::local::branches; // local: counts of seldom-met branches
use crate::local::fixedbitset::FixedBitSet; // local: the crate fixedbitset
use crate::local::rayon::prelude::*; // local: the crate rayon
// local: rand and serde are left out
use std::cmp::Reverse;
use std::collections::BinaryHeap;
use std::collections::HashSet;
use std::collections::LinkedList;

use std::sync::atomic::{AtomicUsize, Ordering}; // local: for the count of takings
use std::sync::{Arc, Mutex};

#[derive(Debug)] // local: without serde
pub struct SSGIndex<E: node::FloatElement, T: node::IdxType> {
    nodes: Vec<Box<node::Node<E, T>>>,
    // local: `tmp_nodes` is left out with serde
    mt: metrics::Metric,
    dimension: usize,
    neighbor_neighbor_size: usize,
    index_size: usize,
    graph: Vec<Vec<usize>>,
    knn_graph: Vec<Vec<usize>>,
    init_k: usize, // as knn's k
    root_nodes: Vec<usize>,
    width: usize,
    // stand-in (d): `angle` and `root_size` are left out
    threshold: E,

    // stat
    search_times: AtomicUsize, // local: nodes taken from the queue; hora's field counts nothing
    // local: the rows after steps 4 and 5, kept for the program
    rows_pruned: Vec<neighbor::Neighbor<E, usize>>,
    rows_linked: Vec<neighbor::Neighbor<E, usize>>,
}

impl<E: node::FloatElement, T: node::IdxType> SSGIndex<E, T> {
    pub fn new(dimension: usize, params: &SSGParams<E>) -> SSGIndex<E, T> {
        SSGIndex::<E, T> {
            nodes: Vec::new(),
            mt: metrics::Metric::Unknown,
            dimension,
            neighbor_neighbor_size: params.neighbor_neighbor_size,
            init_k: params.init_k,
            graph: Vec::new(),
            knn_graph: Vec::new(),
            root_nodes: Vec::new(),
            width: 0,
            index_size: params.index_size,
            // stand-in (d): in place of `(params.angle / 180 * PI).cos()`
            threshold: params.threshold,

            search_times: AtomicUsize::new(0), // local: as above
            rows_pruned: Vec::new(), // local: as above
            rows_linked: Vec::new(), // local: as above
        }
    }

    fn build_knn_graph(&mut self) {
        let tmp_graph = Arc::new(Mutex::new(vec![vec![0]; self.nodes.len()]));
        vec_iter!(self.nodes, ctr);
        ctr.zip(0..self.nodes.len()).for_each(|(item, n)| {
            let mut heap = BinaryHeap::with_capacity(self.init_k);
            self.nodes
                .iter()
                .zip(0..self.nodes.len())
                .for_each(|(node, i)| {
                    if i == n {
                        return;
                    }
                    heap.push(neighbor::Neighbor::new(
                        i,
                        item.metric(node, self.mt).unwrap(),
                    ));
                    if heap.len() > self.init_k {
                        heap.pop();
                    }
                });
            let mut tmp = Vec::with_capacity(heap.len());
            while !heap.is_empty() {
                tmp.push(heap.pop().unwrap().idx());
            }

            tmp_graph.lock().unwrap()[n] = tmp;
        });
        self.graph = tmp_graph.lock().unwrap().to_vec();
        self.knn_graph = tmp_graph.lock().unwrap().to_vec();
    }

    // local: get_random_nodes_idx_lite is never called and is left out

    fn get_point_neighbor_size_neighbors(
        &self,
        q: usize,
        expand_neighbors_tmp: &mut Vec<neighbor::Neighbor<E, usize>>,
    ) {
        let mut flags = HashSet::with_capacity(self.neighbor_neighbor_size);

        flags.insert(q);
        for neighbor_id in self.graph[q].iter() {
            for nn_id in self.graph[*neighbor_id].iter() {
                if *neighbor_id == *nn_id {
                    continue;
                }
                if flags.contains(nn_id) {
                    continue;
                }
                flags.insert(*nn_id);
                let dist = self.nodes[q].metric(&self.nodes[*nn_id], self.mt).unwrap();
                expand_neighbors_tmp.push(neighbor::Neighbor::new(*nn_id, dist));
                if expand_neighbors_tmp.len() >= self.neighbor_neighbor_size {
                    counted!(branches::met("step two limit met")); // local: counted
                    return;
                }
            }
        }
    }

    // local: expand_connectivity is left behind

    fn link_each_nodes(&mut self, pruned_graph_tmp: &mut Vec<neighbor::Neighbor<E, usize>>) {
        let mut expand_neighbors_tmp = Vec::new();
        (0..self.nodes.len()).for_each(|i| {
            expand_neighbors_tmp.clear();
            self.get_point_neighbor_size_neighbors(i, &mut expand_neighbors_tmp); // get related one
            self.prune_graph(
                i,
                &mut expand_neighbors_tmp,
                self.threshold,
                pruned_graph_tmp,
            );
        });
        counted!(self.rows_pruned = pruned_graph_tmp.to_vec()); // local: kept for the program
        (0..self.nodes.len()).for_each(|i| {
            self.inter_insert(i, self.index_size, pruned_graph_tmp);
        });
        counted!(self.rows_linked = pruned_graph_tmp.to_vec()); // local: kept for the program
    }

    fn prune_graph(
        &mut self,
        query_id: usize,
        expand_neighbors_tmp: &mut Vec<neighbor::Neighbor<E, usize>>,
        threshold: E,
        pruned_graph_tmp: &mut Vec<neighbor::Neighbor<E, usize>>,
    ) {
        let mut start = 0;
        let mut flags = HashSet::with_capacity(expand_neighbors_tmp.len());
        for iter in expand_neighbors_tmp.iter() {
            flags.insert(iter.idx());
        }
        self.graph[query_id].iter().for_each(|linked_id| {
            if flags.contains(linked_id) {
                return;
            }
            counted!(branches::own_member_added(flags.len() >= self.neighbor_neighbor_size)); // local: counted
            expand_neighbors_tmp.push(neighbor::Neighbor::new(
                *linked_id,
                self.nodes[query_id]
                    .metric(&self.nodes[*linked_id], self.mt)
                    .unwrap(),
            ));
        });

        expand_neighbors_tmp.sort_unstable();
        let mut result = Vec::new();
        if expand_neighbors_tmp[start].idx() == query_id {
            start += 1;
        }
        result.push(expand_neighbors_tmp[start].clone());

        start += 1;
        while result.len() < self.index_size && start < expand_neighbors_tmp.len() {
            let p = &expand_neighbors_tmp[start];
            let mut occlude = false;
            // TODO: check every metrics, and decide use euclidean forcibly.
            for iter in result.iter() {
                if p.idx() == iter.idx() {
                    // stop early
                    counted!(branches::met("step three equal node occludes")); // local: counted
                    occlude = true;
                    break;
                }
                let djk = self.nodes[iter.idx()]
                    .metric(&self.nodes[p.idx()], self.mt)
                    .unwrap();
                let cos_ij = (p.distance().powi(2) + iter.distance().powi(2) - djk.powi(2))
                    / (E::from_usize(2).unwrap() * (p.distance() * iter.distance()));
                counted!(branches::cosine(p.distance(), iter.distance(), djk, cos_ij, threshold)); // local: counted

                if cos_ij > threshold {
                    occlude = true;
                    break;
                }
            }
            if !occlude {
                result.push(p.clone());
            }
            start += 1;
        }

        (0..result.len()).for_each(|t| {
            pruned_graph_tmp[t + query_id * self.index_size]._idx = result[t].idx();
            pruned_graph_tmp[t + query_id * self.index_size]._distance = result[t].distance();
        });
        if result.len() < self.index_size {
            (result.len()..self.index_size).for_each(|i| {
                pruned_graph_tmp[query_id * self.index_size + i]._distance = E::max_value();
                pruned_graph_tmp[query_id * self.index_size + i]._idx = self.nodes.len();
                // means not exist
            });
        }
    }

    // to handle neighbor's graph
    fn inter_insert(
        &self,
        n: usize,
        range: usize,
        pruned_graph_tmp: &mut Vec<neighbor::Neighbor<E, usize>>,
    ) {
        (0..range).for_each(|i| {
            if pruned_graph_tmp[i + n].distance() == E::max_value() {
                counted!(branches::met("step five empty slot passed")); // local: counted
                return;
            }
            counted!(branches::slot_read(pruned_graph_tmp, i + n, n, self.index_size)); // local: counted

            let sn = neighbor::Neighbor::new(n, pruned_graph_tmp[i + n].distance()); // distance of n to i
            let des = pruned_graph_tmp[i + n].idx();
            let mut temp_pool = Vec::new();
            let mut dup = false;

            for j in 0..range {
                if pruned_graph_tmp[j + des * self.index_size].distance() == E::max_value() {
                    break;
                }
                // each other has neighbor relationship
                if n == pruned_graph_tmp[j + des * self.index_size].idx() {
                    // neighbor and point meet
                    dup = true;
                    counted!(branches::met("step five already linked")); // local: counted
                    break;
                }
                temp_pool.push(pruned_graph_tmp[j + des * self.index_size].clone());
                // neighbor's neighbor
            }

            if dup {
                return;
            }

            temp_pool.push(sn.clone());
            if temp_pool.len() > range {
                let mut result = Vec::new();
                let mut start = 0;
                temp_pool.sort_unstable();
                counted!(branches::met("step five full row chosen again")); // local: counted
                result.push(temp_pool[start].clone());
                start += 1;
                while result.len() < range && start < temp_pool.len() {
                    let p = &temp_pool[start];
                    let mut occlude = false;
                    for rt in result.iter() {
                        if p.idx() == rt.idx() {
                            counted!(branches::met("step five equal node occludes")); // local: counted
                            occlude = true;
                            break;
                        }
                        let djk = self.nodes[rt.idx()]
                            .metric(&self.nodes[p.idx()], self.mt)
                            .unwrap();
                        let cos_ij = (p.distance().powi(2) + rt.distance().powi(2) - djk.powi(2))
                            / (E::from_usize(2).unwrap() * (p.distance() * rt.distance()));
                        counted!(branches::cosine(p.distance(), rt.distance(), djk, cos_ij, self.threshold)); // local: counted

                        if cos_ij > self.threshold {
                            occlude = true;
                            break;
                        }
                    }
                    if !occlude {
                        result.push(p.clone());
                    }
                    start += 1;
                }
                (0..result.len()).for_each(|t| {
                    pruned_graph_tmp[t + des * self.index_size] = result[t].clone();
                });

                if result.len() < range {
                    counted!(branches::row_shortened(result.len(), range)); // local: counted
                    pruned_graph_tmp[result.len() + des * self.index_size]._distance =
                        E::max_value();
                }
            } else {
                for t in 0..range {
                    if pruned_graph_tmp[t + des * self.index_size].distance() == E::max_value() {
                        pruned_graph_tmp[t + des * self.index_size] = sn.clone();
                        counted!(branches::offer_at_empty_slot(t + 1 < range)); // local: counted
                        if (t + 1) < range {
                            pruned_graph_tmp[t + des * self.index_size]._distance = E::max_value();
                            break;
                        }
                    }
                }
            }
        });
    }

    fn _build(&mut self) {
        self.build_knn_graph();

        let mut pruned_graph_tmp: Vec<neighbor::Neighbor<E, usize>> =
            Vec::with_capacity(self.nodes.len() * self.index_size);
        (0..self.nodes.len() * self.index_size).for_each(|i| {
            pruned_graph_tmp.push(neighbor::Neighbor::<E, usize>::new(i, E::float_zero()));
        });
        self.link_each_nodes(&mut pruned_graph_tmp);

        for i in 0..self.nodes.len() {
            let mut pool_size = 0;
            for j in 0..self.index_size {
                if pruned_graph_tmp[i * self.index_size + j].distance() == E::max_value() {
                    break;
                }
                pool_size = j;
            }
            pool_size += 1;
            self.graph[i] = Vec::with_capacity(pool_size);
            for j in 0..pool_size {
                self.graph[i].push(pruned_graph_tmp[i * self.index_size + j].idx());
            }
        }

        // local: expand_connectivity is left behind (its loop never runs: unknown_set starts empty)
        // stand-in (d): roots are given, in place of `kmeans::general_kmeans`

        // let mut max = 0;
        // let mut min = self.nodes.len();
        // let mut avg: f32 = 0.;
        // for t in 0..self.nodes.len() {
        //     let size = self.graph[t].len();
        //     max = if max < size { size } else { max };
        //     min = if min > size { size } else { min };
        //     avg += size as f32;
        // }
        // avg /= 1.0 * self.nodes.len() as f32;
    }

    fn search(&self, query: &node::Node<E, T>, k: usize) -> Vec<(node::Node<E, T>, E)> {
        // let mut search_flags = HashSet::with_capacity(self.nodes.len());
        let mut search_flags = FixedBitSet::with_capacity(self.nodes.len());
        let mut heap: BinaryHeap<neighbor::Neighbor<E, usize>> = BinaryHeap::new(); // max-heap
        let mut search_queue: LinkedList<usize> = LinkedList::new();

        let mut vec_tmp = Vec::with_capacity(self.root_nodes.len());
        self.root_nodes.iter().for_each(|n| {
            let dist = self.nodes[*n].metric(query, self.mt).unwrap();
            counted!(branches::worked_out(*n, dist)); // local: counted
            vec_tmp.push(neighbor::Neighbor::new(*n, dist));
        });
        vec_tmp.sort();
        counted!(branches::roots(vec_tmp.len(), k)); // local: counted
        for iter in vec_tmp.iter() {
            if heap.len() < k {
                heap.push(iter.clone());
                search_queue.push_back(iter.idx());
            }
            search_flags.insert(iter.idx());
        }

        // greedy BFS search
        while !search_queue.is_empty() {
            let id = search_queue.pop_front().unwrap();
            self.search_times.store(self.takings() + 1, Ordering::Relaxed); // local: counted
            counted!(branches::taken(heap.iter().any(|best| best.idx() == id))); // local: counted

            let mut tmp = BinaryHeap::with_capacity(self.graph[id].len());
            for iter in self.graph[id].iter() {
                if search_flags.contains(*iter) {
                    counted!(branches::seen_member(&tmp, *iter, &vec_tmp, k)); // local: counted
                    continue;
                }

                let dist = self.nodes[*iter].metric(query, self.mt).unwrap();
                counted!(branches::worked_out(*iter, dist)); // local: counted
                tmp.push(Reverse(neighbor::Neighbor::new(*iter, dist)));
                search_flags.insert(*iter);
            }
            while !tmp.is_empty() {
                let Reverse(item) = tmp.pop().unwrap();
                // let item = tmp.pop().unwrap();
                if item.distance() > heap.peek().unwrap().distance() {
                    counted!(branches::row_ended(tmp.len())); // local: counted
                    break;
                }
                counted!(branches::best_replaced(item.distance() == heap.peek().unwrap().distance())); // local: counted
                heap.pop();
                search_queue.push_back(item.idx());
                heap.push(item);
            }
        }

        let mut result = Vec::with_capacity(heap.len());

        while !heap.is_empty() {
            let tmp = heap.pop().unwrap();
            result.push((*self.nodes[tmp.idx()].clone(), tmp.distance()));
        }
        result.reverse();
        result
    }

    // local: check_edge and connectivity_profile are left behind
}

// local: load and dump are left behind

// local: the methods of ann_index::ANNIndex as plain ones, each made pub
impl<E: node::FloatElement, T: node::IdxType> SSGIndex<E, T> {
    pub fn build(&mut self, mt: metrics::Metric) -> Result<(), &'static str> {
        self.mt = mt;
        self._build();

        Result::Ok(())
    }
    pub fn add_node(&mut self, item: &node::Node<E, T>) -> Result<(), &'static str> {
        self.nodes.push(Box::new(item.clone()));
        Result::Ok(())
    }
    pub fn built(&self) -> bool {
        true
    }
    pub fn node_search_k(&self, item: &node::Node<E, T>, k: usize) -> Vec<(node::Node<E, T>, E)> {
        self.search(item, k)
    }

    pub fn name(&self) -> &'static str {
        "SSGIndex"
    }

    pub fn nodes_size(&self) -> usize {
        self.nodes.len()
    }

    pub fn dimension(&self) -> usize {
        self.dimension
    }
}

// local: what the program gives and asks for
impl<E: node::FloatElement, T: node::IdxType> SSGIndex<E, T> {
    pub fn give_roots(&mut self, roots: &[usize]) {
        self.root_nodes = roots.to_vec();
    }

    pub fn give_graph(&mut self, mt: metrics::Metric, graph: Vec<Vec<usize>>) {
        self.mt = mt;
        self.graph = graph;
    }

    pub fn exact_lists(&self) -> &Vec<Vec<usize>> {
        &self.knn_graph
    }

    pub fn rows_pruned(&self) -> &[neighbor::Neighbor<E, usize>] {
        &self.rows_pruned
    }

    pub fn rows_linked(&self) -> &[neighbor::Neighbor<E, usize>] {
        &self.rows_linked
    }

    pub fn rows(&self) -> &Vec<Vec<usize>> {
        &self.graph
    }

    pub fn takings(&self) -> usize {
        self.search_times.load(Ordering::Relaxed)
    }

    /// Step 5 alone, on rows of any contents; the metric is set by `give_graph`.
    pub fn link_rows(&self, rows: &mut Vec<neighbor::Neighbor<E, usize>>) {
        (0..self.nodes.len()).for_each(|i| {
            self.inter_insert(i, self.index_size, rows);
        });
    }
}
