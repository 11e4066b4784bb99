// From hora-search/hora at 239bd36669, src/core/knn.rs, Apache-2.0 (see NOTICE). Changed: each change is marked `stand-in` or `local`.
#![allow(dead_code)]
use crate::core::metrics;
use crate::core::neighbor::Neighbor;
use crate::core::node::{FloatElement, IdxType, Node};
use crate::counted; // local: takes a count unless a bench measures
use crate::local::branches; // local: counts of seldom-met branches
use crate::local::fixedbitset::FixedBitSet; // local: the crate fixedbitset
use crate::local::rand; // stand-in (c): the caller's draws under the crate's name
use crate::local::rand::seq::SliceRandom; // stand-in (c)
use crate::local::rand::Rng; // stand-in (c)
use crate::local::rayon::prelude::*; // local: the crate rayon
use std::collections::BinaryHeap;
use std::sync::mpsc;

use std::sync::{Arc, Mutex};

// local: naive_build_knn_graph is not part of NNDescentHandler and is left out

pub struct NNDescentHandler<'a, E: FloatElement, T: IdxType> {
    nodes: &'a [Box<Node<E, T>>],
    graph: Vec<Arc<Mutex<BinaryHeap<Neighbor<E, usize>>>>>,
    mt: metrics::Metric,
    k: usize,
    visited_id: FixedBitSet,
    calculation_context: Vec<(Vec<usize>, Vec<usize>, Vec<usize>, Vec<usize>)>, // nn_new_neighbors, nn_old_neighbors, reversed_new_neighbors, reversed_old_neighbors
    // local: `rho` is left out, s is given
    cost: usize,
    s: usize,
    update_cnt: usize,
}

impl<'a, E: FloatElement, T: IdxType> NNDescentHandler<'a, E, T> {
    // local: s is given, in place of `rho` and `(rho * k as f32) as usize`
    pub fn new(nodes: &'a [Box<Node<E, T>>], mt: metrics::Metric, k: usize, s: usize) -> Self {
        NNDescentHandler {
            nodes,
            graph: Vec::new(), // TODO: as params
            mt,
            k,
            visited_id: FixedBitSet::with_capacity(nodes.len() * nodes.len()),
            calculation_context: Vec::new(),
            cost: 0,
            s, // local: given
            update_cnt: 0,
        }
    }

    // local: pub
    pub fn update(
        &self,
        u1: usize,
        u2: usize,
        my_graph: &[Arc<Mutex<BinaryHeap<Neighbor<E, usize>>>>],
    ) -> bool {
        if u1 == u2 {
            return false;
        }

        self.update_nn_node(u1, u2, my_graph);
        self.update_nn_node(u2, u1, my_graph);
        true
    }

    fn update_nn_node(
        &self,
        me: usize,
        candidate: usize,
        my_graph: &[Arc<Mutex<BinaryHeap<Neighbor<E, usize>>>>],
    ) -> bool {
        let dist = self.nodes[me]
            .metric(&self.nodes[candidate], self.mt)
            .unwrap();
        // local: cut at its four locks; each cut holds the expression that stood here
        if self.look_refuses(me, dist, my_graph) {
            false
        } else {
            self.push(me, candidate, dist, my_graph);
            if self.measure(me, my_graph) {
                self.pop(me, my_graph);
            }
            true
        }
    }

    // local: pub
    pub fn init(&mut self) {
        self.visited_id = FixedBitSet::with_capacity(self.nodes.len() * self.nodes.len());
        self.graph.clear();

        self.graph = (0..self.nodes.len())
            .into_par_iter()
            .map(|_i| {
                let mut v = BinaryHeap::with_capacity(self.k * 2);
                for _j in 0..self.k {
                    v.push(Neighbor::new(self.nodes.len(), E::max_value()));
                }
                Arc::new(Mutex::new(v))
            })
            .collect();

        self.calculation_context = (0..self.nodes.len())
            .into_par_iter()
            .map(|_i| {
                let mut nn_new_neighbors: Vec<usize> = Vec::with_capacity(self.s);
                let nn_old_neighbors: Vec<usize> = Vec::with_capacity(self.s);
                for _j in 0..self.s {
                    let rand_val = rand::thread_rng().gen_range(0..self.nodes.len());
                    nn_new_neighbors.push(rand_val);
                }

                let mut reversed_new_neighbors: Vec<usize> = Vec::with_capacity(self.s);
                let reversed_old_neighbors: Vec<usize> = Vec::with_capacity(self.s);
                for _j in 0..self.s {
                    let rand_val = rand::thread_rng().gen_range(0..self.nodes.len());
                    reversed_new_neighbors.push(rand_val);
                }
                (
                    nn_new_neighbors,
                    nn_old_neighbors,
                    reversed_new_neighbors,
                    reversed_old_neighbors,
                )
            })
            .collect();
    }

    fn iterate_nn(&self) -> (usize, FixedBitSet) {
        let my_graph = &self.graph;
        let length = self.nodes.len();
        // let (sender, receiver) = mpsc::channel();

        // cc += (0..self.nodes.len())
        self.calculation_context
            .par_iter()
            .map(
                |(
                    nn_new_neighbors,
                    nn_old_neighbors,
                    reversed_new_neighbors,
                    reversed_old_neighbors,
                )| {
                    let mut flags = FixedBitSet::with_capacity(length * length);
                    // local: counted
                    counted!(branches::context(
                        nn_new_neighbors,
                        nn_old_neighbors,
                        reversed_new_neighbors,
                        reversed_old_neighbors,
                    ));
                    let mut ccc: usize = 0;
                    for j in 0..nn_new_neighbors.len() {
                        for k in j..nn_new_neighbors.len() {
                            if self.update(nn_new_neighbors[j], nn_new_neighbors[k], my_graph) {
                                ccc += 1;
                            }
                            flags.insert(nn_new_neighbors[j] * length + nn_new_neighbors[k]);
                            flags.insert(nn_new_neighbors[k] * length + nn_new_neighbors[j]);
                        }
                    }

                    nn_new_neighbors.iter().for_each(|j| {
                        nn_old_neighbors.iter().for_each(|k| {
                            if self.update(*j, *k, my_graph) {
                                ccc += 1;
                            }
                            flags.insert(j * length + k);
                            flags.insert(k * length + j);
                        })
                    });

                    for j in 0..reversed_new_neighbors.len() {
                        for k in j..reversed_new_neighbors.len() {
                            if reversed_new_neighbors[j] >= reversed_new_neighbors[k] {
                                counted!(branches::reversed_pair_skipped(j, k, reversed_new_neighbors)); // local: counted
                                continue;
                            }
                            if self.update(
                                reversed_new_neighbors[j],
                                reversed_new_neighbors[k],
                                my_graph,
                            ) {
                                ccc += 1;
                            }
                            flags.insert(
                                reversed_new_neighbors[j] * length + reversed_new_neighbors[k],
                            );
                            flags.insert(
                                reversed_new_neighbors[k] * length + reversed_new_neighbors[j],
                            );
                        }
                    }
                    reversed_new_neighbors.iter().for_each(|j| {
                        reversed_old_neighbors.iter().for_each(|k| {
                            if self.update(*j, *k, my_graph) {
                                ccc += 1;
                            }
                            flags.insert(j * length + k);
                            flags.insert(k * length + j);
                        })
                    });

                    nn_new_neighbors.iter().for_each(|j| {
                        reversed_old_neighbors.iter().for_each(|k| {
                            if self.update(*j, *k, my_graph) {
                                ccc += 1;
                            }
                            flags.insert(j * length + k);
                            flags.insert(k * length + j);
                        })
                    });

                    nn_new_neighbors.iter().for_each(|j| {
                        reversed_new_neighbors.iter().for_each(|k| {
                            if self.update(*j, *k, my_graph) {
                                ccc += 1;
                            }
                            flags.insert(j * length + k);
                            flags.insert(k * length + j);
                        })
                    });

                    nn_old_neighbors.iter().for_each(|j| {
                        reversed_new_neighbors.iter().for_each(|k| {
                            if self.update(*j, *k, my_graph) {
                                ccc += 1;
                            }
                            flags.insert(j * length + k);
                            flags.insert(k * length + j);
                        })
                    });
                    (ccc, flags)
                },
            )
            .reduce(
                || (0, FixedBitSet::with_capacity(length * length)),
                |(ccc1, mut flags1), (ccc2, flags2)| {
                    flags1.union_with(&flags2);
                    (ccc1 + ccc2, flags1)
                },
            )
    }

    // local: pub
    pub fn iterate(&mut self) -> usize {
        self.update_cnt = 0;
        self.cost = 0;

        let (cc, flags) = self.iterate_nn();
        self.visited_id.union_with(&flags);

        //         s.send(flags).unwrap();
        //         ccc
        //     })
        //     .sum::<usize>();

        // receiver.iter().for_each(|flags| {
        //     flags.iter().for_each(|j| {
        //         self.visited_id.set(*j, true);
        //     });
        // });

        self.graph.par_iter().for_each(|graph| {
            while graph.lock().unwrap().len() > self.k {
                graph.lock().unwrap().pop();
            }
        });

        self.cost += cc;
        let mut t = 0;

        let (sender2, receiver2) = mpsc::channel();
        // let pending_status2: Vec<(usize, usize, Vec<usize>, Vec<usize>, Vec<usize>)> = (0..self
        //     .nodes
        //     .len())
        t += (0..self.nodes.len())
            .into_par_iter()
            .map_with(sender2, |s, i| {
                // .map(|i| {
                let mut nn_new_neighbors = Vec::with_capacity(self.graph[i].lock().unwrap().len());
                let mut nn_old_neighbors = Vec::with_capacity(self.graph[i].lock().unwrap().len());
                let mut flags = Vec::with_capacity(self.graph[i].lock().unwrap().len());
                let graph_item: Vec<Neighbor<E, usize>> =
                    self.graph[i].lock().unwrap().clone().into_sorted_vec(); // stand-in (b): ascending, in place of `into_vec`

                let mut tt: usize = 0;

                for (j, the_graph_item) in graph_item.iter().enumerate().take(self.k) {
                    if the_graph_item.idx() == self.nodes.len() {
                        // init value, pass
                        continue;
                    }
                    if self
                        .visited_id
                        .contains(self.nodes.len() * i + the_graph_item.idx())
                    {
                        nn_new_neighbors.push(j);
                    } else {
                        nn_old_neighbors.push(the_graph_item.idx());
                    }
                }

                tt += nn_new_neighbors.len();

                if nn_new_neighbors.len() > self.s {
                    let mut rng = rand::thread_rng();
                    nn_new_neighbors.shuffle(&mut rng);
                    counted!(branches::new_list_cut(&nn_new_neighbors, &graph_item, self.s)); // local: counted
                    nn_new_neighbors = nn_new_neighbors[self.s..].to_vec();
                }

                nn_new_neighbors.iter_mut().for_each(|j| {
                    flags.push(i * self.nodes.len() + graph_item[*j].idx());
                    *j = graph_item[*j].idx();
                });

                s.send((i, nn_new_neighbors, nn_old_neighbors, flags))
                    .unwrap();
                tt
                // (i, tt, nn_new_neighbors, nn_old_neighbors, flags)
            })
            // .collect();
            .sum::<usize>();

        // t += pending_status2
        //     .iter()
        //     .map(|(i, tt, nn_new_neighbors, nn_old_neighbors, flags)| {
        //         self.nn_new_neighbors[*i] = nn_new_neighbors.to_vec();
        //         self.nn_old_neighbors[*i] = nn_old_neighbors.to_vec();
        //         flags.iter().for_each(|j| {
        //             self.visited_id.set(*j, false);
        //         });
        //         tt
        //     })
        //     .sum::<usize>();

        receiver2
            .iter()
            .for_each(|(i, nn_new_neighbors, nn_old_neighbors, flags)| {
                self.calculation_context[i].0 = nn_new_neighbors;
                self.calculation_context[i].1 = nn_old_neighbors;
                flags.iter().for_each(|j| {
                    self.visited_id.set(*j, false);
                });
            });

        let reversed_new_neighbors = vec![Arc::new(Mutex::new(Vec::new())); self.nodes.len()];
        let reversed_old_neighbors = vec![Arc::new(Mutex::new(Vec::new())); self.nodes.len()];

        (0..self.nodes.len()).into_par_iter().for_each(|i| {
            for e in 0..self.calculation_context[i].1.len() {
                reversed_old_neighbors[self.calculation_context[i].1[e]]
                    .lock()
                    .unwrap()
                    .push(i);
            }
            for e in 0..self.calculation_context[i].0.len() {
                reversed_new_neighbors[self.calculation_context[i].0[e]]
                    .lock()
                    .unwrap()
                    .push(i);
            }
        });

        (0..self.nodes.len()).into_par_iter().for_each(|i| {
            let mut rng = rand::thread_rng();
            if reversed_old_neighbors[i].lock().unwrap().len() > self.s {
                counted!(branches::met("descent reversed-old list cut")); // local: counted
                reversed_old_neighbors[i].lock().unwrap().shuffle(&mut rng);
                reversed_old_neighbors[i].lock().unwrap().resize(self.s, 0);
            }
            if reversed_new_neighbors[i].lock().unwrap().len() > self.s {
                counted!(branches::met("descent reversed-new list cut")); // local: counted
                reversed_new_neighbors[i].lock().unwrap().shuffle(&mut rng);
                reversed_new_neighbors[i].lock().unwrap().resize(self.s, 0);
            }
        });

        (0..self.nodes.len()).for_each(|i| {
            self.calculation_context[i].2 = reversed_new_neighbors[i]
                .lock()
                .unwrap()
                .iter()
                .copied()
                .collect();
            self.calculation_context[i].3 = reversed_old_neighbors[i]
                .lock()
                .unwrap()
                .iter()
                .copied()
                .collect();
        });

        t
    }

    // local: pub
    pub fn graph(&self) -> Vec<Vec<Neighbor<E, usize>>> {
        let mut graph: Vec<Vec<Neighbor<E, usize>>> = Vec::with_capacity(self.graph.len());
        for iter in self.graph.iter() {
            graph.push(iter.lock().unwrap().clone().into_sorted_vec()); // stand-in (b): ascending, in place of `iter().cloned()`
        }
        graph
    }

    // local: pub
    pub fn cost(&self) -> &usize {
        &self.cost
    }

    fn ths_update_cnt(&self) -> &usize {
        &self.update_cnt
    }
}

// local: the four cuts of update_nn_node, and what the program gives and asks for
impl<'a, E: FloatElement, T: IdxType> NNDescentHandler<'a, E, T> {
    // local: the first lock
    pub fn look_refuses(
        &self,
        me: usize,
        dist: E,
        my_graph: &[Arc<Mutex<BinaryHeap<Neighbor<E, usize>>>>],
    ) -> bool {
        counted!(branches::look(&my_graph[me].lock().unwrap(), dist, self.k)); // local: counted
        dist > my_graph[me].lock().unwrap().peek().unwrap().distance()
    }

    // local: the second lock
    pub fn push(
        &self,
        me: usize,
        candidate: usize,
        dist: E,
        my_graph: &[Arc<Mutex<BinaryHeap<Neighbor<E, usize>>>>],
    ) {
        counted!(branches::push(&my_graph[me].lock().unwrap(), candidate)); // local: counted
        my_graph[me]
            .lock()
            .unwrap()
            .push(Neighbor::new(candidate, dist));
    }

    // local: the third lock
    pub fn measure(
        &self,
        me: usize,
        my_graph: &[Arc<Mutex<BinaryHeap<Neighbor<E, usize>>>>],
    ) -> bool {
        my_graph[me].lock().unwrap().len() > self.k
    }

    // local: the fourth lock
    pub fn pop(&self, me: usize, my_graph: &[Arc<Mutex<BinaryHeap<Neighbor<E, usize>>>>]) {
        my_graph[me].lock().unwrap().pop();
    }

    // local: the distance that update_nn_node works out first
    pub fn distance(&self, me: usize, candidate: usize) -> E {
        self.nodes[me]
            .metric(&self.nodes[candidate], self.mt)
            .unwrap()
    }

    pub fn give_state(
        &mut self,
        graph: Vec<Vec<Neighbor<E, usize>>>,
        context: Vec<(Vec<usize>, Vec<usize>, Vec<usize>, Vec<usize>)>,
        visited: FixedBitSet,
    ) {
        self.graph = graph
            .into_iter()
            .map(|list| Arc::new(Mutex::new(list.into_iter().collect())))
            .collect();
        self.calculation_context = context;
        self.visited_id = visited;
    }

    pub fn lists(&self) -> &[Arc<Mutex<BinaryHeap<Neighbor<E, usize>>>>] {
        &self.graph
    }

    pub fn context(&self) -> &Vec<(Vec<usize>, Vec<usize>, Vec<usize>, Vec<usize>)> {
        &self.calculation_context
    }

    pub fn visited(&self) -> &FixedBitSet {
        &self.visited_id
    }
}

// local: the commented-out tests are left out
