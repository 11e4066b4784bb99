//! Entries 1 to 14: the inputs of a build and of a search, and of a descent where such an entry names one.

use crate::small::{
    boxed, built, graph, handler, index, lists, params, pruned, search, Handler, MT, TWO,
};
use crate::tally::Tally;
use oracle::core::node::Node;
use oracle::local::rand;

pub fn see(t: &mut Tally) {
    lanes(t);
    distances(t);
    sizes(t);
    parameters(t);
    searches(t);
    rows(t);
}

fn lanes(t: &mut Tally) {
    t.see(
        "1 build, lanes 0 and infinity",
        "panics: invalid float element",
        || graph(&[&[0.0], &[f32::INFINITY]], params(1, 1, 1)),
    );
    t.see(
        "1 search, query NaN",
        "panics: invalid float element",
        || search(&TWO, vec![vec![], vec![]], &[0], 1, &[f32::NAN]),
    );
    t.see(
        "1 search, a NaN lane that no walk reaches",
        "panics: invalid float element",
        || {
            search(
                &[&[0.0], &[f32::NAN]],
                vec![vec![], vec![]],
                &[0],
                1,
                &[0.0],
            )
        },
    );
}

fn distances(t: &mut Tally) {
    let far = f32::from_bits(0x5F80_0000);
    t.see(
        "2 build, lanes 0 and 0x5F800000 (infinite distance)",
        "graph [[1], [0]]",
        || graph(&[&[0.0], &[far]], params(1, 1, 1)),
    );
    t.see("2 search, query 0x5F800000", "[(0, inf)], 1 taken", || {
        search(&TWO, vec![vec![], vec![]], &[0], 1, &[far])
    });
    let largest: [&[f32]; 2] = [
        &[0.0, 0.0],
        &[f32::from_bits(0x5F7F_FFFF), f32::from_bits(0x5980_0000)],
    ];
    t.see("2 distance of exactly 0x7F7FFFFF", "7f7fffff", || {
        let d = Node::<f32, usize>::new(largest[0])
            .metric(&Node::new(largest[1]), MT)
            .unwrap();
        format!("{:x}", d.to_bits())
    });
    t.see(
        "3 build on it: both rows are empty by distance, yet one node each",
        "graph [[1], [0]]",
        || graph(&largest, params(1, 2, 1)),
    );
    t.see(
        "2 descent, infinite distance: the offer is refused",
        "[[(2, 3.4028235e38)], [(2, 3.4028235e38)]]",
        || {
            let nodes = boxed(&[0.0, far]);
            let mut h = handler(&nodes, 1, 1, &[0, 1]);
            h.iterate();
            lists(&h)
        },
    );
}

fn sizes(t: &mut Tally) {
    t.see(
        "4 build, n 1",
        "panics: index out of bounds: the len is 0 but the index is 0",
        || graph(&[&[0.0]], params(1, 1, 1)),
    );
    t.see("4 build, n 0", "graph []", || graph(&[], params(1, 1, 1)));
    t.see("4 search, n 1", "[(0, 0.0)], 1 taken", || {
        search(&[&[0.0]], vec![vec![]], &[0], 1, &[0.0])
    });
    t.see(
        "4 descent, n 1: one iteration",
        "cost 0, [[(1, 3.4028235e38)]]",
        || {
            let nodes = boxed(&[0.0]);
            let mut h = Handler::new(&nodes, MT, 1, 1);
            rand::lend_draws(&[0, 0]);
            h.init();
            rand::lend_draws(&[]);
            h.iterate();
            format!("cost {}, {}", h.cost(), lists(&h))
        },
    );
    t.see("5 build, dimension 0", "graph [[1], [0]]", || {
        graph(&[&[], &[]], params(1, 1, 1))
    });
    t.see("5 build, dimension 65", "graph [[1], [0]]", || {
        graph(&[&[0.0; 65], &[1.0; 65]], params(1, 1, 1))
    });
    t.see(
        "6 build, a node of another dimension",
        "panics: called `Result::unwrap()` on an `Err` value: \"different dimensions\"",
        || graph(&[&[0.0], &[0.0, 1.0]], params(1, 1, 1)),
    );
    t.see(
        "6 search, a query of another dimension",
        "panics: called `Result::unwrap()` on an `Err` value: \"different dimensions\"",
        || search(&TWO, vec![vec![], vec![]], &[0], 1, &[0.0, 1.0]),
    );
}

fn parameters(t: &mut Tally) {
    t.see(
        "7 build, init_k 0",
        "panics: index out of bounds: the len is 0 but the index is 0",
        || graph(&TWO, params(0, 1, 1)),
    );
    t.see("7 build, init_k 65", "graph [[1], [0]]", || {
        graph(&TWO, params(65, 1, 1))
    });
    t.see(
        "7 build, index_size 0",
        "panics: index out of bounds: the len is 0 but the index is 0",
        || graph(&TWO, params(1, 0, 1)),
    );
    let five: [&[f32]; 5] = [&[0.0], &[1.0], &[2.0], &[4.0], &[8.0]];
    t.see(
        "7 build, neighbor_neighbor_size 0 gives what 1 gives",
        "true",
        || {
            let zero = graph(&five, params(2, 2, 0));
            (zero == graph(&five, params(2, 2, 1))).to_string()
        },
    );
    let three: [&[f32]; 3] = [&[0.0], &[1.0], &[2.0]];
    t.see(
        "8 build, threshold NaN: rows after step 4, nothing occludes",
        "[1, 2, 0, 2, 1, 0]",
        || pruned(&three, params(2, 2, 9).threshold(f32::NAN)),
    );
    t.see(
        "8 build, threshold -2: rows after step 4",
        "[1, 3, 0, 2, 1, 3]",
        || pruned(&three, params(2, 2, 9).threshold(-2.0)),
    );
}

fn searches(t: &mut Tally) {
    let linked = vec![vec![1], vec![0]];
    t.see("9 search, k 0", "[], 0 taken", || {
        search(&TWO, linked.clone(), &[0], 0, &[0.0])
    });
    t.see("9 search, k 65", "[(0, 0.0)], 1 taken", || {
        search(&TWO, linked.clone(), &[0], 65, &[0.0])
    });
    t.see("10 search, no roots", "[], 0 taken", || {
        search(&TWO, linked.clone(), &[], 1, &[0.0])
    });
    t.see(
        "10 search, roots 0 and 0",
        "[(0, 0.0), (0, 0.0)], 2 taken",
        || search(&TWO, linked.clone(), &[0, 0], 2, &[0.0]),
    );
    t.see(
        "10 search, root 2 of n 2",
        "panics: index out of bounds: the len is 2 but the index is 2",
        || search(&TWO, linked.clone(), &[2], 1, &[0.0]),
    );
    t.see(
        "11 search, a row that holds 2 at n 2",
        "panics: index out of bounds: the len is 2 but the index is 2",
        || search(&TWO, vec![vec![2, 1], vec![]], &[0], 1, &[0.0]),
    );
    t.see(
        "12 search before any build",
        "panics: called `Result::unwrap()` on an `Err` value: \"unknown method\"",
        || {
            let mut fresh = index(&TWO, params(1, 1, 1));
            fresh.give_roots(&[0]);
            format!("{}", fresh.node_search_k(&Node::new(&[0.0]), 1).len())
        },
    );
}

fn rows(t: &mut Tally) {
    let lanes: [&[f32]; 4] = [&[0.0], &[1.0], &[3.0], &[7.0]];
    t.see(
        "13 C with index_size 3: nodes of row 0 after step 5",
        "[1, 3, 4], live [1]",
        || {
            let index = built(&lanes, params(2, 3, 10));
            let row = &index.rows_linked()[..3];
            let nodes: Vec<usize> = row.iter().map(|e| e.idx()).collect();
            let live: Vec<usize> = row
                .iter()
                .filter(|e| e.distance() < f32::MAX)
                .map(|e| e.idx())
                .collect();
            format!("{:?}, live {:?}", nodes, live)
        },
    );
    t.see(
        "14 C with index_size 3: rows have lengths of their own",
        "graph [[1], [0, 2], [1], [2]]",
        || graph(&lanes, params(2, 3, 10)),
    );
}
