//! Inputs that 01 refuses in a descent or a relay: entries 15 to 17.

use crate::small::{boxed, handler, lists, Handler, MT};
use crate::tally::Tally;

pub fn see(t: &mut Tally) {
    sizes(t);
    states(t);
}

fn sizes(t: &mut Tally) {
    let nodes = boxed(&[0.0, 1.0]);
    t.see("15 hora's s for rho 0.2 and k 4", "0", || {
        ((0.2f32 * 4.0) as usize).to_string()
    });
    t.see("15 hora's s for rho 1.5 and k 4", "6", || {
        ((1.5f32 * 4.0) as usize).to_string()
    });
    t.see("15 descent, s 0: begin and one iteration", "cost 0", || {
        let mut h = Handler::new(&nodes, MT, 1, 0);
        h.init();
        h.iterate();
        format!("cost {}", h.cost())
    });
    t.see(
        "15 descent, k 0",
        "panics: called `Option::unwrap()` on a `None` value",
        || {
            let mut h = handler(&nodes, 0, 1, &[0, 1]);
            h.iterate();
            lists(&h)
        },
    );
}

fn states(t: &mut Tally) {
    let nodes = boxed(&[0.0, 1.0]);
    t.see(
        "16 iterate before begin",
        "panics: index out of bounds: the len is 0 but the index is 0",
        || {
            let mut h = Handler::new(&nodes, MT, 1, 1);
            h.iterate();
            lists(&h)
        },
    );
    t.see(
        "16 a context that names node 2 of n 2",
        "panics: index out of bounds: the len is 2 but the index is 2",
        || {
            let mut h = handler(&nodes, 1, 1, &[0, 2]);
            h.iterate();
            lists(&h)
        },
    );
    t.see(
        "17 an update of node 2 of n 2",
        "panics: index out of bounds: the len is 2 but the index is 2",
        || {
            let h = handler(&nodes, 1, 1, &[]);
            h.update(0, 2, h.lists()).to_string()
        },
    );
    t.see("17 an update of a node with itself", "false", || {
        let h = handler(&nodes, 1, 1, &[]);
        h.update(1, 1, h.lists()).to_string()
    });
}
