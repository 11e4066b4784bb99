//! Counts of seldom-met branches, taken inside hora's own statements, so that nobody believes a branch was met that was not.

use crate::core::neighbor::Neighbor;
use crate::core::node::FloatElement;
use std::cell::{Cell, RefCell};
use std::cmp::Reverse;
use std::collections::{BTreeMap, BinaryHeap};

/// Every branch that is counted, by the kind of case that can meet it.
pub const NAMES: [&str; 50] = [
    "step two limit met",
    "step two own member added",
    "step two own member added after the limit",
    "step three equal node occludes",
    "cosine occludes",
    "cosine does not occlude",
    "cosine NaN",
    "cosine zero over zero",
    "cosine infinite",
    "cosine equal to the threshold",
    "cosine square overflows to infinity",
    "cosine square underflows to zero",
    "cosine tells 2*(dp*dr) from (2*dp)*dr",
    "cosine tells its sum from dp*dp + (dr*dr - djk*djk)",
    "step five empty slot passed",
    "step five slot of another row read",
    "step five stale live slot read",
    "step five slot's distance is another pair's",
    "step five v = w offered",
    "step five already linked",
    "step five offer lost",
    "step five offer stored at the last slot",
    "step five full row chosen again",
    "step five equal node occludes",
    "step five row shortened",
    "step five row shortened, live slot left behind",
    "search fewer roots than k",
    "search root beyond k",
    "search root beyond k met in a row and passed",
    "search repeated member counted once",
    "search replaced node still expanded",
    "search equal distance replaces",
    "search row ended",
    "search row ended with more behind",
    "descent reversed-new pair skipped",
    "descent reversed-new equal nodes skipped",
    "descent equal nodes in a context list",
    "descent equal nodes in two context lists",
    "descent diagonal marked",
    "descent old list used",
    "descent new list cut",
    "descent cut-away pair stays visited",
    "descent cut-away pair kept elsewhere and unvisited",
    "descent reversed-old list cut",
    "descent reversed-new list cut",
    "offer refused at the look",
    "offer looks at a list longer than k",
    "offer at the last's distance",
    "offer repeats a node of the list",
    "relay job with u = v", // met by the program: hora's update turns back before any lock
];

thread_local! {
    static COUNTS: RefCell<BTreeMap<&'static str, usize>> = const { RefCell::new(BTreeMap::new()) };
    static FIRST_UNFIT: Cell<Option<usize>> = const { Cell::new(None) };
}

/// Takes a count where the feature `counts` is on, as it is by default. Where it is off nothing of it is worked out: `bench` measures hora's own work.
#[macro_export]
macro_rules! counted {
    ( $taken:expr ) => {
        if cfg!(feature = "counts") {
            $taken;
        }
    };
}

pub fn met(name: &str) {
    let known = NAMES
        .iter()
        .find(|n| **n == name)
        .unwrap_or_else(|| panic!("no branch is named {}", name));
    COUNTS.with(|c| *c.borrow_mut().entry(known).or_insert(0) += 1);
}

fn met_if(condition: bool, name: &str) {
    if condition {
        met(name);
    }
}

pub fn count(name: &str) -> usize {
    COUNTS.with(|c| c.borrow().get(name).copied().unwrap_or(0))
}

pub fn set_counts(counts: BTreeMap<&'static str, usize>) {
    COUNTS.with(|c| *c.borrow_mut() = counts);
}

/// The branches met since the counts were as given.
pub fn met_since(before: &BTreeMap<&'static str, usize>) -> Vec<&'static str> {
    NAMES
        .iter()
        .filter(|n| count(n) > before.get(*n).copied().unwrap_or(0))
        .copied()
        .collect()
}

pub fn counts() -> BTreeMap<&'static str, usize> {
    COUNTS.with(|c| c.borrow().clone())
}

/// The branches whose names begin with one of the words.
pub fn names(beginnings: &[&str]) -> Vec<&'static str> {
    NAMES
        .iter()
        .filter(|n| beginnings.iter().any(|b| n.starts_with(b)))
        .copied()
        .collect()
}

pub fn own_member_added(limit_was_met: bool) {
    met("step two own member added");
    met_if(limit_was_met, "step two own member added after the limit");
}

pub fn cosine<E: FloatElement>(dp: E, dr: E, djk: E, cos: E, threshold: E) {
    let zero = E::float_zero();
    let squares = [(dp, dp * dp), (dr, dr * dr), (djk, djk * djk)];
    met(if cos > threshold {
        "cosine occludes"
    } else {
        "cosine does not occlude"
    });
    met_if(num_nan(cos), "cosine NaN");
    met_if(
        num_nan(cos) && dp * dr == zero && (dp * dp + dr * dr) - djk * djk == zero,
        "cosine zero over zero",
    );
    met_if(
        crate::local::num::Float::is_infinite(cos),
        "cosine infinite",
    );
    met_if(cos == threshold, "cosine equal to the threshold");
    met_if(
        squares
            .iter()
            .any(|(_, s)| crate::local::num::Float::is_infinite(*s)),
        "cosine square overflows to infinity",
    );
    met_if(
        squares.iter().any(|(d, s)| *d > zero && *s == zero),
        "cosine square underflows to zero",
    );
    grouping(dp, dr, djk, cos, threshold);
}

/// Whether another grouping of the same operations would have decided otherwise.
fn grouping<E: FloatElement>(dp: E, dr: E, djk: E, cos: E, threshold: E) {
    let two = E::from_usize(2).unwrap();
    let above = (dp * dp + dr * dr) - djk * djk;
    met_if(
        (above / ((two * dp) * dr) > threshold) != (cos > threshold),
        "cosine tells 2*(dp*dr) from (2*dp)*dr",
    );
    let regrouped = dp * dp + (dr * dr - djk * djk);
    met_if(
        (regrouped / (two * (dp * dr)) > threshold) != (cos > threshold),
        "cosine tells its sum from dp*dp + (dr*dr - djk*djk)",
    );
}

fn num_nan<E: FloatElement>(x: E) -> bool {
    crate::local::num::Float::is_nan(x)
}

/// Slot `slot` is read for node v and is not empty.
pub fn slot_read<E: FloatElement>(
    rows: &[Neighbor<E, usize>],
    slot: usize,
    v: usize,
    index_size: usize,
) {
    let start = slot - slot % index_size;
    met_if(slot / index_size != v, "step five slot of another row read");
    met_if(
        rows[start..slot]
            .iter()
            .any(|e| e.distance() == E::max_value()),
        "step five stale live slot read",
    );
    let w = rows[slot].idx();
    let row = &rows[w * index_size..(w + 1) * index_size];
    let linked = row
        .iter()
        .take_while(|e| e.distance() != E::max_value())
        .any(|e| e.idx() == v);
    met_if(!linked && w == v, "step five v = w offered");
    met_if(
        !linked && slot / index_size != v,
        "step five slot's distance is another pair's",
    );
}

pub fn row_shortened(kept: usize, range: usize) {
    met("step five row shortened");
    met_if(
        kept + 1 < range,
        "step five row shortened, live slot left behind",
    );
}

pub fn offer_at_empty_slot(lost: bool) {
    met(if lost {
        "step five offer lost"
    } else {
        "step five offer stored at the last slot"
    });
}

pub fn roots(count: usize, k: usize) {
    met_if(count < k, "search fewer roots than k");
    met_if(count > k, "search root beyond k");
}

/// Search works this distance out; the program asks afterwards whether one was unfit.
pub fn worked_out<E: FloatElement>(node: usize, dist: E) {
    // NaN is unfit too, so the test is not `dist >= max`.
    if !(dist < E::max_value()) {
        FIRST_UNFIT.with(|f| f.set(f.get().or(Some(node))));
    }
}

/// The first node whose distance to a query was unfit since the last time of asking.
pub fn first_unfit() -> Option<usize> {
    FIRST_UNFIT.with(|f| f.take())
}

pub fn taken(still_best: bool) {
    met_if(!still_best, "search replaced node still expanded");
}

/// A member of the row is seen already: it repeats in this row, or it is a root that never entered the queue.
pub fn seen_member<E: FloatElement>(
    row_so_far: &BinaryHeap<Reverse<Neighbor<E, usize>>>,
    member: usize,
    roots: &[Neighbor<E, usize>],
    k: usize,
) {
    met_if(
        row_so_far.iter().any(|Reverse(x)| x.idx() == member),
        "search repeated member counted once",
    );
    met_if(
        roots.iter().skip(k).any(|r| r.idx() == member),
        "search root beyond k met in a row and passed",
    );
}

pub fn row_ended(behind: usize) {
    met("search row ended");
    met_if(behind > 0, "search row ended with more behind");
}

pub fn best_replaced(equal: bool) {
    met_if(equal, "search equal distance replaces");
}

fn repeats(list: &[usize]) -> bool {
    (1..list.len()).any(|i| list[..i].contains(&list[i]))
}

fn share(one: &[usize], other: &[usize]) -> bool {
    one.iter().any(|x| other.contains(x))
}

pub fn context(new: &[usize], old: &[usize], reversed_new: &[usize], reversed_old: &[usize]) {
    let lists = [new, old, reversed_new, reversed_old];
    met_if(
        lists.iter().any(|l| repeats(l)),
        "descent equal nodes in a context list",
    );
    let across = share(new, old)
        || share(reversed_new, reversed_old)
        || share(new, reversed_old)
        || share(new, reversed_new)
        || share(old, reversed_new);
    met_if(across, "descent equal nodes in two context lists");
    met_if(across || !new.is_empty(), "descent diagonal marked");
    met_if(!old.is_empty(), "descent old list used");
}

pub fn reversed_pair_skipped(j: usize, k: usize, reversed_new: &[usize]) {
    met_if(
        reversed_new[j] > reversed_new[k],
        "descent reversed-new pair skipped",
    );
    met_if(
        j < k && reversed_new[j] == reversed_new[k],
        "descent reversed-new equal nodes skipped",
    );
}

/// The shuffled places of a new list before the first s are thrown away.
pub fn new_list_cut<E: FloatElement>(places: &[usize], list: &[Neighbor<E, usize>], s: usize) {
    met("descent new list cut");
    for thrown in &places[..s] {
        let kept = places[s..]
            .iter()
            .any(|p| list[*p].idx() == list[*thrown].idx());
        met(if kept {
            "descent cut-away pair kept elsewhere and unvisited"
        } else {
            "descent cut-away pair stays visited"
        });
    }
}

pub fn look<E: FloatElement>(list: &BinaryHeap<Neighbor<E, usize>>, dist: E, k: usize) {
    let last = list.peek().unwrap().distance();
    met_if(dist > last, "offer refused at the look");
    met_if(list.len() > k, "offer looks at a list longer than k");
    met_if(dist == last, "offer at the last's distance");
}

pub fn push<E: FloatElement>(list: &BinaryHeap<Neighbor<E, usize>>, candidate: usize) {
    met_if(
        list.iter().any(|e| e.idx() == candidate),
        "offer repeats a node of the list",
    );
}
