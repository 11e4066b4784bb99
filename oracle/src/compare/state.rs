//! The places of docs/LAYOUT.md, and 01's "well formed" read anew: lists, a descent's state, a relay's state.

use super::plain::fit;
use crate::cases::{Entry, State, EMPTY};

/// Lists as nodes and as distance bits.
pub fn split(lists: &[Entry]) -> (Vec<u32>, Vec<u32>) {
    lists.iter().copied().unzip()
}

/// "ascending, no node above n, node n exactly with that distance, all other distances fit"
pub fn list_formed(n: u64, nodes: &[u32], bits: &[u32]) -> bool {
    let entries: Vec<(u32, u32)> = bits.iter().copied().zip(nodes.iter().copied()).collect();
    let each = |(bits, node): &(u32, u32)| match (*node as u64).cmp(&n) {
        std::cmp::Ordering::Less => fit(*bits),
        std::cmp::Ordering::Equal => *bits == EMPTY,
        std::cmp::Ordering::Greater => false,
    };
    entries.iter().all(each) && entries.windows(2).all(|e| e[0] <= e[1])
}

/// Lists of k entries, one behind the other.
pub fn lists_formed(n: u64, k: u64, nodes: &[u32], bits: &[u32]) -> bool {
    let rows = nodes.chunks(k as usize).zip(bits.chunks(k as usize));
    rows.into_iter().all(|(ns, bs)| list_formed(n, ns, bs))
}

// Descent: nk list nodes, 260 words of contexts a node, and the visited pairs.

pub fn descent_words(n: u64, k: u64) -> u64 {
    n * k + 260 * n + (n * n + 31) / 32
}

/// A descent's state as its words and its floats' bits.
pub fn descent(state: &State) -> (Vec<u32>, Vec<u32>) {
    let (mut words, bits) = split(&state.lists);
    for list in state.contexts.iter().flatten() {
        words.push(list.len() as u32);
        words.extend(list);
        words.resize(words.len() + 64 - list.len(), 0);
    }
    words.extend(&state.visited);
    (words, bits)
}

/// "each of a node's four context lists at most 64 long with nodes below n; unused places and unused bits zero"
pub fn descent_formed(n: u64, k: u64, words: &[u32], bits: &[u32]) -> bool {
    let (lists, rest) = words.split_at((n * k) as usize);
    let (contexts, visited) = rest.split_at(260 * n as usize);
    let context = |c: &[u32]| {
        let length = c[0] as usize;
        length <= 64
            && c[1..1 + length].iter().all(|v| (*v as u64) < n)
            && c[1 + length..].iter().all(|v| *v == 0)
    };
    let spare = visited.len() as u64 * 32 - n * n;
    let unused = |last: &u32| spare == 0 || last >> (32 - spare) == 0;
    lists_formed(n, k, lists, bits)
        && contexts.chunks(65).all(context)
        && visited.last().is_none_or(unused)
}

/// A well-formed descent's state read back.
pub fn descent_in(n: u64, k: u64, words: &[u32], bits: &[u32]) -> State {
    let (lists, rest) = words.split_at((n * k) as usize);
    let (contexts, visited) = rest.split_at(260 * n as usize);
    let members = |c: &[u32]| c[1..1 + c[0] as usize].to_vec();
    let four = |c: &[u32]| {
        let each: Vec<Vec<u32>> = c.chunks(65).map(members).collect();
        each.try_into().expect("four lists")
    };
    State {
        lists: lists.iter().copied().zip(bits.iter().copied()).collect(),
        contexts: contexts.chunks(260).map(four).collect(),
        visited: visited.to_vec(),
    }
}
