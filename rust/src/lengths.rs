//! Ranges, and the lengths of buffers in elements, as the library's table asks for them. No call of this crate needs them from you.
//!
//! Numbers outside their ranges give lengths too, without overflow (they saturate); the library refuses such calls before it looks at a buffer.

/// The fewest counters of a game.
pub const LEAST_NODES: usize = 2;
/// The most counters of a game.
pub const MOST_NODES: usize = 4096;
/// The most nodes of a descent and of a relay.
pub const MOST_NODES_TAUGHT: usize = 1024;
/// The most lanes of a counter.
pub const MOST_DIMENSION: usize = 64;
/// The most of search's k, `init_k`, `index_size`, a descent's and a relay's k, the roots and the jobs.
pub const MOST_K: usize = 64;
/// The most of `neighbor_neighbor_size`.
pub const MOST_NEIGHBOR_NEIGHBOR_SIZE: usize = 256;
/// The bits of the distance of an unfilled place; fit distances lie below.
pub const EMPTY: u32 = 0x7F7F_FFFF;
/// A close's reports: exactly.
pub const REPORTS: usize = 128;

/// The graph of a game: exactly.
pub const fn graph(n: usize, index_size: usize) -> usize {
    n.saturating_mul(index_size)
}

/// A build's scratch, words and floats: each at least.
pub const fn build_scratch(n: usize, init_k: usize, index_size: usize) -> usize {
    n.saturating_mul(4)
        .saturating_mul(init_k.saturating_add(index_size))
        .saturating_add(4096)
}

/// A search's scratch, words and floats: each at least.
pub const fn search_scratch(n: usize) -> usize {
    n.saturating_mul(4).saturating_add(1024)
}

/// The scratch of a descent and of opening a relay, words and floats: each at least.
pub const fn taught_scratch(n: usize) -> usize {
    n.saturating_mul(512).saturating_add(4096)
}

/// The lists of a descent or a relay, nodes and distances: exactly.
pub const fn lists(n: usize, k: usize) -> usize {
    n.saturating_mul(k)
}

/// The draws that begin a descent: at least.
pub const fn begin_draws(n: usize, s: usize) -> usize {
    n.saturating_mul(2).saturating_mul(s)
}

/// The draws of one iteration: at least.
pub const fn iterate_draws(n: usize, k: usize) -> usize {
    n.saturating_mul(2).saturating_mul(k)
}

/// The words of a descent's state: exactly. Its floats are `lists(n, k)`.
pub const fn descent_words(n: usize, k: usize) -> usize {
    let pairs = n.saturating_mul(n).saturating_add(31) / 32;
    lists(n, k)
        .saturating_add(n.saturating_mul(260))
        .saturating_add(pairs)
}

/// The words of a relay's state: exactly.
pub const fn relay_words(n: usize, k: usize) -> usize {
    n.saturating_mul(k.saturating_add(65)).saturating_add(1024)
}

/// The floats of a relay's state: exactly.
pub const fn relay_floats(n: usize, k: usize) -> usize {
    n.saturating_mul(k.saturating_add(64)).saturating_add(64)
}

/// Whether a descent or a relay of these numbers may pass the table: only then are its buffers made ([`made`]).
pub(crate) const fn taught(n: usize, k: usize) -> bool {
    n <= MOST_NODES_TAUGHT && k <= MOST_K
}

/// The same for a game.
pub(crate) const fn game(n: usize, init_k: usize, index_size: usize) -> bool {
    n <= MOST_NODES && init_k <= MOST_K && index_size <= MOST_K
}

/// The length of a buffer that is made: where the numbers cannot pass the table an empty one is lent, and the library refuses the call for its
/// numbers, which it judges before any length.
pub(crate) const fn made(passes: bool, length: usize) -> usize {
    if passes {
        length
    } else {
        0
    }
}
