//! Each entry over slices: the call of [`raw`] with the pointers and the counts of what is lent, and so safe. For who lends buffers of their own.
//! Nothing here looks at the floating-point environment: see [`environment_is_default`](crate::environment_is_default).
use crate::raw::{self, Found, Iterated, Said};
use crate::{Lists, Params, Points};

/// Words and floats that are lent together: scratch, or a state.
pub type Both<'a> = (&'a mut [u32], &'a mut [f32]);

/// What a search is about: a graph, where to start, what is looked up, and how many of the nearest are asked for.
#[derive(Clone, Copy, Debug)]
#[allow(missing_docs)]
pub struct Looked<'a> {
    pub graph: &'a [u32],
    pub index_size: usize,
    pub roots: &'a [u32],
    pub query: &'a [f32],
    pub k: usize,
}

/// Teaches a game: writes its graph.
#[rustfmt::skip]
pub fn build(points: &Points, params: Params, graph: &mut [u32], (words, floats): Both) -> Said {
    let lanes = points.lanes();
    // SAFETY: every pointer and count is a slice's, and slices that are lent mutably do not overlap; so in every function here.
    unsafe {
        raw::spoonmeadow_build(
            params.init_k, params.index_size, params.neighbor_neighbor_size, params.threshold,
            points.dimension(), points.n(), lanes.as_ptr(), lanes.len(), graph.as_mut_ptr(), graph.len(),
            words.as_mut_ptr(), words.len(), floats.as_mut_ptr(), floats.len(),
        )
    }
}

/// Looks a query up: writes the nodes found, and the bits of their distances.
#[rustfmt::skip]
pub fn search(points: &Points, looked: &Looked, nodes: &mut [u32], bits: &mut [u32], (words, floats): Both) -> Found {
    let (lanes, Looked { graph, index_size, roots, query, k }) = (points.lanes(), *looked);
    unsafe {
        raw::spoonmeadow_search(
            points.dimension(), points.n(), lanes.as_ptr(), lanes.len(), graph.as_ptr(), graph.len(), index_size,
            roots.as_ptr(), roots.len(), query.as_ptr(), query.len(), k,
            nodes.as_mut_ptr(), nodes.len(), bits.as_mut_ptr(), bits.len(),
            words.as_mut_ptr(), words.len(), floats.as_mut_ptr(), floats.len(),
        )
    }
}

/// The entry of a begin or of an iteration, which are lent the same.
#[rustfmt::skip]
type Descends<A> = unsafe extern "C" fn(
    usize, usize, *const f32, usize, usize, usize, *const u32, usize,
    *mut u32, usize, *mut f32, usize, *mut u32, usize, *mut f32, usize,
) -> A;

#[rustfmt::skip]
fn descend<A>(entry: Descends<A>, points: &Points, (k, s): (usize, usize), draws: &[u32], state: Both, scratch: Both) -> A {
    let lanes = points.lanes();
    let ((words, floats), (scratch_u, scratch_f)) = (state, scratch);
    unsafe {
        entry(
            points.dimension(), points.n(), lanes.as_ptr(), lanes.len(), k, s, draws.as_ptr(), draws.len(),
            words.as_mut_ptr(), words.len(), floats.as_mut_ptr(), floats.len(),
            scratch_u.as_mut_ptr(), scratch_u.len(), scratch_f.as_mut_ptr(), scratch_f.len(),
        )
    }
}

/// Begins a descent of these k and s: writes its state.
pub fn begin(
    points: &Points,
    sizes: (usize, usize),
    draws: &[u32],
    state: Both,
    scratch: Both,
) -> Said {
    descend(raw::spoonmeadow_begin, points, sizes, draws, state, scratch)
}

/// One iteration of a descent of these k and s: changes its state.
pub fn iterate(
    points: &Points,
    sizes: (usize, usize),
    draws: &[u32],
    state: Both,
    scratch: Both,
) -> Iterated {
    descend(
        raw::spoonmeadow_iterate,
        points,
        sizes,
        draws,
        state,
        scratch,
    )
}

/// Opens a relay on lists and jobs, each job two nodes: writes its state.
#[rustfmt::skip]
pub fn open(points: &Points, lists: &Lists, jobs: &[u32], state: Both, scratch: Both) -> Said {
    let (lanes, nodes, distances) = (points.lanes(), lists.nodes(), lists.distances());
    let ((words, floats), (scratch_u, scratch_f)) = (state, scratch);
    unsafe {
        raw::spoonmeadow_open(
            points.dimension(), points.n(), lanes.as_ptr(), lanes.len(), lists.k(),
            nodes.as_ptr(), nodes.len(), distances.as_ptr(), distances.len(), jobs.as_ptr(), jobs.len(),
            words.as_mut_ptr(), words.len(), floats.as_mut_ptr(), floats.len(),
            scratch_u.as_mut_ptr(), scratch_u.len(), scratch_f.as_mut_ptr(), scratch_f.len(),
        )
    }
}

/// Takes a job's next step in a relay of these n and k: changes its state.
#[rustfmt::skip]
pub fn move_job((n, k): (usize, usize), job: usize, (words, floats): Both) -> Said {
    unsafe {
        raw::spoonmeadow_move_job(n, k, job, words.as_mut_ptr(), words.len(), floats.as_mut_ptr(), floats.len())
    }
}

/// Closes a relay of these n and k: writes its lists and reports.
#[rustfmt::skip]
pub fn close((n, k): (usize, usize), (words, floats): (&[u32], &[f32]), (nodes, distances): Both, reports: &mut [u32]) -> Said {
    unsafe {
        raw::spoonmeadow_close(
            n, k, words.as_ptr(), words.len(), floats.as_ptr(), floats.len(),
            nodes.as_mut_ptr(), nodes.len(), distances.as_mut_ptr(), distances.len(), reports.as_mut_ptr(), reports.len(),
        )
    }
}
