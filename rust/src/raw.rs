//! The C boundary as it is: `include/spoonmeadow.h`, declared for Rust. The rest of this crate is safe over it.
//!
//! What a caller owes: each pointer is not null and aligned, also where its count is 0; the count is the number of elements behind it that may be
//! read (and, where it is `*mut`, written); slices of one call do not overlap, except two that are both `*const`. A Rust slice meets all of it.
//! Nothing more is owed of what is lent: any contents and any numbers may be, every call ends, and bad input gets a refusal. What an answer is worth rests
//! on the floating-point environment too: see [`environment_is_default`](crate::environment_is_default).

/// What every call but search and iterate says: a refusal with its places, or 0, 0, 0.
#[repr(C)]
#[derive(Clone, Copy, Debug, Default, PartialEq, Eq)]
pub struct Said {
    pub refusal: usize,
    pub first: usize,
    pub second: usize,
}

/// What a search says: a refusal with its places, or m results and the count of nodes taken from the queue.
#[repr(C)]
#[derive(Clone, Copy, Debug, Default, PartialEq, Eq)]
pub struct Found {
    pub refusal: usize,
    pub first: usize,
    pub second: usize,
    pub m: usize,
    pub takings: usize,
}

/// What one iteration of a descent says: a refusal with its places, or its cost and the total of new.
#[repr(C)]
#[derive(Clone, Copy, Debug, Default, PartialEq, Eq)]
pub struct Iterated {
    pub refusal: usize,
    pub first: usize,
    pub second: usize,
    pub cost: usize,
    pub total: usize,
}

extern "C" {
    pub fn spoonmeadow_build(
        init_k: usize,
        index_size: usize,
        neighbor_neighbor_size: usize,
        threshold: f32,
        dimension: usize,
        n: usize,
        lanes: *const f32,
        lanes_length: usize,
        graph: *mut u32,
        graph_length: usize,
        scratch_u: *mut u32,
        scratch_u_length: usize,
        scratch_f: *mut f32,
        scratch_f_length: usize,
    ) -> Said;

    pub fn spoonmeadow_search(
        dimension: usize,
        n: usize,
        lanes: *const f32,
        lanes_length: usize,
        graph: *const u32,
        graph_length: usize,
        index_size: usize,
        roots: *const u32,
        roots_length: usize,
        query: *const f32,
        query_length: usize,
        k: usize,
        result_nodes: *mut u32,
        result_nodes_length: usize,
        result_bits: *mut u32,
        result_bits_length: usize,
        scratch_u: *mut u32,
        scratch_u_length: usize,
        scratch_f: *mut f32,
        scratch_f_length: usize,
    ) -> Found;

    pub fn spoonmeadow_begin(
        dimension: usize,
        n: usize,
        lanes: *const f32,
        lanes_length: usize,
        k: usize,
        s: usize,
        draws: *const u32,
        draws_length: usize,
        state_u: *mut u32,
        state_u_length: usize,
        state_f: *mut f32,
        state_f_length: usize,
        scratch_u: *mut u32,
        scratch_u_length: usize,
        scratch_f: *mut f32,
        scratch_f_length: usize,
    ) -> Said;

    pub fn spoonmeadow_iterate(
        dimension: usize,
        n: usize,
        lanes: *const f32,
        lanes_length: usize,
        k: usize,
        s: usize,
        draws: *const u32,
        draws_length: usize,
        state_u: *mut u32,
        state_u_length: usize,
        state_f: *mut f32,
        state_f_length: usize,
        scratch_u: *mut u32,
        scratch_u_length: usize,
        scratch_f: *mut f32,
        scratch_f_length: usize,
    ) -> Iterated;

    pub fn spoonmeadow_open(
        dimension: usize,
        n: usize,
        lanes: *const f32,
        lanes_length: usize,
        k: usize,
        nodes: *const u32,
        nodes_length: usize,
        distances: *const f32,
        distances_length: usize,
        jobs: *const u32,
        jobs_length: usize,
        state_u: *mut u32,
        state_u_length: usize,
        state_f: *mut f32,
        state_f_length: usize,
        scratch_u: *mut u32,
        scratch_u_length: usize,
        scratch_f: *mut f32,
        scratch_f_length: usize,
    ) -> Said;

    pub fn spoonmeadow_move_job(
        n: usize,
        k: usize,
        job: usize,
        state_u: *mut u32,
        state_u_length: usize,
        state_f: *mut f32,
        state_f_length: usize,
    ) -> Said;

    pub fn spoonmeadow_close(
        n: usize,
        k: usize,
        state_u: *const u32,
        state_u_length: usize,
        state_f: *const f32,
        state_f_length: usize,
        nodes: *mut u32,
        nodes_length: usize,
        distances: *mut f32,
        distances_length: usize,
        reports: *mut u32,
        reports_length: usize,
    ) -> Said;
}
