//! hora's `src/index`, as far as it crosses over.
pub mod ssg_idx;
pub mod ssg_params;
