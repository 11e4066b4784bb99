//! hora's `src/core`, as far as it crosses over.
pub mod calc;
pub mod knn;
pub mod metrics;
pub mod neighbor;
pub mod node;
pub mod simd_metrics;
