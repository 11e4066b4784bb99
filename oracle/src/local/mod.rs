//! Serial and local replacements for the crates that hora takes from a registry, and the branch counts.
pub mod branches;
pub mod fixedbitset;
pub mod num;
pub mod rand;
pub mod rayon;
