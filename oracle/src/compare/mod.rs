//! The proved entries beside hora's Rust: the same calls through both, and every byte compared.

pub mod build;
pub mod damage;
pub mod descent;
pub mod fill;
pub mod game;
pub mod ill;
pub mod ill_relay;
pub mod iterations;
pub mod lend;
pub mod opening;
pub mod parts;
pub mod plain;
pub mod relay;
pub mod search;
pub mod state;
pub mod steps;
pub mod table;
pub mod tally;
