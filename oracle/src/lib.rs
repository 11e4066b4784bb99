//! hora's SSG index and NN-descent under the four stand-ins of document 01, and the cases run over them.
// hora's text keeps its own lines.
#[rustfmt::skip]
pub mod core;
#[rustfmt::skip]
pub mod index;
pub mod local;

pub mod by_hand;
pub mod cases;
pub mod compare;
pub mod make;
pub mod prng;
pub mod run;
pub mod some;
pub mod text;
