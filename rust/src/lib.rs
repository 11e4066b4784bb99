//! Spoonmeadow for Rust: a nearest-neighbour index whose every call is proved equal to a written rulebook, over its C boundary.
//!
//! [`Game`] teaches counters and names the nearest to a query; [`Descent`] improves neighbour lists from random draws; [`Relay`] offers candidate
//! pairs to lists step by step, and [`Heads`] lets several threads do it at once. All buffers are owned here and have the lengths that the library
//! asks for ([`lengths`]); a call that is refused gives its [`Refusal`], an [`Error`], and changes nothing.
//!
//! ```
//! use spoonmeadow::{Game, Params, Points};
//!
//! // three counters of two lanes, and one that came off the belt
//! let game = Game::teach(Points::new(2, vec![0.0, 0.0, 4.0, 3.0, 9.0, 9.0]), Params::default())?;
//! let found = game.search(&[0, 2], &[4.0, 2.5], 1)?;
//! assert_eq!((found.neighbors[0].node, found.neighbors[0].distance), (1, 0.25));
//!
//! // a lane that is not a number is refused, and no counter is named
//! let error = game.search(&[0, 2], &[4.0, f32::NAN], 1).unwrap_err();
//! assert_eq!(error.to_string(), "10: the distance of node 0 and the query is unfit");
//! # Ok::<(), spoonmeadow::Error>(())
//! ```
//!
//! What is proved is the library: for all inputs each call meets its contract, does nothing undefined and ends. This crate is not proved; it is thin,
//! and its `unsafe` is one call in each function of [`lent`], with pointers and counts of slices, and one volatile read.
//!
//! # The floating-point environment
//!
//! The library takes it for granted that results are rounded to nearest and that subnormals are kept, as they are where nobody changed it. C code may:
//! a program or a shared library linked with `-ffast-math` does. Then the library would name another counter, and so every call of
//! [`Game`], [`Descent`] and [`Relay`] looks first ([`environment_is_default`]), and in another environment gives [`Error::Environment`] and does nothing.
//! Every call looks and not a teach alone, because the environment is a thread's own and may change between two calls, and because it is a search
//! that names. A look takes under ten nanoseconds, the quickest search some four hundred. [`lent`] and [`raw`] do not look.
//!
//! # The stack
//!
//! A call of the library uses up to 24 KiB of the calling thread's stack: leave it 32 (the project's README has each entry's figure).
#![deny(missing_docs)]
#![deny(unsafe_op_in_unsafe_fn)]

mod descent;
mod environment;
mod error;
mod game;
pub mod lengths;
pub mod lent;
mod points;
#[allow(missing_docs)]
pub mod raw;
mod refusal;
mod relay;

pub use descent::{Descent, Iterated};
pub use environment::environment_is_default;
pub use error::Error;
pub use game::{Found, Game, Params};
pub use points::{Lists, Neighbor, Points, Scratch};
pub use refusal::{Call, Refusal};
pub use relay::{Closed, Heads, Relay, STEPS};
