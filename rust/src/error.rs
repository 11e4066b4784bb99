//! What a call gives in place of an answer.
use crate::Refusal;
use std::fmt;

/// Why a call gave no answer: the library refused it, or this crate did not make it.
///
/// ```
/// use spoonmeadow::{Error, Game, Params, Points};
/// match Game::teach(Points::new(1, vec![0.0, f32::NAN]), Params::default()) {
///     Ok(_) => unreachable!(),
///     Err(Error::Refused(refusal)) => assert_eq!((refusal.number(), refusal.places()), (10, (0, 1))),
///     Err(Error::Environment) => unreachable!(),
/// }
/// ```
#[derive(Clone, Copy, Debug, PartialEq, Eq)]
pub enum Error {
    /// The library refused the call. In words it is the refusal's.
    Refused(Refusal),
    /// The floating-point environment of this thread is not the default one, for which alone the library is proved, and no call was made
    /// ([`environment_is_default`](crate::environment_is_default)). Nothing has changed.
    Environment,
}

impl Error {
    /// The refusal, if it is one.
    pub fn refusal(&self) -> Option<Refusal> {
        match *self {
            Error::Refused(refusal) => Some(refusal),
            Error::Environment => None,
        }
    }
}

impl From<Refusal> for Error {
    fn from(refusal: Refusal) -> Error {
        Error::Refused(refusal)
    }
}

impl fmt::Display for Error {
    fn fmt(&self, f: &mut fmt::Formatter<'_>) -> fmt::Result {
        match self {
            Error::Refused(refusal) => refusal.fmt(f),
            Error::Environment => write!(
                f,
                "the floating-point environment is not the default one: subnormals are flushed, or rounding is not to nearest"
            ),
        }
    }
}

impl std::error::Error for Error {}
