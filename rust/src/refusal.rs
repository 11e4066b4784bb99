//! Refusals: the numbers of the library's table, with their places and in words.
use crate::Error;
use std::fmt;

/// Which call was refused: rows 10 and 13 read differently in different calls.
#[derive(Clone, Copy, Debug, PartialEq, Eq)]
#[allow(missing_docs)]
pub enum Call {
    Build,
    Search,
    Begin,
    Iterate,
    Open,
    Move,
    Close,
}

/// Why a call was refused. Of several reasons that hold, the library gives the one with the lowest number.
///
/// ```
/// use spoonmeadow::{Game, Params, Points};
/// let lanes = vec![0.0, 1.0, f32::NAN, 7.0];
/// let error = Game::teach(Points::new(1, lanes), Params::default()).unwrap_err();
/// let refusal = error.refusal().unwrap();
/// assert_eq!(refusal.to_string(), "10: the distance of nodes 0 and 2 is unfit");
/// assert_eq!((refusal.number(), refusal.places()), (10, (0, 2)));
/// ```
#[derive(Clone, Copy, Debug, PartialEq, Eq)]
pub struct Refusal {
    call: Call,
    number: usize,
    first: usize,
    second: usize,
}

impl Refusal {
    /// The number in the table, 1 to 13.
    pub fn number(&self) -> usize {
        self.number
    }

    /// The two places that the table gives with the number; 0 where it names none.
    pub fn places(&self) -> (usize, usize) {
        (self.first, self.second)
    }

    /// The call that was refused.
    pub fn call(&self) -> Call {
        self.call
    }
}

/// A refusal's number and places that a call said, as a result.
pub(crate) fn told(call: Call, number: usize, first: usize, second: usize) -> Result<(), Error> {
    if number == 0 {
        return Ok(());
    }
    Err(Error::Refused(Refusal {
        call,
        number,
        first,
        second,
    }))
}

impl fmt::Display for Refusal {
    fn fmt(&self, f: &mut fmt::Formatter<'_>) -> fmt::Result {
        let (first, second) = (self.first, self.second);
        write!(f, "{}: ", self.number)?;
        match (self.number, self.call) {
            (1, _) => write!(f, "the dimension is outside 1 to 64"),
            (2, Call::Build | Call::Search) => {
                write!(f, "the number of nodes is outside 2 to 4,096")
            }
            (2, _) => write!(f, "the number of nodes is outside 2 to 1,024"),
            (3, _) => write!(
                f,
                "there are not as many lanes as nodes times the dimension"
            ),
            (4, _) => write!(f, "a whole-number parameter is outside its range"),
            (5, _) => write!(f, "the threshold is not a number, or outside -1 to 1"),
            (6, _) => write!(f, "a lent buffer has the wrong length"),
            (7, _) if first == 0 => write!(
                f,
                "there are not 1 to 64 roots, or the root at place 0 is no node"
            ),
            (7, _) => write!(
                f,
                "the root at place {first} is no node, or repeats an earlier one"
            ),
            (8, _) => write!(f, "the query has not as many lanes as the dimension"),
            (9, _) if first == 0 => write!(f, "there are not 1 to 64 jobs, or job 0 names no node"),
            (9, _) => write!(f, "job {first} names no node"),
            (10, Call::Search) => write!(f, "the distance of node {first} and the query is unfit"),
            (10, _) => write!(f, "the distance of nodes {first} and {second} is unfit"),
            (11, _) => write!(f, "there are too few draws"),
            (12, _) => write!(f, "the lists or the state are not well formed"),
            (13, Call::Close) => write!(f, "job {first} is unfinished"),
            (13, _) => write!(f, "job {first} is absent or finished"),
            _ => write!(f, "refused, with places {first} and {second}"),
        }
    }
}

impl std::error::Error for Refusal {}
