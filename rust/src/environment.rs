//! The floating-point environment that every call takes for granted, and the check of it that the calls of this crate make first.
use crate::Error;

const SUBNORMAL: f32 = 1e-40;
/// The float above one, and half the step between them.
const NEXT: f32 = 1.0 + f32::EPSILON;
const HALF: f32 = f32::EPSILON / 2.0;

/// The float as it lies in memory, read anew: the compiler may work nothing out from it beforehand, and nothing that waits for it earlier.
fn read(x: f32) -> f32 {
    // SAFETY: a reference is good to read from.
    unsafe { std::ptr::read_volatile(&x) }
}

/// Whether the floating-point environment of this thread is the default one: rounding to nearest, subnormals kept as they are.
///
/// The library is proved for that environment and tests nothing of it. In another it names another counter: of lanes 1e-20 and 0 and query 0
/// counter 1 is the nearest, at 0, and counter 0 is at the square of 1e-20, some 1e-40, which is subnormal; flushed to 0 it ties, and
/// counter 0, the lower number, is named. C code sets such flags (a program or a shared library linked with `-ffast-math` at its start, `fesetround`
/// when called), for the thread that it runs on, and threads that it starts inherit them.
///
/// [`Game`](crate::Game), [`Descent`](crate::Descent) and [`Relay`](crate::Relay) make this check at every call and answer
/// [`Error::Environment`]; who calls [`lent`](crate::lent) or [`raw`](crate::raw) makes it.
///
/// It is that of the header, `spoonmeadow_environment_is_default`: the sum of a subnormal and itself, and two sums halfway between two floats.
/// To Rust a thread with such flags is outside the language, and so the check is a best effort: the compiler may take every sum to be rounded to nearest.
/// Each operand and each result is read anew from memory, which leaves it nothing to work out, and `tests/environment.rs` sets the flags and sees that it tells.
///
/// ```
/// assert!(spoonmeadow::environment_is_default());
/// ```
#[inline(never)]
pub fn environment_is_default() -> bool {
    let (one, next, half) = (read(1.0), read(NEXT), read(HALF));
    // 0 where results are flushed, or where a subnormal is read as 0.
    let twice = read(read(SUBNORMAL) + read(SUBNORMAL));
    // Rounded down to the even one, but upward; and up to the even one, but downward and toward zero.
    let (down, up) = (read(one + half), read(next + half));
    twice > 0.0 && down <= one && up > next
}

/// The check as a result, for the calls to begin with.
pub(crate) fn expect_default() -> Result<(), Error> {
    if environment_is_default() {
        Ok(())
    } else {
        Err(Error::Environment)
    }
}
