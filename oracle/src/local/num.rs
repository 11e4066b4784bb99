//! The parts of the crate `num` that hora's generics name, for f32 and f64.

pub mod traits {
    pub use super::{Float, FloatConst, FromPrimitive, NumAssign};
}

pub trait FromPrimitive: Sized {
    fn from_f32(n: f32) -> Option<Self>;
    fn from_usize(n: usize) -> Option<Self>;
}

pub trait Zero {}

pub trait Signed {}

pub trait FloatConst {
    #[allow(non_snake_case)]
    fn PI() -> Self;
}

pub trait NumAssign {}

pub trait Float:
    Sized
    + Copy
    + PartialOrd
    + core::ops::Add<Output = Self>
    + core::ops::Sub<Output = Self>
    + core::ops::Mul<Output = Self>
    + core::ops::Div<Output = Self>
    + core::ops::Neg<Output = Self>
{
    fn is_nan(self) -> bool;
    fn is_infinite(self) -> bool;
    fn max_value() -> Self;
    fn sqrt(self) -> Self;
    fn powi(self, n: i32) -> Self;
}

macro_rules! local_num {
    ( $x:ident ) => {
        impl FromPrimitive for $x {
            fn from_f32(n: f32) -> Option<Self> {
                Some(n as $x)
            }
            fn from_usize(n: usize) -> Option<Self> {
                Some(n as $x)
            }
        }
        impl Zero for $x {}
        impl Signed for $x {}
        impl NumAssign for $x {}
        impl FloatConst for $x {
            fn PI() -> Self {
                core::$x::consts::PI
            }
        }
        impl Float for $x {
            fn is_nan(self) -> bool {
                $x::is_nan(self)
            }
            fn is_infinite(self) -> bool {
                $x::is_infinite(self)
            }
            fn max_value() -> Self {
                $x::MAX
            }
            fn sqrt(self) -> Self {
                $x::sqrt(self)
            }
            /// hora asks for squares only; `x * x` is one rounding whatever the compiler does with `powi`.
            fn powi(self, n: i32) -> Self {
                assert_eq!(n, 2, "only squares are taken");
                self * self
            }
        }
    };
}

local_num!(f32);
local_num!(f64);
