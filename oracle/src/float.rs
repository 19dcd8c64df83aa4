//! The two widths of float: f64, and f32 for request A6. Whatever is written over `Float` is one text for both.
//! Each operation is the machine's, rounded once to that width; `%` is exact (C's fmod).

use std::fmt::Debug;
use std::ops::{Add, AddAssign, Div, Mul, Neg, Rem, Sub, SubAssign};

pub trait Float:
    Copy
    + Debug
    + Default
    + PartialOrd
    + 'static
    + Add<Output = Self>
    + Sub<Output = Self>
    + Mul<Output = Self>
    + Div<Output = Self>
    + Rem<Output = Self>
    + Neg<Output = Self>
    + AddAssign
    + SubAssign
{
    const ZERO: Self;
    const ONE: Self;
    /// How many hex digits a script has for a number.
    const HEX: usize = 2 * size_of::<Self>();
    /// The bits that a script writes for any NaN.
    const NAN_BITS: u64;
    /// The bits of what place 0 of a lent buffer holds before a call; at place i they are i more.
    const LENT_BITS: u64;

    fn bits(self) -> u64;
    fn of_bits(bits: u64) -> Self;
    fn of_size(n: usize) -> Self;
    /// The nearest number of this width.
    fn near(number: f64) -> Self;
    /// The same number as an f64, which holds an f32 exactly.
    fn wide(self) -> f64;
    fn is_finite(self) -> bool;
    fn is_nan(self) -> bool;
    /// To nearest.
    fn root(self) -> Self;
}

macro_rules! float {
    ($float:ident, $bits:ident, $nan:literal, $lent:literal) => {
        impl Float for $float {
            const ZERO: $float = 0.0;
            const ONE: $float = 1.0;
            const NAN_BITS: u64 = $nan;
            const LENT_BITS: u64 = $lent;

            fn bits(self) -> u64 {
                self.to_bits().into()
            }
            fn of_bits(bits: u64) -> $float {
                $float::from_bits(bits as $bits)
            }
            fn of_size(n: usize) -> $float {
                n as $float
            }
            fn near(number: f64) -> $float {
                number as $float
            }
            fn wide(self) -> f64 {
                self.into()
            }
            fn is_finite(self) -> bool {
                $float::is_finite(self)
            }
            fn is_nan(self) -> bool {
                $float::is_nan(self)
            }
            fn root(self) -> $float {
                self.sqrt()
            }
        }
    };
}

float!(f64, u64, 0x7ff8_0000_0000_0000, 0x4330_0000_0000_0000);
float!(f32, u32, 0x7fc0_0000, 0x4b00_0000);
