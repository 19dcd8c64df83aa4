//! The width that a script's numbers are made for. The makers work with f64s, which hold every f32; a number is rounded to its width when it is written.

use oracle::float::Float;
use oracle::steps::{Params, Weights};

#[derive(Clone, Copy, PartialEq)]
pub enum Width {
    F64,
    F32,
}

/// Numbers near the edges of a width; powers of two by their exponents.
pub struct Edges {
    /// Its square overflows, and so does its quotient by the root of `tiny`.
    pub huge: f64,
    pub tiny: f64,
    /// Where this is a variance and N, points lie about as far from x as numbers go.
    pub wide: f64,
    /// A measurement that overflows times a gain of 1e10.
    pub remote: f64,
    /// The sizes of states: where squares are subnormal, where they nearly overflow, and between.
    pub units: [[i64; 2]; 3],
    /// States below this size would have an S whose inverse overflows, so they are measured in larger numbers, by so much.
    pub small: i64,
    pub raised: [i64; 2],
    /// By how much others are at most measured in larger or smaller numbers.
    pub gauge: i64,
    /// P and what is observed for a gain that overflows; P for one that does, where 1 is observed; the part of the spread that R leaves as S.
    pub gain: [i64; 2],
    pub spread: i64,
    pub left: i64,
}

const WIDE: Edges = Edges {
    huge: 1.0e200,
    tiny: 1.0e-300,
    wide: 1.0e308,
    remote: 1.0e300,
    units: [[-530, -500], [470, 500], [-200, 200]],
    small: -465,
    raised: [20, 60],
    gauge: 20,
    gain: [1020, -470],
    spread: 1000,
    left: -50,
};

const NARROW: Edges = Edges {
    huge: 1.0e25,
    tiny: 1.0e-36,
    wide: 1.0e38,
    remote: 1.0e30,
    units: [[-68, -60], [48, 56], [-20, 20]],
    small: -55,
    raised: [10, 20],
    gauge: 8,
    gain: [120, -50],
    spread: 110,
    left: -20,
};

impl Width {
    pub const fn edges(self) -> &'static Edges {
        match self {
            Width::F64 => &WIDE,
            Width::F32 => &NARROW,
        }
    }

    /// How many bits the fraction has.
    pub const fn digits(self) -> u32 {
        match self {
            Width::F64 => 52,
            Width::F32 => 23,
        }
    }

    const fn sign(self) -> u64 {
        match self {
            Width::F64 => 1 << 63,
            Width::F32 => 1 << 31,
        }
    }

    const fn fraction(self) -> u64 {
        (1 << self.digits()) - 1
    }

    /// The bits of the infinity above 0.
    pub const fn infinity(self) -> u64 {
        self.sign() - (1 << self.digits())
    }

    /// Of these bits the sign and the fraction.
    pub const fn without_exponent(self, bits: u64) -> u64 {
        bits & (self.sign() | self.fraction())
    }

    /// The number with these bits. A NaN keeps its pattern: that is moved by hand, since a machine may change it on the way.
    pub fn of_bits(self, bits: u64) -> f64 {
        match self {
            Width::F64 => f64::from_bits(bits),
            Width::F32 if f32::of_bits(bits).is_nan() => {
                f64::from_bits((bits & self.sign()) << 32 | 0x7ff << 52 | (bits & self.fraction()) << 29)
            }
            Width::F32 => f32::of_bits(bits).wide(),
        }
    }

    /// The bits of a number, rounded to this width.
    pub fn bits(self, number: f64) -> u64 {
        match self {
            Width::F64 => number.to_bits(),
            Width::F32 if number.is_nan() => {
                number.to_bits() >> 32 & self.sign() | self.infinity() | number.to_bits() >> 29 & self.fraction()
            }
            Width::F32 => f32::near(number).bits(),
        }
    }

    pub fn rounded(self, number: f64) -> f64 {
        self.of_bits(self.bits(number))
    }

    /// The number with other last bits.
    pub fn beside(self, number: f64, flipped: u64) -> f64 {
        self.of_bits(self.bits(number) ^ flipped)
    }

    /// The smallest number above 0, the smallest that isn't subnormal, and the largest.
    pub fn smallest(self) -> f64 {
        self.of_bits(1)
    }

    pub fn normal(self) -> f64 {
        self.of_bits(1 << self.digits())
    }

    pub fn largest(self) -> f64 {
        self.of_bits(self.infinity() - 1)
    }

    /// The largest power of two.
    pub fn top(self) -> f64 {
        self.of_bits(self.infinity() - (1 << self.digits()))
    }

    /// From 1 to the next number.
    pub fn epsilon(self) -> f64 {
        self.beside(1.0, 1) - 1.0
    }

    pub fn is_half_turn(self, h: f64) -> bool {
        0.0 < h && h <= self.largest() / 2.0
    }

    /// The weights as this width works them out.
    pub fn weights(self, n: usize, par: Params<f64>) -> Weights<f64> {
        match self {
            Width::F64 => Weights::of(n, par),
            Width::F32 => {
                let [alpha, beta, kappa] = par.numbers().map(f32::near);
                let Weights { total, w0m, w0c, wi } = Weights::of(n, Params { alpha, beta, kappa });
                Weights { total: total.wide(), w0m: w0m.wide(), w0c: w0c.wide(), wi: wi.wide() }
            }
        }
    }

    /// A number as a script has it. Bits as they are: a script may hold any NaN pattern.
    pub fn word(self, number: f64) -> String {
        match self {
            Width::F64 => format!("{:016x}", self.bits(number)),
            Width::F32 => format!("{:08x}", self.bits(number)),
        }
    }
}
