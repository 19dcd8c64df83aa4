//! A small generator of pseudo-random numbers (splitmix64) and the numbers that scripts are made of.
//! Only exact and correctly rounded operations are used, so a seed gives the same script everywhere.

use oracle::steps::{all_finite, Params};

use crate::widths::Width;

pub struct Random {
    state: u64,
    /// For which the numbers are made.
    pub width: Width,
}

impl Random {
    pub fn new(seed: u64) -> Self {
        Random { state: seed, width: Width::F64 }
    }

    pub fn bits(&mut self) -> u64 {
        self.state = self.state.wrapping_add(0x9e37_79b9_7f4a_7c15);
        let mut z = self.state;
        z = (z ^ z >> 30).wrapping_mul(0xbf58_476d_1ce4_e5b9);
        z = (z ^ z >> 27).wrapping_mul(0x94d0_49bb_1331_11eb);
        z ^ z >> 31
    }

    /// Below `count`, which is small.
    pub fn below(&mut self, count: usize) -> usize {
        (self.bits() >> 11) as usize % count
    }

    /// From `low` up to and with `high`.
    pub fn between(&mut self, low: i64, high: i64) -> i64 {
        low + self.below((high - low + 1) as usize) as i64
    }

    pub fn chance(&mut self, percent: usize) -> bool {
        self.below(100) < percent
    }

    pub fn pick<A: Copy>(&mut self, choices: &[A]) -> A {
        choices[self.below(choices.len())]
    }

    /// In [low, high).
    pub fn within(&mut self, low: f64, high: f64) -> f64 {
        low + (high - low) * ((self.bits() >> 11) as f64 / 9_007_199_254_740_992.0)
    }

    pub fn sign(&mut self) -> f64 {
        self.pick(&[1.0, -1.0])
    }

    /// Any finite number, all exponents alike.
    pub fn finite(&mut self) -> f64 {
        loop {
            let number = self.width.of_bits(self.bits());
            if number.is_finite() {
                return number;
            }
        }
    }

    /// A NaN of some pattern, or an infinity.
    pub fn not_finite(&mut self) -> f64 {
        let (width, infinity) = (self.width, self.width.infinity());
        let nan = width.without_exponent(self.bits()) | infinity | 1;
        let quiet = infinity | 1 << (width.digits() - 1);
        self.pick(&[width.of_bits(nan), width.of_bits(quiet), f64::INFINITY, -f64::INFINITY])
    }

    fn subnormal(&mut self) -> f64 {
        let bits = self.width.without_exponent(self.bits());
        self.width.of_bits(bits)
    }

    /// A number with something about it.
    pub fn odd(&mut self) -> f64 {
        let (subnormal, one, normal, largest) = (self.subnormal(), self.width.smallest(), self.width.normal(), self.width.largest());
        self.pick(&[0.0, -0.0, subnormal, one, -one, normal, largest, -largest, 1.0, -1.0])
    }

    /// A zero of either sign or one of the smallest numbers: where a sum's sign or its last unit shows.
    pub fn least(&mut self) -> f64 {
        let (subnormal, one, normal) = (self.subnormal(), self.width.smallest(), self.width.normal());
        self.pick(&[0.0, -0.0, one, -one, subnormal, normal])
    }

    /// Whatever stands in a tail that must not be read.
    pub fn junk(&mut self) -> f64 {
        if self.chance(50) {
            self.not_finite()
        } else {
            self.finite()
        }
    }

    /// A number of about the size of `unit`, a power of two.
    pub fn sized(&mut self, unit: f64) -> f64 {
        match self.below(20) {
            0 => 0.0,
            1 => -0.0,
            2..=5 => self.between(-20, 20) as f64 * unit,
            6 => self.between(-20, 20) as f64 * 0.25 * unit,
            _ => self.within(-10.0, 10.0) * unit,
        }
    }

    pub fn vector(&mut self, length: usize, unit: f64) -> Vec<f64> {
        (0..length).map(|_| self.sized(unit)).collect()
    }

    /// A d×d matrix whose lower triangle has a factor of about the size of `unit`; often not symmetric.
    pub fn covariance(&mut self, d: usize, unit: f64) -> Vec<f64> {
        let mut b = vec![0.0; d * d];
        let sparse = self.chance(20);
        for i in 0..d {
            for j in 0..i {
                b[i * d + j] = if sparse { 0.0 * self.sign() } else { self.within(-0.8, 0.8) };
            }
            b[i * d + i] = if self.chance(30) { self.pick(&[1.0, 2.0, 0.5]) } else { self.within(0.3, 2.0) };
        }
        let mut a = vec![0.0; d * d];
        let skew = self.below(4);
        for i in 0..d {
            for j in 0..d {
                let sum: f64 = (0..d).map(|k| (b[i * d + k] * unit) * (b[j * d + k] * unit)).sum();
                a[i * d + j] = match skew {
                    // The last bits differ, or the upper triangle is something else altogether.
                    1 if i < j => self.width.beside(sum, self.below(4) as u64),
                    2 if i < j => sum * self.within(0.5, 1.5),
                    3 if i < j => self.within(-1.0, 1.0) * unit * unit,
                    _ => sum,
                };
            }
        }
        a
    }

    /// Noise that is added: a covariance, or zeros, or anything.
    pub fn noise(&mut self, d: usize, unit: f64) -> Vec<f64> {
        match self.below(8) {
            0 => vec![0.0; d * d],
            1 => vec![-0.0; d * d],
            2 => (0..d * d).map(|_| self.within(-0.01, 0.01) * unit * unit).collect(),
            3 => (0..d * d).map(|at| if at % (d + 1) == 0 { unit * unit } else { self.least() }).collect(),
            _ => self.covariance(d, unit),
        }
    }

    /// Parameters that pass 6 for n states.
    pub fn params(&mut self, n: usize) -> Params<f64> {
        let states = n as f64;
        for _ in 0..20 {
            let (alpha, beta, kappa) = match self.below(12) {
                0 => (1.0, 0.0, 0.0),
                1 => (1.0, 2.0, 3.0 - states),
                2 => (1.0, 2.0, 1.0),
                // N a power of two: all weights are exact.
                3 => (1.0, self.between(-2, 2) as f64, self.pick(&[1.0, 2.0, 4.0, 8.0, 16.0]) - states),
                4 => (0.001, 2.0, 0.0),
                5 => (self.within(0.05, 0.5), 2.0, 0.0),
                6 => (self.within(1.0, 1000.0) * self.sign(), self.within(-10.0, 10.0), self.within(0.0, 10.0)),
                // 2N overflows, and wi is +0.
                7 if self.chance(20) => (self.within(0.72, 0.97) * self.width.largest().sqrt(), 2.0, 1.0 - states),
                7 => (1.0, self.within(0.0, 1.0e6), self.within(0.0, 1.0e6)),
                // N is what rounding leaves of it.
                8 if self.chance(30) => {
                    let epsilon = self.width.epsilon();
                    (self.within(10.0, 1000.0) * epsilon.sqrt(), self.odd() * epsilon, 0.0)
                }
                9 if self.chance(30) => (self.finite().abs(), self.finite(), self.finite()),
                _ => (self.within(0.3, 1.5) * self.sign(), self.within(-1.0, 3.0), self.within(0.2 - states, 5.0)),
            };
            let par = Params { alpha, beta, kappa };
            if all_finite(&par.numbers()) && self.width.weights(n, par).pass() {
                return par;
            }
        }
        Params { alpha: 1.0, beta: 0.0, kappa: 0.0 }
    }

    /// Finite parameters that fail 6 for n states, each in its own way.
    pub fn failing_params(&mut self, n: usize) -> Params<f64> {
        let (states, edges, largest) = (n as f64, self.width.edges(), self.width.largest());
        let (alpha, beta, kappa) = match self.below(6) {
            // N = 0, below 0, too small to see, infinite; w0c too large.
            0 => (1.0, self.within(-2.0, 2.0), -states),
            1 => (self.within(0.5, 2.0), 2.0, -states - self.within(0.1, 10.0)),
            2 => (1.0e-9, 2.0, 0.0),
            3 => (edges.huge, 2.0, 0.0),
            4 => (edges.wide.sqrt(), -0.95 * largest, 1.0e-3 - states),
            _ => (0.0, 0.0, 0.0),
        };
        Params { alpha, beta, kappa }
    }

    /// A half-turn that passes 6.
    pub fn half_turn(&mut self, unit: f64) -> f64 {
        let h = match self.below(8) {
            0..=2 => 180.0 * unit,
            3 => std::f64::consts::PI * unit,
            4 => self.within(0.1, 3.0) * unit,
            5 => unit,
            6 => {
                let (smallest, normal, most) = (self.width.smallest(), self.width.normal(), self.width.largest() / 2.0);
                self.pick(&[smallest, 2.0 * smallest, 3.0 * smallest, normal, most])
            }
            _ => self.within(5.0, 50.0) * unit,
        };
        let h = self.width.rounded(h);
        if self.width.is_half_turn(h) {
            h
        } else {
            1.0
        }
    }

    /// Finite, but no half-turn.
    pub fn failing_half_turn(&mut self) -> f64 {
        let (smallest, top, largest) = (self.width.smallest(), self.width.top(), self.width.largest());
        self.pick(&[0.0, -0.0, -180.0, -smallest, top, largest, -largest])
    }
}
