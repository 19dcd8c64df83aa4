//! Residual kinds and the exact wrap, as document 01 lays them down; they replace the Rust's function pointer.

use crate::float::Float;

/// How a difference is passed on.
#[derive(Clone, Copy, Debug, PartialEq)]
pub enum Kind<T> {
    Plain,
    /// A turn, with its half-turn.
    Turn(T),
}

impl<T: Float> Kind<T> {
    pub fn fixed(self, d: T) -> T {
        match self {
            Kind::Plain => d,
            Kind::Turn(h) => wrap(d, h),
        }
    }

    /// The half-turn of a turn.
    pub fn half(self) -> Option<T> {
        match self {
            Kind::Plain => None,
            Kind::Turn(h) => Some(h),
        }
    }
}

/// `%` is exact, and so are both sums: the result is in (−h, h] and differs from d by whole turns.
pub fn wrap<T: Float>(d: T, h: T) -> T {
    let turn = h + h;
    let r = d % turn;
    if r > h {
        r - turn
    } else if r <= -h {
        r + turn
    } else {
        r
    }
}

/// A half-turn that passes 6: above 0, and its double finite.
pub fn is_half_turn<T: Float>(h: T) -> bool {
    h > T::ZERO && (h + h).is_finite()
}
