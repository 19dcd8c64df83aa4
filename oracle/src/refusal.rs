//! The refusals of documents 01 and 02. By request A5 each has a place beside its number; it is known where the refusal is met, so it is carried from there.

/// The lent slices that a refusal tells apart, in the order in which they are searched.
#[derive(Clone, Copy, Debug, PartialEq)]
pub enum Slice {
    State,
    Covariance,
    /// Q or R.
    Noise,
    /// Propagated or observed.
    Points,
    Measurement,
    /// Parameters, half-turns, and what wrap and root are given.
    Lone,
}

impl Slice {
    pub const fn number(self) -> u8 {
        match self {
            Slice::State => 51,
            Slice::Covariance => 52,
            Slice::Noise => 53,
            Slice::Points => 54,
            Slice::Measurement => 55,
            Slice::Lone => 56,
        }
    }
}

#[derive(Clone, Copy, Debug, PartialEq)]
pub enum Refusal {
    Size,
    Short,
    Stage,
    Stale,
    /// Saved while not stale (request A8).
    Fresh,
    /// Bytes that are no record, though they are long enough (A8).
    Record,
    /// A number that isn't finite: its slice, and the place of the first such number there.
    Number(Slice, usize),
    Kind,
    Param,
    /// The row of a pivot of P.
    Pivot(usize),
    /// The row of a pivot of S.
    Innov(usize),
    /// The step whose result isn't finite. No answer tells it; the table of what was met does.
    Range(&'static str),
}

impl Refusal {
    pub const fn number(self) -> u8 {
        match self {
            Refusal::Size => 1,
            Refusal::Short => 2,
            Refusal::Stage => 3,
            Refusal::Stale => 4,
            Refusal::Number(slice, _) => slice.number(),
            Refusal::Param => 6,
            Refusal::Pivot(_) => 7,
            Refusal::Innov(_) => 8,
            Refusal::Range(_) => 9,
            Refusal::Kind => 10,
            Refusal::Fresh => 11,
            Refusal::Record => 12,
        }
    }

    pub const fn place(self) -> usize {
        match self {
            Refusal::Number(_, place) => place,
            Refusal::Pivot(row) | Refusal::Innov(row) => row,
            _ => 0,
        }
    }

    /// The step that refuses, for the table of what was met.
    pub const fn step(self) -> &'static str {
        match self {
            Refusal::Pivot(_) => "P's pivot",
            Refusal::Innov(_) => "S's pivot",
            Refusal::Range(step) => step,
            _ => "",
        }
    }
}
