//! The pair of request A4: two filters of one size on one settings sheet of Q, parameters and kinds.
//! Each side is a filter of its own with the published Rust behind it. That they share a sheet is this: both get each accepted change of it, whichever side it came through.

use crate::filter::{newable, refuse_if, Filter, Open, Start, Trouble};
use crate::refusal::Refusal;
use crate::steps::Params;

#[derive(Clone, Copy, Debug, PartialEq)]
pub enum Side {
    One,
    Two,
}

impl Side {
    pub const BOTH: [Side; 2] = [Side::One, Side::Two];

    /// As a script names it.
    pub const fn name(self) -> &'static str {
        match self {
            Side::One => "@1",
            Side::Two => "@2",
        }
    }

    pub const fn partner(self) -> Side {
        match self {
            Side::One => Side::Two,
            Side::Two => Side::One,
        }
    }
}

pub struct Pair {
    sides: [Filter<f64>; 2],
}

impl Pair {
    pub fn empty() -> Pair {
        Pair { sides: [Filter::empty(), Filter::empty()] }
    }

    /// One n, checked once; 2 is looked for in all that both are lent, then the numbers of the first x and P before those of the second.
    pub fn new(n: u64, starts: [Start<f64>; 2], q: &[f64], par: Params<f64>) -> Result<Pair, Trouble> {
        newable(n, &starts, q, par)?;
        let [one, two] = starts.map(|start| Filter::new(n, start.x, start.p, q, par));
        Ok(Pair { sides: [one?, two?] })
    }

    pub fn side(&self, side: Side) -> &Filter<f64> {
        &self.sides[side as usize]
    }

    pub fn side_mut(&mut self, side: Side) -> &mut Filter<f64> {
        &mut self.sides[side as usize]
    }

    /// A sheet change, through either side: 3 while either has a call open. With nothing open a setting looks at n and at what it is lent,
    /// so both filters take it or neither does; each marks itself as it would alone.
    pub fn change(&mut self, setting: impl Fn(&mut Filter<f64>) -> Result<(), Trouble>) -> Result<(), Trouble> {
        refuse_if(self.sides.iter().any(|side| side.open != Open::Nothing), Refusal::Stage)?;
        self.sides.iter_mut().try_for_each(setting)
    }
}
