//! Bad numbers in every slice that a call searches, and bad pivots in every row: where the first one stands, and what else is bad.

use oracle::coverage::{count, count_with, has, searches, slices_of, waiting};
use oracle::filter::Way;
use oracle::kinds::Kind;
use oracle::places::{self, AFTER_PARAM, AFTER_PLAIN, SEVERAL, SPOTS};
use oracle::script::named;
use oracle::steps::Params;

use crate::faults::faults_of;
use crate::maker::{close_of, Fault, Made, Maker};

/// Where the first bad number of a slice stands, as an index into `SPOTS`, and whether others come behind it.
#[derive(Clone, Copy, PartialEq)]
pub struct Spot {
    first: usize,
    several: bool,
}

impl Spot {
    pub const FRONT: Spot = Spot { first: 0, several: false };
}

impl Maker {
    /// A call's name in the tables; New and point have no side.
    pub fn name_of(&self, call: &str) -> String {
        if has(self.on, call) {
            named(self.on, call)
        } else {
            call.into()
        }
    }

    /// How often a call with this number has shown such a thing.
    pub fn has_shown(&self, call: &str, number: u8, word: &str) -> u64 {
        count_with(&self.reader.places, &self.name_of(call), number, word)
    }

    /// A spot for a bad number in the slice with this number, mostly one that the call has told least often.
    pub fn spot(&mut self, call: &str, number: u8) -> Spot {
        let met = SPOTS.map(|spot| self.has_shown(call, number, spot));
        let first = self.rare(&met);
        Spot { first, several: self.has_shown(call, number, SEVERAL) <= met[first] || self.random.chance(30) }
    }

    pub fn any_spot(&mut self) -> Spot {
        Spot { first: self.random.below(SPOTS.len()), several: self.random.chance(30) }
    }

    /// Puts bad numbers into a slice, as far as it has such places.
    pub fn spoil(&mut self, numbers: &mut [f64], spot: Spot) {
        let Some(last) = numbers.len().checked_sub(1) else {
            return;
        };
        let at = match spot.first {
            0 => 0,
            1 if last > 1 => 1 + self.random.below(last - 1),
            _ => last,
        };
        numbers[at] = self.random.not_finite();
        if spot.several && at < last {
            for _ in 0..self.random.between(1, 3) {
                numbers[at + 1 + self.random.below(last - at)] = self.random.not_finite();
            }
        }
    }

    /// Parameters of which one at least isn't finite.
    pub fn bad_params(&mut self, call: &str, par: Params<f64>) -> Params<f64> {
        let (mut three, spot) = (par.numbers(), self.spot(call, 56));
        self.spoil(&mut three, spot);
        let [alpha, beta, kappa] = three;
        Params { alpha, beta, kappa }
    }

    /// Half-turns of which one at least isn't finite, among plain kinds and half-turns that 6 would refuse.
    pub fn bad_half_turns(&mut self, call: &str, measured: &mut [Kind<f64>]) {
        let (mut halves, spot) = (vec![0.0; measured.len()], self.spot(call, 56));
        self.spoil(&mut halves, spot);
        let met = [AFTER_PLAIN, AFTER_PARAM].map(|word| self.has_shown(call, 56, word));
        for (kind, h) in measured.iter_mut().zip(halves) {
            *kind = match (h.is_finite(), self.random.below(3)) {
                (false, _) => Kind::Turn(h),
                (_, 0) => *kind,
                _ if self.rare(&met) == 0 => Kind::Plain,
                _ => Kind::Turn(self.random.failing_half_turn()),
            };
        }
    }

    /// Faults in slices that are searched after the first one, or 6: that which has least often had to wait for it, and at times others.
    /// `numbers` has the slices in the order of the search.
    pub fn spoil_later(&mut self, call: &str, numbers: &[u8], first: usize, faults: &mut [bool]) {
        let later: Vec<usize> = (first + 1..numbers.len()).filter(|at| numbers[*at] > 50 || numbers[*at] == 6).collect();
        if later.is_empty() {
            return;
        }
        let met: Vec<u64> = later.iter().map(|at| self.has_shown(call, numbers[first], &places::before(numbers[*at]))).collect();
        faults[later[self.rare(&met)]] = true;
        for at in later {
            faults[at] |= self.random.chance(30);
        }
    }

    /// Of all that the call can show with this number, how often that which it has shown least.
    pub fn least(&self, call: &str, number: u8) -> u64 {
        let words = if number > 50 { searches(call, number) } else { waiting(call, number) };
        let shown = words.iter().map(|word| self.has_shown(call, number, word)).min();
        shown.unwrap_or_else(|| count(&self.reader.table, &self.name_of(call), number))
    }

    /// As `faults`, but in slices alone, the first mostly one of which least has been shown.
    pub fn bad_slices(&mut self, call: &str, numbers: &[u8]) -> Vec<bool> {
        let slices: Vec<usize> = (0..numbers.len()).filter(|at| numbers[*at] > 50).collect();
        let met: Vec<u64> = slices.iter().map(|at| self.least(call, numbers[*at])).collect();
        let first = slices[self.rare(&met)];
        let mut faults = vec![false; numbers.len()];
        faults[first] = true;
        if self.random.chance(70) {
            self.spoil_later(call, numbers, first, &mut faults);
        }
        faults
    }

    /// A row, mostly one whose pivot this call has told least often.
    pub fn rare_row(&mut self, call: &str, number: u8, rows: usize) -> usize {
        let met: Vec<u64> = (0..rows).map(|row| self.has_shown(call, number, &places::row(row))).collect();
        self.rare(&met)
    }

    /// Makes the pivot of a row bad, those above it being good: not above 0, or not finite.
    pub fn bad_pivot(&mut self, a: &mut [f64], d: usize, row: usize) {
        let width = self.width();
        a[row * d + row] = self.random.pick(&[0.0, -0.0, -1.0, -width.smallest(), -width.largest()]);
        if row > 0 && self.random.chance(40) {
            // The square of an entry overflows.
            a[row * d + row] = 1.0;
            a[row * d] = self.about(width.edges().huge);
        }
        if self.random.chance(30) {
            // A later one too, which is never come to.
            let later = row + self.random.below(d - row);
            a[later * d + later] = -1.0;
        }
    }

    /// Refused calls one after the other, each mostly with what its call has shown least.
    pub fn refused_searches(&mut self, n: usize) -> Made<()> {
        // Three places have a first one, one between and a last one.
        let n = n.max(3).max(1 + self.rare_row("openp", 7, 8));
        self.fresh(n, 1.0, false)?;
        self.turn();
        let n = self.n();
        if n == 0 {
            return Ok(()); // too long a line
        }
        for _ in 0..3 {
            let setters = [("setx", 51), ("setp", 52), ("setq", 53), ("setpar", 56)];
            let met = setters.map(|(call, number)| self.least(call, number));
            let (call, number) = setters[self.rare(&met)];
            self.faulty_set(call, number)?;
            self.refused_setter()?;
        }
        for _ in 0..3 {
            self.pivot_of_p()?;
        }
        let p = self.random.covariance(n, 1.0);
        self.set_p(&p)?;
        for call in ["openp", "openc"] {
            self.short_open(call)?;
        }
        for call in ["readx", "readp", "readq", "readpts"] {
            self.read(call, true)?;
        }
        self.way = Way::Whole;
        self.open_prediction()?;
        for _ in 0..3 {
            self.misfit()?;
        }
        for _ in 0..2 {
            let (points, spot) = (self.filter().drawn_points, self.spot("closep", 54));
            let line = format!("closep {}", self.list(&points, Fault::Number(spot)));
            self.say(line)?;
        }
        self.say("abandon")?;
        if self.random.chance(50) {
            // A flat close would be refused for it.
            self.half_circle()?;
        }
        self.open_correction()?;
        for _ in 0..6 {
            let averages = self.averages();
            let least = |call| slices_of(call).iter().map(|number| self.least(call, *number)).min().unwrap_or(0);
            let met: Vec<u64> = averages.iter().map(|average| least(close_of(Way::Whole, *average))).collect();
            let (average, m) = (averages[self.rare(&met)], self.random.pick(&[3, 4]));
            let (z, r, observed) = (vec![0.0; m], self.random.covariance(m, 1.0), vec![0.0; m * (2 * n + 1)]);
            let (call, numbers) = (close_of(Way::Whole, average), faults_of(Way::Whole, average));
            let faults = if self.random.chance(70) { self.bad_slices(call, numbers) } else { self.faults(call, numbers) };
            self.faulty_close(Way::Whole, average, &faults, &z, &r, &[Kind::Plain; 4][..m], &observed)?;
        }
        let average = self.average();
        self.pivots_of_s(average)?;
        self.say("abandon")?;
        Ok(())
    }
}
