//! What only pairs have: two sides that take turns, calls open on both at once, and sheet changes through either.

use oracle::pair::Side;
use oracle::script::{On, SHEET};

use crate::maker::{Made, Maker, CALM};

impl Maker {
    /// On a pair the turn goes to either side.
    pub fn turn(&mut self) {
        if self.paired() {
            self.on = On::Side(self.random.pick(&Side::BOTH));
        }
    }

    /// The side whose turn it isn't; others stay.
    fn turn_to_partner(&mut self) {
        if let On::Side(side) = self.on {
            self.on = On::Side(side.partner());
        }
    }

    /// While a call is open on one side: something at its partner. Says no on a filter that has none, and where it is a visit from there already.
    pub fn at_the_partner(&mut self, unit: f64) -> Made<bool> {
        let On::Side(side) = self.on else {
            return Ok(false);
        };
        if self.visiting {
            return Ok(false);
        }
        self.on = On::Side(side.partner());
        self.something(unit)?;
        self.on = On::Side(side);
        Ok(true)
    }

    /// Between two steps of a stepped call on one side: something at its partner, from where nobody comes back to this call.
    pub fn visit(&mut self, unit: f64) -> Made<()> {
        let (on, bustle) = (self.on, self.bustle);
        self.turn_to_partner();
        (self.visiting, self.bustle) = (true, CALM);
        self.something(unit)?;
        (self.visiting, self.bustle) = (false, bustle);
        self.on = on;
        Ok(())
    }

    /// A call or a round, or a part of one.
    fn something(&mut self, unit: f64) -> Made<()> {
        let shut = self.shut();
        match self.random.below(14) {
            0..=1 if shut => self.prediction(unit)?,
            2..=3 if shut => self.correction(unit)?,
            0 | 2 => self.end(unit)?,
            1 | 3 => {
                self.say("abandon")?;
            }
            // Left open, so that the two need not end in the order in which they began.
            4 => {
                self.choose_way("sclosep");
                self.open_prediction()?;
                self.change(unit)?;
            }
            5 => {
                self.choose_way("sclosec");
                self.open_correction()?;
                self.change(unit)?;
            }
            6..=7 => self.setter(unit)?,
            8..=10 => self.refused_setter()?,
            11..=12 => self.reading()?,
            _ => {
                self.say("dump")?;
            }
        }
        Ok(())
    }

    /// The sheet is changed between the predictions of both sides and a fix of either.
    pub fn tuned_pair(&mut self, unit: f64) -> Made<()> {
        self.prediction(unit)?;
        if self.random.chance(40) {
            self.turn_to_partner();
            self.end(unit)?;
            self.prediction(unit)?;
        }
        for _ in 0..self.random.between(0, 2) {
            self.turn();
            self.refused_set(&SHEET)?;
        }
        for _ in 0..self.random.between(1, 3) {
            self.change(unit)?;
        }
        self.turn();
        self.end(unit)?;
        self.correction(unit)
    }

    /// A sheet change that passes as far as nothing is open, mostly the one and through the side that were least met, things being as they are.
    /// Then it is again the turn of whose it was.
    pub fn change(&mut self, unit: f64) -> Made<()> {
        let ways: Vec<(Side, &str)> = Side::BOTH.iter().flat_map(|side| SHEET.map(|call| (*side, call))).collect();
        let numbers: &[u8] = if self.n() == 0 { &[1] } else { &[0, 3] };
        let met: Vec<u64> = ways.iter().map(|(side, call)| self.met(On::Side(*side), call, numbers)).collect();
        let (side, call) = ways[self.rare(&met)];
        let before = std::mem::replace(&mut self.on, On::Side(side));
        self.set(call, unit)?;
        self.on = before;
        Ok(())
    }

    /// Now and then the stale mark after a setting; on a pair those of both sides.
    pub fn marks(&mut self) -> Made<()> {
        if self.random.chance(80) {
            return Ok(());
        }
        for _ in 0..if self.paired() { 2 } else { 1 } {
            self.say("readstale")?;
            self.turn_to_partner();
        }
        Ok(())
    }

    /// Now and then those who had no part in an episode are looked at.
    pub fn bystander(&mut self) -> Made<()> {
        if self.random.chance(10) {
            self.turn_to_another();
            self.say("dump")?;
        }
        Ok(())
    }
}
