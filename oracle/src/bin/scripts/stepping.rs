//! One point at a time (request A7): points asked for and images handed in, and all that doesn't fit on the way.

use oracle::coverage::{beside_partner, count_with, in_stage, staged, ORDER};
use oracle::filter::{list_length, Open, Way};
use oracle::kinds::Kind;
use oracle::places::{self, NO_M, OTHER_M};
use oracle::script::{named, On, SETTERS};
use oracle::stages::{Images, Stage, OPENS};
use oracle::steps::Average;

use crate::faults::faults_of;
use crate::maker::{Fault, Made, Maker, CALM};
use crate::searches::Spot;

impl Maker {
    /// In which way the next call is opened that is to end in such a stepped close. A stepped call takes many lines, so there are few of them;
    /// more as long as such closes lack something.
    pub fn choose_way(&mut self, close: &str) {
        let closes: &[&str] = match close {
            "sclosec" if !self.turns() => &["sclosec", "sclosef"],
            "sclosec" => &["sclosec"],
            _ => &["sclosep"],
        };
        let n = self.n();
        let lacks = |call: &&str| match (self.on, *call) {
            (On::Side(_), call) => self.met(self.on, call, &[0]) == 0 || self.partner_lacks(call),
            (_, "sclosep") => count_with(&self.reader.table, call, 0, &format!("n={n}")) == 0,
            (_, call) => (1..=4).any(|m| self.accepted_with(call, n, m) == 0),
        };
        let chance = if closes.iter().any(lacks) { 50 } else { 8 };
        self.way = if self.random.chance(chance) { Way::Stepped } else { Way::Whole };
    }

    /// Whether some call on a side was never accepted while its partner had open what such a close ends.
    fn partner_lacks(&self, close: &str) -> bool {
        let open = if close == "sclosep" { Open::Prediction(Way::Stepped) } else { Open::Correction(Way::Stepped) };
        beside_partner(&self.reader.table).any(|(_, counts)| OPENS.iter().zip(counts).any(|(other, count)| *other == open && count == 0))
    }

    /// Asks for points and hands in their images, of which each has d numbers, until so many are in: the number of the first refusal, if any.
    pub fn hand_in(&mut self, images: &[f64], d: usize, count: usize) -> Made<u8> {
        while self.filter().at < count {
            self.between_steps()?;
            let asked = self.ask()?;
            if asked != 0 {
                return Ok(asked);
            }
            self.between_steps()?;
            let at = self.filter().at;
            let taken = self.image(&images[at * d..(at + 1) * d])?;
            if taken != 0 {
                return Ok(taken);
            }
        }
        self.between_steps()?;
        Ok(0)
    }

    fn ask(&mut self) -> Made<u8> {
        let length = self.length(self.n());
        self.say(format!("ask {length}"))
    }

    /// An image of the sort that is wanted.
    fn image(&mut self, numbers: &[f64]) -> Made<u8> {
        let list = self.list(numbers, Fault::None);
        match self.filter().open {
            Open::Correction(_) => self.say(format!("imagec {} {list}", numbers.len())),
            _ => self.say(format!("imagep {list}")),
        }
    }

    /// Now and then between two steps something that leaves them as they are: what doesn't fit, a fault, the same point once more, a reading, a call at the partner.
    fn between_steps(&mut self) -> Made<()> {
        if self.bustle > CALM {
            let stage = self.filter().stage;
            if stage.asked && in_stage(&self.reader.table, self.on, "ask", stage) == Some(0) {
                self.ask()?;
            }
            if self.stage_lacks() {
                self.misfits()?;
            }
            self.unsaved()?;
        }
        if !self.random.chance(self.bustle) {
            return Ok(());
        }
        if self.paired() && !self.visiting && self.random.chance(40) {
            return self.visit(1.0);
        }
        match self.random.below(12) {
            0..=4 => self.misfit(),
            5..=8 => self.faulty_step(),
            9 if self.filter().stage.asked => self.ask().map(|_| ()),
            9..=10 => self.reading(),
            _ => self.after_refusal(),
        }
    }

    /// Whether something that has no place in this stage wasn't met there yet; on a side it need not be.
    fn stage_lacks(&self) -> bool {
        let (on, stage) = (self.on, self.filter().stage);
        !self.paired() && staged(on).any(|call| !stage.fits(call) && in_stage(&self.reader.table, on, call, stage) == Some(0))
    }

    /// On a side a save, if none was made in this stage yet, and else now and then.
    fn unsaved(&mut self) -> Made<()> {
        if self.paired() && (self.has_shown("save", 3, &self.filter().stage.name()) == 0 || self.random.chance(4)) {
            self.save(false)?;
        }
        Ok(())
    }

    /// What doesn't fit, and more of it as long as something of that is lacking.
    fn misfits(&mut self) -> Made<()> {
        self.misfit()?;
        while self.stage_lacks() && self.random.chance(75) {
            self.misfit()?;
        }
        Ok(())
    }

    /// A call that has no place in this stage, mostly one that was least met in it; at times with a fault that has to wait.
    pub fn misfit(&mut self) -> Made<()> {
        let stage = self.filter().stage;
        let calls: Vec<&str> = staged(self.on).filter(|call| !stage.fits(call)).collect();
        let call = self.rare_call(&calls, &[3]);
        if SETTERS.contains(&call) {
            return self.set(call, 1.0);
        }
        let waits = match call {
            "closec" | "closef" => self.random.pick(&[None, None, Some(1), Some(2), Some(53), Some(54), Some(55)]),
            "save" => self.random.pick(&[None, Some(2)]),
            _ => self.waiting_fault(call, 3),
        };
        self.faulty_call(call, waits.as_slice())
    }

    /// A fault in a stepped call that has its place in this stage, mostly one that was least shown; elsewhere a call that has none.
    pub fn faulty_step(&mut self) -> Made<()> {
        let stage = self.filter().stage;
        let calls = ORDER.iter().filter(|(call, _)| stage.fits(call));
        // Whether a state's kind is a turn is no fault of the call.
        let faults: Vec<(&str, u8)> = calls
            .flat_map(|(call, order)| order.iter().filter(|number| ![3, 10].contains(*number)).map(|number| (*call, *number)))
            .collect();
        if faults.is_empty() {
            return self.misfit();
        }
        let met: Vec<u64> = faults.iter().map(|(call, number)| self.least(call, *number)).collect();
        let (call, number) = faults[self.rare(&met)];
        let waits = self.waiting_fault(call, number);
        self.faulty_call(call, &[Some(number), waits].into_iter().flatten().collect::<Vec<u8>>())
    }

    /// A number that has to wait for this one in a stepped call, mostly that which least often had to; or none.
    fn waiting_fault(&mut self, call: &str, number: u8) -> Option<u8> {
        let (_, order) = ORDER.iter().find(|(stepped, _)| *stepped == call)?;
        let later: Vec<u8> = order.iter().copied().skip_while(|other| *other != number).skip(1).collect();
        if later.is_empty() || self.random.chance(30) {
            return None;
        }
        let met: Vec<u64> = later.iter().map(|later| self.has_shown(call, number, &places::before(*later))).collect();
        Some(later[self.rare(&met)])
    }

    /// An m that is none, or another one than the first image's.
    pub fn wrong_m(&mut self, call: &str) -> u64 {
        let first = self.filter().m as u64;
        let met = [NO_M, OTHER_M].map(|word| self.has_shown(call, 1, word));
        if first == 0 || self.rare(&met) == 0 {
            return self.no_size(4);
        }
        1 + (first + self.random.below(3) as u64) % 4
    }

    /// A call that isn't taken as things stand, with these faults.
    fn faulty_call(&mut self, call: &str, faults: &[u8]) -> Made<()> {
        let has = |number: u8| faults.contains(&number);
        let n = self.n().max(1);
        let m = if self.filter().m > 0 { self.filter().m } else { self.random.pick(&[1, 2, 3, 3, 4, 4]) };
        let line = match call {
            "openp" | "openc" => format!("{call} {}", self.random.pick(&[0, 3, 136])),
            "save" => return self.save(has(2)).map(|_| ()),
            "ask" => format!("ask {}", if has(2) { self.short_length(n) } else { self.length(n) }),
            "imagep" => format!("imagep {}", self.faulty_image(call, n, faults)),
            "imagec" if has(1) => {
                // What it needs is a matter of its own m, if it is one.
                let wrong = self.wrong_m(call);
                let d = if wrong <= 4 { wrong.max(1) as usize } else { m };
                format!("imagec {wrong} {}", self.faulty_image(call, d, faults))
            }
            "imagec" => format!("imagec {m} {}", self.faulty_image(call, m, faults)),
            "closep" => {
                let fault = self.any_fault();
                format!("closep {}", self.list(&vec![1.0; list_length(n)], fault))
            }
            "closec" | "sclosec" => return self.faulty_fix(call, Average::Weighted, m, faults),
            "closef" | "sclosef" => return self.faulty_fix(call, Average::Flat, m, faults),
            _ => call.into(),
        };
        self.say(line)?;
        self.after_refusal()
    }

    fn any_fault(&mut self) -> Fault {
        let spot = self.any_spot();
        self.random.pick(&[Fault::None, Fault::Short, Fault::Number(spot)])
    }

    /// An image with a number that isn't finite, too few numbers, or both.
    fn faulty_image(&mut self, call: &str, d: usize, faults: &[u8]) -> String {
        let (short, bad) = (faults.contains(&2), faults.contains(&54));
        let mut image = self.random.vector(d, 1.0);
        if bad {
            let spot = if short { Spot::FRONT } else { self.spot(call, 54) };
            self.spoil(&mut image, spot);
        }
        if short {
            image.pop();
            return self.written(&image);
        }
        self.list(&image, Fault::None)
    }

    /// A close of a correction with these faults.
    fn faulty_fix(&mut self, call: &str, average: Average, m: usize, faults: &[u8]) -> Made<()> {
        let way = if call.starts_with('s') { Way::Stepped } else { Way::Whole };
        let mut flags: Vec<bool> = faults_of(way, average).iter().map(|number| faults.contains(number)).collect();
        // Of z and R one is short: not that which has a bad number, so that both faults are there.
        flags[if faults.contains(&55) { 1 } else { 2 }] = false;
        let n = self.n().max(1);
        let (z, r, observed) = (self.random.vector(m, 1.0), self.random.covariance(m, 1.0), vec![1.0; m * (2 * n + 1)]);
        self.faulty_close(way, average, &flags, &z, &r, &[Kind::Plain; 4][..m], &observed)
    }

    /// Gives up what is open; a stepped call at any step, mostly one at which it least often was.
    pub fn given_up(&mut self) -> Made<()> {
        let open = self.filter().open;
        if !open.is_stepped() {
            return self.abandoned();
        }
        let stages: Vec<Stage> = Stage::all().filter(|stage| stage.open == open).collect();
        let call = named(self.on, "abandon");
        let met: Vec<u64> = stages.iter().map(|stage| count_with(&self.reader.table, &call, 0, &stage.name())).collect();
        let (stage, n) = (stages[self.rare(&met)], self.n());
        let count = match stage.images {
            Images::None => 0,
            Images::Some => 1 + self.random.below(2 * n - 1),
            Images::OneMissing => 2 * n,
            Images::All => 2 * n + 1,
        };
        let d = match open {
            Open::Correction(_) => self.measurements(Average::Weighted),
            _ => n,
        };
        let images = self.random.vector(d * (2 * n + 1), 1.0);
        self.hand_in(&images, d, count)?;
        if stage.asked && !self.filter().stage.asked {
            self.ask()?;
        }
        self.abandoned()
    }

    /// Stepped calls one after the other, with all that doesn't fit between their steps and in other stages.
    pub fn stepping(&mut self, n: usize) -> Made<()> {
        // Three places have a first one, one between and a last one; and few states make short calls.
        let n = if self.random.chance(70) { 3 } else { n };
        self.fresh(n, 1.0, false)?;
        if self.n() == 0 {
            return Ok(()); // too long a line
        }
        if self.random.chance(40) {
            // A flat close would be refused for it.
            self.half_circle()?;
        }
        self.bustle = 45;
        for _ in 0..3 {
            self.turn();
            if !self.shut() {
                // Left open on this side.
                self.end(1.0)?;
            }
            self.misfits()?;
            self.way = self.random.pick(&[Way::Whole, Way::Stepped, Way::Stepped]);
            let opened = if self.random.chance(40) { self.open_prediction()? } else { self.open_correction()? };
            if opened != 0 {
                self.mended(1.0)?;
                continue;
            }
            self.misfits()?;
            self.unsaved()?;
            match (self.filter().open, self.random.below(3)) {
                (_, 0) => self.given_up()?,
                (Open::Correction(Way::Stepped), 1) => {
                    self.refused_steps()?;
                    self.end(1.0)?;
                }
                _ => self.end(1.0)?,
            }
        }
        self.bustle = CALM;
        Ok(())
    }

    /// A stepped correction whose images are all in, and closes that are refused; it stays open.
    fn refused_steps(&mut self) -> Made<()> {
        let (n, m) = (self.n(), if self.filter().m > 0 { self.filter().m } else { self.random.pick(&[3, 4]) });
        self.hand_in(&vec![0.0; m * (2 * n + 1)], m, 2 * n + 1)?;
        for _ in 0..8 {
            self.faulty_step()?;
        }
        if self.turns() {
            self.faulty_fix("sclosef", Average::Flat, m, &[])?;
        }
        let average = self.average();
        self.pivots_of_s(average)
    }

    /// A step of a stepped call by pure chance, or an open that lends no buffer.
    pub fn any_step(&mut self, n: usize) -> Made<()> {
        let m = if self.filter().m > 0 && self.random.chance(80) { self.filter().m } else { 1 + self.random.below(4) };
        let line = match self.random.below(9) {
            0 => "sopenp".into(),
            1 => "sopenc".into(),
            2..=4 => format!("ask {}", self.length(n)),
            5..=6 => format!("imagep {}", self.any_list(n)),
            7 => format!("imagec {m} {}", self.any_list(m)),
            _ => "sclosep".into(),
        };
        self.say(line)?;
        Ok(())
    }
}
