//! Episodes as a user would have them: a new filter or a new pair, then predictions and corrections with other calls between.

use oracle::filter::{list_length, Open};
use oracle::kinds::Kind;
use oracle::script::{On, SETTERS};
use oracle::steps::Average;

use crate::maker::{Fault, Made, Maker};

impl Maker {
    pub fn episode(&mut self, n: usize, turns: bool) -> Made<()> {
        let unit = self.unit();
        self.fresh(n, unit, turns)?;
        for _ in 0..self.random.between(4, 14) {
            self.turn();
            if !self.shut() {
                // Left open on this side.
                self.end(unit)?;
                continue;
            }
            match self.random.below(if self.paired() { 27 } else { 21 }) {
                0..=5 => self.prediction(unit)?,
                6 => {
                    // Tuned between a prediction and a fix.
                    self.prediction(unit)?;
                    if self.random.chance(50) {
                        self.refused_setter()?;
                    }
                    self.setter(unit)?;
                    self.correction(unit)?;
                }
                7..=12 => {
                    // Several in a row: each but the first is drawn afresh.
                    for _ in 0..self.random.between(1, 3) {
                        self.correction(unit)?;
                    }
                }
                13..=14 => self.setter(unit)?,
                15 => self.reading()?,
                16 => self.value()?,
                17 => self.misfit()?,
                18 => self.refused_setter()?,
                19 => {
                    if self.random.chance(30) {
                        self.bad()?
                    } else {
                        self.say("dump")?;
                    }
                }
                20 if self.on != On::Narrow => self.on_file(unit)?,
                20 => self.reading()?,
                _ => self.tuned_pair(unit)?,
            }
        }
        Ok(())
    }

    /// The size of the states: a power of two, mostly about 1, at times where squares are subnormal or nearly overflow.
    pub fn unit(&mut self) -> f64 {
        let [low, high] = match self.random.below(10) {
            at @ 0..=2 => self.width().edges().units[at],
            _ => [-3, 3],
        };
        power(self.random.between(low, high))
    }

    /// A new filter or pair, at times with turns among its kinds; at times a filter is read from a record.
    pub fn fresh(&mut self, n: usize, unit: f64, turns: bool) -> Made<()> {
        if self.on == On::Solo && self.random.chance(15) {
            return self.fresh_by_record(n, unit, turns);
        }
        let lists = [self.random.vector(n, unit), self.random.covariance(n, unit), self.random.noise(n, unit)];
        let par = self.random.params(n);
        if self.new_line(n, unit, lists, par)? == 0 && turns {
            for i in 0..n {
                if self.random.chance(40) {
                    self.turn();
                    let h = self.random.half_turn(unit);
                    self.say(format!("setkind {i} {}", self.kind(Kind::Turn(h))))?;
                }
            }
        }
        Ok(())
    }

    /// Moves points (n numbers each) as a model might; turns are often brought back into range.
    fn moved(&mut self, points: &[f64], unit: f64) -> Vec<f64> {
        let n = self.n();
        let mut out = points.to_vec();
        let (a, b, shift) = (self.random.within(0.5, 1.2), self.random.within(-0.5, 0.5), self.random.sized(unit * 0.25));
        match self.random.below(13) {
            0..=1 => {}
            2..=5 => {
                for (at, number) in out.iter_mut().enumerate() {
                    *number = a * points[at] + b * points[neighbour(at, n)] + shift;
                }
            }
            6..=8 => {
                for (at, number) in out.iter_mut().enumerate() {
                    *number = points[at] + b * bend(points[neighbour(at, n)], unit);
                }
            }
            9 => {
                for number in &mut out {
                    *number += self.random.within(-0.01, 0.01) * unit;
                }
            }
            // Multiples of a quarter: many differences are zeros of either sign.
            10 => {
                for number in &mut out {
                    *number = (*number / unit * 4.0).round() / 4.0 * unit;
                }
            }
            11 => {
                let first = points[..n].to_vec();
                for (at, number) in out.iter_mut().enumerate() {
                    *number = first[at % n];
                }
            }
            _ => self.zeros(&mut out, n),
        }
        if self.random.chance(10) {
            let at = self.random.below(out.len());
            out[at] = self.random.least();
        }
        if self.random.chance(70) {
            for (number, kind) in out.iter_mut().zip(self.record().kinds.iter().cycle()) {
                *number = kind.fixed(*number);
            }
        }
        // A NaN that was worked out has other bits on other machines.
        for number in &mut out {
            *number = if number.is_nan() { f64::INFINITY } else { *number };
        }
        out
    }

    /// Zeros of both signs and the smallest numbers: what is left of a sum is its sign.
    fn zeros(&mut self, out: &mut [f64], d: usize) {
        for i in 0..d {
            let (centre, rest) = (self.random.pick(&[0.0, -0.0]), self.random.least());
            let alike = self.random.chance(60);
            for at in (i..out.len()).step_by(d) {
                out[at] = match (at < d, alike) {
                    (true, _) => centre,
                    (_, true) => rest,
                    _ => self.random.least(),
                };
            }
        }
    }

    /// m numbers of each point, as an instrument might show them.
    fn seen(&mut self, points: &[f64], m: usize, measured: &[Kind<f64>], unit: f64, gauge: f64) -> Vec<f64> {
        let n = self.n();
        let forms: Vec<(usize, usize, usize, f64)> =
            (0..m).map(|_| (self.random.below(5), self.random.below(n), self.random.below(n), self.random.within(-2.0, 2.0))).collect();
        let mut out = Vec::new();
        for point in points.chunks(n) {
            for (j, (form, i, k, a)) in forms.iter().enumerate() {
                let (first, second) = (point[*i] * gauge, point[*k] * gauge);
                let number = match form {
                    0..=1 => first,
                    2 => first - second,
                    3 => a * first + bend(second, unit * gauge),
                    _ => (first / unit * first + second / unit * second).sqrt() * unit.sqrt(),
                };
                let number = if number.is_finite() { number } else { 0.0 };
                out.push(measured[j].fixed(number));
            }
        }
        out
    }

    pub fn prediction(&mut self, unit: f64) -> Made<()> {
        self.choose_way("sclosep");
        if self.random.chance(6) {
            self.short_open("openp")?;
        }
        if self.open_prediction()? != 0 {
            return self.mended(unit);
        }
        self.meanwhile(unit)?;
        self.end(unit)
    }

    /// Ends what is open, if it still is.
    pub fn end(&mut self, unit: f64) -> Made<()> {
        match self.filter().open {
            Open::Nothing => Ok(()),
            Open::Prediction(_) => self.end_prediction(unit),
            Open::Correction(_) => self.end_correction(unit),
        }
    }

    fn end_prediction(&mut self, unit: f64) -> Made<()> {
        let drawn = self.filter().drawn_points;
        let propagated = self.moved(&drawn, unit);
        if self.random.chance(20) {
            self.faulty_close_prediction(&propagated)?;
        }
        if self.random.chance(7) {
            return self.given_up();
        }
        if self.close_prediction(&propagated)? != 0 {
            self.after_refusal()?;
            // Refused for their size, as a rule: the points as drawn may pass.
            if self.random.chance(50) && self.close_prediction(&drawn)? == 0 {
                return Ok(());
            }
            return self.abandoned();
        }
        if self.random.chance(if self.paired() { 35 } else { 20 }) {
            self.reading()?;
        }
        if self.random.chance(10) {
            // On points in use.
            self.refused_setter()?;
        }
        Ok(())
    }

    pub fn correction(&mut self, unit: f64) -> Made<()> {
        self.choose_way("sclosec");
        if self.random.chance(6) {
            self.short_open("openc")?;
        }
        if self.open_correction()? != 0 {
            return self.mended(unit);
        }
        self.meanwhile(unit)?;
        self.end(unit)
    }

    fn end_correction(&mut self, unit: f64) -> Made<()> {
        let average = self.average();
        let m = self.measurements(average);
        let edges = self.width().edges();
        let gauge = match self.random.below(10) {
            // So small that the inverse of S would overflow: measured in larger numbers.
            0..=8 if unit < power(edges.small) => power(self.random.between(edges.raised[0], edges.raised[1])),
            0..=7 => 1.0,
            _ => power(self.random.between(-edges.gauge, edges.gauge)),
        };
        let size = unit * gauge;
        let turns = if average == Average::Flat { 0 } else { 25 };
        let measured: Vec<Kind<f64>> =
            (0..m).map(|_| if self.random.chance(turns) { Kind::Turn(self.random.half_turn(size)) } else { Kind::Plain }).collect();
        let drawn = self.filter().drawn_points;
        let mut observed = self.seen(&drawn, m, &measured, unit, gauge);
        if self.random.chance(5) {
            self.zeros(&mut observed, m);
        }
        // A centre that weighs far below zero wants more noise for S to have its pivots; a flat average of wide points for P to keep its own.
        let [w0c, wi] = self.filter().drawn_weights;
        let heavy = match average {
            Average::Weighted => w0c.abs().clamp(1.0, 1.0e6).sqrt(),
            Average::Flat => (1.0 / (wi * (2 * self.n() + 1) as f64)).clamp(1.0, 1.0e6),
        };
        let r = match self.random.below(8) {
            0 => self.random.noise(m, size),
            _ => self.random.covariance(m, size * heavy),
        };
        let z: Vec<f64> = (0..m)
            .map(|j| if self.random.chance(90) { observed[j] + self.random.within(-1.0, 1.0) * size } else { self.random.sized(size) })
            .collect();
        if self.random.chance(20) {
            self.faulty_close_correction(&z, &r, &measured, &observed)?;
        }
        if self.random.chance(5) {
            return self.given_up();
        }
        let number = self.close_correction(average, &z, &r, &measured, &observed)?;
        if number != 0 {
            self.after_refusal()?;
            // With more noise it may pass; turned away for a turn, only the weighted close can.
            let average = if number == 10 { Average::Weighted } else { average };
            let more: Vec<f64> = self.random.covariance(m, size * heavy * 4.0);
            if self.close_correction(average, &z, &more, &measured, &observed)? != 0 {
                return self.abandoned();
            }
        }
        if self.random.chance(15) {
            self.reading()?;
        }
        Ok(())
    }

    /// A draw was refused: put a P and an x that have a draw, and parameters of common size.
    pub fn mended(&mut self, unit: f64) -> Made<()> {
        self.after_refusal()?;
        let n = self.n();
        if !self.paired() && self.random.chance(20) {
            let turns = self.random.chance(50);
            return self.fresh(n, unit, turns);
        }
        let p = self.random.covariance(n, unit);
        let line = format!("setp {}", self.list(&p, Fault::None));
        self.say(line)?;
        if self.width().weights(n, self.record().par).total > 1.0e9 {
            let par = self.random.params(n);
            self.say(format!("setpar {}", self.params(par)))?;
        }
        Ok(())
    }

    pub fn abandoned(&mut self) -> Made<()> {
        self.say("abandon")?;
        self.after_refusal()
    }

    /// Now and then the whole filter is looked at after a call that should have changed little.
    pub fn after_refusal(&mut self) -> Made<()> {
        if self.random.chance(25) {
            self.say("dump")?;
        }
        Ok(())
    }

    /// Calls while another is open: readings pass, the rest waits.
    fn meanwhile(&mut self, unit: f64) -> Made<()> {
        if self.random.chance(if self.paired() { 40 } else { 80 }) {
            return Ok(());
        }
        for _ in 0..self.random.between(1, 3) {
            if self.random.chance(60) && self.at_the_partner(unit)? {
                continue;
            }
            match self.random.below(5) {
                0..=1 => self.reading()?,
                2 => self.setter(unit)?,
                3 if self.random.chance(25) => {
                    self.say("dump")?;
                }
                _ => self.misfit()?,
            }
        }
        Ok(())
    }

    /// Sets something to what passes, as far as nothing is open; on a pair as often as not on its sheet.
    pub fn setter(&mut self, unit: f64) -> Made<()> {
        if self.paired() && self.random.chance(50) {
            return self.change(unit);
        }
        let number = match (self.n(), self.shut()) {
            (0, _) => 1,
            (_, true) => 0,
            (_, false) => 3,
        };
        let call = self.rare_call(self.setters(), &[number]);
        self.set(call, unit)
    }

    /// What a call sets on a filter alone: on a side not what is on the sheet.
    pub fn setters(&self) -> &'static [&'static str] {
        if self.paired() {
            &SETTERS[..2]
        } else {
            &SETTERS
        }
    }

    /// A setting that passes; now and then to what is there already.
    pub fn set(&mut self, call: &str, unit: f64) -> Made<()> {
        let (n, again) = (self.n(), self.n() > 0 && self.random.chance(15));
        let line = match call {
            "setx" => {
                let x = if again { self.record().x } else { self.random.vector(n, unit) };
                format!("setx {}", self.list(&x, Fault::None))
            }
            "setp" => {
                let p = if again { self.record().p } else { self.random.covariance(n, unit) };
                format!("setp {}", self.list(&p, Fault::None))
            }
            "setq" => {
                let q = if again { self.record().q } else { self.random.noise(n, unit) };
                format!("setq {}", self.list(&q, Fault::None))
            }
            "setpar" => {
                let par = if again { self.record().par } else { self.random.params(n) };
                format!("setpar {}", self.params(par))
            }
            _ => {
                let i = self.random.below(n.max(1));
                let new = if again {
                    self.record().kinds[i]
                } else if self.random.chance(40) {
                    Kind::Plain
                } else {
                    Kind::Turn(self.random.half_turn(unit))
                };
                format!("setkind {i} {}", self.kind(new))
            }
        };
        self.say(line)?;
        self.marks()
    }

    /// A reading with a buffer that fits, is short, or is longer; or a save that is as good as one.
    pub fn reading(&mut self) -> Made<()> {
        let calls = ["readx", "readp", "readq", "readpts", "readpar", "readstale", "save"];
        let name = self.rare_call(if self.is_savable() { &calls } else { &calls[..6] }, &[0, 1]);
        let short = self.random.chance(25);
        self.read(name, short)
    }

    pub fn read(&mut self, name: &str, short: bool) -> Made<()> {
        let n = self.n();
        let needed = match name {
            "readx" => n,
            "readp" | "readq" => n * n,
            "readpts" => list_length(n),
            "save" => return self.save(short).map(|_| ()),
            _ => return self.say(name).map(|_| ()),
        };
        let length = if short { self.short_length(needed) } else { self.length(needed) };
        self.say(format!("{name} {length}"))?;
        Ok(())
    }
}

/// A power of two, also a subnormal one.
pub fn power(exponent: i64) -> f64 {
    let (half, rest) = (exponent / 2, exponent - exponent / 2);
    let small = |e: i64| f64::from_bits(((1023 + e) as u64) << 52);
    small(half) * small(rest)
}

/// The next number of the same point.
fn neighbour(at: usize, n: usize) -> usize {
    at / n * n + (at + 1) % n
}

/// A curve of about the size of `unit`.
fn bend(number: f64, unit: f64) -> f64 {
    let t = number / unit;
    t / (1.0 + t * t) * unit
}
