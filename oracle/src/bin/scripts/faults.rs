//! Calls that are refused on their face (1 to 4, 51 to 56, 10 and 6), lines that are no calls, and calls by pure chance.

use oracle::coverage::{count, count_with, FAULTS};
use oracle::filter::{list_length, Way};
use oracle::kinds::Kind;
use oracle::record::record_length;
use oracle::script::{before, named, On, LINE, SHEET};
use oracle::steps::{Average, Params};

use crate::maker::{close_of, Fault, Made, Maker};

impl Maker {
    /// One fault, at times more than one, so that their order shows. The call answers each by its number; the first is mostly one that it gave least often.
    pub fn faults(&mut self, call: &str, numbers: &[u8]) -> Vec<bool> {
        let name = self.name_of(call);
        let met: Vec<u64> = numbers.iter().map(|number| count(&self.reader.table, &name, *number)).collect();
        let mut faults = vec![false; numbers.len()];
        let first = self.rare(&met);
        faults[first] = true;
        if numbers[first] > 50 && self.random.chance(50) {
            self.spoil_later(call, numbers, first, &mut faults);
        }
        for _ in 0..self.random.pick(&[0, 0, 0, 1, 2]) {
            let at = self.random.below(numbers.len());
            faults[at] = true;
        }
        faults
    }

    /// The fault of a list: that it is short, or a bad number in the slice with this number.
    fn fault(&mut self, call: &str, short: bool, number: Option<u8>) -> Fault {
        match (short, number) {
            (true, _) => Fault::Short,
            (_, Some(number)) => Fault::Number(self.spot(call, number)),
            _ => Fault::None,
        }
    }

    /// A size that is none: 0, just above, or near 2^64 where products would overflow.
    pub fn no_size(&mut self, top: u64) -> u64 {
        self.random.pick(&[0, top + 1, top + 2, 1 << 32, 1 << 63, u64::MAX, u64::MAX / 2, u64::MAX - 1])
    }

    /// Refused calls of every sort. They change nothing, so that a few of them show much.
    pub fn refusals(&mut self, n: usize) -> Made<()> {
        self.refused_new(n)?;
        if !self.paired() || self.random.chance(50) {
            self.refused_searches(n)?;
        }
        self.value()
    }

    /// New with faults, and what the empty filter then answers.
    fn refused_new(&mut self, n: usize) -> Made<()> {
        // A pair's New has more slices, and fewer episodes.
        let [least, most] = if self.paired() { [5, 10] } else { [4, 7] };
        for turn in 0..self.random.between(least, most) {
            let aimed = turn % 3 != 0;
            let n = if aimed { n.max(3) } else { n };
            let lists = [self.random.vector(n, 1.0), self.random.covariance(n, 1.0), self.random.noise(n, 1.0)];
            let (name, lists) = self.new_lists(n, 1.0, lists);
            let count = lists.len();
            let slices = if count == 3 { vec![51, 52, 53] } else { vec![51, 52, 51, 52, 53] };
            // Of n, of each list its length and a number, of the parameters a number and all three together.
            let numbers: Vec<u8> = [vec![1], vec![2; count], slices.clone(), vec![56, 6]].concat();
            let f = if aimed { self.bad_slices(name, &numbers) } else { self.faults(name, &numbers) };
            let par = if f[2 * count + 2] { self.random.failing_params(n) } else { self.random.params(n) };
            let par = if f[2 * count + 1] { self.bad_params(name, par) } else { par };
            let size = if f[0] { self.no_size(8) } else { n as u64 };
            let mut line = format!("{name} {size}");
            for (at, list) in lists.iter().enumerate() {
                let fault = self.fault(name, f[1 + at], f[1 + count + at].then_some(slices[at]));
                line = format!("{line} {}", self.list(list, fault));
            }
            self.say_apart(format!("{line} {}", self.params(par)))?;
        }
        self.on_the_empty_filter()
    }

    /// Any calls on whatever filter there is, mostly the empty one.
    pub fn on_the_empty_filter(&mut self) -> Made<()> {
        for _ in 0..self.random.between(5, 12) {
            self.turn();
            match self.random.below(9) {
                0..=2 => self.reading()?,
                3..=4 => self.setter(1.0)?,
                5 => {
                    let calls = if self.on == On::Narrow { &OPENS[..2] } else { &OPENS };
                    match self.rare_call(calls, &[1]) {
                        call @ ("openp" | "openc") => {
                            let length = self.random.pick(&[136, 3, 0]);
                            self.say(format!("{call} {length}"))?
                        }
                        call => self.say(call)?,
                    };
                }
                6..=7 => self.misfit()?,
                _ => self.random_call()?,
            }
        }
        Ok(())
    }

    /// An open with a short buffer.
    pub fn short_open(&mut self, name: &str) -> Made<u8> {
        let length = self.short_length(list_length(self.n()));
        self.say(format!("{name} {length}"))
    }

    pub fn faulty_close_prediction(&mut self, propagated: &[f64]) -> Made<()> {
        if self.open_way() == Way::Stepped {
            return self.faulty_step();
        }
        let spot = self.spot("closep", 54);
        let fault = self.random.pick(&[Fault::Short, Fault::Number(spot)]);
        let line = format!("closep {}", self.list(propagated, fault));
        self.say(line)?;
        self.after_refusal()
    }

    /// Faults in either close, once all images are in where it is a stepped one; on a filter with a turn the flat one has that fault besides.
    pub fn faulty_close_correction(&mut self, z: &[f64], r: &[f64], measured: &[Kind<f64>], observed: &[f64]) -> Made<()> {
        let (way, average) = (self.open_way(), self.average());
        if way == Way::Stepped && self.hand_in(observed, z.len(), 2 * self.n() + 1)? != 0 {
            return Ok(());
        }
        let faults = self.faults(close_of(way, average), faults_of(way, average));
        self.faulty_close(way, average, &faults, z, r, measured, observed)
    }

    /// A close of a correction with these of its faults.
    #[allow(clippy::too_many_arguments)]
    pub fn faulty_close(
        &mut self,
        way: Way,
        average: Average,
        faults: &[bool],
        z: &[f64],
        r: &[f64],
        measured: &[Kind<f64>],
        observed: &[f64],
    ) -> Made<()> {
        let (m, call) = (z.len(), close_of(way, average));
        // The faults of one number in the order of the lists that have them.
        let all = faults_of(way, average).iter().zip(faults);
        let of = |number: u8, nth: usize| all.clone().filter(|(other, _)| **other == number).nth(nth).is_some_and(|(_, has)| *has);
        let mut measured = measured.to_vec();
        if of(6, 0) {
            measured[self.random.below(m)] = Kind::Turn(self.random.failing_half_turn());
        }
        if of(56, 0) {
            self.bad_half_turns(call, &mut measured);
        }
        let size = if of(1, 0) { self.wrong_m(call) } else { m as u64 };
        let fz = self.fault(call, of(2, 0), of(55, 0).then_some(55));
        let fr = self.fault(call, of(2, 1), of(53, 0).then_some(53));
        let fo = self.fault(call, of(2, 2), of(54, 0).then_some(54));
        let mut r = r.to_vec();
        if of(8, 0) {
            // A pivot that isn't above 0: first or last of the refusals.
            let at = self.rare_row(call, 8, m);
            r[at * m + at] = -self.width().largest();
        }
        let lists = [self.list(z, fz), self.list(&r, fr), self.list(observed, fo)];
        let line = self.correction_line(way, average, size, lists, &measured);
        self.say(line)?;
        self.after_refusal()
    }

    /// A setter with faults; on a pair mostly one of its sheet.
    pub fn refused_setter(&mut self) -> Made<()> {
        let calls = if self.paired() && self.random.chance(65) { &SHEET } else { self.setters() };
        self.refused_set(calls)
    }

    fn met_fault(&self, call: &str, number: u8) -> u64 {
        let waited = before(&self.reader.beside(self.on, call), Some(number));
        self.met(self.on, call, &[number]) + count_with(&self.reader.table, &named(self.on, call), 3, &waited)
    }

    /// One of these setters with a fault, mostly that which was least met, things being as they are; whether it was answered or had to wait.
    pub fn refused_set(&mut self, calls: &[&str]) -> Made<()> {
        let faults: Vec<(&str, u8)> = FAULTS
            .iter()
            .filter(|(call, _)| calls.contains(call))
            .flat_map(|(call, numbers)| numbers.iter().map(|number| (*call, *number)))
            .collect();
        let met: Vec<u64> = faults.iter().map(|(call, number)| self.met_fault(call, *number)).collect();
        let (call, number) = faults[self.rare(&met)];
        self.faulty_set(call, number)
    }

    /// A setter with the fault that has this number.
    pub fn faulty_set(&mut self, call: &str, number: u8) -> Made<()> {
        let n = self.n().max(1);
        let fault = self.fault(call, number == 2, Some(number));
        let line = match call {
            "setx" => {
                let x = self.random.vector(n, 1.0);
                format!("setx {}", self.list(&x, fault))
            }
            "setp" => {
                let p = self.random.covariance(n, 1.0);
                format!("setp {}", self.list(&p, fault))
            }
            "setq" => {
                let q = self.random.noise(n, 1.0);
                format!("setq {}", self.list(&q, fault))
            }
            "setpar" => {
                let par = self.random.failing_params(n);
                let par = if number == 6 { par } else { self.bad_params(call, par) };
                format!("setpar {}", self.params(par))
            }
            _ => {
                let i = if number == 1 { self.no_size(n as u64).max(n as u64) } else { self.random.below(n) as u64 };
                // Out of range, either fault of h comes later.
                let not_finite = number == 56 || number == 1 && self.random.chance(40);
                let h = if not_finite { self.random.not_finite() } else { self.random.failing_half_turn() };
                format!("setkind {i} {}", self.kind(Kind::Turn(h)))
            }
        };
        self.say(line)?;
        self.after_refusal()
    }

    /// Any close of a correction, whatever the filter.
    pub fn either(&mut self) -> Average {
        let averages = self.averages();
        self.random.pick(averages)
    }

    /// Root, wrap and point: calls on values.
    pub fn value(&mut self) -> Made<()> {
        for _ in 0..self.random.between(1, 4) {
            let line = match self.random.below(3) {
                0 => {
                    let a = self.rooted();
                    format!("root {}", self.float(a))
                }
                1 => self.wrapped(),
                _ => self.pointed(),
            };
            self.say_apart(line)?;
        }
        Ok(())
    }

    fn rooted(&mut self) -> f64 {
        let (width, digits) = (self.width(), self.width().digits());
        let any = self.random.finite().abs();
        // Of half as many digits, so that the square has about as many as fit.
        let whole = (self.random.bits() >> (63 - digits / 2)) as f64;
        let square = whole * whole;
        match self.random.below(10) {
            0..=2 => any,
            3 => square,
            4 => width.of_bits(width.bits(square) + 1),
            5 => width.of_bits(width.bits(square).max(1) - 1),
            6 => width.of_bits(self.random.bits() >> (64 - digits) >> self.random.below(digits as usize)),
            7 => self.random.least(),
            8 => -any,
            _ => self.random.not_finite(),
        }
    }

    fn wrapped(&mut self) -> String {
        let unit = self.unit();
        let h = self.random.half_turn(unit);
        let (d, h) = match self.random.below(14) {
            0 => (self.random.finite(), h),
            1 => (self.random.finite(), self.random.finite().abs()),
            2 | 12 => (self.random.finite(), self.random.failing_half_turn()),
            3 => (self.random.not_finite(), h),
            4 => (self.random.finite(), self.random.not_finite()),
            5 => (self.random.odd(), h),
            6..=8 => (self.random.between(-9, 9) as f64 * h, h),
            // One bit beside a whole number of half-turns.
            9 => (self.width().beside(self.random.between(1, 9) as f64 * h, 1) * self.random.sign(), h),
            // As many turns as there can be.
            13 => (self.random.within(-1.0, 1.0) * self.width().largest(), self.random.least()),
            _ => (self.random.within(-10.0, 10.0) * h, h),
        };
        format!("wrap {} {}", self.float(d), self.float(h))
    }

    fn pointed(&mut self) -> String {
        let n = 1 + self.random.below(8);
        let list: Vec<f64> = (0..list_length(n)).map(|_| self.random.junk()).collect();
        // At times none.
        let f = self.faults("point", &[1, 1, 2, 0, 0, 0]);
        let size = if f[0] { self.no_size(8) } else { n as u64 };
        let k = if f[1] { self.no_size(2 * n as u64).max(2 * n as u64 + 1) } else { self.random.below(2 * n + 1) as u64 };
        let list = self.list(&list, if f[2] { Fault::Short } else { Fault::None });
        format!("point {size} {k} {list}")
    }

    /// A line that is no call; as a rule. What it is answered, the reader decides.
    pub fn bad(&mut self) -> Made<()> {
        if self.on != On::Solo && self.random.chance(50) {
            return self.bad_address();
        }
        let numbers = self.random.vector(3, 1.0);
        let (whole, one) = (format!("setx {}", self.written(&numbers)), self.float(1.0));
        let line: Vec<u8> = match self.random.below(36) {
            0 => whole[..whole.len() - 1].into(),
            1 => format!("{whole}0").into(),
            2 => format!("{whole} {one}").into(),
            3 => whole.replace("setx 3", "setx 4").into(),
            4 => whole.replace("setx 3", "setx 2").into(),
            5 => whole.replace("setx", "SETX").into(),
            6 => whole.replace("setx 3", "setx -3").into(),
            7 => whole.replace("setx 3", "setx +3").into(),
            8 => whole.replace("setx 3", "setx 0x3").into(),
            9 => format!("root {}g", &one[1..]).into(),
            10 => b"openp 513".to_vec(),
            11 => b"readx 18446744073709551616".to_vec(),
            12 => b"closec 1 0 0 p p p 0".to_vec(),
            13 => b"closec 1 0 0 p p q p 0".to_vec(),
            14 => b"closef 1 0 0".to_vec(),
            15 => b"closef 1 0 0 p p p p 0".to_vec(),
            16 => b"closef 1 0 0 0 0".to_vec(),
            17 => b"setkind 0 t".to_vec(),
            18 => b"dump 1".to_vec(),
            19 => b"root \xff\x00".to_vec(),
            20 => format!("point 1 0 513{}", format!(" {one}").repeat(513)).into(),
            21 => format!("new {}", "9".repeat(30)).into(),
            25 => b"sopenp 3".to_vec(),
            26 => b"ask".to_vec(),
            27 => b"ask 513".to_vec(),
            28 => b"imagec 1".to_vec(),
            29 => b"sclosep 0".to_vec(),
            30 => b"sclosec 1 0 0 p p p p 0".to_vec(),
            31..=33 => self.bad_record(),
            // Taken all the same: tabs, blanks around, upper case, zeros in front, a comment behind.
            22 => whole.replace(' ', "\t ").into(),
            23 => format!("  {}  # {whole}", whole.to_uppercase().replace("SETX", "setx")).into(),
            24 => whole.replace("setx 3", "setx 003").into(),
            _ => {
                // Exactly as long as a line may be, or one longer.
                let extra = self.random.below(2);
                let filling = self.random.pick(&[" ", "#", "\t"]);
                let line = format!("{} root {}", if self.paired() { "" } else { self.on.name() }, self.float(2.0));
                let more = LINE + extra - line.len();
                self.tell(format!("{line}{}", filling.repeat(more)))?;
                return Ok(());
            }
        };
        self.say(line)?;
        if self.random.chance(30) {
            let nothing = self.random.pick(&["", "   ", "\t", "# a comment", " #", "#dump"]);
            self.write(nothing.as_bytes())?;
        }
        Ok(())
    }

    /// A line that names nobody, or no call that whom it names takes.
    fn bad_address(&mut self) -> Made<()> {
        let lines: &[&str] = match self.on {
            On::Narrow => &[
                "@w",
                "@w # dump",
                "@W dump",
                "@wdump",
                "@ w dump",
                "@w @w dump",
                "@w @1 dump",
                "@2 @w dump",
                "@w openp",
                "@w closef 1 0 0 0",
                "@w sopenp",
                "@w sopenc",
                "@w ask 3",
                "@w imagep 0",
                "@w imagec 1 0",
                "@w sclosep",
                "@w sclosec 1 0 0 p p p p",
                "@w sclosef 1 0 0",
                "@w save 60",
                "@w load -",
                "@w newpair 0 0 0 0 0 0 00000000 00000000 00000000",
                "@w new 0 0 0 0 0000000000000000 0000000000000000 0000000000000000",
                "@w root 4010000000000000",
                "@w wrap 43870000 4066800000000000",
                "@w setx 1 3ff0000000000000",
                "@1 setx 1 3f800000",
                "root 40800000",
                "setkind 0 t 43340000",
            ],
            _ => &[
                "@1",
                "@2 # dump",
                "@3 dump",
                "@0 readstale",
                "@1dump",
                "@ 1 dump",
                "@1 @2 dump",
                "@1 @1 readstale",
                "@2 abandon now",
                "@1 openp",
                "@2 root 4010000000000000",
                "@1 wrap 4010000000000000 4010000000000000",
                "@2 point 1 0 3 4010000000000000 4010000000000000 4010000000000000",
                "@1 load -",
                "@2 load 575001",
                "@1 new 0 0 0 0 0000000000000000 0000000000000000 0000000000000000",
                "@2 newpair 0 0 0 0 0 0 0000000000000000 0000000000000000 0000000000000000",
                "newpair 0 0 0 0 0 0000000000000000 0000000000000000 0000000000000000",
            ],
        };
        let line = self.random.pick(lines);
        self.tell(line)?;
        Ok(())
    }

    /// A call by pure chance, with arguments in form.
    pub fn random_call(&mut self) -> Made<()> {
        let n = if self.random.chance(90) { self.n().max(1) } else { 1 + self.random.below(8) };
        let line = match self.random.below(if self.on == On::Narrow { 16 } else { 22 }) {
            0 => format!("setx {}", self.any_list(n)),
            1 => format!("setp {}", self.any_list(n * n)),
            2 => format!("setq {}", self.any_list(n * n)),
            3 => {
                let par = Params { alpha: self.random.finite(), beta: self.random.finite(), kappa: self.random.finite() };
                format!("setpar {}", self.params(par))
            }
            4 => {
                let (i, h) = (self.random.below(9), self.random.finite());
                format!("setkind {i} {}", self.kind(Kind::Turn(h)))
            }
            5 => "abandon".into(),
            6 => format!("openp {}", self.length(list_length(n))),
            7 => format!("openc {}", self.length(list_length(n))),
            8..=9 => format!("closep {}", self.any_list(list_length(n))),
            10..=12 => {
                let (way, average, m) = (self.open_way(), self.either(), 1 + self.random.below(4));
                let lists = [m, m * m, m * (2 * n + 1)].map(|length| self.any_list(length));
                self.correction_line(way, average, m as u64, lists, &[])
            }
            13 => "dump".into(),
            14 => return self.value(),
            15 => return self.reading(),
            16 => format!("save {}", self.length(record_length(n))),
            // One step of what is open, or an open.
            _ => return self.any_step(n),
        };
        self.say(line)?;
        Ok(())
    }

    /// A list of any finite numbers, all near one size or of all sizes.
    pub fn any_list(&mut self, length: usize) -> String {
        let unit = self.unit();
        let numbers: Vec<f64> = match self.random.below(4) {
            0 => (0..length).map(|_| self.random.finite()).collect(),
            1 => (0..length).map(|_| self.random.odd()).collect(),
            _ => (0..length).map(|_| self.random.sized(unit)).collect(),
        };
        let spot = self.any_spot();
        let fault = if self.random.chance(5) { self.random.pick(&[Fault::Short, Fault::Number(spot)]) } else { Fault::None };
        self.list(&numbers, fault)
    }

    /// A new filter and then calls by chance.
    pub fn wild(&mut self, n: usize) -> Made<()> {
        let (unit, turns) = (self.unit(), self.random.chance(50));
        self.fresh(n, unit, turns)?;
        for _ in 0..self.random.between(5, 25) {
            self.turn();
            match self.random.below(6) {
                0 => self.setter(unit)?,
                1 if self.shut() => self.prediction(unit)?,
                2 if self.shut() => self.correction(unit)?,
                3 => self.reading()?,
                _ => self.random_call()?,
            }
        }
        Ok(())
    }
}

const OPENS: [&str; 4] = ["openp", "openc", "sopenp", "sopenc"];

/// What can be wrong in a close of a correction: m, the lengths of z, R and the points, a pivot, numbers in R, the points and z;
/// of the weighted close a half-turn that isn't finite, and one that is no half-turn. A stepped one is lent no points.
pub fn faults_of(way: Way, average: Average) -> &'static [u8] {
    const WHOLE: [u8; 10] = [1, 2, 2, 2, 8, 53, 54, 55, 56, 6];
    const STEPPED: [u8; 8] = [1, 2, 2, 8, 53, 55, 56, 6];
    let all: &[u8] = match way {
        Way::Whole => &WHOLE,
        Way::Stepped => &STEPPED,
    };
    match average {
        Average::Weighted => all,
        Average::Flat => &all[..all.len() - 2],
    }
}
