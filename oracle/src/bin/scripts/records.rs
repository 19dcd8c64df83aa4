//! Records (request A8): filters saved and read back, records of fresh numbers, and all that is refused of either.

use oracle::coverage::slices_of;
use oracle::kinds::Kind;
use oracle::pair::Side;
use oracle::places::{self, AFTER_PARAM, CUT, HALF_TURN, NO_KIND, NO_MARK, NO_N, PARAMS, PLAIN_H, PLAIN_ZERO, SECOND};
use oracle::record::{record_length, Record, HEAD, KIND, MARK};
use oracle::script::{hex, On, BYTES};
use oracle::steps::Params;

use crate::maker::{Made, Maker};

/// What load can be refused by, in the order of its tests.
const FAULTS: [u8; 8] = [1, 2, 12, 51, 52, 53, 56, 6];

impl Maker {
    /// Whether whose turn it is would be saved, given the room.
    pub fn is_savable(&self) -> bool {
        self.on != On::Narrow && self.shut() && self.filter().stale
    }

    /// A save with a buffer that is exactly full, longer, or short; on the empty filter one that would do for some other.
    pub fn save(&mut self, short: bool) -> Made<u8> {
        let n = if self.n() == 0 && !short { self.random.below(9) } else { self.n() };
        let needed = record_length(n);
        let length = match (short, self.random.below(40)) {
            (true, 0..=9) => self.random.below(needed),
            (true, _) => needed - 1,
            (_, 0) => BYTES as usize,
            (_, 1..=12) => needed + 1 + self.random.below(9),
            _ => needed,
        };
        self.say(format!("save {length}"))
    }

    /// Reads these bytes, whoever's turn it is, at times with others behind them.
    fn load(&mut self, mut bytes: Vec<u8>, longer: bool) -> Made<u8> {
        if longer && self.random.chance(25) {
            let most = if self.random.chance(3) { BYTES as usize - bytes.len() } else { 9 };
            bytes.extend((0..1 + self.random.below(most)).map(|_| self.random.bits() as u8));
        }
        let upper = self.random.chance(10);
        let hex = if upper { hex(&bytes).to_uppercase() } else { hex(&bytes) };
        self.tell(format!("load {hex}"))
    }

    fn fresh_record(&mut self, n: usize, unit: f64, turns: bool) -> Record {
        let (x, p, q, par) =
            (self.random.vector(n, unit), self.random.covariance(n, unit), self.random.noise(n, unit), self.random.params(n));
        let turns = if turns { 40 } else { 0 };
        let kinds = (0..n).map(|_| if self.random.chance(turns) { Kind::Turn(self.random.half_turn(unit)) } else { Kind::Plain });
        Record { n, x, p, q, par, kinds: kinds.collect() }
    }

    /// A filter like a new one, its kinds with it.
    pub fn fresh_by_record(&mut self, n: usize, unit: f64, turns: bool) -> Made<()> {
        let record = self.fresh_record(n, unit, turns);
        self.load(record.bytes(), true)?;
        Ok(())
    }

    /// A filter goes on file: turned away as long as its points are in use, then saved. As a rule it is read back, a side into the solo filter, and rounds go on there.
    pub fn on_file(&mut self, unit: f64) -> Made<()> {
        if !self.shut() || self.n() == 0 {
            return Ok(());
        }
        if !self.filter().stale {
            let short = self.random.chance(30);
            self.save(short)?;
            let call = self.random.pick(&["setx", "setp"]);
            self.set(call, unit)?;
        }
        if self.random.chance(15) {
            self.save(true)?;
        }
        let record = self.record();
        if self.save(false)? != 0 || self.random.chance(20) {
            return Ok(());
        }
        let on = self.on;
        self.turn_to(On::Solo);
        self.load(record.bytes(), true)?;
        if on != On::Solo {
            self.rounds_after(unit)?;
        }
        self.turn_to(on);
        Ok(())
    }

    /// What was read is shown to count: it is saved again, or drawn from.
    fn rounds_after(&mut self, unit: f64) -> Made<()> {
        if self.random.chance(15) {
            self.save(false)?;
        }
        if self.random.chance(15) {
            self.say("dump")?;
        }
        if self.random.chance(50) {
            self.prediction(unit)?;
        }
        self.correction(unit)
    }

    /// Saves and loads one after the other, each mostly with what was least shown. On a pair the sides are saved, and read into the solo filter.
    pub fn records(&mut self, n: usize) -> Made<()> {
        let (unit, turns) = (self.unit(), self.random.chance(40));
        self.fresh(n, unit, turns)?;
        self.turn();
        if self.n() == 0 {
            return Ok(()); // too long a line
        }
        self.saves()?;
        for _ in 0..if self.paired() { 2 } else { 1 } {
            self.turn();
            self.on_file(unit)?;
        }
        let on = self.on;
        self.turn_to(On::Solo);
        if on == On::Solo {
            for _ in 0..self.random.between(5, 9) {
                self.refused_load()?;
            }
            // On the empty filter.
            let short = self.random.chance(50);
            self.save(short)?;
        }
        let n = self.rare_record(n);
        self.any_load(n, unit)?;
        if self.n() > 0 {
            self.rounds_after(unit)?;
        }
        self.turn_to(on);
        if self.paired() && self.random.chance(30) {
            self.tell(format!("newpair 0 0 0 0 0 0 {}", self.params(Params::default())))?;
            self.save_twice()?;
        }
        Ok(())
    }

    /// Saves whatever is open and whatever the points: 2 and 3 with and without 11 behind them, and 11.
    fn saves(&mut self) -> Made<()> {
        let predicted = self.random.chance(70);
        if predicted {
            self.choose_way("sclosep");
            let opened = self.open_prediction()?;
            self.save_twice()?;
            let points = self.filter().drawn_points;
            if opened != 0 || self.close_prediction(&points)? != 0 {
                return self.given_up_if_open();
            }
        }
        self.save_twice()?;
        self.choose_way("sclosec");
        if self.random.chance(50) {
            self.open_correction()?;
        } else {
            self.open_prediction()?;
        }
        self.save_twice()?;
        self.given_up_if_open()
    }

    fn save_twice(&mut self) -> Made<()> {
        let short_first = self.random.chance(50);
        self.save(short_first)?;
        self.save(!short_first)?;
        Ok(())
    }

    fn given_up_if_open(&mut self) -> Made<()> {
        if self.shut() {
            return Ok(());
        }
        self.given_up()
    }

    /// A size that was least often read.
    fn rare_record(&mut self, n: usize) -> usize {
        let met: Vec<u64> = (1..=8).map(|n| self.loaded_with(n)).collect();
        if self.random.chance(50) {
            n
        } else {
            1 + self.rare(&met)
        }
    }

    /// A record as it should be or with some damage, of fresh numbers, of a side, or of the solo filter.
    pub fn any_load(&mut self, n: usize, unit: f64) -> Made<()> {
        let (on, turns) = (self.on, self.random.chance(40));
        let others = [On::Solo, On::Side(Side::One), On::Side(Side::Two)];
        let mut bytes = self.fresh_record(n, unit, turns).bytes();
        if self.random.chance(40) {
            let other = self.random.pick(&others);
            self.turn_to(other);
            if self.n() > 0 {
                bytes = self.record().bytes();
            }
            self.turn_to(on);
        }
        if self.random.chance(40) {
            self.damage(&mut bytes);
        }
        self.load(bytes, true)?;
        Ok(())
    }

    /// One byte is another, or some are missing.
    fn damage(&mut self, bytes: &mut Vec<u8>) {
        let at = self.random.below(bytes.len());
        match self.random.below(6) {
            0 => bytes.truncate(at),
            1 => bytes[at] = self.random.pick(&[0, 1, 2, 0x7f, 0x80, 0xff]),
            2 => bytes[self.random.below(HEAD)] ^= 1 << self.random.below(8),
            // Among the kinds.
            3 => {
                let kinds = bytes.len() - KIND.min(bytes.len());
                let at = kinds + self.random.below(bytes.len() - kinds);
                bytes[at] ^= 1 << self.random.below(8);
            }
            _ => bytes[at] ^= 1 << self.random.below(8),
        }
    }

    /// A load with a fault, mostly one of which least was shown, and mostly something that has to wait for it.
    fn refused_load(&mut self) -> Made<()> {
        let met = FAULTS.map(|number| self.least("load", number));
        let first = self.rare(&met);
        let mut faults = vec![FAULTS[first]];
        let mut later = FAULTS[first + 1..].to_vec();
        later.extend((FAULTS[first] == 56).then_some(56));
        if FAULTS[first] == 1 {
            later.truncate(2); // without an n there are no numbers
        }
        if !later.is_empty() && self.random.chance(75) {
            let met: Vec<u64> = later.iter().map(|number| self.has_shown("load", FAULTS[first], &places::before(*number))).collect();
            faults.push(later[self.rare(&met)]);
        }
        for number in later {
            if self.random.chance(8) {
                faults.push(number);
            }
        }
        let bytes = self.faulty_record(&faults);
        self.load(bytes, !faults.contains(&2))?;
        self.after_refusal()
    }

    /// A record with these faults. The first state or the last is kept for its kind, the second and third for half-turns, and the last for a cut, so that none hides another.
    fn faulty_record(&mut self, faults: &[u8]) -> Vec<u8> {
        let has = |number: u8| faults.contains(&number);
        let n = self.random.pick(&[4, 4, 4, 5, 6, 7, 8]);
        let mut record = self.fresh_record(n, 1.0, true);
        let both = faults.iter().filter(|number| **number == 56).count() > 1;
        let lone = self.rare_word(56, &[places::SPOTS[0], SECOND, PARAMS, AFTER_PARAM]);
        let bad_half = has(56) && (both || lone != places::SPOTS[0]);
        let bad_params = has(56) && (both || !bad_half);
        if has(6) || bad_half && [PARAMS, AFTER_PARAM].contains(&lone) {
            // Where the parameters are bad, a half-turn alone can fail 6.
            let by_half = match (bad_params, bad_half) {
                (true, _) => true,
                (_, true) => lone != PARAMS,
                _ => self.rare_word(6, &[PARAMS, HALF_TURN]) == HALF_TURN,
            };
            if by_half {
                record.kinds[1] = Kind::Turn(self.random.failing_half_turn());
            } else {
                record.par = self.random.failing_params(n);
            }
        }
        if bad_params {
            record.par = self.bad_params("load", record.par);
        }
        if bad_half {
            record.kinds[2] = Kind::Turn(self.random.not_finite());
        }
        for (number, numbers) in slices_of("load").iter().zip([&mut record.x, &mut record.p, &mut record.q]) {
            if has(*number) {
                let spot = self.spot("load", *number);
                self.spoil(numbers, spot);
            }
        }
        let mut bytes = record.bytes();
        if has(12) {
            self.spoil_form(&mut bytes, faults);
        }
        if has(1) {
            bytes[2] = self.random.pick(&[0, 9, 10, 16, 0x7f, 0x80, 0xff]);
        }
        if has(2) {
            self.cut(&mut bytes, faults);
        }
        bytes
    }

    /// What makes 12: mostly that which least often did.
    fn spoil_form(&mut self, bytes: &mut [u8], faults: &[u8]) {
        let last = faults[0] != 2 && self.random.chance(50);
        let kind = bytes.len() - KIND * if last { 1 } else { usize::from(bytes[2]) };
        // Without an n, or before one, the mark alone counts.
        let all = [NO_MARK[0], NO_MARK[1], NO_KIND, PLAIN_H, PLAIN_ZERO];
        let causes = if faults.contains(&1) || faults[0] == 2 { &all[..2] } else { &all[..] };
        match self.rare_word(12, causes) {
            NO_KIND => bytes[kind] = self.random.pick(&[2, 3, 0x10, 0x80, 0x81, 0xff]),
            word @ (PLAIN_H | PLAIN_ZERO) => {
                let h = if word == PLAIN_ZERO { -0.0 } else { self.random.pick(&[1.0, 180.0, f64::from_bits(1), f64::NAN]) };
                bytes[kind] = 0;
                bytes[kind + 1..kind + KIND].copy_from_slice(&h.to_bits().to_le_bytes());
            }
            _ if self.random.chance(15) => bytes[..2].copy_from_slice(&self.random.pick(&[[MARK[1], MARK[0]], [0, 0], [0xff, 0xff]])),
            word => {
                let at = usize::from(word == NO_MARK[1]);
                bytes[at] = self.random.pick(&[0, 0xff, MARK[at] + 1, MARK[at] - 1, MARK[at] ^ 0x80, MARK[1 - at]]);
            }
        }
    }

    /// Too few bytes. What else is wrong is still there, as far as it can be.
    fn cut(&mut self, bytes: &mut Vec<u8>, faults: &[u8]) {
        let length = match faults {
            _ if faults.contains(&1) => HEAD + self.random.below(record_length(1) - HEAD),
            [2] | [2, 12] if self.rare_word(2, &[NO_N, CUT]) == NO_N => self.random.pick(&[0, 1, 2, 2]),
            [2] if self.random.chance(70) => HEAD + self.random.below(bytes.len() - HEAD),
            _ => bytes.len() - 1 - self.random.below(KIND),
        };
        bytes.truncate(length);
    }

    /// Of these words mostly that which load least often showed with this number.
    fn rare_word(&mut self, number: u8, words: &[&'static str]) -> &'static str {
        let met: Vec<u64> = words.iter().map(|word| self.has_shown("load", number, word)).collect();
        words[self.rare(&met)]
    }

    /// A line that is no save and no load.
    pub fn bad_record(&mut self) -> Vec<u8> {
        let long = |bytes: u64| format!("load {}", "57".repeat(bytes as usize));
        let lines = [
            "save",
            "save 4097",
            "save -",
            "save 60 0",
            "Save 60",
            "load",
            "load 5",
            "load 57500",
            "load 575g01",
            "load 57 50 01",
            "load --",
            "load - -",
        ];
        match self.random.below(lines.len() + 2) {
            at if at < lines.len() => lines[at].into(),
            // As many bytes as there may be, and one more.
            at => long(BYTES + (at - lines.len()) as u64).into(),
        }
    }
}
