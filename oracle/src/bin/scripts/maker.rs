//! The maker of a script: it writes a line, runs it, and hands back the number of its answer.

use std::convert::Infallible;
use std::io::{self, BufWriter, Stdout, Write};

use oracle::coverage::{count_with, has, holes, CORRECTIONS, EVERYONE};
use oracle::filter::{list_length, Filter, Open, Way};
use oracle::float::Float;
use oracle::kinds::Kind;
use oracle::pair::Side;
use oracle::record::Record;
use oracle::script::{named, On, Reader, BAD};
use oracle::stages::Stage;
use oracle::steps::{Average, Params};

use crate::numbers::Random;
use crate::searches::Spot;
use crate::widths::Width;

/// Why the making ends.
pub enum End {
    Enough,
    Trouble(String),
}

pub type Made<A> = Result<A, End>;

/// What an episode is about: refused calls, steps that stop, rounds as a user has them, stepped calls with all that doesn't fit on the way, records, anything.
#[derive(Clone, Copy)]
enum Sort {
    Refusals,
    Steps,
    Rounds,
    Stepping,
    Records,
    Wild,
}

/// The sorts in turn.
const CYCLE: [Sort; 15] = {
    use Sort::*;
    [Refusals, Rounds, Steps, Records, Wild, Rounds, Stepping, Rounds, Steps, Wild, Rounds, Records, Rounds, Steps, Rounds]
};

/// `bustle` in rounds as a user has them.
pub const CALM: usize = 4;

pub struct Maker {
    pub random: Random,
    pub reader: Reader,
    /// On whom calls are made.
    pub on: On,
    /// Whether it is the midst of a round on someone else.
    amid: bool,
    /// In which way calls are opened.
    pub way: Way,
    /// How many in a hundred steps of a stepped call have something else between them.
    pub bustle: usize,
    /// Whether it is a call at the partner between two steps.
    pub visiting: bool,
    out: BufWriter<Stdout>,
    left: u64,
    /// How many episodes there were on the solo filter, on the f32 filter and on pairs.
    episodes: [u64; 3],
    /// Whether all that `coverage` lists was met.
    all_met: bool,
}

/// What the maker looks at in a filter of either width.
pub struct View {
    record: Record,
    pub stale: bool,
    pub open: Open,
    pub drawn_weights: [f64; 2],
    pub drawn_points: Vec<f64>,
    pub stage: Stage,
    /// How many images of a stepped call are in, and the first one's m.
    pub at: usize,
    pub m: usize,
}

impl View {
    fn of<T: Float>(filter: &Filter<T>) -> View {
        View {
            record: Record::of(filter),
            stale: filter.stale,
            open: filter.open,
            drawn_weights: filter.drawn_weights.map(T::wide),
            drawn_points: filter.drawn_points.iter().map(|number| number.wide()).collect(),
            stage: Stage::of(filter),
            at: filter.kept.at,
            m: filter.kept.m,
        }
    }
}

/// What is wrong with a lent list, if anything.
#[derive(Clone, Copy, PartialEq)]
pub enum Fault {
    None,
    Short,
    Number(Spot),
}

impl Maker {
    pub fn new(seed: u64, calls: u64) -> Self {
        Maker {
            random: Random::new(seed),
            reader: Reader::default(),
            on: On::Solo,
            amid: false,
            way: Way::Whole,
            bustle: CALM,
            visiting: false,
            out: BufWriter::new(io::stdout()),
            left: calls,
            episodes: [seed; 3],
            all_met: false,
        }
    }

    /// Writes episodes until there are enough calls.
    pub fn script(&mut self) -> Made<Infallible> {
        for on in EVERYONE {
            self.turn_to(on);
            if self.random.chance(50) {
                self.on_the_empty_filter()?;
            }
        }
        loop {
            let (whose, needed) = self.needed();
            self.turn_to(EVERYONE[whose]);
            self.turn();
            // Every size in turn and, fifteen being prime to eight, every sort of episode with each.
            let at = self.episodes[whose];
            self.episodes[whose] += 1;
            let n = 1 + (at % 8) as usize;
            match needed.unwrap_or(CYCLE[(at % 15) as usize]) {
                Sort::Refusals => self.refusals(n)?,
                Sort::Steps => {
                    for _ in 0..self.random.between(1, 4) {
                        self.overflow(n)?;
                    }
                }
                Sort::Stepping if self.on != On::Narrow => self.stepping(n)?,
                Sort::Records if self.on != On::Narrow => self.records(n)?,
                Sort::Rounds | Sort::Stepping | Sort::Records => {
                    // A flat close is refused for a turn, so that there are few as long as something wasn't met.
                    let (n, turns) = (self.rare_size(n), self.random.chance(if self.all_met { 35 } else { 12 }));
                    self.episode(n, turns)?
                }
                Sort::Wild => self.wild(n)?,
            }
            self.bystander()?;
        }
    }

    /// Whose the next episode is, and its sort if that matters: mostly what leads to something that wasn't met yet, so that a short script meets all.
    fn needed(&mut self) -> (usize, Option<Sort>) {
        if !self.all_met && self.random.chance(90) {
            let holes = holes(&self.reader.table, &self.reader.places);
            let sorts = holes.iter().enumerate().flat_map(|(whose, holes)| {
                let sorts = [
                    (Sort::Refusals, &holes.refusals),
                    (Sort::Steps, &holes.steps),
                    (Sort::Rounds, &holes.rounds),
                    (Sort::Stepping, &holes.stepping),
                    (Sort::Records, &holes.records),
                ];
                sorts.map(|(sort, unmet)| vec![(whose, Some(sort)); unmet.len()])
            });
            let sorts: Vec<_> = sorts.flatten().collect();
            if !sorts.is_empty() {
                return self.random.pick(&sorts);
            }
            self.all_met = true;
        }
        // The f32 filter has no stepped calls, so that its episodes are shorter.
        (self.random.pick(&[0, 0, 1, 1, 2]), None)
    }

    /// A size that corrections were least often accepted with; on pairs, where any will do, the one that is given, and a small one as long as something wasn't met.
    fn rare_size(&mut self, n: usize) -> usize {
        if self.paired() {
            return if self.all_met { n } else { 1 + n % 3 };
        }
        let calls: Vec<String> = CORRECTIONS.iter().filter(|(call, _)| has(self.on, call)).map(|(call, _)| named(self.on, call)).collect();
        let least = |call: &String, n: usize| (1..=4).map(|m| self.accepted_with(call, n, m)).min().unwrap_or(0);
        let met: Vec<u64> = (1..=8).map(|n| calls.iter().map(|call| least(call, n)).sum()).collect();
        1 + self.rare(&met)
    }

    /// How often this close of a correction was accepted with these sizes.
    pub fn accepted_with(&self, call: &str, n: usize, m: usize) -> u64 {
        count_with(&self.reader.table, call, 0, &format!("n={n} m={m}"))
    }

    /// How often a record of this size was read.
    pub fn loaded_with(&self, n: usize) -> u64 {
        count_with(&self.reader.table, "load", 0, &format!("n={n}"))
    }

    /// From here on calls are made on this one, with numbers of its width.
    pub fn turn_to(&mut self, on: On) {
        self.on = on;
        self.random.width = if on == On::Narrow { Width::F32 } else { Width::F64 };
    }

    pub fn paired(&self) -> bool {
        matches!(self.on, On::Side(_))
    }

    pub fn width(&self) -> Width {
        self.random.width
    }

    /// A call on whose turn it is: the number of its answer, or BAD.
    pub fn say(&mut self, line: impl AsRef<[u8]>) -> Made<u8> {
        self.interlude()?;
        self.tell_to(self.on, line)
    }

    /// A call that makes a filter or is on values: no side has it, the f32 filter has its own.
    pub fn say_apart(&mut self, line: impl AsRef<[u8]>) -> Made<u8> {
        self.tell_to(if self.paired() { On::Solo } else { self.on }, line)
    }

    fn tell_to(&mut self, on: On, line: impl AsRef<[u8]>) -> Made<u8> {
        match on.name() {
            "" => self.tell(line),
            name => self.tell([name.as_bytes(), line.as_ref()].join(&b' ')),
        }
    }

    /// Now and then in the midst of a round: calls on someone else, who mustn't notice.
    fn interlude(&mut self) -> Made<()> {
        if self.amid || !self.random.chance(3) {
            return Ok(());
        }
        let on = self.on;
        self.amid = true;
        self.turn_to_another();
        match self.random.below(8) {
            0..=1 => self.reading()?,
            2 => self.value()?,
            3 => self.setter(1.0)?,
            4..=5 if !self.shut() => self.end(1.0)?,
            4 => {
                self.choose_way("sclosep");
                self.open_prediction()?;
            }
            5 => {
                self.choose_way("sclosec");
                self.open_correction()?;
            }
            6 => self.random_call()?,
            _ if self.on == On::Solo && self.random.chance(20) => {
                let n = 1 + self.random.below(8);
                self.any_load(n, 1.0)?;
            }
            _ => {
                self.say("dump")?;
            }
        }
        self.amid = false;
        self.turn_to(on);
        Ok(())
    }

    pub fn turn_to_another(&mut self) {
        let mut others = vec![On::Solo, On::Narrow, On::Side(Side::One), On::Side(Side::Two)];
        others.retain(|other| *other != self.on && !(self.paired() && matches!(other, On::Side(_))));
        let on = self.random.pick(&others);
        self.turn_to(on);
    }

    /// A line that gets an answer, as it is.
    pub fn tell(&mut self, line: impl AsRef<[u8]>) -> Made<u8> {
        let line = line.as_ref();
        if self.left == 0 {
            self.out.flush().map_err(trouble)?;
            return Err(End::Enough);
        }
        let answer = self.reader.answer(line).map_err(End::Trouble)?.expect("only lines with a call are said");
        self.left -= 1;
        self.write(line)?;
        let number = answer.split(' ').next().unwrap_or("bad");
        Ok(number.parse().unwrap_or(BAD))
    }

    /// A line that gets no answer.
    pub fn write(&mut self, line: &[u8]) -> Made<()> {
        self.out.write_all(line).and_then(|()| self.out.write_all(b"\n")).map_err(trouble)
    }

    pub fn filter(&self) -> View {
        match self.on {
            On::Solo => View::of(&self.reader.filter),
            On::Narrow => View::of(&self.reader.narrow),
            On::Side(side) => View::of(self.reader.pair.side(side)),
        }
    }

    /// What whose turn it is would be saved as.
    pub fn record(&self) -> Record {
        self.filter().record
    }

    pub fn n(&self) -> usize {
        self.record().n
    }

    /// Whether nothing is open.
    pub fn shut(&self) -> bool {
        self.filter().open == Open::Nothing
    }

    /// Any of so many, but mostly one of those least met so far, so that a short script meets them all.
    pub fn rare(&mut self, met: &[u64]) -> usize {
        if self.random.chance(25) {
            return self.random.below(met.len());
        }
        let least: Vec<usize> = (0..met.len()).filter(|at| met.iter().all(|other| met[*at] <= *other)).collect();
        self.random.pick(&least)
    }

    /// How often a call gave these numbers, things being as they are.
    pub fn met(&self, on: On, call: &str, numbers: &[u8]) -> u64 {
        let (name, beside) = (named(on, call), self.reader.beside(on, call));
        numbers.iter().map(|number| count_with(&self.reader.table, &name, *number, &beside)).sum()
    }

    /// One of these calls, mostly the one that least often gave these numbers, things being as they are.
    pub fn rare_call(&mut self, calls: &[&'static str], numbers: &[u8]) -> &'static str {
        let met: Vec<u64> = calls.iter().map(|call| self.met(self.on, call, numbers)).collect();
        calls[self.rare(&met)]
    }

    /// A LIST that holds these numbers, or that has a fault. What a call needs is all of them; the rest is junk.
    pub fn list(&mut self, numbers: &[f64], fault: Fault) -> String {
        let mut numbers = numbers.to_vec();
        match fault {
            Fault::Short => {
                let short = if self.random.chance(70) { 1 } else { 1 + self.random.below(numbers.len().max(1)) };
                numbers.truncate(numbers.len().saturating_sub(short));
                if self.random.chance(30) && !numbers.is_empty() {
                    // A second fault, which comes later.
                    let at = self.random.below(numbers.len());
                    numbers[at] = self.random.not_finite();
                }
                return self.written(&numbers);
            }
            Fault::Number(spot) => self.spoil(&mut numbers, spot),
            Fault::None => {}
        }
        if self.random.chance(30) {
            let more = if self.random.chance(4) { 512 - numbers.len() } else { 1 + self.random.below(4) };
            numbers.extend((0..more).map(|_| self.random.junk()));
        }
        self.written(&numbers)
    }

    /// The length of a buffer that is exactly full, or longer.
    pub fn length(&mut self, needed: usize) -> usize {
        match self.random.below(40) {
            0 => 512,
            1..=8 => needed + 1 + self.random.below(5),
            _ => needed,
        }
    }

    /// A length below what is needed.
    pub fn short_length(&mut self, needed: usize) -> usize {
        if self.random.chance(70) {
            needed.saturating_sub(1)
        } else {
            self.random.below(needed.max(1))
        }
    }

    /// New's name, and the lists that it is lent: on a pair those of the side whose turn it is, and an x and a P of about this unit for its partner.
    pub fn new_lists(&mut self, n: usize, unit: f64, [x, p, q]: [Vec<f64>; 3]) -> (&'static str, Vec<Vec<f64>>) {
        let On::Side(side) = self.on else {
            return ("new", vec![x, p, q]);
        };
        let (x2, p2) = (self.random.vector(n, unit), self.random.covariance(n, unit));
        match side {
            Side::One => ("newpair", vec![x, p, x2, p2, q]),
            Side::Two => ("newpair", vec![x2, p2, x, p, q]),
        }
    }

    pub fn new_line(&mut self, n: usize, unit: f64, lists: [Vec<f64>; 3], par: Params<f64>) -> Made<u8> {
        let (name, lists) = self.new_lists(n, unit, lists);
        let lists: Vec<String> = lists.iter().map(|list| self.list(list, Fault::None)).collect();
        self.say_apart(format!("{name} {n} {} {}", lists.join(" "), self.params(par)))
    }

    pub fn open_prediction(&mut self) -> Made<u8> {
        self.open("openp")
    }

    pub fn open_correction(&mut self) -> Made<u8> {
        self.open("openc")
    }

    fn open(&mut self, call: &str) -> Made<u8> {
        if self.way == Way::Stepped && self.on != On::Narrow {
            return self.say(format!("s{call}"));
        }
        let length = self.length(list_length(self.n()));
        self.say(format!("{call} {length}"))
    }

    /// The way of what is open.
    pub fn open_way(&self) -> Way {
        self.filter().open.way().unwrap_or(Way::Whole)
    }

    /// Closes a prediction in the way in which it was opened; the number of the first refusal, if any.
    pub fn close_prediction(&mut self, propagated: &[f64]) -> Made<u8> {
        match self.open_way() {
            Way::Whole => {
                let line = format!("closep {}", self.list(propagated, Fault::None));
                self.say(line)
            }
            Way::Stepped => match self.hand_in(propagated, self.n(), 2 * self.n() + 1)? {
                0 => self.say("sclosep"),
                refused => Ok(refused),
            },
        }
    }

    /// A close of a correction with m measurements, by either average, in the way in which it was opened; the number of the first refusal, if any.
    pub fn close_correction(&mut self, average: Average, z: &[f64], r: &[f64], measured: &[Kind<f64>], observed: &[f64]) -> Made<u8> {
        let way = self.open_way();
        if way == Way::Stepped {
            let refused = self.hand_in(observed, z.len(), 2 * self.n() + 1)?;
            if refused != 0 {
                return Ok(refused);
            }
        }
        let lists = [z, r, observed].map(|list| self.list(list, Fault::None));
        let line = self.correction_line(way, average, z.len() as u64, lists, measured);
        self.say(line)
    }

    /// The line of any close of a correction; of kinds, those from m up are junk. The flat close has none, and a stepped one no list of what is observed.
    pub fn correction_line(&mut self, way: Way, average: Average, m: u64, [z, r, observed]: [String; 3], measured: &[Kind<f64>]) -> String {
        let mut line = format!("{} {m} {z} {r}", close_of(way, average));
        if average == Average::Weighted {
            line = format!("{line} {}", self.four_kinds(measured));
        }
        match way {
            Way::Whole => format!("{line} {observed}"),
            Way::Stepped => line,
        }
    }

    /// How many measurements: as many as the first image had; else any number on a side, and elsewhere mostly the one that this close was least often accepted with.
    pub fn measurements(&mut self, average: Average) -> usize {
        if self.filter().m > 0 {
            return self.filter().m;
        }
        if self.paired() {
            return 1 + self.random.below(4);
        }
        let (call, n) = (named(self.on, close_of(self.open_way(), average)), self.n());
        let met = [1, 2, 3, 4].map(|m| self.accepted_with(&call, n, m));
        1 + self.rare(&met)
    }

    /// The closes that whose turn it is has: request A6 has no flat one.
    pub fn averages(&self) -> &'static [Average] {
        match self.on {
            On::Narrow => &[Average::Weighted],
            _ => &[Average::Weighted, Average::Flat],
        }
    }

    /// Which close a correction is aimed at: seldom the flat one where it is refused for a turn, else mostly the one less met.
    pub fn average(&mut self) -> Average {
        let averages = self.averages();
        if self.turns() {
            let flat = self.random.chance(15);
            return averages[usize::from(flat).min(averages.len() - 1)];
        }
        let n = self.n();
        let met = |call: &str| match self.on {
            On::Side(_) => self.met(self.on, call, &[0]),
            _ => (1..=4).map(|m| self.accepted_with(&named(self.on, call), n, m)).sum(),
        };
        let met: Vec<u64> = averages.iter().map(|average| met(close_of(self.open_way(), *average))).collect();
        averages[self.rare(&met)]
    }

    /// Whether some state is a turn.
    pub fn turns(&self) -> bool {
        self.record().kinds.iter().any(|kind| kind.half().is_some())
    }

    /// Four KINDs, these first.
    fn four_kinds(&mut self, measured: &[Kind<f64>]) -> String {
        let mut all = measured.to_vec();
        while all.len() < 4 {
            let junk = if self.random.chance(50) { Kind::Plain } else { Kind::Turn(self.random.junk()) };
            all.push(junk);
        }
        all.into_iter().map(|kind| self.kind(kind)).collect::<Vec<_>>().join(" ")
    }

    /// A LIST as it is written.
    pub fn written(&self, numbers: &[f64]) -> String {
        format!("{}{}", numbers.len(), numbers.iter().map(|number| format!(" {}", self.float(*number))).collect::<String>())
    }

    pub fn params(&self, par: Params<f64>) -> String {
        par.numbers().map(|number| self.float(number)).join(" ")
    }

    pub fn kind(&self, kind: Kind<f64>) -> String {
        match kind.half() {
            None => "p".into(),
            Some(h) => format!("t {}", self.float(h)),
        }
    }

    /// One number.
    pub fn float(&self, number: f64) -> String {
        self.width().word(number)
    }
}

pub fn close_of(way: Way, average: Average) -> &'static str {
    match (way, average) {
        (Way::Whole, Average::Weighted) => "closec",
        (Way::Whole, Average::Flat) => "closef",
        (Way::Stepped, Average::Weighted) => "sclosec",
        (Way::Stepped, Average::Flat) => "sclosef",
    }
}

fn trouble(error: io::Error) -> End {
    End::Trouble(error.to_string())
}
