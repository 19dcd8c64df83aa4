//! The proved save and load of records, linked in by oracle/records, beside the oracle's own reader and writer (src/record.rs).
//! Prints how many records were taken and how many refused, by number, and the time.
//! At the first difference it prints that one, as lines of a script, and ends with status 1.

use std::io::{stdout, Write};
use std::ops::Range;
use std::process::exit;
use std::thread;
use std::time::Instant;

use oracle::filter::{Filter, Trouble};
use oracle::kinds::Kind;
use oracle::record::{record_length, Record, KIND};
use oracle::refusal::Refusal;
use oracle::script::hex;
use oracle::steps::{Params, Weights};

extern "C" {
    /// Loads s and saves what was read into out; said are number and place of the one, then of the other. A slice is handed over as where it starts and how long it is.
    fn loaded_and_saved(s: *const u8, length: usize, out: *mut u8, room: usize, said: &mut [usize; 4]);
}

const LONGEST: usize = record_length(8);
/// The most bytes that a buffer has beyond a record.
const BEYOND: usize = 16;

/// Number and place.
type Verdict = [usize; 2];

/// Numbers in a fixed disorder (xorshift), another for each seed.
struct Disorder(u64);

impl Disorder {
    fn of(seed: u64) -> Self {
        let mut some = Self((seed + 1).wrapping_mul(0x9e37_79b9_7f4a_7c15));
        // seeds that lie close together have parted by then
        for _ in 0..8 {
            some.next();
        }
        some
    }

    fn next(&mut self) -> u64 {
        self.0 ^= self.0 << 13;
        self.0 ^= self.0 >> 7;
        self.0 ^= self.0 << 17;
        self.0
    }

    fn below(&mut self, n: usize) -> usize {
        (u128::from(self.next()) * n as u128 >> 64) as usize
    }

    fn pick<T: Copy>(&mut self, of: &[T]) -> T {
        of[self.below(of.len())]
    }

    /// A finite number above or below zero, or a zero of either sign.
    fn number(&mut self) -> f64 {
        let fraction = self.next() >> 12;
        let size = match self.below(16) {
            // each exponent as often as another
            0..=7 => f64::from_bits((self.below(0x7ff) as u64) << 52 | fraction),
            // subnormal, each number of digits as often as another
            8..=9 => f64::from_bits((fraction | 1 << 51) >> self.below(52)),
            // as in a dive
            10..=12 => self.below(20_000) as f64 / 100.0,
            _ => self.pick(&[0.0, 0.0, 1.0, f64::from_bits(1), f64::MIN_POSITIVE, f64::MAX / 2.0, f64::MAX]),
        };
        if self.below(2) == 0 {
            size
        } else {
            -size
        }
    }

    /// An infinity or a NaN, quiet or signalling, of either sign.
    fn bad_number(&mut self) -> f64 {
        let fraction = self.next() >> 12;
        let bits = 0x7ff << 52 | self.pick(&[0, 1, 1 << 51, fraction, fraction >> 1]);
        f64::from_bits(bits | self.next() << 63)
    }

    /// Parameters that pass at n states, half of them of every size.
    fn params(&mut self, n: usize) -> Params<f64> {
        let every_size = self.below(2) == 0;
        loop {
            let [alpha, beta, kappa] = std::array::from_fn(|_| if every_size { self.number() } else { self.below(4000) as f64 / 1000.0 });
            let par = Params { alpha, beta, kappa };
            if Weights::of(n, par).pass() {
                return par;
            }
        }
    }

    /// Above zero, and its double finite.
    fn half_turn(&mut self) -> f64 {
        loop {
            let any = self.number().abs();
            let h = self.pick(&[180.0, std::f64::consts::PI, any]);
            if 0.0 < h && h <= f64::MAX / 2.0 {
                return h;
            }
        }
    }

    /// A record that has to be taken. One in three has plain states alone, one in three turns alone.
    fn record(&mut self, n: usize) -> Record {
        let mut numbers: Vec<f64> = (0..n + 2 * n * n).map(|_| self.number()).collect();
        numbers.extend(self.params(n).numbers());
        let of_three = self.below(3);
        let kinds = (0..n).map(|_| if self.below(2) < of_three { Kind::Turn(self.half_turn()) } else { Kind::Plain });
        Record::with(n, &numbers, kinds.collect())
    }

    /// One to three of what New refuses, wherever it falls.
    fn spoil(&mut self, record: &mut Record) {
        for _ in 0..1 + self.below(3) {
            let (n, bad, any, below) = (record.n, self.bad_number(), self.number(), -self.half_turn());
            match self.below(8) {
                0 => record.x[self.below(n)] = bad,
                1 => record.p[self.below(n * n)] = bad,
                2 => record.q[self.below(n * n)] = bad,
                3 => *self.pick_param(&mut record.par) = bad,
                4 => record.kinds[self.below(n)] = Kind::Turn(bad),
                // a half-turn that isn't above zero, or whose double overflows
                5 => record.kinds[self.below(n)] = Kind::Turn(self.pick(&[0.0, -0.0, f64::MAX, below])),
                // parameters of every size, which mostly fail
                _ => *self.pick_param(&mut record.par) = self.pick(&[0.0, -0.0, -8.0, f64::MAX, any]),
            }
        }
    }

    /// One to three of what is refused before any number is looked at: mark, n and kinds; and then at times a cut.
    fn damage(&mut self, n: usize, bytes: &mut Vec<u8>) {
        let length = record_length(n);
        for _ in 0..1 + self.below(3) {
            let (other, state) = (1 + self.below(255) as u8, length - KIND * (1 + self.below(n)));
            match self.below(4) {
                0 => bytes[self.below(2)] ^= other,
                1 => bytes[2] = self.pick(&[0, 1, n as u8 - 1, n as u8 + 1, 8, 9, other]),
                2 => bytes[state] ^= self.pick(&[1, 3, other]),
                // the last byte of h has its sign
                _ => bytes[state + self.pick(&[1, 4, KIND - 1])] ^= self.pick(&[0x80, other]),
            }
        }
        if self.below(2) == 0 {
            let anywhere = self.below(length);
            bytes.truncate(self.pick(&[0, 2, 3, anywhere, length - 1]));
        }
    }

    fn pick_param<'a>(&mut self, par: &'a mut Params<f64>) -> &'a mut f64 {
        match self.below(3) {
            0 => &mut par.alpha,
            1 => &mut par.beta,
            _ => &mut par.kappa,
        }
    }
}

/// How many were taken, which is number 0, and how many refused by each number.
#[derive(Clone, Copy)]
struct Count([u64; 57]);

const NONE: Count = Count([0; 57]);

impl Count {
    fn of(&mut self, number: usize) {
        self.0[number] += 1;
    }

    fn all(&self) -> u64 {
        self.0.iter().sum()
    }

    fn added(self, other: Count) -> Count {
        Count(std::array::from_fn(|number| self.0[number] + other.0[number]))
    }

    fn refused(&self) -> String {
        let by: Vec<String> =
            (1..57).filter(|number| self.0[*number] > 0).map(|number| format!("{} by {number}", self.0[number])).collect();
        format!("{} refused ({})", self.all() - self.0[0], by.join(", "))
    }
}

fn verdict(answer: Result<(), Refusal>) -> Verdict {
    answer.map_or_else(|refusal| [refusal.number().into(), refusal.place()], |()| [0, 0])
}

/// The oracle's load and save, with the buffer afterwards.
fn by_oracle(bytes: &[u8], mut out: Vec<u8>) -> (Verdict, Verdict, Vec<u8>) {
    let refusal = |trouble| match trouble {
        Trouble::Refused(refusal) => refusal,
        Trouble::Parted(how) => stop(&format!("the oracle parted from the published Rust: {how}")),
    };
    let read = Filter::load(bytes).map_err(refusal);
    let loaded = verdict(read.as_ref().map(|_| ()).map_err(|refusal| *refusal));
    let filter = read.unwrap_or_else(|_| Filter::empty());
    let saved = verdict(filter.save(&mut out).map_err(refusal));
    (loaded, saved, out)
}

fn by_proved(bytes: &[u8], mut out: Vec<u8>) -> (Verdict, Verdict, Vec<u8>) {
    let mut said = [usize::MAX; 4];
    unsafe { loaded_and_saved(bytes.as_ptr(), bytes.len(), out.as_mut_ptr(), out.len(), &mut said) };
    let [loaded, at, saved, at_saved] = said;
    ([loaded, at], [saved, at_saved], out)
}

/// What a buffer of so many bytes holds before a call, as in a script.
fn lent(room: usize) -> Vec<u8> {
    (0..room).map(|i| (0xa0 + i) as u8).collect()
}

/// Both answer alike, and as is asked whatever the oracle says: a refused load leaves nothing to save, and what is taken is saved as it was read.
/// Gives the numbers of load and save.
fn compared(bytes: &[u8], room: usize) -> [usize; 2] {
    let ours = by_oracle(bytes, lent(room));
    let proved = by_proved(bytes, lent(room));
    let (loaded, saved, out) = &proved;
    let mut asked = lent(room);
    let answer = match (loaded[0], bytes.get(2)) {
        (0, Some(n)) if record_length(*n as usize) <= room => {
            let length = record_length(*n as usize);
            asked[..length].copy_from_slice(&bytes[..length]);
            0
        }
        (0, _) => 2,
        _ => 1,
    };
    if proved != ours || *saved != [answer, 0] || *out != asked {
        let said = |(loaded, saved, out): &(Verdict, Verdict, Vec<u8>)| {
            format!("{} {}; {} {} {room} {}", loaded[0], loaded[1], saved[0], saved[1], hex(out))
        };
        stop(&format!("differs: load {}; save {room}\nproved: {}\noracle: {}", hex(bytes), said(&proved), said(&ours)));
    }
    [loaded[0], saved[0]]
}

/// Says it and ends. Whoever comes second waits for the lock, and says nothing.
fn stop(what: &str) -> ! {
    let mut out = stdout().lock();
    writeln!(out, "{what}").expect("what differs can be said");
    exit(1)
}

/// The record of a fresh filter, read and saved again. One in four is spoilt first, one in eight damaged, so that some are both. The numbers of load and save.
fn round(seed: u64) -> [usize; 2] {
    let mut some = Disorder::of(seed);
    let n = 1 + some.below(8);
    let mut record = some.record(n);
    let spoilt = some.below(4) == 0;
    if spoilt {
        some.spoil(&mut record);
    }
    let mut bytes = record.bytes();
    let length = bytes.len();
    // what stands behind a record doesn't count
    bytes.extend((0..some.below(BEYOND + 1)).map(|_| some.next() as u8));
    let damaged = some.below(8) == 0;
    if damaged {
        some.damage(n, &mut bytes);
    }
    // mostly room for more; at times it is just full, or a byte short
    let room = match some.below(8) {
        0 => length,
        1 => length - 1,
        _ => length + 1 + some.below(BEYOND),
    };
    let numbers = compared(&bytes, room);
    if !spoilt && !damaged && numbers[0] != 0 {
        stop(&format!("refused by {}, though it has to be taken: load {}", numbers[0], hex(&bytes)));
    }
    numbers
}

/// Every other value of every byte of a record, then every cut of it, the record itself among them: the numbers of load.
fn near(record: &[u8]) -> [Count; 2] {
    let [mut changed, mut cut] = [NONE; 2];
    let mut bytes = record.to_vec();
    for at in 0..record.len() {
        for by in 1..=255 {
            bytes[at] = record[at] ^ by;
            changed.of(compared(&bytes, LONGEST + BEYOND)[0]);
        }
        bytes[at] = record[at];
    }
    (0..=record.len()).for_each(|length| cut.of(compared(&record[..length], LONGEST + BEYOND)[0]));
    [changed, cut]
}

/// Counts what is found from 0 to the number of all, on all threads: pieces are handed out in turn, so that what is found doesn't hang on how many there are.
fn counted<const K: usize>(all: u64, piece: u64, found: fn(Range<u64>) -> [Count; K]) -> [Count; K] {
    let threads = threads();
    let workers: Vec<_> = (0..threads)
        .map(|t| {
            thread::spawn(move || {
                let mine = (0..all.div_ceil(piece)).filter(|k| k % threads == t);
                mine.map(|k| found(k * piece..all.min((k + 1) * piece))).fold([NONE; K], sum)
            })
        })
        .collect();
    workers.into_iter().map(|worker| worker.join().expect("a piece was not counted")).fold([NONE; K], sum)
}

fn sum<const K: usize>(a: [Count; K], b: [Count; K]) -> [Count; K] {
    std::array::from_fn(|k| a[k].added(b[k]))
}

fn threads() -> u64 {
    thread::available_parallelism().map_or(1, |n| n.get() as u64)
}

/// The k-th record whose neighbours are tried: each eight have every n, in turned order, so that no thread has the long ones alone. Its seed is no round's.
fn tried(k: u64) -> Record {
    Disorder::of(1 << 63 | k).record(1 + ((k + k / 8) % 8) as usize)
}

fn main() {
    let mut counts = std::env::args().skip(1).map(|count| count.parse::<u64>().expect("a count"));
    let (records, rounds) = (counts.next().expect("how many records"), counts.next().expect("how many rounds"));

    let start = Instant::now();
    let [read, saved] = counted(rounds, 1000, |seeds| {
        let [mut read, mut saved] = [NONE; 2];
        for seed in seeds {
            let [loaded, back] = round(seed);
            read.of(loaded);
            saved.of(back);
        }
        [read, saved]
    });
    println!("records read: {}, {} taken, {}", read.all(), read.0[0], read.refused());
    println!("what was read: {} saved as they were read, {}", saved.0[0], saved.refused());
    println!("{:.0} s on {} threads", start.elapsed().as_secs_f64(), threads());

    let start = Instant::now();
    let turns = (0..records).filter(|k| !tried(*k).halves().is_empty()).count();
    let [changed, cut] = counted(records, 1, |all| all.map(|k| near(&tried(k).bytes())).fold([NONE; 2], sum));
    println!("records whose neighbours were tried: {records}, {turns} with turns");
    println!("one byte changed: {}, {} are other filters, saved as they were read, {}", changed.all(), changed.0[0], changed.refused());
    println!("cut: {}, {} at the record's end and taken, {}", cut.all(), cut.0[0], cut.refused());
    println!("{:.0} s on {} threads", start.elapsed().as_secs_f64(), threads());
    // a record cut at its end is the record; any other cut is short
    exit(i32::from(cut.0[0] != records || cut.0[2] != cut.all() - records));
}
