//! The proved root, linked in by oracle/roots, beside the machine's own and beside the proved root of an earlier commit.
//! Prints how many roots differ and how often the guess was not the root, for each sort of number, and times.
//! The status is 0 where no root differs, what is to be refused is, each zero is its own root, and at most 1 in 100 guesses of the first sort fail.

use std::hint::black_box;
use std::process::exit;
use std::time::Instant;

extern "C" {
    fn root_now(x: f64) -> f64;
    fn root_before(x: f64) -> f64;
    fn guess_holds(d: u64) -> bool;
    fn opened_now(p: &[f64; 64], out: &mut [f64; 136]) -> u8;
    fn opened_before(p: &[f64; 64], out: &mut [f64; 136]) -> u8;
    fn reopened_now(p: &[f64; 64], out: &mut [f64; 136]) -> u8;
    fn reopened_before(p: &[f64; 64], out: &mut [f64; 136]) -> u8;
}

const HIDDEN: u64 = 1 << 52;
const FRACTION: u64 = HIDDEN - 1;
const INFINITY: u64 = 0x7ff << 52;

/// Numbers in a fixed disorder (xorshift).
struct Disorder(u64);

impl Disorder {
    fn new() -> Self {
        Self(0x9e37_79b9_7f4a_7c15)
    }

    fn next(&mut self) -> u64 {
        self.0 ^= self.0 << 13;
        self.0 ^= self.0 >> 7;
        self.0 ^= self.0 << 17;
        self.0
    }

    fn below(&mut self, n: u64) -> u64 {
        (u128::from(self.next()) * u128::from(n) >> 64) as u64
    }
}

/// The q, odd or even as wanted, with q * q + q = r up to a multiple of 2^64, for an even r: 2 q + 1 is odd, so each step doubles the digits that are right.
fn solved(r: u64, odd: u64) -> u64 {
    (0..6).fold(odd, |q, _| {
        let slope = q.wrapping_mul(2).wrapping_add(1);
        // 1 / slope, by the same steps
        let inverse = (0..6).fold(slope, |i, _| i.wrapping_mul(2u64.wrapping_sub(slope.wrapping_mul(i))));
        let off = q.wrapping_mul(q).wrapping_add(q).wrapping_sub(r);
        q.wrapping_sub(off.wrapping_mul(inverse))
    })
}

/// The d with d * 2^52 = q * q + q - r, as 53 digits and whether they are doubled; a d of 54 digits that is odd is no double's.
fn beside_half(q: u64, r: i64) -> Option<(u64, bool)> {
    let d = (i128::from(q) * i128::from(q) + i128::from(q) - i128::from(r) >> 52) as u64;
    match d {
        0x10_0000_0000_0000..=0x1f_ffff_ffff_ffff => Some((d, false)),
        0x20_0000_0000_0000..=0x3f_ffff_ffff_ffff if d % 2 == 0 => Some((d / 2, true)),
        _ => None,
    }
}

/// The k-th number of a sort, as bits; there is none for some k.
fn number(sort: usize, k: u64, some: &mut Disorder) -> Option<u64> {
    Some(match sort {
        // above zero, each exponent as often as another
        0 => (some.below(0x7ff) << 52 | some.next() & FRACTION).max(1),
        // subnormal, each number of digits as often as another
        1 => (some.next() & FRACTION | HIDDEN) >> (1 + some.below(52)),
        // squares of up to 53 digits times a power of 4, every eighth of them subnormal, and the numbers beside them
        2 => {
            let square = if k % 8 == 0 {
                (1 + some.below((1 << 26) - 1)).pow(2)
            } else {
                let power = f64::from_bits((3 + 2 * some.below(996)) << 52);
                ((1 + some.below(94_906_265)).pow(2) as f64 * power).to_bits()
            };
            (square + k % 3 - 1).max(1)
        }
        // powers of two, subnormal ones too, and the numbers up to 1000 places from them
        3 => {
            let power = some.below(51 + 0x7ff);
            let bits = if power < 51 { 2 << power } else { (power - 50) << 52 };
            (bits + some.below(2001)).saturating_sub(1000).clamp(1, INFINITY - 1)
        }
        // roots beside the middle between two doubles, q + 1/2: d * 2^52 is q * q + q - r, for the even r nearest to 0
        4 => {
            let r = (k / 4) as i64 * if k & 2 == 0 { 2 } else { -2 };
            let q = solved(r as u64, k & 1);
            let (s, doubled) = beside_half(q % HIDDEN + HIDDEN, r)?;
            (2 * some.below(1023) + if doubled { 2 } else { 1 }) << 52 | s & FRACTION
        }
        _ => unreachable!(),
    })
}

const SORTS: [&str; 5] = ["any exponent", "subnormal", "squares and beside them", "beside powers of two", "beside halves"];

/// What the root is worked out of: 53 digits, or 54 where the exponent is odd.
fn digits(b: u64) -> u64 {
    let (exponent, fraction) = (b >> 52, b & FRACTION);
    let (s, a) = if exponent == 0 {
        let z = fraction.leading_zeros() - 11;
        (fraction << z, 1022 - u64::from(z))
    } else {
        (fraction | HIDDEN, exponent + 1021)
    };
    s << (a & 1)
}

/// The machine's root, called as the proved one is.
#[inline(never)]
extern "C" fn root_own(x: f64) -> f64 {
    x.sqrt()
}

fn main() {
    let count: u64 = std::env::args().nth(1).expect("a count").parse().expect("a count");
    let mut wrong = 0u64;
    for (sort, name) in SORTS.iter().enumerate() {
        let mut some = Disorder::new();
        let (mut done, mut off, mut moved, mut looped) = (0u64, 0u64, 0u64, 0u64);
        for b in (0..).filter_map(|k| number(sort, k, &mut some)).take(count as usize) {
            assert!(0 < b && b < INFINITY, "a number above zero");
            let x = f64::from_bits(b);
            let (own, now, before) = unsafe { (root_own(x), root_now(x), root_before(x)) };
            done += 1;
            off += u64::from(now.to_bits() != own.to_bits());
            moved += u64::from(now.to_bits() != before.to_bits());
            looped += u64::from(!unsafe { guess_holds(digits(b)) });
        }
        println!("{name}: {done} numbers, {off} roots differ from the machine's, {moved} from before, the loop was needed for {looped}");
        wrong += off + moved + u64::from(sort == 0 && looped > count / 100);
    }

    let mut some = Disorder::new();
    let (mut done, mut kept) = (0u64, 0u64);
    for k in 0..count {
        let b = if k % 2 == 0 { 1 + some.below(INFINITY - 1) } else { INFINITY + 1 + some.below(FRACTION) };
        let x = f64::from_bits(if k % 4 == 1 { b } else { b | 1 << 63 });
        done += 1;
        kept += u64::from(unsafe { root_now(x) } != -1.0);
    }
    let infinities = [f64::INFINITY, f64::NEG_INFINITY].iter().all(|x| unsafe { root_now(*x) } == -1.0);
    let zeros = [0.0f64, -0.0].iter().all(|x| unsafe { root_now(*x) }.to_bits() == x.to_bits());
    println!("below zero and NaN: {done} numbers, {kept} not refused; both infinities refused: {infinities}; each zero its own root: {zeros}");
    wrong += kept + u64::from(!infinities) + u64::from(!zeros);

    times();
    exit(i32::from(wrong != 0));
}

/// The least time of seven runs of f, in ns, over so many rounds.
fn best(rounds: usize, mut f: impl FnMut()) -> f64 {
    (0..7)
        .map(|_| {
            let start = Instant::now();
            f();
            start.elapsed().as_secs_f64() * 1e9 / rounds as f64
        })
        .fold(f64::INFINITY, f64::min)
}

/// A root of every number; and a root of every number with the last root added to it, which waits for that one.
fn pace(numbers: &[f64], root: unsafe extern "C" fn(f64) -> f64) -> (f64, f64) {
    let rounds = 8 * numbers.len();
    let independent = best(rounds, || {
        let mut all = 0;
        (0..8).for_each(|_| numbers.iter().for_each(|x| all ^= unsafe { root(*x) }.to_bits()));
        black_box(all);
    });
    let chained = best(rounds, || {
        let mut last = 1.0;
        (0..8).for_each(|_| numbers.iter().for_each(|x| last = unsafe { root(*x + last) }));
        black_box(last);
    });
    (independent, chained)
}

fn times() {
    let mut some = Disorder::new();
    let numbers: Vec<f64> = (0..1 << 16).map(|_| f64::from_bits((960 + some.below(128)) << 52 | some.next() & FRACTION)).collect();
    let (before, now, own) = (pace(&numbers, root_before), pace(&numbers, root_now), pace(&numbers, root_own));
    for (name, before, now, own) in [("independent", before.0, now.0, own.0), ("chained", before.1, now.1, own.1)] {
        println!("{name} roots, ns each: before {before:.1}, now {now:.1}, the machine's {own:.1}; before to now {:.1}, now to the machine's {:.1}", before / now, now / own);
    }

    // covariances A * transposed A + 1, with A in a fixed disorder
    let covariances: Vec<[f64; 64]> = (0..1 << 10)
        .map(|_| {
            let a: [f64; 64] = std::array::from_fn(|_| some.below(2000) as f64 / 1000.0 - 1.0);
            std::array::from_fn(|at| (0..8).map(|k| a[at / 8 * 8 + k] * a[at % 8 * 8 + k]).sum::<f64>() + f64::from(u8::from(at % 9 == 0)))
        })
        .collect();
    let (mut one, mut other) = ([0.0; 136], [0.0; 136]);
    for p in &covariances {
        assert!(unsafe { (opened_before(p, &mut one), opened_now(p, &mut other)) } == (0, 0), "an opening was refused");
        assert!(one.map(f64::to_bits) == other.map(f64::to_bits), "the points differ");
    }
    let openings = |open: unsafe extern "C" fn(&[f64; 64], &mut [f64; 136]) -> u8| {
        best(16 * covariances.len(), || {
            let mut out = [0.0; 136];
            (0..16).for_each(|_| covariances.iter().for_each(|p| assert!(unsafe { open(p, &mut out) } == 0)));
            black_box(out);
        })
    };
    let (before, now) = (openings(opened_before), openings(opened_now));
    println!("New and one opening at 8 states, ns: before {before:.0}, now {now:.0}; before to now {:.2}", before / now);
    let (before, now) = (openings(reopened_before) - before, openings(reopened_now) - now);
    println!("an abandon and one opening more, ns: before {before:.0}, now {now:.0}; before to now {:.2}", before / now);
}
