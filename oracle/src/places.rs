//! What the place in an answer (request A5) was told among, and what had to wait for the answer of a stepped call (A7) or of a record (A8).
//! It goes into a table of what was met; no answer comes from here.

use crate::float::Float;
use crate::kinds::{is_half_turn, Kind};
use crate::record::{kind_of, parts, record_length, Record, MARK};
use crate::refusal::Slice;
use crate::steps::{all_finite, Params, Weights};

/// Where in its slice the first bad number stood.
pub const SPOTS: [&str; 3] = ["first", "between", "last"];

/// It wasn't the only one in its slice; its slice was the second of its number, as x and P of a pair's second side are and the half-turns of a record.
pub const SEVERAL: &str = "several";
pub const SECOND: &str = "second";

/// What stood in front of a measurement's bad half-turn: a kind that has none, one that 6 would refuse.
pub const AFTER_PLAIN: &str = "after a plain kind";
pub const AFTER_PARAM: &str = "after one that fails 6";

/// What was wrong with the m of a stepped call: it is none, or not the first image's.
pub const NO_M: &str = "no m";
pub const OTHER_M: &str = "another m";

/// How a record was too short: there was no n, or less than its n asks for. The lent bytes were one too few.
pub const NO_N: &str = "under three bytes";
pub const CUT: &str = "cut";
pub const BY_ONE: &str = "by one byte";

/// Why bytes were no record: one byte of the mark or the other, each by itself, a kind byte that is neither 0 nor 1, a plain state's h, which may be a zero with a sign.
pub const NO_MARK: [&str; 2] = ["first mark byte", "second mark byte"];
pub const NO_KIND: &str = "kind byte";
pub const PLAIN_H: &str = "plain with h";
pub const PLAIN_ZERO: &str = "plain with -0";

/// What 6 refused in a record, or would have if no half-turn were bad.
pub const PARAMS: &str = "parameters";
pub const HALF_TURN: &str = "half-turn";

/// What was written or read: with a turn, to the last byte, with bytes behind it. Whose record was read: that of the solo filter as it stood, of a side, or of nobody.
pub const TURN: &str = "with a turn";
pub const FULL: &str = "to the last byte";
pub const LONGER: &str = "in a longer buffer";
pub const OWN: &str = "of the filter";
pub const SIDES: [&str; 2] = ["of side 1", "of side 2"];
pub const OTHERS: &str = "of nobody";

/// Something had to wait: a slice that is searched later, 10 or 6, and in a stepped call or a record what comes before the search.
pub fn before(number: u8) -> String {
    format!("before {number}")
}

/// An accepted call was lent a bad number past what it needs of this slice.
pub fn past(number: u8) -> String {
    format!("past {number}")
}

pub fn row(row: usize) -> String {
    format!("row {row}")
}

/// What a call is lent of a slice, and how many numbers of it the call needs.
struct Lent<T> {
    slice: Slice,
    numbers: Vec<T>,
    needed: usize,
}

impl<T: Float> Lent<T> {
    fn bad(&self) -> usize {
        self.numbers[..self.needed].iter().filter(|number| !number.is_finite()).count()
    }
}

/// What a call searches: its slices in that order, the kinds of its measurements, and what it would be refused by once they are searched.
/// Of a stepped call and of a record also the numbers of what is wrong before that, and what else an answer with some number shows.
#[derive(Default)]
pub struct Search<T> {
    slices: Vec<Lent<T>>,
    kinds: Vec<Kind<T>>,
    after: Option<u8>,
    early: Vec<u8>,
    words: Vec<(u8, &'static str)>,
}

/// The refusals that come before the search, in their order; but 4, which is no matter of records or steps.
const EARLY: [u8; 5] = [3, 1, 2, 12, 11];

impl<T: Float> Search<T> {
    pub fn of(slice: Slice, numbers: &[T], needed: usize) -> Search<T> {
        Search::default().and(slice, numbers, needed)
    }

    fn and(mut self, slice: Slice, numbers: &[T], needed: usize) -> Search<T> {
        self.early.extend((numbers.len() < needed).then_some(2));
        self.slices.push(Lent { slice, numbers: numbers.to_vec(), needed: needed.min(numbers.len()) });
        self
    }

    /// The half-turns of a weighted close are searched last.
    fn and_kinds(self, kinds: &[Kind<T>; 4], m: usize) -> Search<T> {
        let halves = kinds.map(|kind| kind.half().unwrap_or(T::ONE));
        Search { kinds: kinds[..m].to_vec(), after: fails(&kinds[..m]).then_some(6), ..self.and(Slice::Lone, &halves, m) }
    }

    /// New's, for a filter or for both of a pair.
    pub fn of_new(n: usize, starts: &[(&[T], &[T])], q: &[T], par: Params<T>) -> Search<T> {
        let search =
            starts.iter().fold(Search::default(), |search, (x, p)| search.and(Slice::State, x, n).and(Slice::Covariance, p, n * n));
        let after = (all_finite(&par.numbers()) && !Weights::of(n, par).pass()).then_some(6);
        Search { after, ..search.and(Slice::Noise, q, n * n).and(Slice::Lone, &par.numbers(), 3) }
    }

    /// The weighted close's.
    pub fn of_close(n: usize, m: usize, z: &[T], r: &[T], kinds: &[Kind<T>; 4], observed: &[T]) -> Search<T> {
        Search::of_flat_close(n, m, z, r, false, observed).and_kinds(kinds, m)
    }

    /// The flat close's, of a filter that has a turn or hasn't.
    pub fn of_flat_close(n: usize, m: usize, z: &[T], r: &[T], turn: bool, observed: &[T]) -> Search<T> {
        let search = Search::of(Slice::Noise, r, m * m).and(Slice::Points, observed, m * (2 * n + 1)).and(Slice::Measurement, z, m);
        Search { after: turn.then_some(10), ..search }
    }

    /// Asking is lent a buffer and searches nothing.
    pub fn of_ask(n: usize, length: u64) -> Search<T> {
        Search { early: (length < n as u64).then_some(2).into_iter().collect(), ..Search::default() }
    }

    /// Saving is lent a buffer and searches nothing.
    pub fn of_save(n: usize, stale: bool, length: u64) -> Search<T> {
        let (length, needed) = (length as usize, record_length(n));
        let early = [(2, length < needed), (11, !stale)];
        let early = early.into_iter().filter(|(_, wrong)| *wrong).map(|(number, _)| number).collect();
        let word = if length > needed { LONGER } else { FULL };
        let words = [(0, word)].into_iter().chain((length + 1 == needed).then_some((2, BY_ONE))).collect();
        Search { early, words, ..Search::default() }
    }

    fn with_m(mut self, wrong: Option<&'static str>) -> Search<T> {
        self.early.extend(wrong.map(|_| 1));
        self.words.extend(wrong.map(|word| (1, word)));
        self
    }

    /// An image's in a correction whose first image has named this m; 0 before it.
    pub fn of_image(m: u64, first: usize, image: &[T]) -> Search<T> {
        let (m, wrong) = judged(m, first);
        Search::of(Slice::Points, image, m).with_m(wrong)
    }

    pub fn of_stepped_flat_close(m: u64, first: usize, z: &[T], r: &[T], turn: bool) -> Search<T> {
        let (m, wrong) = judged(m, first);
        let search = Search::of(Slice::Noise, r, m * m).and(Slice::Measurement, z, m).with_m(wrong);
        Search { after: turn.then_some(10), ..search }
    }

    pub fn of_stepped_close(m: u64, first: usize, z: &[T], r: &[T], kinds: &[Kind<T>; 4]) -> Search<T> {
        Search::of_stepped_flat_close(m, first, z, r, false).and_kinds(kinds, judged(m, first).0)
    }

    /// What an answer with this number and place shows.
    pub fn shown(&self, number: u8, place: usize) -> Vec<String> {
        match number {
            0 => {
                let judged = |lent: &&Lent<T>| all_finite(&lent.numbers[lent.needed..]);
                let past = self.slices.iter().filter(|lent| !judged(lent)).map(|lent| past(lent.slice.number()));
                past.chain(self.words_of(0)).collect()
            }
            7 | 8 => vec![row(place)],
            51..=56 => self.told(place).into_iter().chain(self.words_of(number)).collect(),
            6 => self.words_of(6).collect(),
            _ => self.waiting(number),
        }
    }

    fn words_of(&self, number: u8) -> impl Iterator<Item = String> + '_ {
        self.words.iter().filter(move |(of, _)| *of == number).map(|(_, word)| word.to_string())
    }

    /// Behind what comes before the search: all that comes later in the order.
    fn waiting(&self, number: u8) -> Vec<String> {
        let Some(at) = EARLY.iter().position(|early| *early == number) else {
            return vec![];
        };
        let early = EARLY[at + 1..].iter().copied().filter(|later| self.early.contains(later));
        let searched = self.slices.iter().filter(|lent| lent.bad() > 0).map(|lent| lent.slice.number());
        self.words_of(number).chain(early.chain(searched).chain(self.after).map(before)).collect()
    }

    fn told(&self, place: usize) -> Vec<String> {
        let mut bad = self.slices.iter().enumerate().filter(|(_, lent)| lent.bad() > 0);
        let Some((at, own)) = bad.next() else {
            return vec![];
        };
        let spot = match place {
            0 => SPOTS[0],
            _ if place + 1 < own.needed => SPOTS[1],
            _ => SPOTS[2],
        };
        let again = self.slices[..at].iter().any(|lent| lent.slice == own.slice);
        let in_front = if own.slice == Slice::Lone { self.kinds.get(..place).unwrap_or_default() } else { &[] };
        let words = [
            // A record's half-turns have no place but 0.
            (!again || own.slice != Slice::Lone, spot),
            (own.bad() > 1, SEVERAL),
            (again, SECOND),
            (in_front.contains(&Kind::Plain), AFTER_PLAIN),
            (fails(in_front), AFTER_PARAM),
        ];
        let words = words.into_iter().filter(|(holds, _)| *holds).map(|(_, word)| word.to_string());
        words.chain(bad.map(|(_, later)| later.slice.number()).chain(self.after).map(before)).collect()
    }
}

impl Search<f64> {
    /// What is there of a record, completed by what would pass, so that what waits behind a cut shows.
    pub fn of_load(bytes: &[u8]) -> Search<f64> {
        let is_wrong = |at: usize| bytes.get(at).is_some_and(|byte| *byte != MARK[at]);
        let wrong = [is_wrong(0), is_wrong(1)];
        let mark = wrong != [false; 2];
        let n = match bytes.get(2) {
            None => return Search::of_head(&[2], &[(2, NO_N)], mark),
            Some(n @ 1..=8) => usize::from(*n),
            Some(_) if bytes.len() < record_length(1) => return Search::of_head(&[1, 2], &[], mark),
            Some(_) => return Search::of_head(&[1], &[], mark),
        };
        let needed = record_length(n);
        let mut all = plain(n).bytes();
        let there = bytes.len().min(needed);
        all[..there].copy_from_slice(&bytes[..there]);
        let (numbers, kinds) = parts(n, &all);
        let record = Record::with(n, &numbers, kinds.iter().filter_map(|kind| kind_of(kind)).collect());
        let (halves, par) = (record.halves(), record.par);
        let finite = all_finite(&par.numbers());
        let weightless = finite && !Weights::of(n, par).pass();
        let bad = halves.iter().position(|h| !h.is_finite());
        let in_front = bad.map_or(&[][..], |bad| &halves[..bad]);
        let signed = |kind: &[u8]| kind[1..] == (-0.0_f64).to_bits().to_le_bytes();
        let unplain = |kind: &[u8]| kind[0] == 0 && kind_of(kind).is_none();
        let causes = [
            (12, NO_MARK[0], wrong == [true, false]),
            (12, NO_MARK[1], wrong == [false, true]),
            (12, NO_KIND, kinds.iter().any(|kind| kind[0] > 1)),
            (12, PLAIN_H, kinds.iter().any(|kind| unplain(kind) && !signed(kind))),
            (12, PLAIN_ZERO, kinds.iter().any(|kind| unplain(kind) && signed(kind))),
            (2, CUT, there < needed),
            (56, PARAMS, weightless && bad.is_some()),
            (56, AFTER_PARAM, finite && in_front.iter().any(|h| !is_half_turn(*h))),
            (6, PARAMS, weightless),
            (6, HALF_TURN, fails(&record.kinds)),
            (0, TURN, !halves.is_empty()),
            (0, if bytes.len() > needed { LONGER } else { FULL }, true),
        ];
        let causes = causes.into_iter().filter(|(.., holds)| *holds);
        let search = Search::of_new(n, &[(&record.x, &record.p)], &record.q, par).and(Slice::Lone, &halves, halves.len());
        Search {
            early: causes.clone().map(|(number, ..)| number).chain(mark.then_some(12)).collect(),
            after: causes.clone().find(|(number, ..)| *number == 6).map(|_| 6),
            words: causes.map(|(number, word, _)| (number, word)).collect(),
            ..search
        }
    }

    /// Where there is no n.
    fn of_head(early: &[u8], words: &[(u8, &'static str)], mark: bool) -> Search<f64> {
        Search { early: early.iter().copied().chain(mark.then_some(12)).collect(), words: words.to_vec(), ..Search::default() }
    }
}

/// A record that passes.
fn plain(n: usize) -> Record {
    let (x, p) = (vec![0.0; n], vec![0.0; n * n]);
    Record { n, x, q: p.clone(), p, par: Params { alpha: 1.0, beta: 0.0, kappa: 0.0 }, kinds: vec![Kind::Plain; n] }
}

/// The m of a stepped call as it counts for what is needed, and what is wrong with it.
fn judged(m: u64, first: usize) -> (usize, Option<&'static str>) {
    match m {
        1..=4 if first == 0 || m == first as u64 => (m as usize, None),
        1..=4 => (m as usize, Some(OTHER_M)),
        _ => (first.max(1), Some(NO_M)),
    }
}

/// Whether a half-turn is finite, but none that 6 lets pass.
fn fails<T: Float>(kinds: &[Kind<T>]) -> bool {
    kinds.iter().filter_map(|kind| kind.half()).any(|h| h.is_finite() && !is_half_turn(h))
}
