//! The records of request A8: the bytes that a filter is saved as, and the filter that bytes are read as. The published Rust has none.

use crate::filter::{refuse_if, search, states, Filter, Trouble};
use crate::float::Float;
use crate::kinds::{is_half_turn, Kind};
use crate::refusal::{Refusal, Slice};
use crate::steps::{Params, Weights};

/// What each record starts with.
pub const MARK: [u8; 2] = [0x57, 0x50];

/// Mark and n; and a state's kind, with its half-turn.
pub const HEAD: usize = 3;
pub const KIND: usize = 9;

pub const fn record_length(n: usize) -> usize {
    27 + 17 * n + 16 * n * n
}

/// What a record holds: points, weights and the stale mark aren't written.
#[derive(Clone, Debug, PartialEq)]
pub struct Record {
    pub n: usize,
    pub x: Vec<f64>,
    pub p: Vec<f64>,
    pub q: Vec<f64>,
    pub par: Params<f64>,
    pub kinds: Vec<Kind<f64>>,
}

impl Record {
    /// A side's has the contents of the sheet.
    pub fn of<T: Float>(filter: &Filter<T>) -> Record {
        let wide = |numbers: &[T]| numbers.iter().map(|number| number.wide()).collect();
        let [alpha, beta, kappa] = filter.par.numbers().map(T::wide);
        Record {
            n: filter.n,
            x: wide(&filter.x),
            p: wide(&filter.p),
            q: wide(&filter.q),
            par: Params { alpha, beta, kappa },
            kinds: filter.kinds.iter().map(|kind| kind.half().map_or(Kind::Plain, |h| Kind::Turn(h.wide()))).collect(),
        }
    }

    pub fn bytes(&self) -> Vec<u8> {
        let mut bytes = MARK.to_vec();
        bytes.push(self.n as u8);
        for number in self.x.iter().chain(&self.p).chain(&self.q).chain(&self.par.numbers()) {
            bytes.extend(number.to_bits().to_le_bytes());
        }
        for kind in &self.kinds {
            let (byte, h) = match kind {
                Kind::Plain => (0, 0),
                Kind::Turn(h) => (1, h.to_bits()),
            };
            bytes.push(byte);
            bytes.extend(h.to_le_bytes());
        }
        bytes
    }

    /// The record at the front of these bytes: 2, 1, 2, 12. Its numbers aren't judged yet.
    pub fn read(bytes: &[u8]) -> Result<Record, Refusal> {
        refuse_if(bytes.len() < HEAD, Refusal::Short)?;
        let n = states(bytes[2].into())?;
        refuse_if(bytes.len() < record_length(n), Refusal::Short)?;
        refuse_if(bytes[..2] != MARK, Refusal::Record)?;
        let (numbers, kinds) = parts(n, bytes);
        let kinds: Option<Vec<Kind<f64>>> = kinds.iter().map(|kind| kind_of(kind)).collect();
        Ok(Record { kinds: kinds.ok_or(Refusal::Record)?, ..Record::with(n, &numbers, vec![]) })
    }

    /// With x, P, Q, alpha, beta and kappa one behind the other.
    pub fn with(n: usize, numbers: &[f64], kinds: Vec<Kind<f64>>) -> Record {
        let (x, rest) = numbers.split_at(n);
        let (p, rest) = rest.split_at(n * n);
        let (q, par) = rest.split_at(n * n);
        let par = Params { alpha: par[0], beta: par[1], kappa: par[2] };
        Record { n, x: x.to_vec(), p: p.to_vec(), q: q.to_vec(), par, kinds }
    }

    /// The half-turns, in the order of their states.
    pub fn halves(&self) -> Vec<f64> {
        self.kinds.iter().filter_map(|kind| kind.half()).collect()
    }

    /// As for a new filter: 51, 52, 53, 56, and every number is looked at before any 6. A half-turn is a lone value by itself, so its place is 0.
    fn pass(&self) -> Result<(), Refusal> {
        search(Slice::State, &self.x)?;
        search(Slice::Covariance, &self.p)?;
        search(Slice::Noise, &self.q)?;
        search(Slice::Lone, &self.par.numbers())?;
        let halves = self.halves();
        for h in &halves {
            search(Slice::Lone, &[*h])?;
        }
        refuse_if(!Weights::of(self.n, self.par).pass() || !halves.into_iter().all(is_half_turn), Refusal::Param)
    }
}

/// The numbers of a record of n states, and the bytes of each kind.
pub fn parts(n: usize, bytes: &[u8]) -> (Vec<f64>, Vec<&[u8]>) {
    let (numbers, kinds) = bytes[HEAD..record_length(n)].split_at(8 * (n + 2 * n * n + 3));
    (numbers.chunks(8).map(number_of).collect(), kinds.chunks(KIND).collect())
}

fn number_of(eight: &[u8]) -> f64 {
    f64::from_bits(eight.iter().rev().fold(0, |bits, byte| bits << 8 | u64::from(*byte)))
}

/// A kind byte and the eight of h, all zero if plain: not even the bits of -0.
pub fn kind_of(bytes: &[u8]) -> Option<Kind<f64>> {
    let (byte, h) = bytes.split_first()?;
    match byte {
        0 if h.iter().all(|byte| *byte == 0) => Some(Kind::Plain),
        1 => Some(Kind::Turn(number_of(h))),
        _ => None,
    }
}

impl<T: Float> Filter<T> {
    /// 3, 1, 2, 11. The bytes behind the record stay as they are. (That the f32 filter isn't saved is a matter of the script.)
    pub fn save(&self, buffer: &mut [u8]) -> Result<(), Trouble> {
        let n = self.settable()?;
        refuse_if(buffer.len() < record_length(n), Refusal::Short)?;
        refuse_if(!self.stale, Refusal::Fresh)?;
        buffer[..record_length(n)].copy_from_slice(&Record::of(self).bytes());
        Ok(())
    }
}

impl Filter<f64> {
    /// What is read is a new filter, stale and with a sheet of its own, which then is given its kinds.
    pub fn load(bytes: &[u8]) -> Result<Filter<f64>, Trouble> {
        let record = Record::read(bytes)?;
        record.pass()?;
        let mut filter = Filter::new(record.n as u64, &record.x, &record.p, &record.q, record.par)?;
        for (i, kind) in record.kinds.iter().enumerate() {
            filter.set_kind(i as u64, *kind)?;
        }
        Ok(filter)
    }
}
