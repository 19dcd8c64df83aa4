//! The filter of documents 01 and 02: its calls and refusals around the published Rust.
//! Each accepted close is worked out twice, by the published Rust and by `steps`; the two must agree in every bit.

use crate::float::Float;
use crate::kinds::{is_half_turn, Kind};
use crate::published::{self, Drawn, Measurement, Published};
use crate::refusal::{Refusal, Slice};
use crate::stepped::Kept;
use crate::steps::{self, Average, Correction, Params, Prediction, Weights};

/// How an open call goes on: with the whole list of points, or one point at a time (request A7).
#[derive(Clone, Copy, Debug, PartialEq)]
pub enum Way {
    Whole,
    Stepped,
}

/// What is open. A close names what it fits, so that one of the other way is refused like one of the other stage.
#[derive(Clone, Copy, Debug, PartialEq)]
pub enum Open {
    Nothing,
    Prediction(Way),
    Correction(Way),
}

impl Open {
    pub const fn way(self) -> Option<Way> {
        match self {
            Open::Nothing => None,
            Open::Prediction(way) | Open::Correction(way) => Some(way),
        }
    }
}

/// Why a call changed nothing: a refusal, or (never, we hope) that the published Rust and `steps` part.
#[derive(Debug)]
pub enum Trouble {
    Refused(Refusal),
    Parted(String),
}

impl From<Refusal> for Trouble {
    fn from(refusal: Refusal) -> Trouble {
        Trouble::Refused(refusal)
    }
}

/// Refused where this holds; the callers keep the order 3, 1, 2, 12, 4, 11, 51 to 56, 10, 6.
pub(crate) fn refuse_if(holds: bool, refusal: Refusal) -> Result<(), Refusal> {
    if holds {
        Err(refusal)
    } else {
        Ok(())
    }
}

/// Refused at the first number that isn't finite. Lent are the numbers that a call needs of a slice, and no more.
pub(crate) fn search<T: Float>(slice: Slice, numbers: &[T]) -> Result<(), Refusal> {
    match numbers.iter().position(|number| !number.is_finite()) {
        None => Ok(()),
        Some(place) => Err(Refusal::Number(slice, place)),
    }
}

/// Bit for bit. What is compared is finite, so that no NaN patterns come into it.
pub(crate) fn alike<T: Float>(what: &str, ours: &[T], rust: &[T]) -> Result<(), Trouble> {
    if ours.len() == rust.len() && ours.iter().zip(rust).all(|(a, b)| a.bits() == b.bits()) {
        return Ok(());
    }
    let bits = |numbers: &[T]| numbers.iter().map(|x| format!(" {:01$x}", x.bits(), T::HEX)).collect::<String>();
    Err(Trouble::Parted(format!("{what}: documents 01 and 02{}, published Rust{}", bits(ours), bits(rust))))
}

/// How many numbers a point list holds.
pub fn list_length(n: usize) -> usize {
    n * (2 * n + 1)
}

/// A size of states as a usize, if it is one; nothing is multiplied before.
pub(crate) fn states(n: u64) -> Result<usize, Refusal> {
    refuse_if(!(1..=8).contains(&n), Refusal::Size)?;
    Ok(n as usize)
}

/// The used places of document 01's filter. w0c and wi stand for all weights.
pub struct Filter<T> {
    pub n: usize,
    pub x: Vec<T>,
    pub p: Vec<T>,
    pub q: Vec<T>,
    pub par: Params<T>,
    pub kinds: Vec<Kind<T>>,
    pub weights: [T; 2],
    pub points: Vec<T>,
    pub stale: bool,
    pub open: Open,
    pub drawn_weights: [T; 2],
    pub drawn_points: Vec<T>,
    /// What a stepped call keeps besides; scratch too.
    pub kept: Kept<T>,
    /// The published filter, which runs at each accepted close; none in the empty filter.
    rust: Option<Box<dyn Published<T>>>,
}

impl<T: Float> Filter<T> {
    pub fn empty() -> Filter<T> {
        Filter {
            n: 0,
            x: vec![],
            p: vec![],
            q: vec![],
            par: Params::default(),
            kinds: vec![],
            weights: [T::ZERO; 2],
            points: vec![],
            stale: true,
            open: Open::Nothing,
            drawn_weights: [T::ZERO; 2],
            drawn_points: vec![],
            kept: Kept::default(),
            rust: None,
        }
    }

    pub fn new(n: u64, x: &[T], p: &[T], q: &[T], par: Params<T>) -> Result<Filter<T>, Trouble> {
        let n = newable(n, &[Start { x, p }], q, par)?;
        Ok(Filter {
            n,
            x: x[..n].to_vec(),
            p: p[..n * n].to_vec(),
            q: q[..n * n].to_vec(),
            par,
            kinds: vec![Kind::Plain; n],
            points: vec![T::ZERO; list_length(n)],
            drawn_points: vec![T::ZERO; list_length(n)],
            rust: Some(published::new(n, x, p, q, par)),
            ..Filter::empty()
        })
    }

    fn rust(&self) -> &dyn Published<T> {
        self.rust.as_deref().expect("a filter with states has its published filter")
    }

    fn rust_mut(&mut self) -> &mut dyn Published<T> {
        self.rust.as_deref_mut().expect("a filter with states has its published filter")
    }

    pub(crate) fn sized(&self) -> Result<usize, Refusal> {
        states(self.n as u64)
    }

    /// The checks that all setters and opens begin with.
    pub(crate) fn settable(&self) -> Result<usize, Refusal> {
        refuse_if(self.open != Open::Nothing, Refusal::Stage)?;
        self.sized()
    }

    /// Request A3: an accepted setting marks stale, but for one of Q. The setters of the published Rust don't, so it is led there by a
    /// correction that corrects nothing; not where its points are stale already, since that would draw them.
    fn mark(&mut self) {
        if !self.stale {
            self.rust_mut().correct_nothing();
        }
        self.stale = true;
    }

    pub fn set_x(&mut self, x: &[T]) -> Result<(), Trouble> {
        let n = self.settable()?;
        self.x = front(Slice::State, x, n)?;
        self.rust_mut().set_x(x);
        self.mark();
        Ok(())
    }

    pub fn set_p(&mut self, p: &[T]) -> Result<(), Trouble> {
        let n = self.settable()?;
        self.p = front(Slice::Covariance, p, n * n)?;
        self.rust_mut().set_p(p);
        self.mark();
        Ok(())
    }

    pub fn set_q(&mut self, q: &[T]) -> Result<(), Trouble> {
        let n = self.settable()?;
        self.q = front(Slice::Noise, q, n * n)?;
        self.rust_mut().set_q(q);
        Ok(())
    }

    pub fn set_params(&mut self, par: Params<T>) -> Result<(), Trouble> {
        let n = self.settable()?;
        pass_params(n, par)?;
        self.par = par;
        self.rust_mut().set_params(par);
        self.mark();
        Ok(())
    }

    pub fn set_kind(&mut self, i: u64, kind: Kind<T>) -> Result<(), Trouble> {
        let n = self.settable()?;
        refuse_if(i >= n as u64, Refusal::Size)?;
        pass_kinds(&[kind])?;
        self.kinds[i as usize] = kind;
        let kinds = self.kinds.clone();
        self.rust_mut().set_kinds(&kinds);
        self.mark();
        Ok(())
    }

    /// A published filter like this one, stale and with nothing drawn: its draw is what an open shows.
    fn twin(&self) -> Box<dyn Published<T>> {
        published::new(self.n, &self.x, &self.p, &self.q, self.par)
    }

    /// The checks that both opens with a buffer begin with.
    fn openable(&self, buffer: &[T]) -> Result<usize, Refusal> {
        let n = self.settable()?;
        refuse_if(buffer.len() < list_length(n), Refusal::Short)?;
        Ok(n)
    }

    /// Points and weights drawn afresh, as the published Rust drew them for this.
    fn draw(&self, what: &str, drawn: impl FnOnce(Box<dyn Published<T>>, &[T]) -> Drawn<T>) -> Result<Drawn<T>, Trouble> {
        let weights = Weights::of(self.n, self.par);
        let points = steps::draw(self.n, &self.x, &self.p, weights.total)?;
        let drawn = drawn(self.twin(), &points);
        alike(&format!("points drawn for a {what}"), &points, &drawn.points)?;
        alike(&format!("weights of a {what}"), &all_weights(self.n, [weights.w0c, weights.wi]), &drawn.weights)?;
        Ok(drawn)
    }

    /// Draws for a prediction, be it stepped.
    pub(crate) fn begin_prediction(&mut self, way: Way) -> Result<(), Trouble> {
        let drawn = self.draw("prediction", |mut twin, points| Drawn { points: twin.predict(points), weights: twin.weights() })?;
        self.opened(Open::Prediction(way), drawn);
        Ok(())
    }

    /// Draws for a correction where the points are stale, and else takes the current ones.
    pub(crate) fn begin_correction(&mut self, way: Way) -> Result<(), Trouble> {
        let drawn = if self.stale {
            self.draw("correction", |twin, _| twin.refreshed())?
        } else {
            Drawn { points: self.points.clone(), weights: self.weights.to_vec() }
        };
        self.opened(Open::Correction(way), drawn);
        Ok(())
    }

    /// Keeps what was drawn; the first two weights stand for all.
    fn opened(&mut self, open: Open, drawn: Drawn<T>) {
        self.open = open;
        self.drawn_points = drawn.points;
        self.drawn_weights = [drawn.weights[0], drawn.weights[1]];
    }

    pub fn open_prediction(&mut self, buffer: &mut [T]) -> Result<(), Trouble> {
        self.openable(buffer)?;
        self.begin_prediction(Way::Whole)?;
        written(&self.drawn_points, buffer)
    }

    pub fn open_correction(&mut self, buffer: &mut [T]) -> Result<(), Trouble> {
        self.openable(buffer)?;
        self.begin_correction(Way::Whole)?;
        written(&self.drawn_points, buffer)
    }

    /// Takes x, P, points and weights from the published filter, and closes.
    fn closed(&mut self, stale: bool) -> Result<(), Trouble> {
        alike("weights installed", &all_weights(self.n, self.drawn_weights), &self.rust().weights())?;
        (self.x, self.p, self.points) = (self.rust().x(), self.rust().p(), self.rust().points());
        self.weights = self.drawn_weights;
        self.stale = stale;
        self.emptied();
        Ok(())
    }

    /// Nothing is open and the scratch is +0.
    fn emptied(&mut self) {
        self.open = Open::Nothing;
        self.drawn_points = vec![T::ZERO; list_length(self.n)];
        self.drawn_weights = [T::ZERO; 2];
        self.kept = Kept::default();
    }

    /// The points that the published Rust showed to the function it was given must be those that were drawn and, in a stepped call, those that were handed out.
    fn shown(&self, what: &str, points: &[T]) -> Result<(), Trouble> {
        alike(what, &self.drawn_points, points)?;
        match self.open.way() {
            Some(Way::Stepped) => alike("points asked for one by one", &self.kept.handed, points),
            _ => Ok(()),
        }
    }

    /// The checks that all closes with a list begin with.
    fn closable(&self, wanted: Open) -> Result<usize, Refusal> {
        refuse_if(self.open != wanted, Refusal::Stage)?;
        self.sized()
    }

    pub fn close_prediction(&mut self, propagated: &[T]) -> Result<(), Trouble> {
        let n = self.closable(Open::Prediction(Way::Whole))?;
        self.predicted(&front(Slice::Points, propagated, list_length(n))?)
    }

    /// The steps of both closes of a prediction; the published Rust is handed the images one by one.
    pub(crate) fn predicted(&mut self, propagated: &[T]) -> Result<(), Trouble> {
        let n = self.n;
        let [w0c, wi] = self.drawn_weights;
        let w0m = Weights::of(n, self.par).w0m;
        let (x, p) = steps::predict(&Prediction { n, q: &self.q, kinds: &self.kinds, w0m, w0c, wi, propagated })?;
        let shown = self.rust_mut().predict(propagated);
        self.shown("points drawn at a close", &shown)?;
        alike("x after a prediction", &x, &self.rust().x())?;
        alike("P after a prediction", &p, &self.rust().p())?;
        alike("points installed", propagated, &self.rust().points())?;
        self.closed(false)
    }

    pub fn close_correction(&mut self, m: u64, z: &[T], r: &[T], kinds: [Kind<T>; 4], observed: &[T]) -> Result<(), Trouble> {
        self.closable(Open::Correction(Way::Whole))?;
        self.weighted(m, z, r, kinds, observed)
    }

    pub fn close_flat(&mut self, m: u64, z: &[T], r: &[T], observed: &[T]) -> Result<(), Trouble> {
        self.closable(Open::Correction(Way::Whole))?;
        self.flat(m, z, r, observed)
    }

    /// What follows 3 in all closes of a correction: 1, 2, then 53, 54 and 55, which is not the order in which they are lent. No kinds yet: all plain.
    fn measured<'a>(&self, m: u64, z: &'a [T], r: &'a [T], observed: &'a [T]) -> Result<Measurement<'a, T>, Refusal> {
        refuse_if(!(1..=4).contains(&m), Refusal::Size)?;
        let (m, count) = (m as usize, 2 * self.n + 1);
        refuse_if(z.len() < m || r.len() < m * m || observed.len() < m * count, Refusal::Short)?;
        let (z, r, observed) = (&z[..m], &r[..m * m], &observed[..m * count]);
        search(Slice::Noise, r)?;
        search(Slice::Points, observed)?;
        search(Slice::Measurement, z)?;
        Ok(Measurement { m, z, r, kinds: &[Kind::Plain; 4][..m], observed })
    }

    pub(crate) fn weighted(&mut self, m: u64, z: &[T], r: &[T], kinds: [Kind<T>; 4], observed: &[T]) -> Result<(), Trouble> {
        let with = self.measured(m, z, r, observed)?;
        let kinds = &kinds[..with.m];
        pass_kinds(kinds)?;
        self.corrected(Average::Weighted, &Measurement { kinds, ..with })
    }

    /// Whether a state's kind is a turn.
    pub fn has_turn(&self) -> bool {
        self.kinds.iter().any(|kind| kind.half().is_some())
    }

    /// Request A1: averages know no kinds, so a filter with a turn is turned away.
    pub(crate) fn flat(&mut self, m: u64, z: &[T], r: &[T], observed: &[T]) -> Result<(), Trouble> {
        let with = self.measured(m, z, r, observed)?;
        refuse_if(self.has_turn(), Refusal::Kind)?;
        self.corrected(Average::Flat, &with)
    }

    fn corrected(&mut self, average: Average, with: &Measurement<T>) -> Result<(), Trouble> {
        let ours = steps::correct(&Correction {
            average,
            n: self.n,
            m: with.m,
            x: &self.x,
            p: &self.p,
            kinds: &self.kinds,
            w0m: Weights::of(self.n, self.par).w0m,
            w0c: self.drawn_weights[0],
            wi: self.drawn_weights[1],
            points: &self.drawn_points,
            z: with.z,
            r: with.r,
            measured: with.kinds,
            observed: with.observed,
        })?;
        let left = self.rust_mut().correct(average, with);
        self.shown("points shown to the observation", &left.shown)?;
        alike("cross covariance", &ours.c, &left.c)?;
        alike("factor of S", &ours.l, &left.l)?;
        alike("inverse of S", &ours.v, &left.v)?;
        alike("gain", &ours.k, &left.k)?;
        alike("y", &ours.y, &left.y)?;
        alike("T", &ours.t, &left.t)?;
        alike("x after a correction", &ours.x, &self.rust().x())?;
        alike("P after a correction", &ours.p, &self.rust().p())?;
        alike("points installed", &self.drawn_points, &self.rust().points())?;
        self.closed(true)
    }

    pub fn abandon(&mut self) -> Result<(), Trouble> {
        refuse_if(self.open == Open::Nothing, Refusal::Stage)?;
        self.sized()?;
        self.emptied();
        Ok(())
    }

    pub fn read_x(&self, buffer: &mut [T]) -> Result<(), Trouble> {
        self.sized()?;
        written(&self.x, buffer)
    }

    pub fn read_p(&self, buffer: &mut [T]) -> Result<(), Trouble> {
        self.sized()?;
        written(&self.p, buffer)
    }

    pub fn read_q(&self, buffer: &mut [T]) -> Result<(), Trouble> {
        self.sized()?;
        written(&self.q, buffer)
    }

    pub fn read_points(&self, buffer: &mut [T]) -> Result<(), Trouble> {
        let n = self.sized()?;
        refuse_if(buffer.len() < list_length(n), Refusal::Short)?;
        refuse_if(self.stale, Refusal::Stale)?;
        written(&self.points, buffer)
    }

    pub fn read_params(&self) -> Result<Params<T>, Trouble> {
        self.sized()?;
        Ok(self.par)
    }

    pub fn read_stale(&self) -> Result<bool, Trouble> {
        self.sized()?;
        Ok(self.stale)
    }
}

/// What New is lent for one filter.
pub struct Start<'a, T> {
    pub x: &'a [T],
    pub p: &'a [T],
}

/// The checks of New, for a filter or for both of a pair (request A4): 1, 2, then 51 and 52 of each start in turn, 53, 56, 6.
pub(crate) fn newable<T: Float>(n: u64, starts: &[Start<T>], q: &[T], par: Params<T>) -> Result<usize, Refusal> {
    let n = states(n)?;
    refuse_if(starts.iter().any(|start| start.x.len() < n || start.p.len() < n * n) || q.len() < n * n, Refusal::Short)?;
    for start in starts {
        search(Slice::State, &start.x[..n])?;
        search(Slice::Covariance, &start.p[..n * n])?;
    }
    search(Slice::Noise, &q[..n * n])?;
    pass_params(n, par)?;
    Ok(n)
}

/// The front of a lent slice: 2 where it is short, then the slice's own number.
pub(crate) fn front<T: Float>(slice: Slice, numbers: &[T], wanted: usize) -> Result<Vec<T>, Refusal> {
    refuse_if(numbers.len() < wanted, Refusal::Short)?;
    search(slice, &numbers[..wanted])?;
    Ok(numbers[..wanted].to_vec())
}

/// Alpha, beta and kappa have the places 0, 1, 2.
fn pass_params<T: Float>(n: usize, par: Params<T>) -> Result<(), Refusal> {
    search(Slice::Lone, &par.numbers())?;
    refuse_if(!Weights::of(n, par).pass(), Refusal::Param)
}

/// A half-turn's place is its index among the kinds; a plain one, which has none, counts there as a number that is fine. Every 56 before any 6.
fn pass_kinds<T: Float>(kinds: &[Kind<T>]) -> Result<(), Refusal> {
    let halves: Vec<T> = kinds.iter().map(|kind| kind.half().unwrap_or(T::ONE)).collect();
    search(Slice::Lone, &halves)?;
    refuse_if(!halves.iter().all(|h| is_half_turn(*h)), Refusal::Param)
}

pub(crate) fn written<T: Float>(numbers: &[T], buffer: &mut [T]) -> Result<(), Trouble> {
    refuse_if(buffer.len() < numbers.len(), Refusal::Short)?;
    buffer[..numbers.len()].copy_from_slice(numbers);
    Ok(())
}

/// The weights as the published Rust keeps them, one a point.
fn all_weights<T: Float>(n: usize, [w0c, wi]: [T; 2]) -> Vec<T> {
    let mut all = vec![wi; 2 * n + 1];
    all[0] = w0c;
    all
}

/// Point k of a lent list: where it starts and how long it is.
pub fn point<T>(n: u64, k: u64, list: &[T]) -> Result<(usize, usize), Trouble> {
    let n = states(n)?;
    refuse_if(k > 2 * n as u64, Refusal::Size)?;
    refuse_if(list.len() < list_length(n), Refusal::Short)?;
    Ok((k as usize * n, n))
}

pub fn wrap<T: Float>(d: T, h: T) -> Result<T, Trouble> {
    search(Slice::Lone, &[d])?;
    pass_kinds(&[Kind::Turn(h)])?;
    Ok(Kind::Turn(h).fixed(d))
}

pub fn root<T: Float>(a: T) -> Result<T, Trouble> {
    refuse_if(!a.is_finite() || a < T::ZERO, Refusal::Number(Slice::Lone, 0))?;
    Ok(a.root())
}
