//! The published filter held at any size and at either width, with hands on what it keeps. It is asked for nothing that its text doesn't offer:
//! predict, correct by either average, the setters and the residual hooks. It refuses nothing.

use std::any::Any;
use std::cell::RefCell;

use crate::buffers::{Grid, Shown};
use crate::float::Float;
use crate::kalman::unscented::UnscentedKalman;
use crate::kalman::*;
use crate::kinds::Kind;
use crate::matrix::{AsMatrix, Matrix, MatrixMut};
use crate::observations::unscented::UnscentedObservation;
use crate::steps::{Average, Params};

thread_local! {
    /// The hook for state residuals is a bare function pointer, so the kinds stand beside it: a `Vec<Kind<T>>`, whichever width runs.
    static STATE_KINDS: RefCell<Box<dyn Any>> = RefCell::new(Box::new(()));
}

fn fix_state<T: Float>(dx: &mut [T]) {
    STATE_KINDS.with_borrow(|kinds| fix(kinds.downcast_ref::<Vec<Kind<T>>>().expect("kinds of the filter that runs"), dx));
}

fn fix<T: Float>(kinds: &[Kind<T>], differences: &mut [T]) {
    for (difference, kind) in differences.iter_mut().zip(kinds) {
        *difference = kind.fixed(*difference);
    }
}

/// Points with the weights that belong to them: w0c, then wi for each further point.
pub struct Drawn<T> {
    pub points: Vec<T>,
    pub weights: Vec<T>,
}

/// What the published correction leaves in its own places, under document 01's letters.
pub struct Left<T> {
    /// The points that it showed to the observation function, one after the other.
    pub shown: Vec<T>,
    pub c: Vec<T>,
    pub l: Vec<T>,
    pub v: Vec<T>,
    pub k: Vec<T>,
    pub y: Vec<T>,
    pub t: Vec<T>,
}

/// A measurement as a close of a correction gives it; the flat average reads no kinds.
pub struct Measurement<'a, T> {
    pub m: usize,
    pub z: &'a [T],
    pub r: &'a [T],
    pub kinds: &'a [Kind<T>],
    pub observed: &'a [T],
}

/// The published filter, whatever its size.
pub trait Published<T> {
    fn set_x(&mut self, x: &[T]);
    fn set_p(&mut self, p: &[T]);
    fn set_q(&mut self, q: &[T]);
    fn set_params(&mut self, par: Params<T>);
    fn set_kinds(&mut self, kinds: &[Kind<T>]);
    /// A correction that corrects nothing: stale points are drawn afresh (`refresh_sigma_points`), and they are stale after it.
    fn correct_nothing(&mut self);
    /// Predicts. The transition is given one point after the other and hands back the next of these images; returned are the points that it was given.
    fn predict(&mut self, propagated: &[T]) -> Vec<T>;
    /// Corrects. The observation goes through the points that it is given one by one, and hands back the next image for each.
    fn correct(&mut self, average: Average, with: &Measurement<T>) -> Left<T>;
    /// The points that a first correction draws; spends the filter.
    fn refreshed(self: Box<Self>) -> Drawn<T>;
    fn x(&self) -> Vec<T>;
    fn p(&self) -> Vec<T>;
    fn points(&self) -> Vec<T>;
    fn weights(&self) -> Vec<T>;
}

/// A new published filter of n states, 1 to 8.
pub fn new<T: Float>(n: usize, x: &[T], p: &[T], q: &[T], par: Params<T>) -> Box<dyn Published<T>> {
    match n {
        1 => Box::new(Held::<T, 1, 3>::new(x, p, q, par)),
        2 => Box::new(Held::<T, 2, 5>::new(x, p, q, par)),
        3 => Box::new(Held::<T, 3, 7>::new(x, p, q, par)),
        4 => Box::new(Held::<T, 4, 9>::new(x, p, q, par)),
        5 => Box::new(Held::<T, 5, 11>::new(x, p, q, par)),
        6 => Box::new(Held::<T, 6, 13>::new(x, p, q, par)),
        7 => Box::new(Held::<T, 7, 15>::new(x, p, q, par)),
        8 => Box::new(Held::<T, 8, 17>::new(x, p, q, par)),
        _ => unreachable!("sizes are tested before"),
    }
}

type Filter<T, const N: usize, const COUNT: usize> = UnscentedKalman<
    N,
    COUNT,
    T,
    Grid<T, N, 1>,
    Grid<T, N, N>,
    Grid<T, N, N>,
    Grid<T, N, 1>,
    Grid<T, N, COUNT>,
    Shown<T, COUNT>,
    Grid<T, N, COUNT>,
    Grid<T, N, N>,
>;

type Observation<'a, T, const N: usize, const M: usize, const COUNT: usize> = UnscentedObservation<
    N,
    M,
    COUNT,
    T,
    Grid<T, M, COUNT>,
    &'a mut Grid<T, N, M>,
    Grid<T, M, 1>,
    Grid<T, M, M>,
    &'a mut Grid<T, M, 1>,
    &'a mut Grid<T, M, M>,
    &'a mut Grid<T, N, M>,
    &'a mut Grid<T, M, M>,
    &'a mut Grid<T, N, N>,
>;

/// The published filter of N states and COUNT points.
pub struct Held<T, const N: usize, const COUNT: usize> {
    filter: Filter<T, N, COUNT>,
    weights: Shown<T, COUNT>,
    kinds: Vec<Kind<T>>,
}

impl<T: Float, const N: usize, const COUNT: usize> Held<T, N, COUNT> {
    pub fn new(x: &[T], p: &[T], q: &[T], par: Params<T>) -> Self {
        let weights = Shown::zero();
        let filter = Filter::new(
            Grid::from_rows(x),
            Grid::from_rows(p),
            Grid::from_rows(q),
            Grid::zero(),
            Grid::zero(),
            weights.clone(),
            Grid::zero(),
            Grid::zero(),
            par.alpha,
            par.beta,
            par.kappa,
        );
        Held { filter, weights, kinds: vec![Kind::Plain; N] }
    }

    fn weights(&self) -> Vec<T> {
        (0..COUNT).map(|k| self.weights.get(k, 0)).collect()
    }

    /// Another function in the hook for state residuals.
    pub fn set_hook(&mut self, hook: fn(&mut [T])) {
        self.filter.set_state_residual(hook);
    }

    /// Predicts, with this as the state transition.
    pub fn predict_by(&mut self, transition: impl FnMut(&mut Grid<T, N, 1>)) {
        STATE_KINDS.set(Box::new(self.kinds.clone()));
        self.filter.predict_nonlinear(transition);
    }

    pub fn correct_of<const M: usize>(&mut self, average: Average, with: &Measurement<T>) -> Left<T> {
        STATE_KINDS.set(Box::new(self.kinds.clone()));
        let (mut y, mut s, mut k, mut v) =
            (Grid::<T, M, 1>::zero(), Grid::<T, M, M>::zero(), Grid::<T, N, M>::zero(), Grid::<T, M, M>::zero());
        let (mut c, mut t) = (Grid::<T, N, M>::zero(), Grid::<T, N, N>::zero());
        let mut shown = Vec::new();
        let observe = |points: &Grid<T, N, COUNT>, observed: &mut Grid<T, M, COUNT>| {
            for k in 0..COUNT {
                shown.extend(points.point(k));
                observed.set_point(k, &with.observed[k * M..][..M]);
            }
        };
        let places = (&mut y, &mut s, &mut k, &mut v, &mut c, &mut t);
        let made = |observed: Grid<T, M, COUNT>| -> Observation<T, N, M, COUNT> {
            let (y, s, k, v, c, t) = places;
            UnscentedObservation::new(Grid::from_rows(with.z), Grid::from_rows(with.r), y, s, k, v, observed, c, t)
        };
        match average {
            Average::Weighted => self.filter.correct_sigma_point_with(&mut made(Grid::zero()), observe, |dz: &mut [T]| fix(with.kinds, dz)),
            Average::Flat => self.filter.correct_sigma_point_with(&mut Flat(Some(made)), observe, |_: &mut [T]| {}),
        }
        Left { shown, c: c.rows(), l: s.rows(), v: v.rows(), k: k.rows(), y: y.rows(), t: t.rows() }
    }
}

impl<T: Float, const N: usize, const COUNT: usize> Published<T> for Held<T, N, COUNT> {
    fn set_x(&mut self, x: &[T]) {
        *self.filter.state_vector_mut() = Grid::from_rows(x);
    }

    fn set_p(&mut self, p: &[T]) {
        *self.filter.estimate_covariance_mut() = Grid::from_rows(p);
    }

    fn set_q(&mut self, q: &[T]) {
        *self.filter.direct_process_noise_mut() = Grid::from_rows(q);
    }

    fn set_params(&mut self, par: Params<T>) {
        self.filter.set_alpha(par.alpha);
        self.filter.set_beta(par.beta);
        self.filter.set_kappa(par.kappa);
    }

    fn set_kinds(&mut self, kinds: &[Kind<T>]) {
        self.kinds = kinds.to_vec();
        // Only now: a filter whose kinds were never set runs without the hook.
        self.filter.set_state_residual(fix_state);
    }

    fn predict(&mut self, propagated: &[T]) -> Vec<T> {
        let mut drawn = Vec::new();
        self.predict_by(|point| {
            let at = drawn.len();
            drawn.extend(point.rows());
            for i in 0..N {
                point.set(i, 0, propagated[at + i]);
            }
        });
        drawn
    }

    fn correct(&mut self, average: Average, with: &Measurement<T>) -> Left<T> {
        match with.m {
            1 => self.correct_of::<1>(average, with),
            2 => self.correct_of::<2>(average, with),
            3 => self.correct_of::<3>(average, with),
            4 => self.correct_of::<4>(average, with),
            _ => unreachable!("sizes are tested before"),
        }
    }

    fn correct_nothing(&mut self) {
        self.filter.correct_sigma_point_with(&mut Onlooker, |_: &Grid<T, N, COUNT>, _: &mut ()| {}, |_: &mut [T]| {});
    }

    fn refreshed(mut self: Box<Self>) -> Drawn<T> {
        self.correct_nothing();
        Drawn { points: self.points(), weights: Held::weights(&self) }
    }

    fn x(&self) -> Vec<T> {
        self.filter.state_vector().rows()
    }

    fn p(&self) -> Vec<T> {
        self.filter.estimate_covariance().rows()
    }

    fn points(&self) -> Vec<T> {
        self.filter.sigma_propagated().points()
    }

    fn weights(&self) -> Vec<T> {
        Held::weights(self)
    }
}

/// A measurement that corrects nothing.
struct Onlooker;

impl<T: Float, const N: usize, const COUNT: usize> KalmanFilterUnscentedObservationCorrectFilter<N, 1, COUNT, T> for Onlooker {
    type ObservedSigmaPoints = ();
    #[allow(non_snake_case)]
    fn correct_with_observed_residuals<X, P, SP, F, W, NX, NZ>(&mut self, _: &mut X, _: &mut P, _: &SP, _: &W, _: T, _: F, _: NX, _: NZ)
    where
        X: StateVectorMut<N, T>,
        P: EstimateCovarianceMatrix<N, T>,
        SP: AsMatrix<N, COUNT, T>,
        W: AsMatrix<COUNT, 1, T>,
        F: FnMut(&SP, &mut ()),
        NX: FnMut(&mut [T]),
        NZ: FnMut(&mut [T]),
    {
    }
}

/// An observation that corrects by the published `correct_nonlinear`. The published filter only ever calls the weighted one, so this stands
/// where that is called: the filter redraws stale points, keeps points and weights, and marks itself stale as after any correction.
/// `correct_nonlinear` asks no function for what is observed, so the published observation is made once that is known.
struct Flat<F>(Option<F>);

impl<'a, F, T: Float, const N: usize, const M: usize, const COUNT: usize> KalmanFilterUnscentedObservationCorrectFilter<N, M, COUNT, T>
    for Flat<F>
where
    F: FnOnce(Grid<T, M, COUNT>) -> Observation<'a, T, N, M, COUNT>,
{
    type ObservedSigmaPoints = Grid<T, M, COUNT>;
    #[allow(non_snake_case)]
    fn correct_with_observed_residuals<X, P, SP, O, W, NX, NZ>(
        &mut self,
        x: &mut X,
        P: &mut P,
        points: &SP,
        _: &W,
        _: T,
        mut observation: O,
        _: NX,
        _: NZ,
    ) where
        X: StateVectorMut<N, T>,
        P: EstimateCovarianceMatrix<N, T>,
        SP: AsMatrix<N, COUNT, T>,
        W: AsMatrix<COUNT, 1, T>,
        O: FnMut(&SP, &mut Grid<T, M, COUNT>),
        NX: FnMut(&mut [T]),
        NZ: FnMut(&mut [T]),
    {
        let mut observed = Grid::zero();
        observation(points, &mut observed);
        if let Some(made) = self.0.take() {
            made(observed).correct_nonlinear(x, P, points);
        }
    }
}
