//! The steps of documents 01 and 02 worked out a second time, plainly and with their checks for 7, 8 and 9 in running order.
//! Shares no code with the leaves that lie under the published Rust, so that the two can be held against each other.

use crate::float::Float;
use crate::kinds::Kind;
use crate::refusal::Refusal;

#[derive(Clone, Copy, Debug, Default, PartialEq)]
pub struct Params<T> {
    pub alpha: T,
    pub beta: T,
    pub kappa: T,
}

impl<T> Params<T> {
    pub fn numbers(self) -> [T; 3] {
        [self.alpha, self.beta, self.kappa]
    }
}

pub struct Weights<T> {
    /// N = n + lambda.
    pub total: T,
    pub w0m: T,
    pub w0c: T,
    pub wi: T,
}

impl<T: Float> Weights<T> {
    pub fn of(n: usize, par: Params<T>) -> Weights<T> {
        let (n, two) = (T::of_size(n), T::of_size(2));
        let lambda = par.alpha * par.alpha * (n + par.kappa) - n;
        let total = n + lambda;
        Weights {
            total,
            w0m: lambda / total,
            w0c: lambda / total + (T::ONE - par.alpha * par.alpha + par.beta),
            wi: T::ONE / (two * total),
        }
    }

    /// What refusal 6 asks of parameters.
    pub fn pass(&self) -> bool {
        self.total.is_finite() && self.total > T::ZERO && self.w0m.is_finite() && self.w0c.is_finite() && self.wi.is_finite()
    }
}

pub fn all_finite<T: Float>(numbers: &[T]) -> bool {
    numbers.iter().all(|number| number.is_finite())
}

/// The numbers as they are, or 9 in this step's name.
fn checked<T: Float>(numbers: Vec<T>, step: &'static str) -> Result<Vec<T>, Refusal> {
    if all_finite(&numbers) {
        Ok(numbers)
    } else {
        Err(Refusal::Range(step))
    }
}

/// d×d factor of a, reading its lower triangle, column after column; +0 above the diagonal. A bad pivot is refused by its row.
fn factor<T: Float>(a: &[T], d: usize, pivot: fn(usize) -> Refusal, entry: &'static str) -> Result<Vec<T>, Refusal> {
    let mut l = vec![T::ZERO; d * d];
    for j in 0..d {
        for i in j..d {
            let mut rest = a[i * d + j];
            for k in 0..j {
                rest -= l[i * d + k] * l[j * d + k];
            }
            if i == j {
                if !rest.is_finite() || rest <= T::ZERO {
                    return Err(pivot(j));
                }
                l[j * d + j] = rest.root();
            } else {
                l[i * d + j] = rest / l[j * d + j];
                if !l[i * d + j].is_finite() {
                    return Err(Refusal::Range(entry));
                }
            }
        }
    }
    Ok(l)
}

/// The inverse from the factor, column by column.
fn inverse<T: Float>(l: &[T], d: usize) -> Vec<T> {
    let mut inverse = vec![T::ZERO; d * d];
    for c in 0..d {
        let mut u = vec![T::ZERO; d];
        for i in 0..d {
            let start = if i == c { T::ONE } else { T::ZERO };
            u[i] = (0..i).fold(start, |rest, k| rest - l[i * d + k] * u[k]) / l[i * d + i];
        }
        let mut v = vec![T::ZERO; d];
        for i in (0..d).rev() {
            v[i] = (i + 1..d).fold(u[i], |rest, k| rest - l[k * d + i] * v[k]) / l[i * d + i];
        }
        for i in 0..d {
            inverse[i * d + c] = v[i];
        }
    }
    inverse
}

/// a (rows×d) times b (columns×d) transposed.
fn times_transposed<T: Float>(a: &[T], b: &[T], rows: usize, columns: usize, d: usize) -> Vec<T> {
    let mut out = Vec::with_capacity(rows * columns);
    for i in 0..rows {
        for j in 0..columns {
            out.push((0..d).fold(T::ZERO, |sum, k| sum + a[i * d + k] * b[j * d + k]));
        }
    }
    out
}

/// The 2n+1 points, point after point.
pub fn draw<T: Float>(n: usize, x: &[T], p: &[T], total: T) -> Result<Vec<T>, Refusal> {
    let l = factor(p, n, Refusal::Pivot, "P's factor entry")?;
    let s = total.root();
    let mut points = x[..n].to_vec();
    for j in 0..n {
        points.extend((0..n).map(|i| x[i] + s * l[i * n + j]));
    }
    for j in 0..n {
        points.extend((0..n).map(|i| x[i] - s * l[i * n + j]));
    }
    checked(points, "points")
}

/// The anchored mean of points of d numbers each.
fn mean<T: Float>(points: &[T], d: usize, kinds: &[Kind<T>], w0m: T, wi: T) -> Vec<T> {
    let count = points.len() / d;
    let weight_sum = (1..count).fold(w0m, |sum, _| sum + wi);
    (0..d)
        .map(|i| {
            let offset = (1..count).fold(T::ZERO, |sum, k| sum + wi * kinds[i].fixed(points[k * d + i] - points[i]));
            weight_sum * points[i] + offset
        })
        .collect()
}

/// Points minus mean, through the kinds; point after point.
fn deviations<T: Float>(points: &[T], d: usize, kinds: &[Kind<T>], mean: &[T]) -> Vec<T> {
    points.iter().enumerate().map(|(at, number)| kinds[at % d].fixed(*number - mean[at % d])).collect()
}

/// Sum over the points of w·a[i]·b[j], rows×columns.
fn spread<T: Float>(a: &[T], b: &[T], rows: usize, columns: usize, w0c: T, wi: T) -> Vec<T> {
    let count = a.len() / rows;
    let mut out = vec![T::ZERO; rows * columns];
    for i in 0..rows {
        for j in 0..columns {
            for k in 0..count {
                let w = if k == 0 { w0c } else { wi };
                out[i * columns + j] += w * a[k * rows + i] * b[k * columns + j];
            }
        }
    }
    out
}

fn added<T: Float>(a: &[T], b: &[T]) -> Vec<T> {
    a.iter().zip(b).map(|(a, b)| *a + *b).collect()
}

/// How a correction averages: by document 01's weights, or flat as request A1 has it, where a sum is divided by how many points there are.
#[derive(Clone, Copy, Debug, PartialEq)]
pub enum Average {
    Weighted,
    Flat,
}

/// The flat mean of points of d numbers each.
fn flat_mean<T: Float>(points: &[T], d: usize) -> Vec<T> {
    let count = points.len() / d;
    (0..d).map(|i| (0..count).fold(T::ZERO, |sum, k| sum + points[k * d + i]) / T::of_size(count)).collect()
}

/// Sum over the points of a[i]·b[j], rows×columns; each entry is summed, then divided.
fn flat_spread<T: Float>(a: &[T], b: &[T], rows: usize, columns: usize) -> Vec<T> {
    let count = a.len() / rows;
    let entry = |i: usize, j: usize| (0..count).fold(T::ZERO, |sum, k| sum + a[k * rows + i] * b[k * columns + j]) / T::of_size(count);
    (0..rows).flat_map(|i| (0..columns).map(move |j| (i, j))).map(|(i, j)| entry(i, j)).collect()
}

/// What a close of a prediction works from.
pub struct Prediction<'a, T> {
    pub n: usize,
    pub q: &'a [T],
    pub kinds: &'a [Kind<T>],
    pub w0m: T,
    pub w0c: T,
    pub wi: T,
    pub propagated: &'a [T],
}

/// x and P after a prediction.
pub fn predict<T: Float>(given: &Prediction<T>) -> Result<(Vec<T>, Vec<T>), Refusal> {
    let n = given.n;
    let x = checked(mean(given.propagated, n, given.kinds, given.w0m, given.wi), "mean")?;
    let dx = deviations(given.propagated, n, given.kinds, &x);
    let p = checked(added(given.q, &spread(&dx, &dx, n, n, given.w0c, given.wi)), "P")?;
    Ok((x, p))
}

/// What a close of a correction works from. The flat average reads no weights, and its kinds are all plain.
pub struct Correction<'a, T> {
    pub average: Average,
    pub n: usize,
    pub m: usize,
    pub x: &'a [T],
    pub p: &'a [T],
    pub kinds: &'a [Kind<T>],
    pub w0m: T,
    pub w0c: T,
    pub wi: T,
    pub points: &'a [T],
    pub z: &'a [T],
    pub r: &'a [T],
    pub measured: &'a [Kind<T>],
    pub observed: &'a [T],
}

impl<T: Float> Correction<'_, T> {
    fn mean(&self, points: &[T], d: usize, kinds: &[Kind<T>]) -> Vec<T> {
        match self.average {
            Average::Weighted => mean(points, d, kinds, self.w0m, self.wi),
            Average::Flat => flat_mean(points, d),
        }
    }

    fn spread(&self, a: &[T], b: &[T], rows: usize, columns: usize) -> Vec<T> {
        match self.average {
            Average::Weighted => spread(a, b, rows, columns, self.w0c, self.wi),
            Average::Flat => flat_spread(a, b, rows, columns),
        }
    }
}

/// x and P after a correction, and what was worked out on the way, under document 01's letters.
#[derive(Clone, Debug)]
pub struct Corrected<T> {
    pub x: Vec<T>,
    pub p: Vec<T>,
    pub c: Vec<T>,
    pub l: Vec<T>,
    pub v: Vec<T>,
    pub k: Vec<T>,
    pub y: Vec<T>,
    pub t: Vec<T>,
}

/// Both closes of a correction. They differ in their means and sums, not in the order of their steps; from C on they are one.
pub fn correct<T: Float>(given: &Correction<T>) -> Result<Corrected<T>, Refusal> {
    let (n, m) = (given.n, given.m);
    let z_mean = checked(given.mean(given.observed, m, given.measured), "z mean")?;
    let dz = deviations(given.observed, m, given.measured, &z_mean);
    let s = checked(added(given.r, &given.spread(&dz, &dz, m, m)), "S")?;
    let x_mean = checked(given.mean(given.points, n, given.kinds), "x mean")?;
    let dx = deviations(given.points, n, given.kinds, &x_mean);
    let c = checked(given.spread(&dx, &dz, n, m), "cross covariance")?;
    let l = factor(&s, m, Refusal::Innov, "S's factor entry")?;
    let v = checked(inverse(&l, m), "inverse")?;
    let k = checked(times_transposed(&c, &v, n, m, m), "gain")?;
    let y = checked((0..m).map(|j| given.measured[j].fixed(given.z[j] - z_mean[j])).collect(), "y")?;
    let x = checked((0..n).map(|i| given.x[i] + (0..m).fold(T::ZERO, |sum, j| sum + k[i * m + j] * y[j])).collect(), "x")?;
    let t = times_transposed(&c, &k, n, n, m);
    let p = checked(given.p.iter().zip(&t).map(|(p, t)| *p - *t).collect(), "P")?;
    Ok(Corrected { x, p, c, l, v, k, y, t })
}
