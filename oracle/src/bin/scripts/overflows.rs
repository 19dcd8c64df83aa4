//! Filters led to each refusal that a step gives: 7, 8, and 9 in every listed step result, of the weighted close and of the flat one.

use oracle::coverage::{count, count_with, has, STEPS};
use oracle::filter::Way;
use oracle::kinds::Kind;
use oracle::script::{named, On};
use oracle::stages::STEPPED;
use oracle::steps::{Average, Params};

use crate::maker::{close_of, Fault, Made, Maker};
use crate::rounds::power;

/// One turn-free measurement per state, at most four.
const PLAIN: [Kind<f64>; 4] = [Kind::Plain; 4];

impl Maker {
    pub fn overflow(&mut self, n: usize) -> Made<()> {
        let (call, step) = self.aim();
        self.way = if STEPPED.contains(&call) { Way::Stepped } else { Way::Whole };
        // One state has no entry below the diagonal; a row wants as many states; a stepped call of few states is a short one.
        let n = match step {
            "P's pivot" => n.max(1 + self.rare_row("openp", 7, 8)),
            "P's factor entry" => n.max(2),
            _ if self.way == Way::Stepped && self.random.chance(80) => 1 + n % 3,
            _ => n,
        };
        // These weigh exactly (N is a power of two), so that means of equal points are those points.
        let exact = Params { alpha: 1.0, beta: 0.0, kappa: self.random.pick(&[8.0, 16.0]) - n as f64 };
        let lists = [self.random.vector(n, 1.0), diagonal(n, 4.0), diagonal(n, 1.0)];
        if self.new_line(n, 1.0, lists, exact)? != 0 {
            return Ok(()); // too long a line
        }
        match call {
            "closec" | "sclosec" => self.stopped_correction(Average::Weighted, step)?,
            "closef" | "sclosef" => {
                if self.random.chance(5) {
                    // Refused for its kind before any step is taken.
                    self.half_circle()?;
                }
                self.stopped_correction(Average::Flat, step)?
            }
            _ => match step {
                "P's pivot" => self.pivot_of_p()?,
                "P's factor entry" => self.entry_of_p()?,
                "points" => self.points()?,
                "mean" => self.prediction_mean()?,
                _ => self.prediction_spread()?,
            },
        }
        if self.random.chance(40) {
            self.say("dump")?;
        }
        // Still open where a close was refused; an ordinary close may follow.
        if self.random.chance(50) {
            self.random_call()?;
        }
        if self.random.chance(50) {
            self.say("abandon")?;
        }
        Ok(())
    }

    fn stopped_correction(&mut self, average: Average, step: &str) -> Made<()> {
        let m = 1 + self.random.below(4);
        match step {
            "z mean" => self.z_mean(average, m),
            "S" => self.innovation(average, m),
            "x mean" => self.x_mean(average, m),
            "cross covariance" => self.cross_covariance(average, m),
            "S's pivot" => self.pivot_of_s(average),
            "S's factor entry" => self.entry_of_s(average, m.max(2)),
            "inverse" => self.inverse(average, m),
            "gain" => self.gain(average, m),
            "y" => self.y(average, m),
            "x" => self.corrected_x(average, m),
            _ => self.corrected_p(average, m),
        }
    }

    /// A call and the step that is to stop it: mostly that which least often did. (Where one open is stopped, so are the others.)
    /// On pairs fewer come, so that the call and its number count, whatever the step.
    fn aim(&mut self) -> (&'static str, &'static str) {
        let others = ["openc", "sopenp", "sopenc"];
        let calls = STEPS.into_iter().filter(|(call, _)| !others.contains(call) && has(self.on, call));
        let aims: Vec<(&str, u8, &str)> =
            calls.flat_map(|(call, steps)| steps.iter().map(move |(number, step)| (call, *number, *step))).collect();
        let met = |(call, number, step): &(&str, u8, &str)| match self.on {
            On::Side(_) => count(&self.reader.table, &named(self.on, call), *number),
            _ => count_with(&self.reader.table, &named(self.on, call), *number, step),
        };
        let met: Vec<u64> = aims.iter().map(met).collect();
        let (call, _, step) = aims[self.rare(&met)];
        (call, step)
    }

    /// A turn of 180 for some state.
    pub fn half_circle(&mut self) -> Made<u8> {
        let i = self.random.below(self.n());
        self.say(format!("setkind {i} {}", self.kind(Kind::Turn(180.0))))
    }

    pub fn set_p(&mut self, p: &[f64]) -> Made<u8> {
        let line = format!("setp {}", self.list(p, Fault::None));
        self.say(line)
    }

    fn set_x(&mut self, x: &[f64]) -> Made<u8> {
        let line = format!("setx {}", self.list(x, Fault::None));
        self.say(line)
    }

    /// All opens, one after the other; on a stale filter they all draw, and where one is refused so are the others.
    fn open_all(&mut self) -> Made<()> {
        let ways: &[Way] = if self.on == On::Narrow { &[Way::Whole] } else { &[Way::Whole, Way::Stepped] };
        let correction_first = self.random.chance(50);
        for (way, correction) in ways.iter().flat_map(|way| [(*way, correction_first), (*way, !correction_first)]) {
            self.way = way;
            if correction {
                self.open_correction()?;
            } else {
                self.open_prediction()?;
            }
        }
        Ok(())
    }

    /// 1.0 to 10.0 times `size`, of either sign.
    pub fn about(&mut self, size: f64) -> f64 {
        self.random.within(1.0, 10.0) * size * self.random.sign()
    }

    pub fn pivot_of_p(&mut self) -> Made<()> {
        let n = self.n();
        let (mut p, row) = (self.random.covariance(n, 1.0), self.rare_row("openp", 7, n));
        self.bad_pivot(&mut p, n, row);
        self.set_p(&p)?;
        self.open_all()
    }

    fn entry_of_p(&mut self) -> Made<()> {
        let n = self.n();
        let mut p = diagonal(n, 1.0);
        self.entry_overflows(&mut p, n);
        self.set_p(&p)?;
        self.open_all()
    }

    /// Makes an entry of the factor overflow, and at times the pivot of another column bad: the earlier column decides.
    fn entry_overflows(&mut self, a: &mut [f64], d: usize) {
        let edges = self.width().edges();
        let column = self.random.below(d.max(2) - 1);
        let other = self.random.below(d);
        if self.random.chance(30) && other != column {
            a[other * d + other] = -1.0;
        }
        if column + 1 < d {
            a[column * d + column] = edges.tiny;
            a[(d - 1) * d + column] = self.about(edges.huge);
        }
    }

    fn points(&mut self) -> Made<()> {
        let (n, edges) = (self.n(), self.width().edges());
        // What x is to the largest number, and P and alpha to the widest: from the largest number a small step is enough.
        let (far, p, alpha) = self.random.pick(&[(1.0, 1.0, 1.0), (1.0, 0.01, 0.01), (1.0, 0.01, 1.0), (0.85, 1.0, 1.0)]);
        let (mut x, mut variances, at) = (self.random.vector(n, 1.0), diagonal(n, 1.0), self.random.below(n));
        x[at] = self.random.sign() * far * self.width().largest();
        variances[at * n + at] = p * edges.wide;
        self.set_x(&x)?;
        self.set_p(&variances)?;
        let par = Params { alpha: alpha * edges.wide.sqrt(), beta: 0.0, kappa: 1.0 - n as f64 };
        self.say(format!("setpar {}", self.params(par)))?;
        self.open_all()
    }

    /// Two of these overflow in sum.
    fn far(&self) -> f64 {
        self.width().largest() / 1.5
    }

    fn prediction_mean(&mut self) -> Made<()> {
        let (n, i, far) = (self.n(), self.random.below(self.n()), self.far());
        if self.random.chance(30) {
            // The difference overflows before it is wrapped.
            self.say(format!("setkind {i} {}", self.kind(Kind::Turn(180.0))))?;
        }
        self.open_prediction()?;
        let mut moved = self.filter().drawn_points;
        moved[i] = far;
        moved[n + i] = -far;
        self.close_prediction(&moved)?;
        Ok(())
    }

    fn prediction_spread(&mut self) -> Made<()> {
        self.open_prediction()?;
        let mut moved = self.filter().drawn_points;
        let at = self.random.below(moved.len());
        moved[at] = self.about(self.width().edges().huge);
        self.close_prediction(&moved)?;
        Ok(())
    }

    /// A correction opened on whatever points: zeros are observed but for what the caller changes.
    fn opened_correction(&mut self, m: usize) -> Made<Vec<f64>> {
        self.open_correction()?;
        Ok(vec![0.0; m * (2 * self.n() + 1)])
    }

    /// R of 1 on the diagonal; at times S has a bad pivot too, which comes after the step that overflows.
    fn noise_of_one(&mut self, m: usize) -> Vec<f64> {
        let mut r = diagonal(m, 1.0);
        if self.random.chance(40) {
            let j = self.random.below(m);
            r[j * m + j] = -self.width().largest();
        }
        r
    }

    fn z_mean(&mut self, average: Average, m: usize) -> Made<()> {
        let mut observed = self.opened_correction(m)?;
        let (j, far) = (self.random.below(m), self.far());
        observed[j] = far;
        // The difference from the centre overflows, or the flat sum.
        observed[m + j] = match average {
            Average::Weighted => -far,
            Average::Flat => far,
        };
        let r = self.noise_of_one(m);
        self.close_correction(average, &vec![0.0; m], &r, &PLAIN[..m], &observed)?;
        Ok(())
    }

    fn innovation(&mut self, average: Average, m: usize) -> Made<()> {
        let mut observed = self.opened_correction(m)?;
        let at = self.random.below(observed.len());
        observed[at] = self.about(self.width().edges().huge);
        let r = self.noise_of_one(m);
        self.close_correction(average, &vec![0.0; m], &r, &PLAIN[..m], &observed)?;
        Ok(())
    }

    /// A prediction that leads to the correction which is to be stopped: with the whole list, whichever way that goes.
    fn moved_to(&mut self, points: &[f64]) -> Made<()> {
        let way = std::mem::replace(&mut self.way, Way::Whole);
        self.open_prediction()?;
        self.close_prediction(points)?;
        self.way = way;
        Ok(())
    }

    /// For the flat close: points drawn 1e200 from x, whose squares overflow. (Weights shrink with the square, so a weighted close wants another way.)
    fn far_points(&mut self) -> Made<()> {
        let n = self.n();
        let p = self.random.covariance(n, 1.0e50);
        self.set_p(&p)?;
        let par = Params { alpha: 1.0e150, beta: 0.0, kappa: 1.0 - n as f64 };
        self.say(format!("setpar {}", self.params(par)))?;
        Ok(())
    }

    fn x_mean(&mut self, average: Average, m: usize) -> Made<()> {
        let n = self.n();
        match average {
            // A number of x is the largest, and the weights, rounded as they are, add up to more than 1: they do for about one alpha in four.
            Average::Weighted => {
                let mut x = self.random.vector(n, 1.0);
                let at = self.random.below(n);
                x[at] = self.random.sign() * self.width().largest();
                self.set_x(&x)?;
                let par = loop {
                    let par = Params { alpha: self.random.within(0.58, 0.7), beta: 0.0, kappa: 0.0 };
                    let weights = self.width().weights(n, par);
                    if (0..2 * n).fold(weights.w0m, |sum, _| self.width().rounded(sum + weights.wi)) > 1.0 {
                        break par;
                    }
                };
                self.say(format!("setpar {}", self.params(par)))?;
            }
            // Each point is finite, their sum isn't.
            Average::Flat => {
                let one: Vec<f64> = (0..n).map(|_| self.random.within(0.7, 1.7) * 1.0e308 * self.random.sign()).collect();
                self.moved_to(&one.repeat(2 * n + 1))?;
            }
        }
        let observed = self.opened_correction(m)?;
        let r = self.noise_of_one(m);
        self.close_correction(average, &vec![0.0; m], &r, &PLAIN[..m], &observed)?;
        Ok(())
    }

    /// Observes `size` at two opposite points and 0 at the others.
    fn opposite(&mut self, m: usize, size: f64) -> Made<(Vec<f64>, usize)> {
        let mut observed = self.opened_correction(m)?;
        let (n, j) = (self.n(), self.random.below(m));
        observed[m + j] = size;
        observed[(1 + n) * m + j] = -size;
        Ok((observed, j))
    }

    fn cross_covariance(&mut self, average: Average, m: usize) -> Made<()> {
        let observed = match average {
            // The centre weighs -1: its square takes most of those of two opposite points away, in P and in S.
            // For z it lies on the other side, so in the cross covariance the products add up.
            Average::Weighted => {
                let (n, sign) = (self.n(), self.random.sign());
                self.say(format!("setpar {}", self.params(Params { alpha: 1.0, beta: -1.0, kappa: 0.0 })))?;
                let size = self.width().largest().sqrt() * sign;
                let (i, centre, pair) = (self.random.below(n), 0.9 * size, 0.93 * size * (n as f64).sqrt());
                let mut moved = vec![0.0; n * (2 * n + 1)];
                (moved[i], moved[n + i], moved[(1 + n) * n + i]) = (centre, pair, -pair);
                self.moved_to(&moved)?;
                let (mut observed, j) = self.opposite(m, pair)?;
                observed[j] = -centre;
                observed
            }
            Average::Flat => {
                self.far_points()?;
                self.opposite(m, 1.0e150)?.0
            }
        };
        let r = self.noise_of_one(m);
        self.close_correction(average, &vec![0.0; m], &r, &PLAIN[..m], &observed)?;
        Ok(())
    }

    /// P of this size and `seen` observed at two opposite points, with an R below 0 that leaves next to nothing of their spread as S.
    fn nearly_no_noise(&mut self, m: usize, p: f64, seen: f64) -> Made<(Vec<f64>, Vec<f64>)> {
        let n = self.n();
        self.set_p(&diagonal(n, p))?;
        let (observed, j) = self.opposite(m, seen)?;
        let mut r = diagonal(m, 1.0);
        r[j * m + j] = -2.0 * self.filter().drawn_weights[1] * seen * seen * (1.0 - power(self.width().edges().left));
        Ok((observed, r))
    }

    fn pivot_of_s(&mut self, average: Average) -> Made<()> {
        self.open_correction()?;
        self.pivots_of_s(average)
    }

    /// Refused, the call stays open for more.
    pub fn pivots_of_s(&mut self, average: Average) -> Made<()> {
        for _ in 0..3 {
            // Of a stepped call all images may be in, so that m and the points stand.
            let rows = if self.filter().m > 0 { self.filter().m } else { 4 };
            let row = self.rare_row(close_of(self.open_way(), average), 8, rows);
            let m = if self.filter().m > 0 { rows } else { (row + 1).max(1 + self.random.below(4)) };
            let (mut observed, mut z) = (vec![0.0; m * (2 * self.n() + 1)], vec![0.0; m]);
            let mut r = self.random.covariance(m, 1.0);
            self.bad_pivot(&mut r, m, row);
            if self.random.chance(50) {
                // y would overflow too, but later.
                self.far_apart(&mut observed, &mut z);
            }
            self.close_correction(average, &z, &r, &PLAIN[..m], &observed)?;
        }
        Ok(())
    }

    fn entry_of_s(&mut self, average: Average, m: usize) -> Made<()> {
        let observed = self.opened_correction(m)?;
        let mut r = diagonal(m, 1.0);
        self.entry_overflows(&mut r, m);
        self.close_correction(average, &vec![0.0; m], &r, &PLAIN[..m], &observed)?;
        Ok(())
    }

    fn inverse(&mut self, average: Average, m: usize) -> Made<()> {
        let observed = self.opened_correction(m)?;
        let mut r = diagonal(m, 1.0);
        let j = self.random.below(m);
        let width = self.width();
        r[j * m + j] = self.random.pick(&[width.normal() / 16.0, width.normal() / 256.0, width.smallest()]);
        self.close_correction(average, &vec![0.0; m], &r, &PLAIN[..m], &observed)?;
        Ok(())
    }

    fn gain(&mut self, average: Average, m: usize) -> Made<()> {
        let (observed, r) = match average {
            Average::Weighted => {
                let [p, seen] = self.width().edges().gain.map(power);
                self.nearly_no_noise(m, p, seen)?
            }
            Average::Flat => {
                self.far_points()?;
                let mut observed = self.opened_correction(m)?;
                // Not opposite: with equal deviations of the states, the terms must not cancel.
                let j = self.random.below(m);
                observed[m + j] = 1.0e-150;
                let mut r = diagonal(m, 1.0);
                r[j * m + j] = 0.0;
                (observed, r)
            }
        };
        self.close_correction(average, &vec![0.0; m], &r, &PLAIN[..m], &observed)?;
        Ok(())
    }

    /// One measurement at one end of the numbers, all that is observed of it at the other.
    fn far_apart(&mut self, observed: &mut [f64], z: &mut [f64]) -> usize {
        let (m, j) = (z.len(), self.random.below(z.len()));
        // A power of two, so small that its sum over all points is finite: every mean is exact.
        let far = self.random.sign() * self.width().top() / 16.0;
        for at in (j..observed.len()).step_by(m) {
            observed[at] = far;
        }
        z[j] = -self.width().largest() * far.signum();
        j
    }

    fn y(&mut self, average: Average, m: usize) -> Made<()> {
        let (mut observed, mut z) = (self.opened_correction(m)?, vec![0.0; m]);
        let j = self.far_apart(&mut observed, &mut z);
        let mut kinds = PLAIN;
        if self.random.chance(30) {
            kinds[j] = Kind::Turn(180.0);
        }
        self.close_correction(average, &z, &diagonal(m, 1.0), &kinds[..m], &observed)?;
        Ok(())
    }

    fn corrected_x(&mut self, average: Average, m: usize) -> Made<()> {
        let n = self.n();
        self.set_p(&diagonal(n, 1.0e20))?;
        let mut observed = self.opened_correction(m)?;
        let (i, j, drawn) = (self.random.below(n), self.random.below(m), self.filter().drawn_points);
        for k in 0..2 * n + 1 {
            observed[k * m + j] = drawn[k * n + i] * 1.0e-10;
        }
        let mut z = vec![0.0; m];
        z[j] = self.about(self.width().edges().remote);
        self.close_correction(average, &z, &diagonal(m, 0.01), &PLAIN[..m], &observed)?;
        Ok(())
    }

    fn corrected_p(&mut self, average: Average, m: usize) -> Made<()> {
        // z meets its mean, so that x stays.
        let mut z = vec![0.0; m];
        let (observed, r) = match average {
            Average::Weighted => self.nearly_no_noise(m, power(self.width().edges().spread), 1.0)?,
            Average::Flat => {
                self.far_points()?;
                let mut observed = self.opened_correction(m)?;
                let j = self.random.below(m);
                observed[m + j] = 1.0;
                z[j] = 1.0 / (2 * self.n() + 1) as f64;
                (observed, diagonal(m, 1.0))
            }
        };
        self.close_correction(average, &z, &r, &PLAIN[..m], &observed)?;
        Ok(())
    }
}

/// A d×d matrix with this on its diagonal.
fn diagonal(d: usize, number: f64) -> Vec<f64> {
    (0..d * d).map(|at| if at % (d + 1) == 0 { number } else { 0.0 }).collect()
}
