//! Runs the published Rust on the smallest inputs that documents 01 and 02 refuse, on settings between a prediction and a correction,
//! and the published wrap beside the exact one.
//! Prints tables in plain text; docs/DIFFERENCES.md is written from them.

use oracle::angles::{wrap_180, wrap_pi};
use oracle::filter::{Filter, Trouble};
use oracle::kinds::{wrap, Kind};
use oracle::matrix::MatrixDataType;
use oracle::published::{Held, Measurement, Published};
use oracle::script::{bits, bits_of};
use oracle::steps::{Average, Params};

const C1: Params<f64> = Params { alpha: 1.0, beta: 0.0, kappa: 0.0 };
const INFINITE: f64 = f64::INFINITY;
const NAN: f64 = f64::NAN;

fn main() {
    println!("What documents 01 and 02 refuse, and what the published Rust (over our leaves) gives there.");
    println!("Unless it is said otherwise: C9's filter, n=1, x=2, P=4, Q=1, parameters 1, 0, 0, points propagated unchanged;");
    println!("then C10's correction, z=3, R=12, observed 2, 4, 0. Leaves: the factor stops at the first refused entry and");
    println!("leaves the rest as it stands; the published callers don't look at its answer.\n");
    sizes();
    stages();
    numbers();
    parameters();
    pivots();
    ranges();
    println!("\nThe flat close (request A1): C9's filter again, then z=6, R=10, observed 2, 5, -1.\n");
    flat();
    println!("\nSettings between a prediction and a correction (request A3): C9's filter, a setting, then z=3, R=12 with the state itself observed.\n");
    settings();
    println!("\nThe published wrap beside document 01's exact one; bits of both.\n");
    wraps();
}

fn row(number: &str, input: &str, given: String) {
    println!("{number:>4}  {input:<62}  {given}");
}

fn x_and_p(held: &dyn Published<f64>) -> String {
    format!("x={:?} P={:?}", held.x(), held.p())
}

fn c9() -> Held<f64, 1, 3> {
    one(2.0, 4.0, C1)
}

fn one(x: f64, p: f64, par: Params<f64>) -> Held<f64, 1, 3> {
    Held::new(&[x], &[p], &[1.0], par)
}

/// After a prediction with the points as they were drawn.
fn unmoved<const N: usize, const COUNT: usize>(mut held: Held<f64, N, COUNT>) -> Held<f64, N, COUNT> {
    held.predict_by(|_| {});
    held
}

/// A correction of one state by one plain measurement.
fn correct(held: &mut Held<f64, 1, 3>, average: Average, z: f64, r: f64, observed: [f64; 3]) -> String {
    held.correct(average, &Measurement { m: 1, z: &[z], r: &[r], kinds: &[Kind::Plain], observed: &observed });
    x_and_p(held)
}

/// C9, then a weighted correction with these.
fn corrected(z: f64, r: f64, observed: [f64; 3]) -> String {
    correct(&mut unmoved(c9()), Average::Weighted, z, r, observed)
}

fn sizes() {
    row("", "nothing refused: C9", x_and_p(&unmoved(c9())));
    row("", "nothing refused: C10", corrected(3.0, 12.0, [2.0, 4.0, 0.0]));
    row("1", "n = 0 (no numbers at all)", x_and_p(&unmoved(Held::<f64, 0, 1>::new(&[], &[], &[], C1))));
    let identity: Vec<f64> = (0..81).map(|at| if at % 10 == 0 { 1.0 } else { 0.0 }).collect();
    let nine = unmoved(Held::<f64, 9, 19>::new(&[0.0; 9], &identity, &[0.0; 81], C1));
    row("1", "n = 9, x = 0, P = 1 on the diagonal, Q = 0", format!("runs; P[0][0]={:?}", nine.p()[0]));
    let mut held = unmoved(c9());
    held.correct_of::<0>(Average::Weighted, &Measurement { m: 0, z: &[], r: &[], kinds: &[], observed: &[] });
    row("1", "m = 0", x_and_p(&held));
    let mut held = unmoved(c9());
    let five: Vec<f64> = (0..25).map(|at| if at % 6 == 0 { 12.0 } else { 0.0 }).collect();
    let measurement = Measurement { m: 5, z: &[3.0; 5], r: &five, kinds: &[Kind::Plain; 5], observed: &[0.0; 15] };
    held.correct_of::<5>(Average::Weighted, &measurement);
    row("1", "m = 5, z = 3, R = 12 on the diagonal, zeros observed", format!("runs; {}", x_and_p(&held)));
    let odd = unmoved(Held::<f64, 1, 5>::new(&[2.0], &[4.0], &[1.0], C1));
    row("1", "five points for one state (the type takes any count)", format!("{}, points {:?}", x_and_p(&odd), odd.points()));
    row("2", "a short slice", "sizes are types: none can be short".into());
}

fn stages() {
    row("3", "a setter, an open or a close at the wrong time", "closures: there is nothing to open".into());
    row("3", "a pair's sheet changed while either side has a call open", "no pairs: filters share nothing".into());
    row("11", "a filter saved while its points are in use", "no records: nothing is written".into());
    row("12", "bytes that are no record", "no records: nothing is read".into());
    row("4", "points read before any prediction", format!("points {:?}", c9().points()));
    let mut held = unmoved(c9());
    correct(&mut held, Average::Weighted, 3.0, 12.0, [2.0, 4.0, 0.0]);
    row("4", "points read after C10 (x is 2.25 by then)", format!("points {:?}", held.points()));
}

fn numbers() {
    row("51", "x = NaN", x_and_p(&unmoved(one(NAN, 4.0, C1))));
    row("52", "P = NaN (no pivot: the points are x -+ NaN)", x_and_p(&unmoved(one(2.0, NAN, C1))));
    row("52", "P = infinity (the factor is left as it stands)", x_and_p(&unmoved(one(2.0, INFINITE, C1))));
    row("53", "Q = NaN", x_and_p(&unmoved(Held::<f64, 1, 3>::new(&[2.0], &[4.0], &[NAN], C1))));
    row("56", "kappa = NaN", x_and_p(&unmoved(one(2.0, 4.0, Params { kappa: NAN, ..C1 }))));
    row("55", "z = NaN: P as if all were well", corrected(NAN, 12.0, [2.0, 4.0, 0.0]));
    row("55", "z = infinity: P as if all were well", corrected(INFINITE, 12.0, [2.0, 4.0, 0.0]));
    row("53", "R = infinity: x and P left as they were, silently", corrected(3.0, INFINITE, [2.0, 4.0, 0.0]));
    row("53", "R = NaN", corrected(3.0, NAN, [2.0, 4.0, 0.0]));
    row("54", "one observed number infinite", corrected(3.0, 12.0, [2.0, INFINITE, 0.0]));
    row("56", "root of -1", format!("{:?}", MatrixDataType::square_root(-1.0_f64)));
    row("56", "root of infinity", format!("{:?}", MatrixDataType::square_root(INFINITE)));
}

fn parameters() {
    row("6", "kappa = -1: N = 0 (C4)", x_and_p(&unmoved(one(2.0, 4.0, Params { kappa: -1.0, ..C1 }))));
    row("6", "kappa = -2: N = -1", x_and_p(&unmoved(one(2.0, 4.0, Params { kappa: -2.0, ..C1 }))));
    row("6", "alpha = 0: N = 0", x_and_p(&unmoved(one(2.0, 4.0, Params { alpha: 0.0, ..C1 }))));
    row("6", "alpha = 1e200: N = infinity", x_and_p(&unmoved(one(2.0, 4.0, Params { alpha: 1.0e200, ..C1 }))));
    row("6", "a half-turn h = 0 or below", "no half-turns: the hook may do anything".into());
}

fn pivots() {
    row("7", "P = 0: predicts; all points are x", x_and_p(&unmoved(one(2.0, 0.0, C1))));
    row("7", "P = -4: predicts with -4 as the factor, P becomes 16 + Q", x_and_p(&unmoved(one(2.0, -4.0, C1))));
    let c8 = unmoved(Held::<f64, 2, 5>::new(&[0.0; 2], &[1.0, 2.0, 2.0, 1.0], &[0.0; 4], C1));
    row("7", "C8: P = (1,2),(2,1), x = 0, Q = 0: half a factor is used", x_and_p(&c8));
    row("8", "S = 0: R = 0, observed 2, 2, 2", corrected(3.0, 0.0, [2.0, 2.0, 2.0]));
    row("8", "S = -4: R = -8, observed 2, 4, 0: used as if S were 16", corrected(3.0, -8.0, [2.0, 4.0, 0.0]));
}

fn ranges() {
    let mut held = c9();
    held.predict(&[0.0, 1.0e200, -1.0e200]);
    row("9", "propagated 0, 1e200, -1e200: P overflows", x_and_p(&held));
    row("9", "  and after C10's correction", correct(&mut held, Average::Weighted, 3.0, 12.0, [2.0, 4.0, 0.0]));
    held.predict_by(|_| {});
    row("9", "  and after one more prediction", x_and_p(&held));
    let mut held = c9();
    held.predict(&[1.5e308, -1.5e308, 0.0]);
    row("9", "propagated 1.5e308, -1.5e308, 0: the mean overflows", x_and_p(&held));
    row("9", "observed 0, 1e200, -1e200: S overflows; x and P left, silently", corrected(3.0, 12.0, [0.0, 1.0e200, -1.0e200]));
    row("9", "S = 1e-310 (R), observed 2, 2, 2: the inverse overflows", corrected(3.0, 1.0e-310, [2.0, 2.0, 2.0]));
    row("9", "z = 1.5e308, observed -1.5e308 thrice: y overflows", corrected(1.5e308, 12.0, [-1.5e308; 3]));
}

/// What request A1 refuses: a turn above all, and the steps' own numbers.
fn flat() {
    let corrected = |z: f64, r: f64, observed: [f64; 3]| correct(&mut unmoved(c9()), Average::Flat, z, r, observed);
    row("", "nothing refused", corrected(6.0, 10.0, [2.0, 5.0, -1.0]));
    // C12's heading and points, the heading itself observed and met: a correction that has nothing to correct.
    let heading = [179.0, -171.0, 169.0];
    let turned = || {
        let mut held = c9();
        held.set_kinds(&[Kind::Turn(180.0)]);
        held.predict(&heading);
        held
    };
    row("10", "C12's turn of 180, not corrected yet", x_and_p(&turned()));
    row("10", "  the heading observed, z = 179, R = 12: averaged as if plain", correct(&mut turned(), Average::Flat, 179.0, 12.0, heading));
    let mut held = turned();
    held.correct(Average::Weighted, &Measurement { m: 1, z: &[179.0], r: &[12.0], kinds: &[Kind::Turn(180.0)], observed: &heading });
    row("", "  the weighted close, measured by a turn of 180 too", x_and_p(&held));
    row("8", "S = 0: R = 0, observed 2, 2, 2", corrected(6.0, 0.0, [2.0, 2.0, 2.0]));
    row("8", "S = -4: R = -10: used as if S were 16", corrected(6.0, -10.0, [2.0, 5.0, -1.0]));
    row("9", "observed 1e308 thrice: the sum for z mean overflows", corrected(6.0, 10.0, [1.0e308; 3]));
    row("9", "observed 0, 1e200, -1e200: S overflows; x and P left, silently", corrected(6.0, 10.0, [0.0, 1.0e200, -1.0e200]));
    let mut held = c9();
    held.predict(&[1.0e308; 3]);
    row("9", "propagated 1e308 thrice: the sum for x mean overflows", correct(&mut held, Average::Flat, 6.0, 10.0, [2.0, 5.0, -1.0]));
}

/// What request A3 changes: the published Rust goes on with the old points and weights, the documents draw afresh.
fn settings() {
    let par = Params { alpha: 2.0, ..C1 };
    setting("nothing set: C10", |_| {}, |_| Ok(()));
    setting("alpha = 2", |rust| rust.set_params(par), |filter| filter.set_params(par));
    setting("alpha = 1 again", |rust| rust.set_params(C1), |filter| filter.set_params(C1));
    setting("x = 10", |rust| rust.set_x(&[10.0]), |filter| filter.set_x(&[10.0]));
    setting("P = -4", |rust| rust.set_p(&[-4.0]), |filter| filter.set_p(&[-4.0]));
    setting("P = 9", |rust| rust.set_p(&[9.0]), |filter| filter.set_p(&[9.0]));
    setting("a turn of 1.5", |rust| rust.set_kinds(&[Kind::Turn(1.5)]), |filter| filter.set_kind(0, Kind::Turn(1.5)));
    setting("Q = 9", |rust| rust.set_q(&[9.0]), |filter| filter.set_q(&[9.0]));
}

fn setting(name: &str, rust: impl FnOnce(&mut Held<f64, 1, 3>), ours: impl FnOnce(&mut Filter<f64>) -> Result<(), Trouble>) {
    let mut held = unmoved(c9());
    rust(&mut held);
    let points = held.points();
    let given = correct(&mut held, Average::Weighted, 3.0, 12.0, [points[0], points[1], points[2]]);
    let taken = || -> Result<String, Trouble> {
        let (mut filter, mut points) = (Filter::new(1, &[2.0], &[4.0], &[1.0], C1)?, [0.0; 3]);
        filter.open_prediction(&mut points)?;
        filter.close_prediction(&points)?;
        ours(&mut filter)?;
        filter.open_correction(&mut points)?;
        filter.close_correction(1, &[3.0], &[12.0], [Kind::Plain; 4], &points)?;
        Ok(format!("x={:?} P={:?}, points {points:?}", filter.x, filter.p))
    };
    row("", name, format!("published {given}, points {points:?}"));
    let told = taken().unwrap_or_else(|trouble| match trouble {
        Trouble::Refused(refusal) => format!("refused by {} at {} ({})", refusal.number(), refusal.place(), refusal.step()),
        Trouble::Parted(why) => panic!("{why}"),
    });
    row("", "", format!("documents {told}"));
}

fn wraps() {
    println!("{:>20} {:>4}  {:<16}  {:<16}  exact / published", "d", "h", "exact", "published");
    // C6's; small ones; a number and its negative; whole turns; one bit above a half-turn; so large that adding a half-turn is lost.
    for d in [350.0, 190.0, 180.0, -180.0, 540.0, -350.0] {
        wrap_row(d, 180.0, "180", wrap_180(d));
    }
    for d in [0.1, -0.1, -0.0, 1.0e-300, 52.2, -52.2, 360.0, -360.0, 359.9, 180.0_f64.next_up(), 1.0e17, -1.0e17, 1.0e300, INFINITE, NAN] {
        wrap_row(d, 180.0, "180", wrap_180(d));
    }
    let pi = std::f64::consts::PI;
    for d in [1.5 * pi, pi, -pi, 2.0 * pi, 0.1, -0.1, -0.0, 1.0e-300, 1.0e17] {
        wrap_row(d, pi, "pi", wrap_pi(d));
    }
    println!("\nThe smallest prediction that shows it: C9's filter with a turn of 180, propagated 0, 0.1, -0.1.\n");
    let mut exact = c9();
    exact.set_kinds(&[Kind::Turn(180.0)]);
    exact.predict(&[0.0, 0.1, -0.1]);
    let mut published = c9();
    published.set_hook(|dx| dx[0] = wrap_180(dx[0]));
    published.predict(&[0.0, 0.1, -0.1]);
    for (name, held) in [("exact", &exact), ("published", &published)] {
        println!("{name:>10}  x{} P{}  {}", bits(&held.x()), bits(&held.p()), x_and_p(held));
    }
}

fn wrap_row(d: f64, h: f64, name: &str, published: f64) {
    let exact = wrap(d, h);
    let same = if bits_of(exact) == bits_of(published) { "" } else { "  differs" };
    println!("{d:>20?} {name:>4} {} {}  {exact:?} / {published:?}{same}", bits(&[exact]), bits(&[published]));
}
