//! The same prediction and correction again and again, with the published Rust over document 01's leaves and no check around it.
//! Reads how many rounds, a word of 16 hex digits, and writes the bits of x after them: for 8 states with 4 measurements, then for 3 with 2.
//! The Rattle program crates/paces does the same; both are timed from outside by oracle/pace.

use oracle::kinds::Kind;
use oracle::published::{self, Measurement};
use oracle::steps::{Average, Params};

/// Numbers from 0 to 15 in a fixed disorder.
fn numbers(step: u64) -> Vec<f64> {
    let mut v = 1;
    (0..136)
        .map(|_| {
            v = (v + step) % 16;
            v as f64
        })
        .collect()
}

/// n rows of n numbers, x on the diagonal.
fn diagonal(n: usize, x: f64) -> Vec<f64> {
    (0..n * n).map(|at| if at % (n + 1) == 0 { x } else { 0.0 }).collect()
}

fn run(n: usize, m: usize, rounds: u64) {
    let propagated = numbers(7);
    let observed = numbers(5);
    let count = n * (2 * n + 1);
    let seen = m * (2 * n + 1);
    let params = Params { alpha: 1.0, beta: 0.0, kappa: 1.0 };
    let mut filter = published::new(n, &propagated[..n], &diagonal(n, 4.0), &diagonal(n, 1.0), params);
    let r = diagonal(m, 12.0);
    let kinds = vec![Kind::Plain; m];
    for _ in 0..rounds {
        filter.predict(&propagated[..count]);
        filter.correct(Average::Weighted, &Measurement { m, z: &observed[..m], r: &r, kinds: &kinds, observed: &observed[..seen] });
    }
    for x in filter.x() {
        println!("{:016x}", x.to_bits());
    }
}

fn main() {
    let mut line = String::new();
    std::io::stdin().read_line(&mut line).expect("a line");
    let rounds = u64::from_str_radix(line.trim(), 16).expect("16 hex digits");
    run(8, 4, rounds);
    run(3, 2, rounds);
}
