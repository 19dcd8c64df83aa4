//! The proved f32 root, linked in by oracle/roots32, beside the machine's own on every bit pattern.
//! Prints how many patterns have a root and how many are refused, how many answers are wrong with the first of them, and the time.
//! The status is 0 where none is.

use std::process::exit;
use std::thread;
use std::time::Instant;

extern "C" {
    fn root_now(x: f32) -> f32;
}

/// What a stretch of patterns came to.
#[derive(Default)]
struct Count {
    roots: u64,
    refused: u64,
    wrong: u64,
    first: Option<u32>,
}

/// What document 01 asks: a zero is its own root; a NaN, an infinity and what is below zero are refused.
fn asked(x: f32) -> Option<f32> {
    let has_a_root = x == 0.0 || (x > 0.0 && x.is_finite());
    // The machine's root of -0 is -0.
    has_a_root.then(|| x.sqrt())
}

fn counted(from: u64, to: u64) -> Count {
    let mut count = Count::default();
    for bits in from..to {
        let x = f32::from_bits(bits as u32);
        let given = unsafe { root_now(x) };
        let right = match asked(x) {
            Some(root) => {
                count.roots += 1;
                given.to_bits() == root.to_bits()
            }
            None => {
                count.refused += 1;
                given == -1.0
            }
        };
        if !right {
            count.wrong += 1;
            count.first = count.first.or(Some(bits as u32));
        }
    }
    count
}

fn main() {
    let start = Instant::now();
    let all = 1u64 << 32;
    let threads = thread::available_parallelism().map_or(1, |n| n.get() as u64);
    // Stretches that are all of one length, handed out in turn: most of the work is above zero, in the first half.
    let stretches = 256u64;
    let workers: Vec<_> = (0..threads)
        .map(|t| thread::spawn(move || (t..stretches).step_by(threads as usize).map(|k| counted(all / stretches * k, all / stretches * (k + 1))).collect::<Vec<_>>()))
        .collect();
    let mut total = Count::default();
    for worker in workers {
        for count in worker.join().expect("a stretch was not counted") {
            total.roots += count.roots;
            total.refused += count.refused;
            total.wrong += count.wrong;
            total.first = total.first.or(count.first);
        }
    }
    println!("patterns: {}, with a root: {}, refused: {}, wrong: {}", total.roots + total.refused, total.roots, total.refused, total.wrong);
    if let Some(bits) = total.first {
        println!("a wrong one: {bits:08x}");
    }
    println!("{:.0} s on {} threads", start.elapsed().as_secs_f64(), threads);
    exit(i32::from(total.wrong > 0 || total.roots + total.refused != all));
}
