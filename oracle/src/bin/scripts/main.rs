//! scripts SEED CALLS: writes a script of that many calls, the same for the same seed.
//! It runs the calls as it writes them, so that it knows the filters and can aim: mostly at accepted closes, now and then at each refusal.

mod faults;
mod maker;
mod numbers;
mod overflows;
mod pairs;
mod records;
mod rounds;
mod searches;
mod stepping;
mod widths;

use std::process::ExitCode;

use maker::{End, Maker};

fn main() -> ExitCode {
    let words: Vec<String> = std::env::args().skip(1).collect();
    let numbers: Vec<u64> = words.iter().filter_map(|word| word.parse().ok()).collect();
    let [seed, calls] = numbers[..] else {
        eprintln!("usage: scripts SEED CALLS");
        return ExitCode::from(2);
    };
    let mut maker = Maker::new(seed, calls);
    let Err(end) = maker.script();
    match end {
        End::Enough => ExitCode::SUCCESS,
        End::Trouble(why) => {
            eprintln!("{why}");
            ExitCode::FAILURE
        }
    }
}
