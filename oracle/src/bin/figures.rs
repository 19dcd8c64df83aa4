//! figures FOLDER: runs each NAME.script of the folder, compares with NAME.theirs where that stands beside it, and prints
//! what was met and how many answers differ.

use std::fs;
use std::path::{Path, PathBuf};
use std::process::ExitCode;

use oracle::coverage::{
    beside_partner, count, count_with, faulty_changes, has, in_stage, not_met, numbers, refused_with, searches, searching, sheet_changes,
    staged, stages, unsaved, waiting, with_kinds, with_rest, ALONE, CORRECTIONS, EVERYONE, ORDER, PIVOTS, PREDICTIONS, RECORDED, STEPS,
};
use oracle::float::Float;
use oracle::pair::Side;
use oracle::places::{self, AFTER_PARAM, AFTER_PLAIN, PARAMS, SECOND, SEVERAL, SPOTS};
use oracle::script::{named, On, Reader, Table, BAD, IN_USE, SETTERS, SHEET, STALE};
use oracle::stages::OPENS;

const NAMES: [(u8, &str); 18] = [
    (0, "accepted"),
    (1, "SIZE"),
    (2, "SHORT"),
    (3, "STAGE"),
    (12, "RECORD"),
    (4, "STALE"),
    (11, "FRESH"),
    (51, "NUMBER state"),
    (52, "NUMBER covariance"),
    (53, "NUMBER noise"),
    (54, "NUMBER points"),
    (55, "NUMBER measurement"),
    (56, "NUMBER lone value"),
    (10, "KIND"),
    (6, "PARAM"),
    (7, "PIVOT"),
    (8, "INNOV"),
    (9, "RANGE"),
];

/// How many differing answers are shown.
const SHOWN: u64 = 5;

#[derive(Default)]
struct Figures {
    table: Table,
    places: Table,
    calls: u64,
    compared: u64,
    numbers: u64,
    /// Of saved records.
    bytes: u64,
    differences: u64,
}

fn main() -> ExitCode {
    let Some(folder) = std::env::args().nth(1) else {
        eprintln!("usage: figures FOLDER");
        return ExitCode::from(2);
    };
    let mut figures = Figures::default();
    match figures.run(Path::new(&folder)) {
        Ok(()) => figures.print(),
        Err(why) => {
            eprintln!("{why}");
            return ExitCode::FAILURE;
        }
    }
    if figures.differences == 0 {
        ExitCode::SUCCESS
    } else {
        ExitCode::FAILURE
    }
}

impl Figures {
    fn run(&mut self, folder: &Path) -> Result<(), String> {
        let mut scripts: Vec<PathBuf> = fs::read_dir(folder)
            .map_err(|error| format!("{}: {error}", folder.display()))?
            .filter_map(|entry| entry.ok().map(|entry| entry.path()))
            .filter(|path| path.extension().is_some_and(|extension| extension == "script"))
            .collect();
        scripts.sort();
        for path in scripts {
            let script = fs::read(&path).map_err(|error| format!("{}: {error}", path.display()))?;
            let theirs = fs::read(path.with_extension("theirs")).ok();
            self.script(&path, &script, theirs.as_deref())?;
        }
        Ok(())
    }

    fn script(&mut self, path: &Path, script: &[u8], theirs: Option<&[u8]>) -> Result<(), String> {
        let mut reader = Reader::default();
        let mut theirs = theirs.map(|text| text.strip_suffix(b"\n").unwrap_or(text).split(|b| *b == b'\n'));
        for (at, line) in script.strip_suffix(b"\n").unwrap_or(script).split(|b| *b == b'\n').enumerate() {
            let place = || format!("{}, line {}", path.display(), at + 1);
            let Some(answer) = reader.answer(line).map_err(|why| format!("{}: {why}", place()))? else {
                continue;
            };
            self.calls += 1;
            let Some(theirs) = theirs.as_mut() else {
                continue;
            };
            self.compared += 1;
            match is_save(line).then(|| answer.split(' ').nth(2)).flatten() {
                Some(length) => self.bytes += length.parse::<u64>().unwrap_or(0),
                None => self.numbers += answer.split(' ').filter(|token| [f32::HEX, f64::HEX].contains(&token.len())).count() as u64,
            }
            let other = theirs.next().unwrap_or(b"(no answer)");
            if other != answer.as_bytes() {
                self.differ(&place(), &String::from_utf8_lossy(line), &answer, &String::from_utf8_lossy(other));
            }
        }
        if let Some(more) = theirs.map(Iterator::count).filter(|more| *more > 0) {
            self.differ(&path.display().to_string(), "", "(no more calls)", &format!("{more} more answers"));
        }
        for (sum, met) in [(&mut self.table, reader.table), (&mut self.places, reader.places)] {
            for (key, count) in met {
                *sum.entry(key).or_default() += count;
            }
        }
        Ok(())
    }

    fn differ(&mut self, place: &str, call: &str, ours: &str, other: &str) {
        self.differences += 1;
        if self.differences <= SHOWN {
            let short = |text: &str| text.chars().take(400).collect::<String>();
            println!("{place}: {}\n   oracle: {}\n   theirs: {}", short(call), short(ours), short(other));
        }
    }

    fn print(&self) {
        let total = |number: u8| numbers().map(|(call, _)| count(&self.table, &call, number)).sum::<u64>();
        println!("calls                   {:>10}", self.calls);
        for (number, name) in NAMES {
            println!("  {number:<2} {name:<18} {:>10}", total(number));
        }
        println!("  no call (bad)         {:>10}", count(&self.table, "bad", BAD));
        println!("answers compared        {:>10}", self.compared);
        println!("numbers compared        {:>10}", self.numbers);
        println!("lent bytes compared     {:>10}", self.bytes);
        println!("differences             {:>10}", self.differences);

        println!("\n{:<13}{}", "call", NAMES.map(|(number, _)| format!("{number:>7}")).concat());
        for (call, numbers) in numbers() {
            let cell = |number: u8| if numbers.contains(&number) { count(&self.table, &call, number).to_string() } else { ".".into() };
            println!("{call:<13}{}", NAMES.map(|(number, _)| format!("{:>7}", cell(number))).concat());
        }
        self.print_places();
        println!("\n{:<31}{:>7}{:>7}", "where calls stopped", "f64", "@w");
        for (call, steps) in STEPS {
            for (number, step) in steps {
                let cell = |on| match has(on, call) {
                    true => count_with(&self.table, &named(on, call), *number, step).to_string(),
                    false => ".".into(),
                };
                println!("{call:<10}{number}  {step:<18}{}", ALONE.map(|on| format!("{:>7}", cell(on))).concat());
            }
        }
        println!("\nsettings   accepted: {STALE:>7}{IN_USE:>9}    refused but by 3: {STALE:>7}{IN_USE:>9}");
        for call in ALONE.iter().flat_map(|on| SETTERS.map(|call| named(*on, call))) {
            let accepted = |points| count_with(&self.table, &call, 0, points);
            let refused = |points| refused_with(&self.table, &call, points);
            println!("{call:<20} {:>7}{:>9} {:>28}{:>9}", accepted(STALE), accepted(IN_USE), refused(STALE), refused(IN_USE));
        }
        self.print_stages();
        println!("\naccepted on a side, its partner with {}", OPENS.map(|open| format!("{:>25}", open.name())).concat());
        for (call, counts) in beside_partner(&self.table) {
            println!("{call:<36} {}", counts.map(|count| format!("{count:>25}")).concat());
        }
        println!("\nsheet changes through a side                 {}", SHEET.map(|call| format!("{call:>9}")).concat());
        for side in Side::BOTH {
            let columns = SHEET.map(|call| sheet_changes(&self.table, call, side));
            for (at, (met, _)) in columns[0].iter().enumerate() {
                let counts: String = columns.iter().map(|column| format!("{:>9}", column[at].1)).collect();
                println!("{} {met:<42}{counts}", side.name());
            }
        }
        for call in SHEET {
            let counts = faulty_changes(&self.table, call).into_iter().map(|(met, count)| format!("   {met}: {count}"));
            println!("@{call:<8}{}", counts.collect::<String>());
        }
        self.print_sizes();
        self.print_records();
        let holes = not_met(&self.table, &self.places);
        println!("\nnot met           {}", if holes.is_empty() { "nothing".to_string() } else { holes.join("; ") });
    }

    /// How often each call was met in each stage, accepted or refused by 3; settings are left out here. Then what had to wait in stepped calls.
    fn print_stages(&self) {
        for on in ALONE {
            let calls: Vec<&str> = staged(on).filter(|call| !SETTERS.contains(call)).collect();
            let line = |name: &str, cells: Vec<String>| {
                println!("{name:<49}{}", cells.iter().map(|cell| format!("{cell:>8}")).collect::<String>());
            };
            println!();
            line(&named(on, "in each stage"), calls.iter().map(|call| call.to_string()).collect());
            for stage in stages(on) {
                let cell = |call: &&str| in_stage(&self.table, on, call, stage).map_or(".".into(), |count| count.to_string());
                line(&stage.name(), calls.iter().map(cell).collect());
            }
        }
        println!();
        for (call, order) in ORDER {
            for number in order.iter().filter(|number| **number < 4) {
                let cell = |word: &String| format!("   {word}: {}", count_with(&self.places, call, *number, word));
                println!("{call:<8} {number}{}", waiting(call, *number).iter().map(cell).collect::<String>());
            }
        }
    }

    fn print_sizes(&self) {
        println!("\naccepted closes              {}", (1..=8).map(|n| format!("{:>7}", format!("n={n}"))).collect::<String>());
        let line = |on: On, name: &str, call: &str, m: &str| {
            let cell = |n: usize| count_with(&self.table, &named(on, call), 0, &format!("n={n}{m}"));
            println!("{:<29}{}", named(on, name), (1..=8).map(|n| format!("{:>7}", cell(n))).collect::<String>())
        };
        for on in ALONE {
            for (call, name) in PREDICTIONS.iter().filter(|(call, _)| has(on, call)) {
                line(on, name, call, "");
            }
            for (call, name) in CORRECTIONS.iter().filter(|(call, _)| has(on, call)) {
                for m in 1..=4 {
                    line(on, &format!("{name}, m={m}"), call, &format!(" m={m}"));
                }
            }
        }
    }

    /// Of records (A8): what was saved and what was read, of which sizes, what was wrong with it and what had to wait.
    fn print_records(&self) {
        let line = |name: String, cells: Vec<String>| println!("{name:<8}{}", cells.concat());
        let cell = |call: &str, number: u8, word: &str| format!("   {word}: {}", count_with(&self.places, call, number, word));
        println!();
        let size = |n: usize| format!("   n={n}: {}", count_with(&self.table, "load", 0, &format!("n={n}")));
        line("load 0".into(), (1..=8).map(size).collect());
        for (on, (call, number, ..)) in
            EVERYONE.iter().flat_map(|on| RECORDED.map(|row| (*on, row))).filter(|(on, (call, ..))| has(*on, call))
        {
            let name = named(on, call);
            line(format!("{name} {number}"), waiting(call, number).iter().map(|word| cell(&name, number, word)).collect());
        }
        line("load 56".into(), [AFTER_PARAM, PARAMS].map(|word| cell("load", 56, word)).to_vec());
        for stage in unsaved() {
            println!("@save 3   {:<48}{:>8}", stage.name(), count_with(&self.places, "@save", 3, &stage.name()));
        }
    }

    /// What request A5's places were told among: the first bad number's place, what else was bad, and bad numbers past what an accepted call needs.
    fn print_places(&self) {
        let mut words: Vec<String> = SPOTS.iter().chain(&[SEVERAL, SECOND]).map(|word| word.to_string()).collect();
        words.extend((51..=56).chain([10, 6]).map(places::before));
        let line = |name: &str, cells: Vec<String>| {
            println!("{name:<26}{}", cells.iter().map(|cell| format!("{cell:>10}")).collect::<String>());
        };
        println!();
        line("where the bad number stood", [words.clone(), vec!["past it".into()]].concat());
        for (name, call, numbers) in
            EVERYONE.into_iter().flat_map(|on| searching(on).map(move |(call, numbers)| (named(on, call), call, numbers)))
        {
            for number in (51..=56).filter(|number| numbers.contains(number)) {
                let can = searches(call, number);
                let cell = |can: bool, number: u8, word: &str| match can {
                    true => count_with(&self.places, &name, number, word).to_string(),
                    false => ".".into(),
                };
                let mut cells: Vec<String> = words.iter().map(|word| cell(can.contains(word), number, word)).collect();
                cells.push(cell(with_rest(call, number), 0, &places::past(number)));
                line(&format!("{name:<10} {number}"), cells);
            }
        }
        let closes = ALONE.iter().flat_map(|on| CORRECTIONS.map(|(call, _)| (*on, call)));
        for name in closes.filter(|(on, call)| has(*on, call) && with_kinds(call)).map(|(on, call)| named(on, call)) {
            for word in [AFTER_PLAIN, AFTER_PARAM] {
                println!("{name:<10} 56 {word}: {}", count_with(&self.places, &name, 56, word));
            }
        }
        println!("\npivots by row");
        for (on, (call, number, rows)) in
            ALONE.iter().flat_map(|on| PIVOTS.map(|pivots| (*on, pivots))).filter(|(on, (call, ..))| has(*on, call))
        {
            let name = named(on, call);
            let counts = (0..rows).map(|row| format!("{:>7}", count_with(&self.places, &name, number, &places::row(row))));
            println!("{name:<10} {number}{}", counts.collect::<String>());
        }
    }
}

/// Whether the answer to this line, if it isn't `bad`, has lent bytes in it.
fn is_save(line: &[u8]) -> bool {
    let mut words = line.split(|b| b.is_ascii_whitespace()).filter(|word| !word.is_empty() && !word.starts_with(b"@"));
    words.next() == Some(b"save")
}
