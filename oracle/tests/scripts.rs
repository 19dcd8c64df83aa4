//! A generated script: the published Rust and the documents agree throughout, every refusal of every call is met, nobody notices another,
//! one point at a time comes to the same as whole lists, and a filter that was saved and read goes on as if it had not been.

use std::process::Command;

use oracle::coverage::{count, not_met, numbers};
use oracle::filter::{Filter, Open, Way};
use oracle::pair::Side;
use oracle::record::Record;
use oracle::script::{hex, Reader, SHEET};

/// The lines of a generated script.
fn script(seed: &str, calls: &str) -> Vec<Vec<u8>> {
    let made = Command::new(env!("CARGO_BIN_EXE_scripts")).args([seed, calls]).output().expect("scripts runs");
    assert!(made.status.success(), "{}", String::from_utf8_lossy(&made.stderr));
    made.stdout.split(|b| *b == b'\n').map(<[u8]>::to_vec).collect()
}

fn answer(reader: &mut Reader, line: &[u8]) -> Option<String> {
    reader.answer(line).expect("the published Rust and the documents agree")
}

#[test]
fn every_refusal_is_met() {
    let mut reader = Reader::default();
    let calls = script("1", "20000").iter().filter(|line| answer(&mut reader, line).is_some()).count();
    assert_eq!(calls, 20_000);
    assert_eq!(not_met(&reader.table, &reader.places), Vec::<String>::new());
    for (call, number, _) in reader.table.keys() {
        let expected = call == "bad" || numbers().any(|(c, numbers)| c == *call && numbers.contains(number));
        assert!(expected, "{call} gave {number}");
    }
}

/// The solo filter, the f32 filter and the pair answer as if each had a script of its own.
#[test]
fn nobody_notices_another() {
    let mut together = Reader::default();
    let mut apart = [Reader::default(), Reader::default(), Reader::default()];
    for line in script("2", "5000") {
        let whose = match line.split(|b| b.is_ascii_whitespace()).find(|word| !word.is_empty()) {
            Some(b"@w") => 0,
            Some(b"@1" | b"@2" | b"newpair") => 1,
            _ => 2,
        };
        assert_eq!(answer(&mut together, &line), answer(&mut apart[whose], &line), "{}", String::from_utf8_lossy(&line));
    }
}

/// A close by whole lists as the lines that do the same one point at a time: asks and images, then the close without its last list.
fn stepwise(n: usize, close: &[&str]) -> Vec<String> {
    let behind_list = |at: usize| at + 1 + close[at].parse::<usize>().expect("a length");
    let (image, d, at) = match close[0] {
        "closep" => ("imagep".to_string(), n, 1),
        name => {
            let mut at = behind_list(behind_list(2));
            for _ in 0..if name == "closec" { 4 } else { 0 } {
                at += if close[at] == "t" { 2 } else { 1 };
            }
            (format!("imagec {}", close[1]), close[1].parse().expect("an m"), at)
        }
    };
    let images = close[at + 1..].chunks(d).take(2 * n + 1);
    let steps = images.flat_map(|numbers| [format!("ask {n}"), format!("{image} {d} {}", numbers.join(" "))]);
    steps.chain([format!("s{}", close[..at].join(" "))]).collect()
}

/// Request A7: the calls of a solo filter that were opened by whole lists and accepted, played one point at a time. The closes give the same answers, and so does every later call.
#[test]
fn steps_come_to_whole_lists() {
    let (mut whole, mut stepped) = (Reader::default(), Reader::default());
    let (mut playing, mut closes) = (false, 0);
    for line in script("3", "40000").iter().filter(|line| !line.starts_with(b"@")) {
        let (text, n) = (String::from_utf8_lossy(line), whole.filter.n);
        let tokens: Vec<&str> = text.split_ascii_whitespace().collect();
        let shut = whole.filter.open.way().is_none();
        let said = answer(&mut whole, line);
        let played = match tokens.first() {
            Some(_) if shut && whole.filter.open.way() == Some(Way::Whole) => {
                playing = true;
                assert_eq!(answer(&mut stepped, format!("s{}", tokens[0]).as_bytes()).as_deref(), Some("0 0"));
                continue;
            }
            Some(_) if playing && whole.filter.open.way().is_some() => continue, // it stays open
            Some(&("closep" | "closec" | "closef")) if playing => {
                closes += 1;
                stepwise(n, &tokens).iter().map(|step| answer(&mut stepped, step.as_bytes())).last().flatten()
            }
            _ => answer(&mut stepped, line),
        };
        playing &= whole.filter.open.way().is_some();
        assert_eq!(played, said, "{text}");
    }
    // None was left out.
    let accepted: u64 = ["closep", "closec", "closef"].iter().map(|call| count(&whole.table, call, 0)).sum();
    assert!(closes == accepted && closes > 500, "{closes} closes of {accepted}");
}

/// What a filter is saved as, if it is.
fn saved(filter: &Filter<f64>) -> Option<Vec<u8>> {
    let mut buffer = vec![0xa0; 1200];
    filter.save(&mut buffer).ok()?;
    let record = Record::of(filter).bytes();
    assert!(buffer.starts_with(&record) && buffer[record.len()..].iter().all(|byte| *byte == 0xa0));
    Some(record)
}

/// Reads a record into a reader's solo filter, which is then saved as the same bytes.
fn load(reader: &mut Reader, record: &[u8]) {
    assert_eq!(answer(reader, format!("load {}", hex(record)).as_bytes()).as_deref(), Some("0 0"));
    let length = record.len();
    assert_eq!(answer(reader, format!("save {length}").as_bytes()), Some(format!("0 0 {length} {}", hex(record))));
}

/// How many times a filter can be saved before its copy is read back once: calls in between go on from what was read.
const BETWEEN: usize = 7;

/// Request A8: a solo filter and a copy, which is replaced now and then by what was read of the filter's record. The copy gives the same answers.
#[test]
fn read_back_is_the_same() {
    let (mut original, mut copy) = (Reader::default(), Reader::default());
    let (mut records, mut closes) = (0, 0);
    for line in script("4", "40000").iter().filter(|line| !line.starts_with(b"@")) {
        if let Some(record) = saved(&original.filter) {
            records += 1;
            if records % BETWEEN == 0 {
                load(&mut copy, &record);
            }
        }
        let (said, again) = (answer(&mut original, line), answer(&mut copy, line));
        // A dump shows the points and weights that aren't written; all else is told by answers.
        if original.filter.stale && line.ends_with(b"dump") {
            continue;
        }
        assert_eq!(again, said, "{}", String::from_utf8_lossy(line));
        closes += usize::from(said.is_some_and(|said| said.starts_with("0 0 x ")));
    }
    assert!(records > 3000 && closes > 500, "{records} records, {closes} closes");
}

/// Side 1 of a pair, and a filter with a sheet of its own that was read from its record: the same answers, but where the sheet has to wait for side 2.
/// Changes of the sheet that come through side 2 are made on the copy too.
#[test]
fn a_side_read_back_is_the_same() {
    let (mut pairs, mut copy) = (Reader::default(), Reader::default());
    let (mut records, mut closes) = (0, 0);
    for line in script("5", "60000") {
        let text = String::from_utf8_lossy(&line).to_string();
        let mut words = text.split_ascii_whitespace();
        let (first, second) = (words.next().unwrap_or(""), words.next().unwrap_or(""));
        let (one, partner) = (pairs.pair.side(Side::One), pairs.pair.side(Side::Two).open);
        if let Some(record) = saved(one) {
            records += 1;
            if copy.filter.n == 0 || records % BETWEEN == 0 {
                load(&mut copy, &record);
            }
        }
        let said = answer(&mut pairs, &line);
        let accepted = said.as_deref() == Some("0 0");
        let is_change = SHEET.contains(&second);
        let own = match first {
            "@1" => said.as_deref() != Some("bad") && !(is_change && partner != Open::Nothing),
            "@2" => is_change && accepted,
            _ => false,
        };
        if first == "newpair" {
            copy = Reader::default();
        }
        if !own || copy.filter.n == 0 {
            continue;
        }
        let again = answer(&mut copy, &text.trim_start().as_bytes()[2..]);
        if second == "dump" && pairs.pair.side(Side::One).stale {
            continue;
        }
        assert_eq!(again, said, "{text}");
        closes += usize::from(said.is_some_and(|said| said.starts_with("0 0 x ")));
    }
    assert!(records > 2000 && closes > 200, "{records} records, {closes} closes");
}
