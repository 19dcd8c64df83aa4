//! Document 01's cases, the flat close, settings, pairs, places, the f32 filter, one point at a time and records of document 02's A1 and A3 to A8 and the examples of docs/SCRIPT.md, held to answers written by hand.

use oracle::script::Reader;

fn answers(script: &str) -> Vec<String> {
    let mut reader = Reader::default();
    script.lines().filter_map(|line| reader.answer(line.as_bytes()).expect("the published Rust and the documents agree")).collect()
}

#[test]
fn cases_of_the_documents() {
    let expected: Vec<&str> = include_str!("../cases.expected").lines().collect();
    assert_eq!(answers(include_str!("../cases.script")), expected);
}

#[test]
fn example_of_the_script() {
    let script = "
        new 1 1 4000000000000000 1 4010000000000000 1 3ff0000000000000 3ff0000000000000 0000000000000000 0000000000000000
        openp 3
        closep 3 4000000000000000 4010000000000000 0000000000000000
        openc 3
        closec 1 1 4008000000000000 1 4028000000000000 p p p p 3 4000000000000000 4010000000000000 0000000000000000";
    let expected = [
        "0 0",
        "0 0 3 4000000000000000 4010000000000000 0000000000000000",
        "0 0 x 4000000000000000 P 4014000000000000",
        "0 0 3 4000000000000000 4010000000000000 0000000000000000",
        "0 0 x 4002000000000000 P 4010000000000000",
    ];
    assert_eq!(answers(script), expected);
}

#[test]
fn stepped_example_of_the_script() {
    let script = "
        new 1 1 4000000000000000 1 4010000000000000 1 3ff0000000000000 3ff0000000000000 0000000000000000 0000000000000000
        sopenp
        ask 1
        imagep 1 4000000000000000
        ask 1
        imagep 1 4010000000000000
        ask 1
        imagep 1 0000000000000000
        sclosep";
    let expected = [
        "0 0",
        "0 0",
        "0 0 1 4000000000000000",
        "0 0",
        "0 0 1 4010000000000000",
        "0 0",
        "0 0 1 0000000000000000",
        "0 0",
        "0 0 x 4000000000000000 P 4014000000000000",
    ];
    assert_eq!(answers(script), expected);
}

/// What is a line of a stepped call.
#[test]
fn stepped_lines() {
    let last = |line: &str| answers(line).pop();
    for line in ["imagep 0", "imagec 18446744073709551615 0", "sclosep # now", "sclosec 9 0 0 p p t 7FF0000000000001 p", "sclosef 9 0 0"] {
        assert_eq!(last(line), Some("3 0".into()), "{line}");
        assert_eq!(last(&format!("@2 {line}")), Some("3 0".into()), "@2 {line}");
        assert_eq!(last(&format!("@w {line}")), Some("bad".into()), "@w {line}");
    }
    assert_eq!(last("ask 2"), Some("3 0 2 4330000000000000 4330000000000001".into()));
    assert_eq!(last("ask 512").map(|answer| answer.len()), Some("3 0 512".len() + 512 * 17));
    assert_eq!(last("@1 sopenc"), Some("1 0".into()));
    for line in [
        "sopenp 3",
        "@1 sopenc 0",
        "ask",
        "ask 513",
        "ask 1 1",
        "imagep",
        "imagep 1 1 3ff0000000000000",
        "imagec 0",
        "imagec 1 1",
        "sclosep 0",
        "sclosec 1 0 0",
        "sclosec 1 0 0 p p p",
        "sclosec 1 0 0 p p p p 0",
        "sclosef 1 0 0 0",
        "sclosef 1 0",
        "sopen",
        "Ask 1",
        "@w sopenp",
        "@w sopenc",
        "@w ask 1",
        "@w imagep 1 3f800000",
        "@w imagec 1 1 3f800000",
        "@w sclosec 1 1 3f800000 1 3f800000 p p p p",
        "@w sclosef 1 1 3f800000 1 3f800000",
    ] {
        assert_eq!(last(line), Some("bad".into()), "{line}");
    }
}

/// What is a line of a record.
#[test]
fn record_lines() {
    let last = |line: &str| answers(line).pop();
    assert_eq!(last("save 2 # on the empty filter"), Some("1 0 2 a0a1".into()));
    assert_eq!(last("@2\tsave 0"), Some("1 0 0 -".into()));
    assert_eq!(last("save 4096").map(|answer| answer.len()), Some("1 0 4096 ".len() + 2 * 4096));
    assert!(last("save 98").is_some_and(|answer| answer.ends_with("fdfeff0001")));
    assert_eq!(last("load -"), Some("2 0".into()));
    assert_eq!(last("load 0000Ff"), Some("1 0".into()));
    assert_eq!(last(&format!("load {}", "57".repeat(4096))), Some("1 0".into()));
    assert_eq!(last(&format!("load {}", "57".repeat(4097))), Some("bad".into()));
    for line in [
        "save",
        "save -",
        "save 4097",
        "save 60 60",
        "Save 60",
        "load",
        "load 5",
        "load 57500",
        "load 5g",
        "load 0x57",
        "load 57 50 01",
        "load --",
        "load - -",
        "@1 load -",
        "@2 load 575001",
        "@1 save",
        "@w save 60",
        "@w load -",
        "@w load 575001",
    ] {
        assert_eq!(last(line), Some("bad".into()), "{line}");
    }
}

/// What is a line, a token, a number.
#[test]
fn lines() {
    let long = |length: usize| format!("root 4010000000000000{}", " ".repeat(length - 21));
    let last = |line: &str| answers(line).pop();
    let four = Some("0 0 4000000000000000".to_string());
    let bad = Some("bad".to_string());
    assert_eq!(last(&long(16_384)), four);
    assert_eq!(last(&long(16_385)), bad);
    assert_eq!(last(&format!("#{}", " ".repeat(16_384))), bad);
    assert_eq!(last("\troot \t 4010000000000000#4"), four);
    assert_eq!(last("   # root"), None);
    assert_eq!(last("root 401000000000000"), bad);
    assert_eq!(last("root 4010000000000000 0"), bad);
    assert_eq!(last("readx 512").map(|answer| answer.len()), Some("1 0 512".len() + 512 * 17));
    assert_eq!(last("readx 513"), bad);
    assert_eq!(last("readx +1"), bad);
    assert_eq!(last("root 7FF0000000000001"), Some("56 0".into()));
    assert_eq!(last("closef 1 0 0 0"), Some("3 0".into()));
    assert_eq!(last("closef 1 0 0"), bad);
    assert_eq!(last("closef 1 0 0 p p p p 0"), bad);
    assert_eq!(last("@1 abandon"), Some("3 0".into()));
    assert_eq!(last(" @2\tsetq 0 # on the empty pair"), Some("1 0".into()));
    assert_eq!(last("newpair 0 0 0 0 0 0 0000000000000000 0000000000000000 0000000000000000"), Some("1 0".into()));
    assert_eq!(last("newpair 0 0 0 0 0 0000000000000000 0000000000000000 0000000000000000"), bad);
    for call in [
        "",
        "abandon now",
        "root 4010000000000000",
        "point 1 0 0",
        "wrap 4010000000000000 4010000000000000",
        "new",
        "newpair",
        "@2 abandon",
    ] {
        assert_eq!(last(&format!("@1 {call}")), bad, "@1 {call}");
    }
    for side in ["@1abandon", "@ 1 abandon", "@3 abandon", "@01 abandon", "1 abandon"] {
        assert_eq!(last(side), bad, "{side}");
    }
    assert_eq!(last("@1 new 0 0 0 0 0000000000000000 0000000000000000 0000000000000000"), bad);
    assert_eq!(last("point 1 0 3 7FF0000000000001 FFF0000000000000 8000000000000000"), Some("0 0 0 1 7ff8000000000000".into()));
}

/// What is a line of the f32 filter: its calls, and numbers of 8 digits.
#[test]
fn narrow_lines() {
    let long = |length: usize| format!("@w root 40800000{}", " ".repeat(length - 16));
    let last = |line: &str| answers(line).pop();
    let two = Some("0 0 40000000".to_string());
    let bad = Some("bad".to_string());
    assert_eq!(last(&long(16_384)), two);
    assert_eq!(last(&long(16_385)), bad);
    assert_eq!(last("\t@w \t root 40800000#4"), two);
    assert_eq!(last("@w readx 2"), Some("1 0 2 4b000000 4b000001".into()));
    assert_eq!(last("@w readx 512").map(|answer| answer.len()), Some("1 0 512".len() + 512 * 9));
    assert_eq!(last("@w root 7F800001"), Some("56 0".into()));
    assert_eq!(last("@w point 1 0 3 7F800001 FF800000 80000000"), Some("0 0 0 1 7fc00000".into()));
    assert_eq!(last("@w new 0 0 0 0 00000000 00000000 00000000"), Some("1 0".into()));
    assert_eq!(last("@w abandon"), Some("3 0".into()));
    for line in [
        "@w",
        "@w # dump",
        "@wdump",
        "@ w dump",
        "@W dump",
        "@w @w dump",
        "@w @1 dump",
        "@1 @w dump",
        "@w readx 513",
        "@w abandon now",
        "@w closef 1 0 0 0",
        "@w newpair 0 0 0 0 0 0 00000000 00000000 00000000",
        "@w root 4080000",
        "@w root 408000000",
        "@w root 4010000000000000",
        "@w wrap 43af0000 4066800000000000",
        "@w new 0 0 0 0 00000000 00000000 0000000000000000",
        "@w setkind 0 t 4066800000000000",
        "@1 setx 1 40800000",
        "root 40800000",
        "setpar 3f800000 00000000 00000000",
    ] {
        assert_eq!(last(line), bad, "{line}");
    }
}
