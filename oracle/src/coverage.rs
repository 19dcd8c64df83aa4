//! What scripts should meet. On the solo filter and on the f32 filter: every number that a call can give, every call in every stage, every step that can stop it,
//! what its place can be told among (of New of a pair too), every setting on stale points and on points in use, every size. On a pair: every number,
//! every change of its sheet through either side with whatever points and open calls, and every other call on a side with whatever its partner has open.
//! Of records: what each number can show, every size, and whose record it was.

use crate::pair::Side;
use crate::places::{
    self, AFTER_PARAM, AFTER_PLAIN, BY_ONE, CUT, FULL, HALF_TURN, LONGER, NO_KIND, NO_M, NO_MARK, NO_N, OTHERS, OTHER_M, OWN, PARAMS,
    PLAIN_H, PLAIN_ZERO, SECOND, SEVERAL, SIDES, SPOTS, TURN,
};
use crate::script::{
    before, is_wide, named, on_points, through, with_partner, On, Table, BOTH_OPEN, IN_USE, OWN_OPEN, OWN_STEPPED, PARTNER_OPEN,
    PARTNER_STEPPED, RECORDS, SETTERS, SHEET, STALE,
};
use crate::stages::{Stage, OPENS, STEPPED};

/// The calls that make a filter or a pair and those on values, with the numbers that they can give in a script.
const APART: [(&str, &[u8]); 6] = [
    ("new", &[0, 1, 2, 51, 52, 53, 56, 6]),
    ("newpair", &[0, 1, 2, 51, 52, 53, 56, 6]),
    ("load", &[0, 1, 2, 12, 51, 52, 53, 56, 6]),
    ("point", &[0, 1, 2]),
    ("wrap", &[0, 56, 6]),
    ("root", &[0, 56]),
];

/// The calls on a filter, be it a side. (Opening never gives 6; on the empty filter abandon, closes, asking and images give 3.)
const ON_FILTER: [(&str, &[u8]); 27] = [
    ("setx", &[0, 1, 2, 3, 51]),
    ("setp", &[0, 1, 2, 3, 52]),
    ("setq", &[0, 1, 2, 3, 53]),
    ("setpar", &[0, 1, 3, 56, 6]),
    ("setkind", &[0, 1, 3, 56, 6]),
    ("abandon", &[0, 3]),
    ("openp", &[0, 1, 2, 3, 7, 9]),
    ("openc", &[0, 1, 2, 3, 7, 9]),
    ("closep", &[0, 2, 3, 54, 9]),
    ("closec", &[0, 1, 2, 3, 53, 54, 55, 56, 6, 8, 9]),
    ("closef", &[0, 1, 2, 3, 53, 54, 55, 8, 9, 10]),
    ("sopenp", &[0, 1, 3, 7, 9]),
    ("sopenc", &[0, 1, 3, 7, 9]),
    ("ask", &[0, 2, 3]),
    ("imagep", &[0, 2, 3, 54]),
    ("imagec", &[0, 1, 2, 3, 54]),
    ("sclosep", &[0, 3, 9]),
    ("sclosec", &[0, 1, 2, 3, 53, 55, 56, 6, 8, 9]),
    ("sclosef", &[0, 1, 2, 3, 53, 55, 8, 9, 10]),
    ("save", &[0, 1, 2, 3, 11]),
    ("readx", &[0, 1, 2]),
    ("readp", &[0, 1, 2]),
    ("readq", &[0, 1, 2]),
    ("readpts", &[0, 1, 2, 4]),
    ("readpar", &[0, 1]),
    ("readstale", &[0, 1]),
    ("dump", &[0]),
];

/// On whom calls are made; one side stands for both.
pub const EVERYONE: [On; 3] = [On::Solo, On::Narrow, On::Side(Side::One)];

/// The filters that are no side. What is to be met of their calls is the same.
pub const ALONE: [On; 2] = [On::Solo, On::Narrow];

/// Whether there is such a call: the f32 filter has no flat close, no steps and no records, and of the calls that are on no filter a pair has its New alone.
pub fn has(on: On, call: &str) -> bool {
    match on {
        On::Solo => call != "newpair",
        On::Narrow => call != "newpair" && !is_wide(call.as_bytes()),
        On::Side(_) => call == "newpair" || APART.iter().all(|(apart, _)| *apart != call),
    }
}

/// The numbers of every call, by its name in the table.
pub fn numbers() -> impl Iterator<Item = (String, &'static [u8])> {
    EVERYONE.into_iter().flat_map(|on| numbers_on(on).map(move |(call, numbers)| (named(on, call), numbers)))
}

fn numbers_on(on: On) -> impl Iterator<Item = (&'static str, &'static [u8])> {
    APART.into_iter().chain(ON_FILTER).filter(move |(call, _)| has(on, call))
}

/// The calls that have their place in some stages only: all on a filter but readings.
pub fn staged(on: On) -> impl Iterator<Item = &'static str> {
    let calls = ON_FILTER.into_iter().map(|(call, _)| call);
    calls.filter(move |call| has(on, call) && !call.starts_with("read") && *call != "dump")
}

/// The stages of a filter: at f32 there are no stepped calls.
pub fn stages(on: On) -> impl Iterator<Item = Stage> {
    Stage::all().filter(move |stage| on != On::Narrow || !stage.open.is_stepped())
}

/// How often a call gave in this stage what it gives there, 0 or 3; but accepted settings and closes, which are told by points and by sizes.
pub fn in_stage(table: &Table, on: On, call: &str, stage: Stage) -> Option<u64> {
    let fits = stage.fits(call);
    if fits && (SETTERS.contains(&call) || call.contains("close")) {
        return None;
    }
    Some(count_with(table, &named(on, call), if fits { 0 } else { 3 }, &stage.name()))
}

/// The steps in which a call can stop, in running order.
pub const STEPS: [(&str, &[(u8, &str)]); 10] = [
    ("openp", &OPEN),
    ("openc", &OPEN),
    ("closep", &PREDICTION),
    ("closec", &CORRECTION),
    ("closef", &CORRECTION),
    ("sopenp", &OPEN),
    ("sopenc", &OPEN),
    ("sclosep", &PREDICTION),
    ("sclosec", &CORRECTION),
    ("sclosef", &CORRECTION),
];

const OPEN: [(u8, &str); 3] = [(7, "P's pivot"), (9, "P's factor entry"), (9, "points")];

const PREDICTION: [(u8, &str); 2] = [(9, "mean"), (9, "P")];

/// Weighted or flat, the order is one.
const CORRECTION: [(u8, &str); 11] = [
    (9, "z mean"),
    (9, "S"),
    (9, "x mean"),
    (9, "cross covariance"),
    (8, "S's pivot"),
    (9, "S's factor entry"),
    (9, "inverse"),
    (9, "gain"),
    (9, "y"),
    (9, "x"),
    (9, "P"),
];

/// The slices that a call searches for bad numbers, by their numbers and in that order; but those of one number.
const SEARCHED: [(&str, &[u8]); 14] = [
    ("new", &[51, 52, 53, 56]),
    ("newpair", &[51, 52, 51, 52, 53, 56]),
    ("load", &[51, 52, 53, 56, 56]),
    ("setx", &[51]),
    ("setp", &[52]),
    ("setq", &[53]),
    ("setpar", &[56]),
    ("closep", &[54]),
    ("closec", &[53, 54, 55, 56]),
    ("closef", &[53, 54, 55]),
    ("imagep", &[54]),
    ("imagec", &[54]),
    ("sclosec", &[53, 55, 56]),
    ("sclosef", &[53, 55]),
];

/// The calls whose searches are to be shown, each with its slices; of a pair's New alone, since a side searches as a filter does.
pub fn searching(on: On) -> impl Iterator<Item = (&'static str, &'static [u8])> {
    SEARCHED.into_iter().filter(move |(call, _)| has(on, call) && (*call == "newpair" || ALONE.contains(&on)))
}

pub fn slices_of(call: &str) -> &'static [u8] {
    SEARCHED.iter().find(|(searching, _)| *searching == call).map_or(&[], |(_, numbers)| *numbers)
}

/// The calls that tell the row of a pivot, and how many rows there can be.
pub const PIVOTS: [(&str, u8, usize); 8] = [
    ("openp", 7, 8),
    ("openc", 7, 8),
    ("closec", 8, 4),
    ("closef", 8, 4),
    ("sopenp", 7, 8),
    ("sopenc", 7, 8),
    ("sclosec", 8, 4),
    ("sclosef", 8, 4),
];

/// What a stepped call can be refused by before its steps, in that order.
pub const ORDER: [(&str, &[u8]); 5] = [
    ("ask", &[3, 2]),
    ("imagep", &[3, 2, 54]),
    ("imagec", &[3, 1, 2, 54]),
    ("sclosec", &[3, 1, 2, 53, 55, 56, 6]),
    ("sclosef", &[3, 1, 2, 53, 55, 10]),
];

/// What an answer of a save or a load can show besides its search: in words, and which numbers can have to wait for it.
pub const RECORDED: [(&str, u8, &[&str], &[u8]); 9] = [
    ("save", 3, &[], &[2, 11]),
    ("save", 1, &[], &[2]),
    ("save", 2, &[BY_ONE], &[11]),
    ("save", 0, &[FULL, LONGER], &[]),
    ("load", 2, &[NO_N, CUT], &[12, 51, 52, 53, 56, 6]),
    ("load", 1, &[], &[2, 12]),
    ("load", 12, &[NO_MARK[0], NO_MARK[1], NO_KIND, PLAIN_H, PLAIN_ZERO], &[51, 52, 53, 56, 6]),
    ("load", 6, &[PARAMS, HALF_TURN], &[]),
    ("load", 0, &[FULL, LONGER, TURN, OWN, SIDES[0], SIDES[1], OTHERS], &[]),
];

/// The stages that a side can't be saved in: those in which its call is open.
pub fn unsaved() -> impl Iterator<Item = Stage> {
    Stage::all().filter(|stage| !stage.fits("save"))
}

/// What can have to wait where a stepped call gives 3, 1 or 2, and what can be wrong with its m; what records show.
pub fn waiting(call: &str, number: u8) -> Vec<String> {
    if let Some((_, _, words, later)) = RECORDED.iter().find(|(other, at, ..)| *other == call && *at == number) {
        return words.iter().map(|word| word.to_string()).chain(later.iter().copied().map(places::before)).collect();
    }
    let order = ORDER.iter().find(|(stepped, _)| *stepped == call).map_or(&[][..], |(_, order)| *order);
    let later = order.iter().skip_while(|other| **other != number).skip(1).map(|later| places::before(*later));
    let sizes = [NO_M, OTHER_M].iter().filter(|_| number == 1 && order.contains(&1)).map(|word| word.to_string());
    later.chain(sizes).collect()
}

/// What the answer of a call can show of its search when it gives one of these numbers.
pub fn searches(call: &str, number: u8) -> Vec<String> {
    let numbers = slices_of(call);
    let later = numbers.iter().position(|other| *other == number).map_or(&[][..], |at| &numbers[at + 1..]);
    let mut words: Vec<String> = SPOTS.iter().chain(&[SEVERAL]).map(|word| word.to_string()).collect();
    if later.contains(&number) {
        words.push(SECOND.into());
    }
    match call {
        _ if number != 56 => {}
        "load" => words.extend([AFTER_PARAM.into(), PARAMS.into()]),
        _ if with_kinds(call) => words.extend([AFTER_PLAIN.into(), AFTER_PARAM.into()]),
        _ => {}
    }
    words.extend((51..=56).filter(|other| later.contains(other)).map(places::before));
    match call {
        "closef" | "sclosef" => words.push(places::before(10)),
        "load" => words.push(places::before(6)),
        "new" | "newpair" | "closec" | "sclosec" if number != 56 => words.push(places::before(6)),
        _ => {}
    }
    words
}

/// The slices that can be longer than a call needs: all but the parameters, and those of a record. The kinds are four, of which a close needs m.
pub fn with_rest(call: &str, number: u8) -> bool {
    call != "load" && number != 56 || with_kinds(call)
}

/// The closes that are given the kinds of a measurement.
pub fn with_kinds(call: &str) -> bool {
    ["closec", "sclosec"].contains(&call)
}

/// The closes of a prediction, each met with every n.
pub const PREDICTIONS: [(&str, &str); 2] = [("closep", "prediction"), ("sclosep", "stepped prediction")];

/// The closes of a correction, each met with every n and m.
pub const CORRECTIONS: [(&str, &str); 4] =
    [("closec", "correction"), ("closef", "flat correction"), ("sclosec", "stepped correction"), ("sclosef", "stepped flat correction")];

/// How often a call gave such a number with such words beside it.
fn sum(table: &Table, call: &str, fits: impl Fn(u8, &str) -> bool) -> u64 {
    let of_call = table.range((call.into(), 0, String::new())..).take_while(|((name, ..), _)| name == call);
    of_call.filter(|((_, number, more), _)| fits(*number, more)).map(|(_, count)| count).sum()
}

/// How often a call gave a number, whatever the step.
pub fn count(table: &Table, call: &str, number: u8) -> u64 {
    sum(table, call, |n, _| n == number)
}

/// How often a call gave a number in this step, on these points, or at these sizes.
pub fn count_with(table: &Table, call: &str, number: u8, more: &str) -> u64 {
    table.get(&(call.into(), number, more.into())).copied().unwrap_or(0)
}

/// How often a call gave a number, what is told beside it beginning like this.
fn count_under(table: &Table, call: &str, number: u8, start: &str) -> u64 {
    sum(table, call, |n, more| n == number && more.starts_with(start))
}

/// How often a setting was refused on these points; but by 3, which looks at nothing that is lent.
pub fn refused_with(table: &Table, call: &str, points: &str) -> u64 {
    sum(table, call, |n, m| ![0, 3].contains(&n) && m == points)
}

/// How often calls on a side, but for sheet changes, were accepted with each thing that the partner can have open.
pub fn beside_partner(table: &Table) -> impl Iterator<Item = (String, [u64; 5])> + '_ {
    let calls = ON_FILTER.iter().filter(|(call, _)| !SHEET.contains(call)).map(|(call, _)| named(On::Side(Side::One), call));
    calls.map(|call| (call.clone(), OPENS.map(|open| count_with(table, &call, 0, &with_partner(open)))))
}

/// How often a sheet change came through this side: accepted, by the points of both, and refused by 3, by whose call was open.
pub fn sheet_changes(table: &Table, call: &str, side: Side) -> Vec<(String, u64)> {
    let call = named(On::Side(side), call);
    let accepted = [(STALE, STALE), (STALE, IN_USE), (IN_USE, STALE), (IN_USE, IN_USE)].map(|(own, partner)| {
        let met = on_points(own, partner);
        (format!("accepted, {met}"), count_with(table, &call, 0, &through(side, &met)))
    });
    let waits = [OWN_OPEN, OWN_STEPPED, PARTNER_OPEN, PARTNER_STEPPED, BOTH_OPEN];
    let waits = waits.map(|met| (met.to_string(), count_under(table, &call, 3, &through(side, met))));
    accepted.into_iter().chain(waits).collect()
}

/// What a setting can be refused by for what it is lent.
pub const FAULTS: [(&str, &[u8]); 5] =
    [("setx", &[2, 51]), ("setp", &[2, 52]), ("setq", &[2, 53]), ("setpar", &[56, 6]), ("setkind", &[1, 56, 6])];

/// How often a sheet change with a fault was refused, through either side: for the fault, by the partner's points,
/// and by 3 for the partner's call, by the number that had to wait.
pub fn faulty_changes(table: &Table, call: &str) -> Vec<(String, u64)> {
    let name = named(On::Side(Side::One), call);
    let either = |count: &dyn Fn(Side) -> u64| Side::BOTH.iter().map(|side| count(*side)).sum();
    let refused = [STALE, IN_USE].map(|partner| {
        let on = |own, side| refused_with(table, &name, &through(side, &on_points(own, partner)));
        (format!("refused, partner {partner}"), either(&|side| on(STALE, side) + on(IN_USE, side)))
    });
    let numbers = FAULTS.iter().filter(|(setter, _)| *setter == call).flat_map(|(_, numbers)| *numbers);
    let first = numbers.map(|number| {
        let met = |side, open| count_with(table, &name, 3, &before(&through(side, open), Some(*number)));
        (before(PARTNER_OPEN, Some(*number)), either(&|side| met(side, PARTNER_OPEN) + met(side, PARTNER_STEPPED)))
    });
    refused.into_iter().chain(first).collect()
}

/// What of requests A5, A7 and A8 was not met: what a search can show, rows, what had to wait, and what records show.
fn place_holes(places: &Table, on: On, leads: Leads) -> Vec<String> {
    let mut wanted = Vec::new();
    for (call, number) in slices_on(on) {
        wanted.extend(searches(call, number).into_iter().map(|word| (call, number, word)));
    }
    if ALONE.contains(&on) {
        for (call, number, rows) in PIVOTS {
            wanted.extend((0..rows).map(|row| (call, number, places::row(row))));
        }
        for (call, number) in ORDER.iter().flat_map(|(call, _)| [3, 1, 2].map(|number| (*call, number))) {
            wanted.extend(waiting(call, number).into_iter().map(|word| (call, number, word)));
        }
    }
    for (call, number, ..) in RECORDED {
        wanted.extend(waiting(call, number).into_iter().map(|word| (call, number, word)));
    }
    wanted.retain(|(call, ..)| has(on, call) && leads_to(call) == leads);
    unmet(places, on, wanted)
}

/// And by accepted ones: bad numbers past what is needed.
fn past_holes(places: &Table, on: On) -> Vec<String> {
    let slices = slices_on(on).filter(|(call, number)| with_rest(call, *number));
    unmet(places, on, slices.map(|(call, number)| (call, 0, places::past(number))).collect())
}

/// The slices whose searches are to be shown, each once.
fn slices_on(on: On) -> impl Iterator<Item = (&'static str, u8)> {
    searching(on).flat_map(|(call, numbers)| (51..=56).filter(|number| numbers.contains(number)).map(move |number| (call, number)))
}

fn unmet(places: &Table, on: On, wanted: Vec<(&str, u8, String)>) -> Vec<String> {
    let wanted = wanted.into_iter().map(|(call, number, word)| (named(on, call), number, word));
    let unmet = wanted.filter(|(call, number, word)| count_with(places, call, *number, word) == 0);
    unmet.map(|(call, number, word)| format!("{call}: {number} {word}")).collect()
}

/// In what a call comes about: stepped calls that are open, records, or others. Stepped opens come about wherever others do.
#[derive(Clone, Copy, PartialEq)]
enum Leads {
    Stepping,
    Records,
    Others,
}

fn leads_to(call: &str) -> Leads {
    match call {
        _ if RECORDS.contains(&call) => Leads::Records,
        _ if STEPPED.contains(&call) && !call.starts_with("sopen") => Leads::Stepping,
        _ => Leads::Others,
    }
}

/// The numbers that were not met, of calls like this.
fn number_holes(table: &Table, on: On, wanted: impl Fn(&str, u8) -> bool) -> Vec<String> {
    let all = numbers_on(on).flat_map(|(call, numbers)| numbers.iter().map(move |number| (call, *number)));
    let unmet = all.filter(|(call, number)| wanted(call, *number) && count(table, &named(on, call), *number) == 0);
    unmet.map(|(call, number)| format!("{}: {number}", named(on, call))).collect()
}

/// The steps that were not met, of a filter that is no side.
fn step_holes(table: &Table, on: On) -> Vec<String> {
    let all = STEPS.iter().filter(|(call, _)| has(on, call)).flat_map(|(call, steps)| steps.iter().map(|step| (named(on, call), *step)));
    let unmet = all.filter(|(call, (number, step))| count_with(table, call, *number, step) == 0);
    unmet.map(|(call, (number, step))| format!("{call}: {number} in {step}")).collect()
}

/// The stages that were not met, of a filter that is no side.
fn stage_holes(table: &Table, on: On, stepping: bool) -> Vec<String> {
    let all = staged(on).flat_map(|call| stages(on).map(move |stage| (call, stage)));
    let all = all.filter(|(call, stage)| (stage.open.is_stepped() || STEPPED.contains(call)) == stepping);
    let unmet = all.filter(|(call, stage)| in_stage(table, on, call, *stage) == Some(0));
    unmet.map(|(call, stage)| format!("{} with {}", named(on, call), stage.name())).collect()
}

/// The sizes that no record was read with.
fn load_holes(table: &Table, on: On) -> Vec<String> {
    let sizes = (1..=8).map(|n| format!("n={n}")).filter(|size| has(on, "load") && count_with(table, "load", 0, size) == 0);
    sizes.map(|size| format!("load accepted with {size}")).collect()
}

/// What was not met of the settings and sizes of a filter that is no side.
fn round_holes(table: &Table, on: On) -> Vec<String> {
    let mut holes = Vec::new();
    for (call, points) in SETTERS.iter().flat_map(|call| [(named(on, call), STALE), (named(on, call), IN_USE)]) {
        if count_with(table, &call, 0, points) == 0 {
            holes.push(format!("{call} accepted, points {points}"));
        }
        if refused_with(table, &call, points) == 0 {
            holes.push(format!("{call} refused, points {points}"));
        }
    }
    let predictions = (1..=8).flat_map(|n| PREDICTIONS.map(|(call, _)| (call, format!("n={n}"))));
    let sizes = (1..=8).flat_map(|n| (1..=4).map(move |m| format!("n={n} m={m}")));
    let corrections = sizes.flat_map(|size| CORRECTIONS.map(|(call, _)| (call, size.clone())));
    for (call, size) in predictions.chain(corrections).filter(|(call, _)| has(on, call)) {
        let call = named(on, call);
        if count_with(table, &call, 0, &size) == 0 {
            holes.push(format!("{call} accepted with {size}"));
        }
    }
    holes
}

/// What was not met of the sides of a pair and of changes of their sheet.
fn side_holes(table: &Table) -> Vec<String> {
    let mut holes = Vec::new();
    for (call, counts) in beside_partner(table) {
        let unmet = OPENS.iter().zip(counts).filter(|(_, count)| *count == 0);
        holes.extend(unmet.map(|(open, _)| format!("{call} accepted, {}", with_partner(*open))));
    }
    for (call, side) in SHEET.iter().flat_map(|call| Side::BOTH.map(|side| (call, side))) {
        let unmet = sheet_changes(table, call, side).into_iter().filter(|(_, count)| *count == 0);
        holes.extend(unmet.map(|(met, _)| format!("{} {call} {met}", side.name())));
    }
    for call in SHEET {
        let unmet = faulty_changes(table, call).into_iter().filter(|(_, count)| *count == 0);
        holes.extend(unmet.map(|(met, _)| format!("@{call} {met}")));
    }
    holes
}

/// What was not met of one of those on whom calls are made, by what leads to it: refused calls, steps that stop, rounds as a user has them,
/// stepped calls with all that doesn't fit on the way, records.
pub struct Holes {
    pub refusals: Vec<String>,
    pub steps: Vec<String>,
    pub rounds: Vec<String>,
    pub stepping: Vec<String>,
    pub records: Vec<String>,
}

/// What was not met by the two tables of a reader: of the solo filter, of the f32 filter, of pairs.
pub fn holes(table: &Table, places: &Table) -> [Holes; 3] {
    EVERYONE.map(|on| {
        let of_steps = |number: u8| matches!(number, 7..=9);
        let (steps, rounds, stages) = match on {
            On::Side(_) => (vec![], side_holes(table), unmet(places, on, unsaved().map(|stage| ("save", 3, stage.name())).collect())),
            _ => (step_holes(table, on), [stage_holes(table, on, false), round_holes(table, on)].concat(), stage_holes(table, on, true)),
        };
        let faces = |leads| number_holes(table, on, |call, number| !of_steps(number) && leads_to(call) == leads);
        let shown = |leads| [faces(leads), place_holes(places, on, leads)].concat();
        Holes {
            refusals: shown(Leads::Others),
            steps: [number_holes(table, on, |_, number| of_steps(number)), steps].concat(),
            rounds: [rounds, past_holes(places, on)].concat(),
            stepping: [shown(Leads::Stepping), stages].concat(),
            records: [shown(Leads::Records), load_holes(table, on)].concat(),
        }
    })
}

/// All that was not met.
pub fn not_met(table: &Table, places: &Table) -> Vec<String> {
    let all = holes(table, places).into_iter();
    all.flat_map(|holes| [holes.refusals, holes.steps, holes.rounds, holes.stepping, holes.records].concat()).collect()
}
