//! The script of calls (docs/SCRIPT.md): a line in, its answer out.

use std::collections::BTreeMap;

use crate::filter::{self, list_length, Filter, Open, Start, Trouble, Way};
use crate::float::Float;
use crate::kinds::Kind;
use crate::pair::{Pair, Side};
use crate::places::{Search, OTHERS, OWN, SIDES};
use crate::record::Record;
use crate::refusal::Slice;
use crate::stages::{Stage, STEPPED};
use crate::steps::Params;

/// The longest line and the longest list or buffer that are taken: so many numbers, so many bytes.
pub const LINE: usize = 16_384;
pub const LIST: u64 = 512;
pub const BYTES: u64 = 4096;

/// How often each call gave each number, and beside it the step that refused, the sizes of an accepted close of a filter that is no side,
/// or how things stood before the call (`Reader::beside`).
pub type Table = BTreeMap<(String, u8, String), u64>;

/// What a `bad` line counts as.
pub const BAD: u8 = 99;

/// Points before a setting.
pub const STALE: &str = "stale";
pub const IN_USE: &str = "in use";

/// The setters, x and P first, and those of them that change a pair's sheet.
pub const SETTERS: [&str; 5] = ["setx", "setp", "setq", "setpar", "setkind"];
pub const SHEET: [&str; 3] = ["setq", "setpar", "setkind"];

/// The calls of request A8.
pub const RECORDS: [&str; 2] = ["save", "load"];

/// Whether there is no such call at f32: the flat close, all stepped ones, records.
pub fn is_wide(call: &[u8]) -> bool {
    call == b"closef" || STEPPED.iter().chain(&RECORDS).any(|wide| wide.as_bytes() == call)
}

/// Whose call is open when a sheet change comes, be it a stepped one.
pub const OWN_OPEN: &str = "own call open";
pub const OWN_STEPPED: &str = "own stepped call open";
pub const PARTNER_OPEN: &str = "partner's call open";
pub const PARTNER_STEPPED: &str = "partner's stepped call open";
pub const BOTH_OPEN: &str = "both calls open";

/// On whom a call is made.
#[derive(Clone, Copy, Debug, PartialEq)]
pub enum On {
    Solo,
    /// The f32 filter of request A6.
    Narrow,
    Side(Side),
}

impl On {
    /// As a script names it; the solo filter has no name.
    pub const fn name(self) -> &'static str {
        match self {
            On::Solo => "",
            On::Narrow => "@w",
            On::Side(side) => side.name(),
        }
    }
}

/// A reader of scripts: the one current filter, the one current f32 filter, the one current pair, and the tables of what was met.
pub struct Reader {
    pub filter: Filter<f64>,
    pub narrow: Filter<f32>,
    pub pair: Pair,
    pub table: Table,
    /// What places were told among (`Search::shown`); an answer may show several things, or none.
    pub places: Table,
}

/// A line that is no call.
struct Bad;

/// What a line gives: its answer, and what the table counts.
struct Told {
    call: String,
    number: u8,
    place: usize,
    more: String,
    text: String,
}

impl Default for Reader {
    fn default() -> Self {
        Reader { filter: Filter::empty(), narrow: Filter::empty(), pair: Pair::empty(), table: Table::new(), places: Table::new() }
    }
}

impl Reader {
    /// The answer to a line (without its line end), if it gets one. An error says where the published Rust parts from documents 01 and 02.
    pub fn answer(&mut self, line: &[u8]) -> Result<Option<String>, String> {
        let read = if line.len() > LINE {
            Err(Bad)
        } else {
            let mut tokens = Tokens::of(line);
            let Some(word) = tokens.next() else {
                return Ok(None);
            };
            read(word, tokens)
        };
        let told = match read {
            Ok(line) => {
                let told = self.take(&line)?;
                // The others are asked of stepped calls and of records alone what had to wait for them.
                if matches!(told.number, 0 | 7 | 8 | 51..=56) || line.has_order() {
                    for word in self.shown(&line, told.number, told.place) {
                        *self.places.entry((told.call.clone(), told.number, word)).or_default() += 1;
                    }
                }
                told
            }
            Err(Bad) => Told { call: "bad".into(), number: BAD, place: 0, more: String::new(), text: "bad".into() },
        };
        *self.table.entry((told.call, told.number, told.more)).or_default() += 1;
        Ok(Some(told.text))
    }

    fn take(&mut self, line: &Line) -> Result<Told, String> {
        match line {
            Line::Solo(call) => taken(&mut self.filter, call),
            Line::Narrow(call) => {
                let told = taken(&mut self.narrow, call)?;
                Ok(Told { call: named(On::Narrow, &told.call), ..told })
            }
            Line::NewPair(n, x1, p1, x2, p2, q, par) => {
                let made = Pair::new(*n, [Start { x: x1, p: p1 }, Start { x: x2, p: p2 }], q, *par);
                renewed("newpair", &mut self.pair, made, Pair::empty())
            }
            Line::Load(bytes) => {
                let whose = self.whose(bytes);
                let told = renewed("load", &mut self.filter, Filter::load(bytes), Filter::empty())?;
                if told.number != 0 {
                    return Ok(told);
                }
                *self.places.entry(("load".into(), 0, whose.into())).or_default() += 1;
                Ok(Told { more: format!("n={}", self.filter.n), ..told })
            }
            Line::Side(side, call) => {
                let beside = self.beside_partner(*side, call.name());
                let told = match call {
                    OnFilter::Set(setting) if SHEET.contains(&setting.name()) => {
                        let told = bare(setting.name(), self.pair.change(|filter| setting.put(filter)))?;
                        let more = if told.number == 3 { before(&beside, setting.fault(self.pair.side(*side))) } else { String::new() };
                        Told { more, ..told }
                    }
                    _ => on_filter(self.pair.side_mut(*side), call)?,
                };
                let more = if told.more.is_empty() || told.number == 0 { beside } else { told.more };
                Ok(Told { call: named(On::Side(*side), &told.call), more, ..told })
            }
        }
    }

    /// What an answer with this number and place shows of the search.
    fn shown(&self, line: &Line, number: u8, place: usize) -> Vec<String> {
        match line {
            Line::Solo(call) => searched(&self.filter, call).shown(number, place),
            Line::Narrow(call) => searched(&self.narrow, call).shown(number, place),
            Line::NewPair(n, x1, p1, x2, p2, q, par) => Search::of_new(*n as usize, &[(x1, p1), (x2, p2)], q, *par).shown(number, place),
            Line::Load(bytes) => Search::of_load(bytes).shown(number, place),
            Line::Side(side, call) => {
                let own = self.pair.side(*side);
                let mut words = searched_on(own, call).shown(number, place);
                // The table has what the partner has open.
                words.extend((call.name() == "save" && number == 3).then(|| Stage::of(own).name()));
                words
            }
        }
    }

    /// Whose record it is that these bytes begin with, as things stand.
    fn whose(&self, bytes: &[u8]) -> &'static str {
        let is_of = |filter: &Filter<f64>| filter.n > 0 && bytes.starts_with(&Record::of(filter).bytes());
        match Side::BOTH.iter().find(|side| is_of(self.pair.side(**side))) {
            _ if is_of(&self.filter) => OWN,
            Some(side) => SIDES[*side as usize],
            None => OTHERS,
        }
    }

    /// How things stand before a call on a filter, as the table tells it.
    pub fn beside(&self, on: On, call: &str) -> String {
        match on {
            On::Solo => own_state(&self.filter, call),
            On::Narrow => own_state(&self.narrow, call),
            On::Side(side) => self.beside_partner(side, call),
        }
    }

    /// For a sheet change both sides count, for any other call on a side what its partner has open. The empty pair has nothing to tell.
    fn beside_partner(&self, side: Side, call: &str) -> String {
        let (own, partner) = (self.pair.side(side), self.pair.side(side.partner()));
        match call {
            _ if own.n == 0 => String::new(),
            _ if SHEET.contains(&call) => through(side, &sheet_meets(own, partner)),
            _ => with_partner(partner.open),
        }
    }
}

/// For a call on a filter that is no side its own stage counts, and for a setting with nothing open its points. Readings, which are always taken,
/// and the empty filter have nothing to tell.
fn own_state<T>(filter: &Filter<T>, call: &str) -> String {
    match filter.open {
        _ if filter.n == 0 || call.starts_with("read") || call == "dump" => String::new(),
        Open::Nothing if SETTERS.contains(&call) => points(filter).into(),
        _ => Stage::of(filter).name(),
    }
}

fn points<T>(filter: &Filter<T>) -> &'static str {
    if filter.stale {
        STALE
    } else {
        IN_USE
    }
}

/// What a sheet change meets: open calls, or else points of both sides.
fn sheet_meets(own: &Filter<f64>, partner: &Filter<f64>) -> String {
    match (own.open.way(), partner.open.way()) {
        (None, None) => on_points(points(own), points(partner)),
        (Some(Way::Whole), None) => OWN_OPEN.into(),
        (Some(Way::Stepped), None) => OWN_STEPPED.into(),
        (None, Some(Way::Whole)) => PARTNER_OPEN.into(),
        (None, Some(Way::Stepped)) => PARTNER_STEPPED.into(),
        _ => BOTH_OPEN.into(),
    }
}

pub fn on_points(own: &str, partner: &str) -> String {
    format!("{own}, partner {partner}")
}

pub fn through(side: Side, met: &str) -> String {
    format!("{} {met}", side.name())
}

/// A 3 that came before this number, if any.
pub fn before(met: &str, number: Option<u8>) -> String {
    match number {
        None => met.into(),
        Some(number) => format!("{met}, before {number}"),
    }
}

pub fn with_partner(open: Open) -> String {
    format!("partner with {}", open.name())
}

/// A call's name in the table: on a side, whichever, with `@` before it; New of a pair is on both.
pub fn named(on: On, call: &str) -> String {
    match on {
        On::Narrow => format!("{} {call}", on.name()),
        On::Side(_) if call != "newpair" => format!("@{call}"),
        _ => call.into(),
    }
}

/// A call of either width.
fn taken<T: Float>(filter: &mut Filter<T>, call: &Call<T>) -> Result<Told, String> {
    match call {
        Call::New(n, x, p, q, par) => {
            let made = Filter::new(*n, x, p, q, *par);
            renewed("new", filter, made, Filter::empty())
        }
        Call::On(call) => {
            let state = own_state(filter, call.name());
            let told = on_filter(filter, call)?;
            let more = if told.more.is_empty() { state } else { told.more };
            Ok(Told { more, ..told })
        }
        Call::Point(n, k, list) => told("point", filter::point(*n, *k, list), |part| {
            let (start, length) = part.unwrap_or((0, 0));
            format!(" {start} {length}{}", bits(&list[start..start + length]))
        }),
        Call::Wrap(d, h) => told("wrap", filter::wrap(*d, *h), |wrapped| bits(&[wrapped.unwrap_or(T::ZERO)])),
        Call::Root(a) => told("root", filter::root(*a), |root| bits(root.as_slice())),
    }
}

/// What a call that wasn't refused before has searched; but for single numbers.
fn searched<T: Float>(filter: &Filter<T>, call: &Call<T>) -> Search<T> {
    match call {
        Call::New(n, x, p, q, par) => Search::of_new(*n as usize, &[(x, p)], q, *par),
        Call::On(call) => searched_on(filter, call),
        _ => Search::default(),
    }
}

fn searched_on<T: Float>(filter: &Filter<T>, call: &OnFilter<T>) -> Search<T> {
    let n = filter.n;
    match call {
        OnFilter::Set(Setting::X(x)) => Search::of(Slice::State, x, n),
        OnFilter::Set(Setting::P(p)) => Search::of(Slice::Covariance, p, n * n),
        OnFilter::Set(Setting::Q(q)) => Search::of(Slice::Noise, q, n * n),
        OnFilter::Set(Setting::Par(par)) => Search::of(Slice::Lone, &par.numbers(), 3),
        OnFilter::CloseP(propagated) => Search::of(Slice::Points, propagated, list_length(n)),
        OnFilter::CloseC(m, z, r, kinds, observed) => Search::of_close(n, *m as usize, z, r, kinds, observed),
        OnFilter::CloseF(m, z, r, observed) => Search::of_flat_close(n, *m as usize, z, r, filter.has_turn(), observed),
        OnFilter::Lent(Lent::Point, length) => Search::of_ask(n, *length),
        OnFilter::Save(length) => Search::of_save(n, filter.stale, *length),
        OnFilter::ImageP(image) => Search::of(Slice::Points, image, n),
        OnFilter::ImageC(m, image) => Search::of_image(*m, filter.kept.m, image),
        OnFilter::StepCloseC(m, z, r, kinds) => Search::of_stepped_close(*m, filter.kept.m, z, r, kinds),
        OnFilter::StepCloseF(m, z, r) => Search::of_stepped_flat_close(*m, filter.kept.m, z, r, filter.has_turn()),
        _ => Search::default(),
    }
}

/// What New made, or the empty one where it refuses.
fn renewed<A>(call: &str, current: &mut A, made: Result<A, Trouble>, empty: A) -> Result<Told, String> {
    let (new, outcome) = match made {
        Ok(new) => (new, Ok(())),
        Err(trouble) => (empty, Err(trouble)),
    };
    *current = new;
    bare(call, outcome)
}

/// A call on a filter, be it a side; but for changes of a pair's sheet.
fn on_filter<T: Float>(filter: &mut Filter<T>, call: &OnFilter<T>) -> Result<Told, String> {
    let name = call.name();
    match call {
        OnFilter::Set(setting) => bare(name, setting.put(filter)),
        OnFilter::Abandon => bare(name, filter.abandon()),
        OnFilter::Lent(which, length) => {
            let mut buffer: Vec<T> = (0..*length).map(|i| T::of_bits(T::LENT_BITS + i)).collect();
            let outcome = match which {
                Lent::OpenP => filter.open_prediction(&mut buffer),
                Lent::OpenC => filter.open_correction(&mut buffer),
                Lent::X => filter.read_x(&mut buffer),
                Lent::P => filter.read_p(&mut buffer),
                Lent::Q => filter.read_q(&mut buffer),
                Lent::Points => filter.read_points(&mut buffer),
                Lent::Point => filter.ask(&mut buffer),
            };
            told(name, outcome, |_| format!(" {length}{}", bits(&buffer)))
        }
        OnFilter::CloseP(propagated) => {
            let outcome = filter.close_prediction(propagated);
            closed(name, outcome, filter, String::new())
        }
        OnFilter::CloseC(m, z, r, kinds, observed) => {
            let outcome = filter.close_correction(*m, z, r, *kinds, observed);
            closed(name, outcome, filter, format!(" m={m}"))
        }
        OnFilter::CloseF(m, z, r, observed) => {
            let outcome = filter.close_flat(*m, z, r, observed);
            closed(name, outcome, filter, format!(" m={m}"))
        }
        OnFilter::StepOpenP => bare(name, filter.open_prediction_stepped()),
        OnFilter::StepOpenC => bare(name, filter.open_correction_stepped()),
        OnFilter::ImageP(image) => bare(name, filter.image_of_prediction(image)),
        OnFilter::ImageC(m, image) => bare(name, filter.image_of_correction(*m, image)),
        OnFilter::StepCloseP => {
            let outcome = filter.close_prediction_stepped();
            closed(name, outcome, filter, String::new())
        }
        OnFilter::StepCloseC(m, z, r, kinds) => {
            let outcome = filter.close_correction_stepped(*m, z, r, *kinds);
            closed(name, outcome, filter, format!(" m={m}"))
        }
        OnFilter::StepCloseF(m, z, r) => {
            let outcome = filter.close_flat_stepped(*m, z, r);
            closed(name, outcome, filter, format!(" m={m}"))
        }
        OnFilter::Save(length) => {
            let mut buffer: Vec<u8> = (0..*length).map(|i| (0xa0 + i) as u8).collect();
            let outcome = filter.save(&mut buffer);
            told(name, outcome, |_| format!(" {length} {}", hex(&buffer)))
        }
        OnFilter::ReadPar => told(name, filter.read_params(), |par| bits(&par.unwrap_or_default().numbers())),
        OnFilter::ReadStale => told(name, filter.read_stale(), |stale| format!(" {}", u8::from(stale.unwrap_or(true)))),
        OnFilter::Dump => told(name, Ok(()), |_| format!(" {}{}", dumped(filter), dumped_steps(filter))),
        OnFilter::NarrowDump => told(name, Ok(()), |_| format!(" {}", dumped(filter))),
    }
}

/// An answer of a number and its place alone.
fn bare(call: &str, outcome: Result<(), Trouble>) -> Result<Told, String> {
    told(call, outcome, |_| String::new())
}

/// An answer: the number, its place, and what else there is to say.
fn told<A>(call: &str, outcome: Result<A, Trouble>, rest: impl FnOnce(Option<A>) -> String) -> Result<Told, String> {
    let (number, place, step, answer) = match outcome {
        Ok(answer) => (0, 0, "", Some(answer)),
        Err(Trouble::Refused(refusal)) => (refusal.number(), refusal.place(), refusal.step(), None),
        Err(Trouble::Parted(why)) => return Err(format!("{call}: {why}")),
    };
    Ok(Told { call: call.into(), number, place, more: step.into(), text: format!("{number} {place}{}", rest(answer)) })
}

/// An answer to a close: x and P where it is accepted.
fn closed<T: Float>(call: &str, outcome: Result<(), Trouble>, filter: &Filter<T>, m: String) -> Result<Told, String> {
    let told = told(call, outcome, |done| done.map(|()| format!(" x{} P{}", bits(&filter.x), bits(&filter.p))).unwrap_or_default())?;
    let more = if told.number == 0 { format!("n={}{m}", filter.n) } else { told.more };
    Ok(Told { more, ..told })
}

/// The bits of a number; every NaN is written alike.
pub fn bits_of<T: Float>(number: T) -> u64 {
    if number.is_nan() {
        T::NAN_BITS
    } else {
        number.bits()
    }
}

/// Each number's bits with a blank before it.
pub fn bits<T: Float>(numbers: &[T]) -> String {
    numbers.iter().map(|number| format!(" {:01$x}", bits_of(*number), T::HEX)).collect()
}

/// Bytes as a script has them, two digits each.
pub fn hex(bytes: &[u8]) -> String {
    match bytes {
        [] => "-".into(),
        _ => bytes.iter().map(|byte| format!("{byte:02x}")).collect(),
    }
}

fn dumped<T: Float>(filter: &Filter<T>) -> String {
    let kinds: String = filter
        .kinds
        .iter()
        .map(|kind| match kind.half() {
            None => " p".to_string(),
            Some(h) => format!(" t{}", bits(&[h])),
        })
        .collect();
    let open = match filter.open {
        Open::Nothing => '-',
        Open::Prediction(_) => 'p',
        Open::Correction(_) => 'c',
    };
    format!(
        "n {} x{} P{} Q{} par{} kinds{} w{} pts{} stale {} open {} dw{} dpts{}",
        filter.n,
        bits(&filter.x),
        bits(&filter.p),
        bits(&filter.q),
        bits(&filter.par.numbers()),
        kinds,
        bits(&filter.weights),
        bits(&filter.points),
        u8::from(filter.stale),
        open,
        bits(&filter.drawn_weights),
        bits(&filter.drawn_points),
    )
}

/// In which way a call is open, and what it keeps where that is the stepped one.
fn dumped_steps<T: Float>(filter: &Filter<T>) -> String {
    let way = match filter.open.way() {
        None => '-',
        Some(Way::Whole) => 'w',
        Some(Way::Stepped) => 's',
    };
    let kept = &filter.kept;
    format!(" way {way} at {} asked {} m {} img{}", kept.at, u8::from(kept.asked), kept.m, bits(&kept.images))
}

/// Calls that are lent a buffer.
enum Lent {
    OpenP,
    OpenC,
    X,
    P,
    Q,
    Points,
    /// Of a stepped call, the next one.
    Point,
}

enum Setting<T> {
    X(Vec<T>),
    P(Vec<T>),
    Q(Vec<T>),
    Par(Params<T>),
    Kind(u64, Kind<T>),
}

impl<T: Float> Setting<T> {
    fn name(&self) -> &'static str {
        match self {
            Setting::X(_) => "setx",
            Setting::P(_) => "setp",
            Setting::Q(_) => "setq",
            Setting::Par(_) => "setpar",
            Setting::Kind(..) => "setkind",
        }
    }

    fn put(&self, filter: &mut Filter<T>) -> Result<(), Trouble> {
        match self {
            Setting::X(x) => filter.set_x(x),
            Setting::P(p) => filter.set_p(p),
            Setting::Q(q) => filter.set_q(q),
            Setting::Par(par) => filter.set_params(*par),
            Setting::Kind(i, kind) => filter.set_kind(*i, *kind),
        }
    }

    /// What it would be refused by on a filter like this one with nothing open.
    fn fault(&self, filter: &Filter<T>) -> Option<u8> {
        let new = Filter::new(filter.n as u64, &filter.x, &filter.p, &filter.q, filter.par);
        match new.and_then(|mut new| self.put(&mut new)) {
            Err(Trouble::Refused(refusal)) => Some(refusal.number()),
            _ => None,
        }
    }
}

/// Calls on a filter, be it a side.
enum OnFilter<T> {
    Set(Setting<T>),
    Abandon,
    Lent(Lent, u64),
    CloseP(Vec<T>),
    CloseC(u64, Vec<T>, Vec<T>, [Kind<T>; 4], Vec<T>),
    CloseF(u64, Vec<T>, Vec<T>, Vec<T>),
    StepOpenP,
    StepOpenC,
    ImageP(Vec<T>),
    ImageC(u64, Vec<T>),
    StepCloseP,
    StepCloseC(u64, Vec<T>, Vec<T>, [Kind<T>; 4]),
    StepCloseF(u64, Vec<T>, Vec<T>),
    /// With so many bytes lent.
    Save(u64),
    ReadPar,
    ReadStale,
    Dump,
    /// A dump that says nothing of steps.
    NarrowDump,
}

impl<T: Float> OnFilter<T> {
    fn name(&self) -> &'static str {
        match self {
            OnFilter::Set(setting) => setting.name(),
            OnFilter::Abandon => "abandon",
            OnFilter::Lent(Lent::OpenP, _) => "openp",
            OnFilter::Lent(Lent::OpenC, _) => "openc",
            OnFilter::Lent(Lent::X, _) => "readx",
            OnFilter::Lent(Lent::P, _) => "readp",
            OnFilter::Lent(Lent::Q, _) => "readq",
            OnFilter::Lent(Lent::Points, _) => "readpts",
            OnFilter::CloseP(_) => "closep",
            OnFilter::CloseC(..) => "closec",
            OnFilter::CloseF(..) => "closef",
            OnFilter::Lent(Lent::Point, _) => "ask",
            OnFilter::StepOpenP => "sopenp",
            OnFilter::StepOpenC => "sopenc",
            OnFilter::ImageP(_) => "imagep",
            OnFilter::ImageC(..) => "imagec",
            OnFilter::StepCloseP => "sclosep",
            OnFilter::StepCloseC(..) => "sclosec",
            OnFilter::StepCloseF(..) => "sclosef",
            OnFilter::Save(_) => "save",
            OnFilter::ReadPar => "readpar",
            OnFilter::ReadStale => "readstale",
            OnFilter::Dump | OnFilter::NarrowDump => "dump",
        }
    }
}

/// The calls that there are for each width by itself.
enum Call<T> {
    New(u64, Vec<T>, Vec<T>, Vec<T>, Params<T>),
    On(OnFilter<T>),
    Point(u64, u64, Vec<T>),
    Wrap(T, T),
    Root(T),
}

/// A line that is a call.
enum Line {
    Solo(Call<f64>),
    Narrow(Call<f32>),
    NewPair(u64, Vec<f64>, Vec<f64>, Vec<f64>, Vec<f64>, Vec<f64>, Params<f64>),
    /// What is read is the solo filter from then on.
    Load(Vec<u8>),
    Side(Side, OnFilter<f64>),
}

impl Line {
    /// Whether the table tells what had to wait for its answer.
    fn has_order(&self) -> bool {
        match self {
            Line::Solo(Call::On(call)) | Line::Side(_, call) => STEPPED.contains(&call.name()) || call.name() == "save",
            Line::Load(_) => true,
            _ => false,
        }
    }
}

/// Reads a line whole before anything is done.
fn read(word: &[u8], mut tokens: Tokens) -> Result<Line, Bad> {
    let t = &mut tokens;
    let line = match word {
        b"newpair" => Line::NewPair(t.size()?, t.list()?, t.list()?, t.list()?, t.list()?, t.list()?, t.params()?),
        b"load" => Line::Load(t.bytes()?),
        b"@1" => Line::Side(Side::One, t.named(Tokens::on_filter)?),
        b"@2" => Line::Side(Side::Two, t.named(Tokens::on_filter)?),
        b"@w" => Line::Narrow(t.named(Tokens::narrow)?),
        _ => Line::Solo(t.call(word)?),
    };
    match tokens.next() {
        None => Ok(line),
        Some(_) => Err(Bad),
    }
}

/// The tokens of a line: parted by blanks (spaces, tabs and carriage returns), up to a `#`.
struct Tokens<'a> {
    rest: &'a [u8],
}

impl<'a> Tokens<'a> {
    fn of(line: &'a [u8]) -> Self {
        let end = line.iter().position(|b| *b == b'#').unwrap_or(line.len());
        Tokens { rest: &line[..end] }
    }

    fn next(&mut self) -> Option<&'a [u8]> {
        let blank = |b: &u8| matches!(*b, b' ' | b'\t' | b'\r');
        let start = self.rest.iter().position(|b| !blank(b))?;
        let rest = &self.rest[start..];
        let end = rest.iter().position(blank).unwrap_or(rest.len());
        self.rest = &rest[end..];
        Some(&rest[..end])
    }

    /// A call whose name is still to come.
    fn named<A>(&mut self, call: impl Fn(&mut Self, &[u8]) -> Result<A, Bad>) -> Result<A, Bad> {
        let word = self.next().ok_or(Bad)?;
        call(self, word)
    }

    /// A call of the f32 filter, which has no flat close, no steps and no records.
    fn narrow(&mut self, word: &[u8]) -> Result<Call<f32>, Bad> {
        match word {
            b"dump" => Ok(Call::On(OnFilter::NarrowDump)),
            _ if is_wide(word) => Err(Bad),
            _ => self.call(word),
        }
    }

    fn call<T: Float>(&mut self, word: &[u8]) -> Result<Call<T>, Bad> {
        Ok(match word {
            b"new" => Call::New(self.size()?, self.list()?, self.list()?, self.list()?, self.params()?),
            b"point" => Call::Point(self.size()?, self.size()?, self.list()?),
            b"wrap" => Call::Wrap(self.float()?, self.float()?),
            b"root" => Call::Root(self.float()?),
            _ => Call::On(self.on_filter(word)?),
        })
    }

    fn on_filter<T: Float>(&mut self, word: &[u8]) -> Result<OnFilter<T>, Bad> {
        Ok(match word {
            b"setx" => OnFilter::Set(Setting::X(self.list()?)),
            b"setp" => OnFilter::Set(Setting::P(self.list()?)),
            b"setq" => OnFilter::Set(Setting::Q(self.list()?)),
            b"setpar" => OnFilter::Set(Setting::Par(self.params()?)),
            b"setkind" => OnFilter::Set(Setting::Kind(self.size()?, self.kind()?)),
            b"abandon" => OnFilter::Abandon,
            b"openp" => OnFilter::Lent(Lent::OpenP, self.length()?),
            b"openc" => OnFilter::Lent(Lent::OpenC, self.length()?),
            b"readx" => OnFilter::Lent(Lent::X, self.length()?),
            b"readp" => OnFilter::Lent(Lent::P, self.length()?),
            b"readq" => OnFilter::Lent(Lent::Q, self.length()?),
            b"readpts" => OnFilter::Lent(Lent::Points, self.length()?),
            b"closep" => OnFilter::CloseP(self.list()?),
            b"closec" => OnFilter::CloseC(self.size()?, self.list()?, self.list()?, self.kinds()?, self.list()?),
            b"closef" => OnFilter::CloseF(self.size()?, self.list()?, self.list()?, self.list()?),
            b"sopenp" => OnFilter::StepOpenP,
            b"sopenc" => OnFilter::StepOpenC,
            b"ask" => OnFilter::Lent(Lent::Point, self.length()?),
            b"imagep" => OnFilter::ImageP(self.list()?),
            b"imagec" => OnFilter::ImageC(self.size()?, self.list()?),
            b"sclosep" => OnFilter::StepCloseP,
            b"sclosec" => OnFilter::StepCloseC(self.size()?, self.list()?, self.list()?, self.kinds()?),
            b"sclosef" => OnFilter::StepCloseF(self.size()?, self.list()?, self.list()?),
            b"save" => OnFilter::Save(self.size_to(BYTES)?),
            b"readpar" => OnFilter::ReadPar,
            b"readstale" => OnFilter::ReadStale,
            b"dump" => OnFilter::Dump,
            _ => return Err(Bad),
        })
    }

    /// A decimal below 2^64.
    fn size(&mut self) -> Result<u64, Bad> {
        let token = self.next().ok_or(Bad)?;
        let mut size: u64 = 0;
        for b in token {
            if !b.is_ascii_digit() {
                return Err(Bad);
            }
            size = size.checked_mul(10).and_then(|size| size.checked_add(u64::from(b - b'0'))).ok_or(Bad)?;
        }
        Ok(size)
    }

    fn size_to(&mut self, most: u64) -> Result<u64, Bad> {
        let size = self.size()?;
        if size > most {
            return Err(Bad);
        }
        Ok(size)
    }

    /// A length of a list or a buffer of numbers.
    fn length(&mut self) -> Result<u64, Bad> {
        self.size_to(LIST)
    }

    /// Two hex digits a byte, or `-` for none.
    fn bytes(&mut self) -> Result<Vec<u8>, Bad> {
        let token = self.next().ok_or(Bad)?;
        if token == b"-" {
            return Ok(vec![]);
        }
        if token.len() % 2 != 0 || token.len() as u64 > 2 * BYTES {
            return Err(Bad);
        }
        let digit = |b: u8| (b as char).to_digit(16).ok_or(Bad);
        token.chunks(2).map(|two| Ok((digit(two[0])? << 4 | digit(two[1])?) as u8)).collect()
    }

    /// As many hex digits as the width has.
    fn float<T: Float>(&mut self) -> Result<T, Bad> {
        let token = self.next().ok_or(Bad)?;
        if token.len() != T::HEX {
            return Err(Bad);
        }
        let mut bits: u64 = 0;
        for b in token {
            let digit = (*b as char).to_digit(16).ok_or(Bad)?;
            bits = bits << 4 | u64::from(digit);
        }
        Ok(T::of_bits(bits))
    }

    fn list<T: Float>(&mut self) -> Result<Vec<T>, Bad> {
        let length = self.length()?;
        (0..length).map(|_| self.float()).collect()
    }

    fn params<T: Float>(&mut self) -> Result<Params<T>, Bad> {
        Ok(Params { alpha: self.float()?, beta: self.float()?, kappa: self.float()? })
    }

    fn kind<T: Float>(&mut self) -> Result<Kind<T>, Bad> {
        match self.next() {
            Some(b"p") => Ok(Kind::Plain),
            Some(b"t") => Ok(Kind::Turn(self.float()?)),
            _ => Err(Bad),
        }
    }

    /// Four KINDs.
    fn kinds<T: Float>(&mut self) -> Result<[Kind<T>; 4], Bad> {
        Ok([self.kind()?, self.kind()?, self.kind()?, self.kind()?])
    }
}
