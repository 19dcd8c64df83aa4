//! Where a filter stands between two calls: what is open and, of a stepped call, how far it is. For the table of what was met, and for who makes scripts;
//! no answer comes from here.

use crate::filter::{Filter, Open, Way};

/// The stepped calls of request A7.
pub const STEPPED: [&str; 8] = ["sopenp", "sopenc", "ask", "imagep", "imagec", "sclosep", "sclosec", "sclosef"];

/// All that can be open.
pub const OPENS: [Open; 5] = [
    Open::Nothing,
    Open::Prediction(Way::Whole),
    Open::Correction(Way::Whole),
    Open::Prediction(Way::Stepped),
    Open::Correction(Way::Stepped),
];

impl Open {
    pub const fn name(self) -> &'static str {
        match self {
            Open::Nothing => "nothing open",
            Open::Prediction(Way::Whole) => "prediction open",
            Open::Correction(Way::Whole) => "correction open",
            Open::Prediction(Way::Stepped) => "stepped prediction open",
            Open::Correction(Way::Stepped) => "stepped correction open",
        }
    }

    pub fn is_stepped(self) -> bool {
        self.way() == Some(Way::Stepped)
    }
}

/// How many images of a stepped call are in.
#[derive(Clone, Copy, Debug, PartialEq)]
pub enum Images {
    None,
    Some,
    OneMissing,
    All,
}

#[derive(Clone, Copy, Debug, PartialEq)]
pub struct Stage {
    pub open: Open,
    pub images: Images,
    pub asked: bool,
}

/// All steps of a stepped call; after the last image no point can be asked for.
const STEPS: [(Images, bool); 7] = [
    (Images::None, false),
    (Images::None, true),
    (Images::Some, false),
    (Images::Some, true),
    (Images::OneMissing, false),
    (Images::OneMissing, true),
    (Images::All, false),
];

impl Stage {
    pub fn of<T>(filter: &Filter<T>) -> Stage {
        let images = match (filter.kept.at, 2 * filter.n) {
            (0, _) => Images::None,
            (at, last) if at < last => Images::Some,
            (at, last) if at == last => Images::OneMissing,
            _ => Images::All,
        };
        Stage { open: filter.open, images, asked: filter.kept.asked }
    }

    /// All stages, those of stepped calls last.
    pub fn all() -> impl Iterator<Item = Stage> {
        OPENS.into_iter().flat_map(|open| {
            let steps = if open.is_stepped() { &STEPS[..] } else { &STEPS[..1] };
            steps.iter().map(move |(images, asked)| Stage { open, images: *images, asked: *asked })
        })
    }

    /// As the table tells it. None is the beginning of another.
    pub fn name(self) -> String {
        let images = match self.images {
            _ if !self.open.is_stepped() => return self.open.name().into(),
            Images::None => "no image in",
            Images::Some => "some images in",
            Images::OneMissing => "one image missing",
            Images::All => return format!("{}, all images in", self.open.name()),
        };
        format!("{}, {images}, {}", self.open.name(), if self.asked { "asked" } else { "not asked" })
    }

    /// Whether a call has its place here. If not, it is refused by 3.
    pub fn fits(self, call: &str) -> bool {
        let all = self.images == Images::All;
        match call {
            "openp" | "openc" | "sopenp" | "sopenc" => self.open == Open::Nothing,
            _ if call.starts_with("set") || call == "save" => self.open == Open::Nothing,
            "abandon" => self.open != Open::Nothing,
            "closep" => self.open == Open::Prediction(Way::Whole),
            "closec" | "closef" => self.open == Open::Correction(Way::Whole),
            "ask" => self.open.is_stepped() && !all,
            "imagep" => self.open == Open::Prediction(Way::Stepped) && self.asked,
            "imagec" => self.open == Open::Correction(Way::Stepped) && self.asked,
            "sclosep" => self.open == Open::Prediction(Way::Stepped) && all,
            "sclosec" | "sclosef" => self.open == Open::Correction(Way::Stepped) && all,
            _ => true,
        }
    }
}
