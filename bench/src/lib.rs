//! What the proved library is compared with and measured against: the same calculator written in Rust straight from
//! the rules and from document 001, sharing nothing with it.

pub mod generate;
#[cfg(feature = "linked")]
pub mod linked;
pub mod random;
pub mod reference;
pub mod rows;
pub mod tables;

/// Room for any answer text: its keys, line ends, first digit and longest word take 61 bytes, and its five numbers at most
/// 20 digits each.
pub const ROOM: usize = 161;

/// Room for any job text: its head takes at most 94 bytes, each of 32 area lines at most 18 and its digits, of which areas that
/// come to at most 1,000,000 have at most 167.
pub const JOB_ROOM: usize = 837;

/// A curve sheet: depths, rates, and percents rate by rate.
#[derive(Clone, Copy, Debug)]
pub struct Sheet<'a> {
    pub depths: &'a [u64],
    pub rates: &'a [u64],
    pub percents: &'a [u64],
}

/// A job but for its sub-areas: its rate and amount, and the codes of its words, which are places in the rules' lists, counted
/// from 0. A sub-area is four numbers beside it: the codes of its land use, cover and soil, and its area.
#[derive(Clone, Copy, Debug, PartialEq, Eq)]
pub struct Head {
    pub practice: u64,
    pub nutrient: u64,
    pub mode: u64,
    pub rate: u64,
    pub task: u64,
    pub amount: u64,
}

/// The offending part of a job text: where it starts, and its length.
#[repr(C)]
#[derive(Clone, Copy, Debug, PartialEq, Eq)]
pub struct Part {
    pub from: usize,
    pub len: usize,
}

/// What the test of a sheet answers: 0, or 5 with a list and a place in it.
#[repr(C)]
#[derive(Clone, Copy, Debug, PartialEq, Eq)]
pub struct Verdict {
    pub answer: u64,
    pub list: u64,
    pub place: u64,
}

/// A number given back and a value, which is 0 beside a refusal.
#[repr(C)]
#[derive(Clone, Copy, Debug, PartialEq, Eq)]
pub struct Value {
    pub answer: u64,
    pub value: u64,
}

impl Value {
    pub fn granted(value: u64) -> Value {
        Value { answer: 0, value }
    }

    pub fn refused(answer: u64) -> Value {
        Value { answer, value: 0 }
    }
}

/// What the writing of a job answers: the number given back, and the length of the text, which is 0 beside a refusal.
#[repr(C)]
#[derive(Clone, Copy, Debug, PartialEq, Eq)]
pub struct Written {
    pub answer: u64,
    pub len: usize,
}

impl Written {
    pub fn granted(len: usize) -> Written {
        Written { answer: 0, len }
    }

    pub fn refused(answer: u64) -> Written {
        Written { answer, len: 0 }
    }
}

/// What the check of a claimed answer text answers: 0, or the number of its first wrong line, counted from 1; and where that
/// line stands in the claimed text, without its line feed. Beside 0 that is an empty part at the end.
#[repr(C)]
#[derive(Clone, Copy, Debug, PartialEq, Eq)]
pub struct Checked {
    pub line: u64,
    pub from: usize,
    pub len: usize,
}

impl Checked {
    pub fn yes(claimed: &[u8]) -> Checked {
        Checked { line: 0, from: claimed.len(), len: 0 }
    }
}

/// How a percent was found; nothing was found for a load, or where it is refused.
#[derive(Clone, Copy, Debug, Default, PartialEq, Eq)]
pub enum Basis {
    #[default]
    None,
    Printed,
    Between,
    Start,
    Held,
}

impl Basis {
    /// All of them, each at the place of its number.
    pub const ALL: [Basis; 5] = [Basis::None, Basis::Printed, Basis::Between, Basis::Start, Basis::Held];

    pub fn word(self) -> &'static str {
        match self {
            Basis::None => "none",
            Basis::Printed => "printed",
            Basis::Between => "between",
            Basis::Start => "start",
            Basis::Held => "held",
        }
    }

    pub fn of_word(word: &str) -> Option<Basis> {
        Basis::ALL.into_iter().find(|basis| basis.word() == word)
    }
}

/// What is given back for a percent: the number, the percent and the number of its basis. Beside a refusal the last two are
/// 0, and beside refusal 5 stand the list and the place that the test of the sheet found.
#[repr(C)]
#[derive(Clone, Copy, Debug, PartialEq, Eq)]
pub struct PercentAnswer {
    pub answer: u64,
    pub percent: u64,
    pub basis: u64,
    pub list: u64,
    pub place: u64,
}

impl PercentAnswer {
    pub fn granted(percent: u64, basis: Basis) -> PercentAnswer {
        PercentAnswer { answer: 0, percent, basis: basis as u64, list: 0, place: 0 }
    }

    pub fn refused(answer: u64) -> PercentAnswer {
        PercentAnswer { answer, percent: 0, basis: Basis::None as u64, list: 0, place: 0 }
    }

    /// Refused with the verdict on a sheet that breaks a rule.
    pub fn unfit(verdict: Verdict) -> PercentAnswer {
        let Verdict { answer, list, place } = verdict;
        PercentAnswer { list, place, ..PercentAnswer::refused(answer) }
    }
}

/// The nine calls of the C interface, as either side gives them.
pub struct Calls {
    pub name: &'static str,
    /// The answer text of a job, on the published tables: its length, or 0 where the buffer is too short.
    pub answer: fn(&[u8], &mut [u8]) -> usize,
    /// The same with a lent sheet in the place of the tables.
    pub answer_on: fn(&[u8], Sheet, &mut [u8]) -> usize,
    pub fault: fn(&[u8]) -> Part,
    pub sheet: fn(Sheet) -> Verdict,
    /// The percent of a sheet in a mode (mix or step), at a rate and a depth.
    pub percent: fn(Sheet, bool, u64, u64) -> PercentAnswer,
    /// The rate of a reading in millimetres or inches per hour.
    pub reading: fn(bool, f32) -> Value,
    /// A job text rewritten where it stands, with C for an unknown soil.
    pub rewrite: fn(&mut [u8]),
    /// The text of a job, from its head and its sub-areas.
    pub write: fn(&Head, &[u64], &mut [u8]) -> Written,
    /// The first wrong line of a text that is claimed to be the answer of a job, on the published tables.
    pub check: fn(&[u8], &[u8]) -> Checked,
}
