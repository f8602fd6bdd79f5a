//! The job text read.

use super::site::{Site, Soil, SubArea};
use crate::Part;

const MOST_BYTES: usize = 4096;
pub const MOST_DIGITS: usize = 14;

#[derive(Clone, Copy, PartialEq, Eq)]
pub enum Task {
    Load,
    Credit,
    Size,
}

pub struct Job {
    pub practice: usize,
    pub nutrient: usize,
    pub mix: bool,
    pub rate: u64,
    pub task: Task,
    pub amount: u64,
    pub site: Site,
}

/// Why a job text is refused: the number, the line, and for refusal 1 the offending part.
pub struct Fault {
    pub answer: u64,
    pub line: u64,
    pub part: Part,
}

/// A text of which the lines before `rest` are read.
struct Lines<'a> {
    text: &'a [u8],
    rest: &'a [u8],
    number: u64,
}

/// A value read off the front of a text, with what stands after it and its end.
type Read<'a, T> = Option<(T, &'a [u8])>;

impl<'a> Lines<'a> {
    /// The value of the next line, which has to start with `key`. `value` reads it with its LF.
    fn line<T>(&mut self, key: &[u8], value: impl FnOnce(&'a [u8]) -> Read<'a, T>) -> Result<T, Fault> {
        self.number += 1;
        match self.rest.strip_prefix(key).and_then(value) {
            Some((value, rest)) => {
                self.rest = rest;
                Ok(value)
            }
            None => Err(self.malformed()),
        }
    }

    /// Refusal 1 of the next line, as the part without its LF.
    #[cold]
    fn malformed(&self) -> Fault {
        let len = self.rest.iter().position(|&byte| byte == b'\n').unwrap_or(self.rest.len());
        Fault { answer: 1, line: self.number, part: Part { from: self.text.len() - self.rest.len(), len } }
    }
}

pub fn read(text: &[u8]) -> Result<Job, Fault> {
    if text.len() > MOST_BYTES {
        return Err(Fault { answer: 1, line: 0, part: Part { from: 0, len: 0 } });
    }
    let mut lines = Lines { text, rest: text, number: 0 };
    let practice = lines.line(b"practice=", practice)?;
    let nutrient = lines.line(b"nutrient=", nutrient)?;
    let mix = lines.line(b"mode=", mix)?;
    let rate = lines.line(b"rate=", number)?;
    let task = lines.line(b"task=", task)?;
    let amount = lines.line(b"amount=", number)?;
    let mut job = Job { practice, nutrient, mix, rate, task, amount, site: Site::EMPTY };
    loop {
        let part = lines.line(b"area=", sub_area)?;
        if let Err(answer) = job.site.add(part) {
            return Err(Fault { answer, line: lines.number, part: Part { from: 0, len: 0 } });
        }
        if lines.rest.is_empty() {
            return Ok(job);
        }
    }
}

/// The value of the word, given with its end, that a text starts with.
macro_rules! one_of {
    ($text:expr, $($word:literal => $value:expr),* $(,)?) => {{
        $(if let Some(rest) = $text.strip_prefix($word) {
            return Some(($value, rest));
        })*
        None
    }};
}

fn practice(text: &[u8]) -> Read<'_, usize> {
    one_of!(
        text,
        b"trench\n" => 0,
        b"basin\n" => 1,
        b"biofilter\n" => 2,
        b"wetland\n" => 3,
        b"isr\n" => 4,
        b"sand\n" => 5,
        b"wetpond\n" => 6,
        b"drypond\n" => 7,
        b"swale\n" => 8,
    )
}

fn nutrient(text: &[u8]) -> Read<'_, usize> {
    one_of!(text, b"P\n" => 0, b"N\n" => 1)
}

fn mix(text: &[u8]) -> Read<'_, bool> {
    one_of!(text, b"step\n" => false, b"mix\n" => true)
}

fn task(text: &[u8]) -> Read<'_, Task> {
    one_of!(text, b"load\n" => Task::Load, b"credit\n" => Task::Credit, b"size\n" => Task::Size)
}

/// USE,COVER,SOIL,AREA
fn sub_area(text: &[u8]) -> Read<'_, SubArea> {
    let (land_use, rest) = land_use(text)?;
    let (impervious, rest) = cover(rest)?;
    let (soil, rest) = soil(rest)?;
    let (area, rest) = number(rest)?;
    Some((SubArea { land_use, impervious, soil, area }, rest))
}

fn land_use(text: &[u8]) -> Read<'_, u8> {
    one_of!(
        text,
        b"com," => 0,
        b"ind," => 1,
        b"hdr," => 2,
        b"mdr," => 3,
        b"ldr," => 4,
        b"hwy," => 5,
        b"for," => 6,
        b"open," => 7,
        b"ag," => 8,
    )
}

fn cover(text: &[u8]) -> Read<'_, bool> {
    one_of!(text, b"imp," => true, b"per," => false)
}

fn soil(text: &[u8]) -> Read<'_, Soil> {
    one_of!(
        text,
        b"A," => Soil::A,
        b"B," => Soil::B,
        b"C," => Soil::C,
        b"CD," => Soil::CD,
        b"D," => Soil::D,
        b"U," => Soil::Unknown,
        b"-," => Soil::Paved,
    )
}

/// 1 to 14 digits and LF, with no leading zero but in 0 itself.
fn number(text: &[u8]) -> Read<'_, u64> {
    let mut value = 0;
    for (place, &byte) in text.iter().enumerate() {
        if byte == b'\n' {
            let well_formed = place == 1 || (place > 1 && text[0] != b'0');
            return well_formed.then(|| (value, &text[place + 1..]));
        }
        if !byte.is_ascii_digit() || place == MOST_DIGITS {
            return None;
        }
        value = value * 10 + (byte - b'0') as u64;
    }
    None
}
