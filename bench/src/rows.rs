//! The rows of the vectors: those of jobs.jsonl, sheets.jsonl, readings.jsonl, rewrites.jsonl, writes.jsonl and checks.jsonl
//! that a folder has, one record a line.

use std::fs;
use std::path::Path;

use crate::{Basis, Calls, Checked, Head, Part, PercentAnswer, Sheet, Value, Verdict, Written};

/// As much of JSON as the rows have.
enum Json {
    Number(u64),
    Text(String),
    List(Vec<Json>),
    Record(Vec<(String, Json)>),
}

impl Json {
    fn get(&self, key: &str) -> Option<&Json> {
        match self {
            Json::Record(fields) => fields.iter().find(|(name, _)| name == key).map(|(_, value)| value),
            _ => None,
        }
    }

    fn number(&self, key: &str) -> u64 {
        match self.get(key) {
            Some(Json::Number(n)) => *n,
            _ => panic!("a row has no number {}", key),
        }
    }

    fn text(&self, key: &str) -> &str {
        match self.get(key) {
            Some(Json::Text(s)) => s,
            _ => panic!("a row has no text {}", key),
        }
    }

    fn list(&self, key: &str) -> &[Json] {
        match self.get(key) {
            Some(Json::List(l)) => l,
            _ => panic!("a row has no list {}", key),
        }
    }

    fn numbers(&self, key: &str) -> Vec<u64> {
        let number = |json: &Json| match json {
            Json::Number(n) => *n,
            _ => panic!("{} holds more than numbers", key),
        };
        self.list(key).iter().map(number).collect()
    }
}

struct Reader<'a> {
    rest: &'a [u8],
}

impl<'a> Reader<'a> {
    fn peek(&mut self) -> u8 {
        while let [b' ', rest @ ..] = self.rest {
            self.rest = rest;
        }
        *self.rest.first().expect("a row ends early")
    }

    fn take(&mut self, byte: u8) {
        assert_eq!(self.peek(), byte, "a row is not of the form expected");
        self.rest = &self.rest[1..];
    }

    /// The items up to a closing byte, with commas between them.
    fn items(&mut self, open: u8, close: u8, mut item: impl FnMut(&mut Self)) {
        self.take(open);
        while self.peek() != close {
            item(self);
            if self.peek() == b',' {
                self.take(b',');
            }
        }
        self.take(close);
    }

    fn string(&mut self) -> String {
        self.take(b'"');
        let mut bytes = Vec::new();
        loop {
            match self.rest {
                [b'"', rest @ ..] => {
                    self.rest = rest;
                    return String::from_utf8(bytes).expect("a text is not UTF-8");
                }
                [b'\\', b'n', rest @ ..] => {
                    bytes.push(b'\n');
                    self.rest = rest;
                }
                [b'\\', ..] | [] => panic!("a text has an escape other than \\n, or no end"),
                [byte, rest @ ..] => {
                    bytes.push(*byte);
                    self.rest = rest;
                }
            }
        }
    }

    fn value(&mut self) -> Json {
        match self.peek() {
            b'"' => Json::Text(self.string()),
            b'[' => {
                let mut list = Vec::new();
                self.items(b'[', b']', |r| list.push(r.value()));
                Json::List(list)
            }
            b'{' => {
                let mut fields = Vec::new();
                self.items(b'{', b'}', |r| {
                    let name = r.string();
                    r.take(b':');
                    fields.push((name, r.value()));
                });
                Json::Record(fields)
            }
            _ => {
                let end = self.rest.iter().position(|b| !b.is_ascii_digit()).unwrap_or(self.rest.len());
                let (digits, rest) = self.rest.split_at(end);
                self.rest = rest;
                Json::Number(std::str::from_utf8(digits).unwrap().parse().expect("a number is not whole, or too large"))
            }
        }
    }
}

fn rows(path: &Path) -> Vec<Json> {
    let text = fs::read_to_string(path).unwrap_or_else(|e| panic!("{}: {}", path.display(), e));
    text.lines().map(|line| Reader { rest: line.as_bytes() }.value()).collect()
}

fn bytes_of_hex(hex: &str) -> Vec<u8> {
    let digit = |b: u8| (b as char).to_digit(16).expect("a text is not hexadecimal") as u8;
    hex.as_bytes().chunks(2).map(|pair| digit(pair[0]) * 16 + digit(pair[1])).collect()
}

/// How many rows of a kind held, and how many there were.
pub struct Tally {
    pub kind: &'static str,
    pub held: usize,
    pub rows: usize,
}

/// Whether one side holds a row.
type Holds = fn(&Calls, &Json) -> bool;

const KINDS: [(&str, Holds); 6] = [
    ("jobs", job_holds),
    ("sheets", sheet_holds),
    ("readings", reading_holds),
    ("rewrites", rewrite_holds),
    ("writes", write_holds),
    ("checks", check_holds),
];

fn tally(kind: &'static str, path: &Path, calls: &Calls, holds: Holds) -> Tally {
    let rows = rows(path);
    let mut held = 0;
    for (number, row) in rows.iter().enumerate() {
        if holds(calls, row) {
            held += 1;
        } else {
            println!("{}.jsonl, row {}: {} gives something else", kind, number + 1, calls.name);
        }
    }
    Tally { kind, held, rows: rows.len() }
}

/// Runs every row of a folder on one side.
pub fn run(folder: &Path, calls: &Calls) -> Vec<Tally> {
    let mut tallies = Vec::new();
    for (kind, holds) in KINDS {
        let path = folder.join(kind).with_extension("jsonl");
        if path.exists() {
            tallies.push(tally(kind, &path, calls, holds));
        }
    }
    assert!(!tallies.is_empty(), "{}: no file of rows", folder.display());
    tallies
}

/// A job's answer text, into a buffer that is larger, one that is just large enough, and one that is too small.
fn answers(calls: &Calls, job: &[u8], text: &[u8]) -> bool {
    [text.len() + 9, text.len(), text.len() - 1, 0].iter().all(|&room| {
        let mut buffer = vec![b'#'; room];
        let mut expected = buffer.clone();
        let length = if room < text.len() { 0 } else { text.len() };
        expected[..length].copy_from_slice(&text[..length]);
        (calls.answer)(job, &mut buffer) == length && buffer == expected
    })
}

/// A job's answer text; and the offending part, which a row gives from its first byte to the one after its last.
fn job_holds(calls: &Calls, row: &Json) -> bool {
    let job = bytes_of_hex(row.text("job"));
    let part = match row.get("part") {
        Some(_) => {
            let ends = row.numbers("part");
            Part { from: ends[0] as usize, len: (ends[1] - ends[0]) as usize }
        }
        None => Part { from: job.len(), len: 0 },
    };
    answers(calls, &job, row.text("answer").as_bytes()) && (calls.fault)(&job) == part
}

/// The verdict on a sheet and its percents with their bases, beside refusal 5 with the list and the place of the verdict.
fn sheet_holds(calls: &Calls, row: &Json) -> bool {
    let (depths, rates, percents) = (row.numbers("depths"), row.numbers("rates"), row.numbers("percents"));
    let sheet = Sheet { depths: &depths, rates: &rates, percents: &percents };
    let verdict = Verdict { answer: row.number("answer"), list: row.number("list"), place: row.number("place") };
    let asked = row.list("asked").iter().all(|asked| {
        let basis = Basis::of_word(asked.text("basis")).expect("a row has a basis of its own");
        let (answer, percent) = (asked.number("answer"), asked.number("percent"));
        let (list, place) = if answer == 5 { (verdict.list, verdict.place) } else { (0, 0) };
        let expected = PercentAnswer { answer, percent, basis: basis as u64, list, place };
        let mix = asked.text("mode") == "mix";
        (calls.percent)(sheet, mix, asked.number("rate"), asked.number("depth")) == expected
    });
    asked && (calls.sheet)(sheet) == verdict
}

fn reading_holds(calls: &Calls, row: &Json) -> bool {
    let value = Value { answer: row.number("answer"), value: row.number("rate") };
    (calls.reading)(row.text("unit") == "mm", f32::from_bits(row.number("bits") as u32)) == value
}

/// A job's rewriting, and the answer text of the rewriting.
fn rewrite_holds(calls: &Calls, row: &Json) -> bool {
    let mut job = bytes_of_hex(row.text("job"));
    (calls.rewrite)(&mut job);
    job == bytes_of_hex(row.text("rewritten")) && answers(calls, &job, row.text("answer").as_bytes())
}

/// A job's writing into a buffer of some room.
fn write_holds(calls: &Calls, row: &Json) -> bool {
    let (job, areas, text) = (row.numbers("job"), row.numbers("areas"), bytes_of_hex(row.text("text")));
    let head = Head { practice: job[0], nutrient: job[1], mode: job[2], rate: job[3], task: job[4], amount: job[5] };
    let mut buffer = vec![b'#'; row.number("room") as usize];
    let mut expected = buffer.clone();
    expected[..text.len()].copy_from_slice(&text);
    let written = Written { answer: row.number("answer"), len: text.len() };
    (calls.write)(&head, &areas, &mut buffer) == written && buffer == expected
}

/// The check of a claimed answer text: its first wrong line, from its first byte to the one after its last.
fn check_holds(calls: &Calls, row: &Json) -> bool {
    let (job, claimed) = (bytes_of_hex(row.text("job")), bytes_of_hex(row.text("claimed")));
    let (from, to) = (row.number("from") as usize, row.number("to") as usize);
    (calls.check)(&job, &claimed) == Checked { line: row.number("line"), from, len: to - from }
}
