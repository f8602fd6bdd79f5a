//! Compares the proved library with the Rust code on inputs made from a seed, and runs the vectors on both.
//!
//!     compare [--seed N] [--count N] [--vectors FOLDER]
//!
//! Every byte of what is lent is compared: the answer's buffer, with the bytes after the text and about the buffer; the job
//! and the sheet, which no answer may change; and the buffer of a rewritten job, with the bytes about it. Our answer to a
//! rewritten job is compared with the one that the old rules gave to the job. The values of a job text that reads are written
//! back by both sides. For a job without a sheet of its own two claimed answer texts are checked. Besides, a quarter as many
//! jobs are made as values and written, and what was written is read back. The exit status is 1 where anything differs.

use std::path::Path;
use std::process::ExitCode;

use bench::generate::{self, OwnSheet};
use bench::random::Random;
use bench::{linked, reference, rows, Basis, Calls, Head, Sheet, Written, JOB_ROOM, ROOM};

/// Bytes that stand on each side of a lent buffer, in the same allocation.
const MARGIN: usize = 24;

/// How many inputs were compared, and how many of them differed.
#[derive(Default)]
struct Count {
    compared: u64,
    differed: u64,
}

#[derive(Default)]
struct Seen {
    /// Job texts, sheets and readings; and jobs as values.
    inputs: Count,
    values: Count,
    /// How often each number was given back by a job, by a sheet's percent, by a reading and by the writing of a job.
    jobs: [u64; 18],
    percents: [u64; 18],
    readings: [u64; 18],
    writes: [u64; 18],
    /// How often each basis stood in the text of a granted job and beside a granted percent, and each list beside
    /// refusal 5 of a percent.
    job_bases: [u64; 5],
    percent_bases: [u64; 5],
    lists: [u64; 4],
    too_short: u64,
    longest: usize,
    /// How many job texts the rewriting changed, how many of these the old rules answer otherwise, and how many texts with a U
    /// it left as they came.
    rewritten: u64,
    answered_otherwise: u64,
    left: u64,
    /// How many job texts read and were written back from their values, and how many written texts read back.
    written_back: u64,
    read_back: u64,
    /// How many claimed answer texts were wrong in each line, and right (0); and how many stopped after whole right lines.
    checks: [u64; 9],
    stopped_early: u64,
    /// The answer text of the job before.
    another: Vec<u8>,
}

impl Count {
    fn note(&mut self, same: bool, what: impl FnOnce() -> String) {
        self.compared += 1;
        if !same {
            self.differed += 1;
            if self.differed <= 10 {
                println!("differs: {}", what());
            }
        }
    }
}

fn shown(text: &[u8]) -> String {
    String::from_utf8_lossy(text).escape_debug().to_string()
}

/// The number on the first line of an answer text.
fn number_of(text: &[u8]) -> usize {
    text.iter().skip(7).take_while(|b| b.is_ascii_digit()).fold(0, |n, b| n * 10 + (b - b'0') as usize)
}

/// The basis in an answer text, where it is that of a granted job.
fn basis_of(text: &[u8]) -> Option<Basis> {
    let word = text.split(|&byte| byte == b'\n').find_map(|line| line.strip_prefix(b"basis="))?;
    Basis::of_word(std::str::from_utf8(word).ok()?)
}

fn answered(sheet: Option<Sheet>, job: &[u8], ours: bool, text: &mut [u8]) -> usize {
    match (sheet, ours) {
        (None, true) => linked::answer(job, text),
        (None, false) => reference::answer(job, text),
        (Some(sheet), true) => linked::answer_on(job, sheet, text),
        (Some(sheet), false) => reference::answer_on(job, sheet, text),
    }
}

/// A job's rewriting, with Us about the buffer that it stands in.
fn rewritten(job: &[u8], rewrite: fn(&mut [u8])) -> Vec<u8> {
    let margin = [b'U'; MARGIN];
    let mut buffer = [&margin, job, &margin].concat();
    rewrite(&mut buffer[MARGIN..MARGIN + job.len()]);
    buffer
}

/// What differs in the rewriting of a job that is answered `text`, or in the answer to the rewriting, if anything does.
fn rewriting_differs(seen: &mut Seen, job: &[u8], sheet: Option<Sheet>, text: &[u8]) -> Option<String> {
    let (ours, theirs) = (rewritten(job, linked::rewrite), rewritten(job, reference::rewrite));
    let (mut our_text, mut old_text) = ([0; 256], [0; 256]);
    let our_length = answered(sheet, &ours[MARGIN..MARGIN + job.len()], true, &mut our_text);
    let old_length = reference::old_answer(job, sheet, &mut old_text);
    let (our_text, old_text) = (&our_text[..our_length], &old_text[..old_length]);
    if theirs[MARGIN..MARGIN + job.len()] != *job {
        seen.rewritten += 1;
        seen.answered_otherwise += (old_text != text) as u64;
    } else {
        seen.left += job.contains(&b'U') as u64;
    }
    (ours != theirs || our_text != old_text).then(|| {
        format!(
            "; rewritten \"{}\" and answered \"{}\", and by the Rust code \"{}\", by the old rules \"{}\"",
            shown(&ours),
            shown(our_text),
            shown(&theirs),
            shown(old_text)
        )
    })
}

/// What differs where a job text that reads is written back from its values, if anything does.
fn writing_back_differs(seen: &mut Seen, job: &[u8]) -> Option<String> {
    let (head, areas) = reference::values(job)?;
    seen.written_back += 1;
    let expected = (Written::granted(job.len()), [job, &[b'#'; MARGIN]].concat());
    let written = |calls: &Calls| {
        let mut buffer = vec![b'#'; job.len() + MARGIN];
        ((calls.write)(&head, &areas, &mut buffer), buffer)
    };
    let (ours, theirs) = (written(&linked::CALLS), written(&reference::CALLS));
    (ours != expected || theirs != expected).then(|| {
        format!(
            "; written back {:?} \"{}\", and by the Rust code {:?} \"{}\"",
            ours.0,
            shown(&ours.1),
            theirs.0,
            shown(&theirs.1)
        )
    })
}

/// What differs in the checks of two texts that are claimed for a job that is answered `right`, if anything does.
fn checks_differ(seen: &mut Seen, random: &mut Random, job: &[u8], right: &[u8]) -> Option<String> {
    let mut differing = None;
    for _ in 0..2 {
        let claimed = generate::claimed(random, right, &seen.another);
        // Behind a text that stops early stands the rest of the right one, which is no part of it.
        let length = claimed.len();
        let buffer = [&claimed[..], &right[length.min(right.len())..], &[b'\n'; MARGIN]].concat();
        let copy = buffer.clone();
        let ours = linked::check(job, &buffer[..length]);
        let theirs = reference::check(job, &buffer[..length]);
        seen.checks[theirs.line as usize] += 1;
        seen.stopped_early += (theirs.line > 0 && theirs.from == length) as u64;
        if ours != theirs || buffer != copy {
            let check = format!("; \"{}\" checked {:?}, and by the Rust code {:?}", shown(&claimed), ours, theirs);
            differing = Some(check);
        }
    }
    seen.another = right.to_vec();
    differing
}

fn compare_job(seen: &mut Seen, random: &mut Random, job: Vec<u8>, lent: Option<&OwnSheet>) {
    let sheet = lent.map(OwnSheet::lend);
    let (copy, sheet_copy) = (job.clone(), lent.cloned());
    let mut whole = [0; 256];
    let length = answered(sheet, &job, false, &mut whole);
    seen.jobs[number_of(&whole[..length])] += 1;
    if let Some(basis) = basis_of(&whole[..length]) {
        seen.job_bases[basis as usize] += 1;
    }
    seen.longest = seen.longest.max(job.len());
    let rewriting = rewriting_differs(seen, &job, sheet, &whole[..length]);
    let writing = writing_back_differs(seen, &job);
    let check = match lent {
        None => checks_differ(seen, &mut random.apart(), &job, &whole[..length]),
        Some(_) => None,
    };
    let room = match random.below(6) {
        0 => random.below(length as u64 + 1) as usize,
        1 => length,
        2 => length - 1,
        3 => length + 1,
        _ => length + random.below(200) as usize,
    };
    let before: Vec<u8> = (0..room + 2 * MARGIN).map(|_| random.next() as u8).collect();
    let (mut ours, mut theirs) = (before.clone(), before);
    let our_length = answered(sheet, &job, true, &mut ours[MARGIN..MARGIN + room]);
    let their_length = answered(sheet, &job, false, &mut theirs[MARGIN..MARGIN + room]);
    seen.too_short += (their_length == 0) as u64;
    let (our_part, their_part) = (linked::fault(&job), reference::fault(&job));
    let kept = job == copy && lent == sheet_copy.as_ref();
    let same = our_length == their_length && ours == theirs && our_part == their_part;
    seen.inputs.note(same && kept && rewriting.is_none() && writing.is_none() && check.is_none(), || {
        format!(
            "job \"{}\" with {:?} and room {}: {} \"{}\" {:?}, and the Rust code {} \"{}\" {:?}{}{}{}",
            shown(&copy),
            sheet_copy,
            room,
            our_length,
            shown(&ours[MARGIN..MARGIN + our_length.min(room)]),
            our_part,
            their_length,
            shown(&theirs[MARGIN..MARGIN + their_length]),
            their_part,
            rewriting.unwrap_or_default(),
            writing.unwrap_or_default(),
            check.unwrap_or_default()
        )
    });
}

fn compare_sheet(seen: &mut Seen, random: &mut Random, own: &OwnSheet) {
    let sheet = own.lend();
    let copy = own.clone();
    let (mix, rate, depth) = (random.one_in(2), generate::rate_for(random, sheet), generate::depth_for(random, sheet));
    let ours = (linked::sheet(sheet), linked::percent(sheet, mix, rate, depth));
    let theirs = (reference::sheet(sheet), reference::percent(sheet, mix, rate, depth));
    seen.percents[theirs.1.answer as usize] += 1;
    match theirs.1.answer {
        0 => seen.percent_bases[theirs.1.basis as usize] += 1,
        5 => seen.lists[theirs.1.list as usize] += 1,
        _ => {}
    }
    seen.inputs.note(ours == theirs && *own == copy, || {
        format!("{:?} mix {} rate {} depth {}: {:?}, and the Rust code {:?}", copy, mix, rate, depth, ours, theirs)
    });
}

fn compare_reading(seen: &mut Seen, random: &mut Random) {
    let (millimetres, reading) = (random.one_in(2), generate::reading(random));
    let ours = linked::reading(millimetres, reading);
    let theirs = reference::reading(millimetres, reading);
    seen.readings[theirs.answer as usize] += 1;
    seen.inputs.note(ours == theirs, || {
        format!("reading {:#x} mm {}: {:?}, and the Rust code {:?}", reading.to_bits(), millimetres, ours, theirs)
    });
}

/// Whether a written text reads as the values that it was written from, and is not answered as one that does not read.
fn reads_back(text: &[u8], head: &Head, areas: &[u64]) -> bool {
    let mut answer = [0; ROOM];
    let length = linked::answer(text, &mut answer);
    let read = ![1, 2, 3, 14].contains(&number_of(&answer[..length]));
    read && reference::values(text) == Some((*head, areas.to_vec()))
}

fn compare_values(seen: &mut Seen, random: &mut Random) {
    let (head, areas) = if random.one_in(2) { generate::values(random) } else { generate::damaged_values(random) };
    let copy = areas.clone();
    let length = reference::write(&head, &areas, &mut [0; JOB_ROOM]).len;
    let room = match random.below(6) {
        0 => 0,
        1 => length,
        2 => length.saturating_sub(1),
        3 => random.below(length as u64 + 1) as usize,
        _ => length + random.below(JOB_ROOM as u64) as usize,
    };
    let before: Vec<u8> = (0..room + 2 * MARGIN).map(|_| random.next() as u8).collect();
    let (mut ours, mut theirs) = (before.clone(), before);
    let our_answer = linked::write(&head, &areas, &mut ours[MARGIN..MARGIN + room]);
    let their_answer = reference::write(&head, &areas, &mut theirs[MARGIN..MARGIN + room]);
    seen.writes[their_answer.answer as usize] += 1;
    let text = &ours[MARGIN..MARGIN + our_answer.len.min(room)];
    let read = our_answer.answer == 0 && reads_back(text, &head, &areas);
    seen.read_back += read as u64;
    let same = our_answer == their_answer && ours == theirs && read == (their_answer.answer == 0);
    seen.values.note(same && areas == copy, || {
        format!(
            "{:?} with {:?} and room {}: {:?} \"{}\", and the Rust code {:?} \"{}\"; it reads back: {}",
            head,
            copy,
            room,
            our_answer,
            shown(text),
            their_answer,
            shown(&theirs[MARGIN..MARGIN + their_answer.len]),
            read
        )
    });
}

fn compare_one(seen: &mut Seen, random: &mut Random) {
    match random.below(20) {
        0..=4 => {
            let job = generate::job(random);
            compare_job(seen, random, job, None)
        }
        5..=9 => {
            let job = generate::damaged(random);
            compare_job(seen, random, job, None)
        }
        10 => {
            let length = random.below(120);
            let job = (0..length).map(|_| random.pick(b"practice=basin\n0123456789,-\xff")).collect();
            compare_job(seen, random, job, None)
        }
        11..=14 => {
            let own = if random.one_in(8) { generate::broken_sheet(random) } else { generate::sheet(random) };
            let job = generate::job_for(random, own.lend());
            compare_job(seen, random, job, Some(&own))
        }
        15 | 16 => {
            let own = generate::sheet(random);
            compare_sheet(seen, random, &own)
        }
        17 => {
            let own = generate::broken_sheet(random);
            compare_sheet(seen, random, &own)
        }
        _ => compare_reading(seen, random),
    }
}

fn told(numbers: &[u64]) -> String {
    let pairs = numbers.iter().enumerate().filter(|(_, &count)| count > 0);
    pairs.map(|(number, count)| format!("{}: {}", number, count)).collect::<Vec<_>>().join(", ")
}

fn told_bases(numbers: &[u64; 5]) -> String {
    let pairs = Basis::ALL.iter().zip(numbers).filter(|(_, &count)| count > 0);
    pairs.map(|(basis, count)| format!("{}: {}", basis.word(), count)).collect::<Vec<_>>().join(", ")
}

fn main() -> ExitCode {
    let (mut seed, mut count, mut vectors) = (8, 240_000, None);
    let mut words = std::env::args().skip(1);
    while let Some(word) = words.next() {
        let value = words.next().unwrap_or_default();
        match word.as_str() {
            "--seed" => seed = value.parse().expect("--seed takes a whole number"),
            "--count" => count = value.parse().expect("--count takes a whole number"),
            "--vectors" => vectors = Some(value),
            _ => panic!("compare [--seed N] [--count N] [--vectors FOLDER]"),
        }
    }
    println!("seed {}", seed);
    let mut random = Random::from(seed);
    let mut seen = Seen::default();
    for _ in 0..count {
        compare_one(&mut seen, &mut random);
    }
    for _ in 0..count / 4 {
        compare_values(&mut seen, &mut random);
    }
    println!("{} inputs compared, {} differed", seen.inputs.compared, seen.inputs.differed);
    println!("numbers given back, by jobs: {}", told(&seen.jobs));
    println!("  by percents of a sheet: {}", told(&seen.percents));
    println!("  by readings: {}", told(&seen.readings));
    println!("bases, of granted jobs: {}", told_bases(&seen.job_bases));
    println!(
        "  of granted percents: {}; lists beside refusal 5: {}",
        told_bases(&seen.percent_bases),
        told(&seen.lists)
    );
    println!("  buffers too short for the text (13): {}; longest job text: {} bytes", seen.too_short, seen.longest);
    println!(
        "job texts with a U: {} rewritten, {} of them answered otherwise by the old rules; {} left as they came",
        seen.rewritten, seen.answered_otherwise, seen.left
    );
    println!("job texts that read: {} written back from their values", seen.written_back);
    println!(
        "claimed answer texts: {} right, {} wrong, {} of them stop after whole right lines",
        seen.checks[0],
        seen.checks[1..].iter().sum::<u64>(),
        seen.stopped_early
    );
    println!("  lines given back, by checks: {}", told(&seen.checks));
    println!("{} jobs as values compared, {} differed", seen.values.compared, seen.values.differed);
    println!("numbers given back, by writing: {}; texts read back: {}", told(&seen.writes), seen.read_back);
    let mut whole = seen.inputs.differed == 0 && seen.values.differed == 0;
    match vectors {
        None => println!("no folder of vectors was given: none was run"),
        Some(folder) => {
            for calls in [&linked::CALLS, &reference::CALLS] {
                for tally in rows::run(Path::new(&folder), calls) {
                    println!("{}: {} of {} rows held by {}", tally.kind, tally.held, tally.rows, calls.name);
                    whole &= tally.held == tally.rows;
                }
            }
        }
    }
    if whole {
        ExitCode::SUCCESS
    } else {
        ExitCode::FAILURE
    }
}
