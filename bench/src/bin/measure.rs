//! Runs one job over and over on one side, so that its cost can be counted.
//!
//!     measure ours|rust KIND COUNT     the nanoseconds of a job, the least of five rounds of COUNT
//!     measure ours|rust KIND stack     the bytes of stack that a job takes
//!     measure text KIND                the text of a job that is answered
//!
//! A job of the kinds load, credit, size and refused is answered, from its text to its answer text; one of the kinds write-3
//! and write-32 is written, from its values to its text. The caller lends one buffer for that to every run, and clears it
//! for none. For the kinds check-load, check-credit, check-size and check-refused the right answer of that job is checked, for
//! check-100 and check-10000000 a text of so many bytes whose first line, a short one, is wrong.

use std::time::Instant;

use bench::generate::longest;
#[cfg(feature = "linked")]
use bench::linked;
use bench::{reference, Checked, Head, Written, JOB_ROOM, ROOM};

/// The job text of a kind: the load job of jobs/sample.job, the same with a land use that does not exist in its
/// last line, or a credit or a sizing on 32 sub-areas of every land use and soil.
fn text(kind: &str) -> String {
    if kind == "refused" {
        return text("load").replace("area=for", "area=fir");
    }
    let (head, areas) = match kind {
        "load" => sample(),
        "credit" => several(1, 48_155_000_000),
        "size" => several(2, 70_000),
        _ => panic!("{} is no kind", kind),
    };
    let mut text = vec![0; JOB_ROOM];
    let written = reference::write(&head, &areas, &mut text);
    text.truncate(written.len);
    String::from_utf8(text).unwrap()
}

/// The values of jobs/sample.job.
fn sample() -> (Head, Vec<u64>) {
    let head = Head { practice: 1, nutrient: 1, mode: 0, rate: 0, task: 0, amount: 0 };
    (head, vec![1, 0, 6, 1013, 0, 1, 2, 185, 6, 1, 2, 89])
}

/// A basin for phosphorus on 32 sub-areas, impervious and pervious in turn.
fn several(task: u64, amount: u64) -> (Head, Vec<u64>) {
    let head = Head { practice: 1, nutrient: 0, mode: 1, rate: 39, task, amount };
    let part = |k: u64| if k % 2 == 0 { [k % 9, 0, 6, 1000 + k] } else { [k % 9, 1, k % 6, 1000 + k] };
    (head, (0..32).flat_map(part).collect())
}

/// The same value, which the compiler can no longer know.
fn opaque<T: Copy>(value: T) -> T {
    unsafe { std::ptr::read_volatile(&value) }
}

/// The values of a kind: those of jobs/sample.job, or of the longest text.
fn values(kind: &str) -> Option<(Head, Vec<u64>)> {
    match kind {
        "write-3" => Some(sample()),
        "write-32" => Some(longest()),
        _ => None,
    }
}

/// The job of a kind of check and what is claimed to be its answer.
fn claimed(kind: &str) -> Option<(Vec<u8>, Vec<u8>)> {
    let word = kind.strip_prefix("check-")?;
    if let Ok(length) = word.parse() {
        let mut claimed = vec![0; length];
        claimed[..9].copy_from_slice(b"answer=1\n");
        return Some((text("load").into_bytes(), claimed));
    }
    let job = text(word).into_bytes();
    let mut claimed = vec![0; ROOM];
    let length = reference::answer(&job, &mut claimed);
    claimed.truncate(length);
    Some((job, claimed))
}

type Answer = fn(&[u8], &mut [u8]) -> usize;
type Write = fn(&Head, &[u64], &mut [u8]) -> Written;
type Check = fn(&[u8], &[u8]) -> Checked;

/// A call of one side and what it is given: the text of a job to be answered, the values of one to be written, or the text of a
/// job and one that is claimed to be its answer.
enum Work {
    Answer(Answer, Vec<u8>),
    Write(Write, Head, Vec<u64>),
    Check(Check, Vec<u8>, Vec<u8>),
}

impl Work {
    fn of(kind: &str, answer: Answer, write: Write, check: Check) -> Work {
        if let Some((head, areas)) = values(kind) {
            return Work::Write(opaque(write), head, areas);
        }
        if let Some((job, claimed)) = claimed(kind) {
            return Work::Check(opaque(check), job, claimed);
        }
        Work::Answer(opaque(answer), text(kind).into_bytes())
    }

    /// The length of the text that is written into `room`, or of the line that is wrong.
    fn run(&self, room: &mut [u8]) -> usize {
        match self {
            Work::Answer(answer, job) => answer(job, room),
            Work::Write(write, head, areas) => write(head, areas, room).len,
            Work::Check(check, job, claimed) => check(job, claimed).len,
        }
    }
}

/// The bytes of stack below the caller's that a call takes. It runs on a stack of its own, which is painted
/// beforehand: what has lost its paint afterwards was used. Less what calling a function that does nothing uses. Bytes
/// that a function reserves and never writes do not show below its deepest call.
#[cfg(target_arch = "x86_64")]
fn stack(work: &Work) -> usize {
    const SIZE: usize = 1 << 18;
    struct Call<'a> {
        work: &'a Work,
        room: [u8; JOB_ROOM],
    }
    extern "C" fn run(call: &mut Call) {
        opaque(call.work.run(&mut call.room));
    }
    fn nothing(_: &[u8], _: &mut [u8]) -> usize {
        0
    }
    let used = |work: &Work, paint: u8| {
        let mut painted = vec![paint; SIZE];
        let mut call = Call { work, room: [0; JOB_ROOM] };
        // Safe where it takes less than SIZE bytes: run returns and keeps r12, as every C function does, and the top is
        // aligned to 16.
        unsafe {
            let top = painted.as_mut_ptr().add(SIZE);
            std::arch::asm!(
                "mov r12, rsp",
                "mov rsp, {top}",
                "call {run}",
                "mov rsp, r12",
                top = in(reg) top.sub(top as usize % 16),
                run = in(reg) run as extern "C" fn(&mut Call),
                in("rdi") &mut call,
                out("r12") _,
                clobber_abi("C"),
            );
        }
        let lowest = painted.iter().position(|byte| *byte != paint).expect("a return address");
        assert_ne!(lowest, 0, "the stack was too small");
        SIZE - lowest
    };
    // A byte that is stored in the paint's own colour shows under the other one. What a first call alone does is done.
    opaque(work.run(&mut [0; JOB_ROOM]));
    let deepest = |work| used(work, 0x5a).max(used(work, 0xa5));
    deepest(work) - deepest(&Work::Answer(opaque(nothing as Answer), Vec::new()))
}

#[cfg(not(target_arch = "x86_64"))]
fn stack(_: &Work) -> usize {
    panic!("the stack is measured on x86-64 alone")
}

fn main() {
    let words: Vec<String> = std::env::args().skip(1).collect();
    let words: Vec<&str> = words.iter().map(|word| word.as_str()).collect();
    let (work, asked) = match words[..] {
        #[cfg(feature = "linked")]
        ["ours", kind, asked] => (Work::of(kind, linked::answer, linked::write, linked::check), asked),
        ["rust", kind, asked] => (Work::of(kind, reference::answer, reference::write, reference::check), asked),
        ["text", kind] => return print!("{}", text(kind)),
        _ => panic!("measure ours|rust KIND COUNT|stack, or measure text KIND"),
    };
    if asked == "stack" {
        return println!("{}", stack(&work));
    }
    let count: u64 = asked.parse().expect("a count");
    let mut room = [0; JOB_ROOM];
    let mut least = f64::INFINITY;
    for _ in 0..5 {
        let start = Instant::now();
        for _ in 0..count {
            opaque(work.run(&mut room));
        }
        least = least.min(start.elapsed().as_nanos() as f64 / count as f64);
    }
    println!("{:.1}", least);
}
