//! The calculator in Rust.

mod answer;
mod check;
mod curve;
mod job;
mod probe;
mod rewrite;
mod site;
mod write;

use crate::tables::PUBLISHED;
use crate::{Calls, Head, Part, PercentAnswer, Sheet, Value, Verdict};
use answer::{Figures, Outcome};
pub use check::check;
use curve::Curve;
use job::{Job, Task};
pub use rewrite::rewrite;
use site::{Ground, Soil, SubArea, GRID, UNKNOWN_FOR_RUNOFF};
pub use write::write;

const LARGEST: u64 = 10_000_000_000_000;
const MOST_PERCENT: u64 = 100_000;

pub const CALLS: Calls =
    Calls { name: "the Rust code", answer, answer_on, fault, sheet, percent, reading, rewrite, write, check };

/// The answer text of a job on the published tables, written into `text`: its length, or 0 where it does not fit. It is kept
/// whole, since with the check for a second caller the compiler would cut it up otherwise, and it would measure slower.
#[inline(never)]
pub fn answer(job: &[u8], text: &mut [u8]) -> usize {
    outcome(job, None, UNKNOWN_FOR_RUNOFF).write(text)
}

/// The same with a lent sheet in the place of the tables.
pub fn answer_on(job: &[u8], sheet: Sheet, text: &mut [u8]) -> usize {
    outcome(job, Some(sheet), UNKNOWN_FOR_RUNOFF).write(text)
}

/// The answer text that a job had by the old rules, which read an unknown soil as C in Table 3-4 too.
pub fn old_answer(job: &[u8], sheet: Option<Sheet>, text: &mut [u8]) -> usize {
    outcome(job, sheet, Soil::C).write(text)
}

/// The part of a job text that refusal 1 is about; empty at the end where the text is not refused 1.
pub fn fault(job: &[u8]) -> Part {
    match job::read(job) {
        Err(fault) if fault.answer == 1 => fault.part,
        _ => Part { from: job.len(), len: 0 },
    }
}

/// The values of a job text that reads: its head, and four numbers for each sub-area.
pub fn values(text: &[u8]) -> Option<(Head, Vec<u64>)> {
    let job = job::read(text).ok()?;
    let head = Head {
        practice: job.practice as u64,
        nutrient: job.nutrient as u64,
        mode: job.mix as u64,
        rate: job.rate,
        task: job.task as u64,
        amount: job.amount,
    };
    let numbers = |part: &SubArea| [part.land_use as u64, !part.impervious as u64, part.soil as u64, part.area];
    Some((head, job.site.parts().iter().flat_map(numbers).collect()))
}

/// The test of a sheet.
pub fn sheet(sheet: Sheet) -> Verdict {
    curve::judge(sheet)
}

/// The percent of a lent sheet at a rate and a depth, and its basis.
pub fn percent(sheet: Sheet, mix: bool, rate: u64, depth: u64) -> PercentAnswer {
    let verdict = curve::judge(sheet);
    if verdict.answer != 0 {
        return PercentAnswer::unfit(verdict);
    }
    match Curve::of(sheet, mix, rate) {
        Err(answer) => PercentAnswer::refused(answer),
        Ok(_) if depth > GRID => PercentAnswer::refused(9),
        Ok(curve) => PercentAnswer::granted(curve.percent(depth), curve.basis(depth)),
    }
}

/// The rate of a probe reading.
pub fn reading(millimetres: bool, reading: f32) -> Value {
    probe::rate(millimetres, reading)
}

fn outcome(text: &[u8], lent: Option<Sheet>, unknown: Soil) -> Outcome {
    let job = match job::read(text) {
        Ok(job) => job,
        Err(fault) => return Outcome::Refused { answer: fault.answer, line: fault.line },
    };
    match figures(&job, lent, unknown) {
        Ok(figures) => Outcome::Granted(figures),
        Err(answer) => Outcome::Refused { answer, line: 0 },
    }
}

fn figures(job: &Job, lent: Option<Sheet>, unknown: Soil) -> Result<Figures, u64> {
    if job.task == Task::Load {
        if job.amount != 0 {
            return Err(9);
        }
        let load = job.site.load(job.nutrient);
        return if load > LARGEST { Err(15) } else { Ok(Figures { load, ..Figures::default() }) };
    }
    let sheet = match lent {
        Some(sheet) if curve::judge(sheet).answer != 0 => return Err(5),
        Some(sheet) => sheet,
        None => PUBLISHED[job.practice][job.nutrient],
    };
    let curve = Curve::of(sheet, job.mix, job.rate)?;
    let ground = Ground::of(&job.site, unknown);
    if ground.impervious == 0 {
        return Err(8);
    }
    if job.amount > if job.task == Task::Credit { LARGEST } else { MOST_PERCENT } {
        return Err(9);
    }
    let load = job.site.load(job.nutrient);
    if load > LARGEST || ground.volume(GRID) > LARGEST {
        return Err(15);
    }
    let (depth, volume) = if job.task == Task::Credit {
        (ground.depth(job.amount), job.amount)
    } else {
        if job.amount > curve.percent(GRID) {
            return Err(10);
        }
        let depth = curve.depth(job.amount);
        (depth, ground.volume(depth))
    };
    let (credit, basis) = (curve.percent(depth), curve.basis(depth));
    Ok(Figures { load, depth, credit, basis, volume, removed: load * credit / MOST_PERCENT })
}
