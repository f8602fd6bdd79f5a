//! The proved library, through its C interface.

use crate::{Calls, Checked, Head, Part, PercentAnswer, Sheet, Value, Verdict, Written};

pub const CALLS: Calls =
    Calls { name: "the proved library", answer, answer_on, fault, sheet, percent, reading, rewrite, write, check };

mod c {
    use crate::{Checked, Part, PercentAnswer, Value, Verdict, Written};

    extern "C" {
        pub fn sagecruet_answer(job: *const u8, job_len: usize, text: *mut u8, text_len: usize) -> usize;
        pub fn sagecruet_answer_on(
            job: *const u8,
            job_len: usize,
            depths: *const u64,
            depths_len: usize,
            rates: *const u64,
            rates_len: usize,
            percents: *const u64,
            percents_len: usize,
            text: *mut u8,
            text_len: usize,
        ) -> usize;
        pub fn sagecruet_fault(job: *const u8, job_len: usize) -> Part;
        pub fn sagecruet_sheet(
            depths: *const u64,
            depths_len: usize,
            rates: *const u64,
            rates_len: usize,
            percents: *const u64,
            percents_len: usize,
        ) -> Verdict;
        pub fn sagecruet_percent(
            depths: *const u64,
            depths_len: usize,
            rates: *const u64,
            rates_len: usize,
            percents: *const u64,
            percents_len: usize,
            mix: bool,
            rate: u64,
            depth: u64,
        ) -> PercentAnswer;
        pub fn sagecruet_reading(millimetres: bool, reading: f32) -> Value;
        pub fn sagecruet_rewrite(job: *mut u8, job_len: usize);
        pub fn sagecruet_job(
            practice: u64,
            nutrient: u64,
            mode: u64,
            rate: u64,
            task: u64,
            amount: u64,
            areas: *const u64,
            areas_len: usize,
            text: *mut u8,
            text_len: usize,
        ) -> Written;
        pub fn sagecruet_check(job: *const u8, job_len: usize, claimed: *const u8, claimed_len: usize) -> Checked;
    }
}

// Each call is safe: the pointers and lengths are those of slices, and the library's functions are total on slices.

pub fn answer(job: &[u8], text: &mut [u8]) -> usize {
    unsafe { c::sagecruet_answer(job.as_ptr(), job.len(), text.as_mut_ptr(), text.len()) }
}

pub fn answer_on(job: &[u8], sheet: Sheet, text: &mut [u8]) -> usize {
    let Sheet { depths, rates, percents } = sheet;
    unsafe {
        c::sagecruet_answer_on(
            job.as_ptr(),
            job.len(),
            depths.as_ptr(),
            depths.len(),
            rates.as_ptr(),
            rates.len(),
            percents.as_ptr(),
            percents.len(),
            text.as_mut_ptr(),
            text.len(),
        )
    }
}

pub fn fault(job: &[u8]) -> Part {
    unsafe { c::sagecruet_fault(job.as_ptr(), job.len()) }
}

pub fn sheet(sheet: Sheet) -> Verdict {
    let Sheet { depths, rates, percents } = sheet;
    unsafe {
        c::sagecruet_sheet(
            depths.as_ptr(),
            depths.len(),
            rates.as_ptr(),
            rates.len(),
            percents.as_ptr(),
            percents.len(),
        )
    }
}

pub fn percent(sheet: Sheet, mix: bool, rate: u64, depth: u64) -> PercentAnswer {
    let Sheet { depths, rates, percents } = sheet;
    unsafe {
        c::sagecruet_percent(
            depths.as_ptr(),
            depths.len(),
            rates.as_ptr(),
            rates.len(),
            percents.as_ptr(),
            percents.len(),
            mix,
            rate,
            depth,
        )
    }
}

pub fn reading(millimetres: bool, reading: f32) -> Value {
    unsafe { c::sagecruet_reading(millimetres, reading) }
}

pub fn rewrite(job: &mut [u8]) {
    unsafe { c::sagecruet_rewrite(job.as_mut_ptr(), job.len()) }
}

pub fn write(head: &Head, areas: &[u64], text: &mut [u8]) -> Written {
    let Head { practice, nutrient, mode, rate, task, amount } = *head;
    unsafe {
        c::sagecruet_job(
            practice,
            nutrient,
            mode,
            rate,
            task,
            amount,
            areas.as_ptr(),
            areas.len(),
            text.as_mut_ptr(),
            text.len(),
        )
    }
}

pub fn check(job: &[u8], claimed: &[u8]) -> Checked {
    unsafe { c::sagecruet_check(job.as_ptr(), job.len(), claimed.as_ptr(), claimed.len()) }
}
