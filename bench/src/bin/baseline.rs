//! Runs the rows of the vectors on the Rust code alone.
//!
//!     baseline FOLDER

use std::path::Path;
use std::process::ExitCode;

use bench::{reference, rows};

fn main() -> ExitCode {
    let folder = match std::env::args().nth(1) {
        Some(folder) => folder,
        None => {
            eprintln!(
                "baseline FOLDER: a folder of jobs, sheets, readings, rewrites, writes or checks, each a file .jsonl"
            );
            return ExitCode::FAILURE;
        }
    };
    let mut whole = true;
    for tally in rows::run(Path::new(&folder), &reference::CALLS) {
        println!("{}: {} of {} rows held", tally.kind, tally.held, tally.rows);
        whole &= tally.held == tally.rows;
    }
    if whole {
        ExitCode::SUCCESS
    } else {
        ExitCode::FAILURE
    }
}
