//! What creditrun does, with the Rust code: a job from standard input, its answer to standard output.

use std::io::{self, Read, Write};

fn main() -> io::Result<()> {
    let mut job = [0; 4097];
    let mut length = 0;
    let mut input = io::stdin().lock();
    while length < job.len() {
        match input.read(&mut job[length..])? {
            0 => break,
            n => length += n,
        }
    }
    let mut text = [0; bench::ROOM];
    let written = bench::reference::answer(&job[..length], &mut text);
    io::stdout().lock().write_all(&text[..written])
}
