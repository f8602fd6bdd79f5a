//! A claimed answer text checked, by its lines.

use crate::{Checked, ROOM};

/// The first wrong line of a text that is claimed to be the answer of a job on the published tables.
pub fn check(job: &[u8], claimed: &[u8]) -> Checked {
    let mut text = [0; ROOM];
    let length = super::answer(job, &mut text);
    first_wrong(&text[..length], claimed)
}

/// The first line of a claimed text that is not the same line of the right one.
fn first_wrong(right: &[u8], claimed: &[u8]) -> Checked {
    if claimed == right {
        return Checked::yes(claimed);
    }
    let mut ours = lines(right);
    let (mut number, mut from) = (1, 0);
    for line in lines(claimed) {
        if ours.next() != Some(line) {
            let ended = line.last() == Some(&b'\n');
            return Checked { line: number, from, len: line.len() - ended as usize };
        }
        number += 1;
        from += line.len();
    }
    // Every line of theirs is right, and one of ours is missing.
    Checked { line: number, from, len: 0 }
}

/// The lines of a text, each with its line feed if it has one.
fn lines(text: &[u8]) -> impl Iterator<Item = &[u8]> {
    text.split_inclusive(|&byte| byte == b'\n')
}

#[cfg(test)]
mod tests {
    use super::*;

    /// The number of the wrong line, and its place.
    fn wrong(right: &str, claimed: &str) -> (u64, usize, usize) {
        let found = first_wrong(right.as_bytes(), claimed.as_bytes());
        (found.line, found.from, found.from + found.len)
    }

    #[test]
    fn each_end_of_a_line() {
        let right = "ab\nc\n";
        assert_eq!(wrong(right, right), (0, 5, 5));
        // Cut at every byte: empty where it stops behind a line feed, else the line that is not ended.
        for (length, found) in [(1, 0, 0), (1, 0, 1), (1, 0, 2), (2, 3, 3), (2, 3, 4)].into_iter().enumerate() {
            assert_eq!(wrong(right, &right[..length]), found);
        }
        // A line feed too early, one too many, another byte in its place.
        assert_eq!(wrong(right, "a\nb\nc\n"), (1, 0, 1));
        assert_eq!(wrong(right, "ab\n\nc\n"), (2, 3, 3));
        assert_eq!(wrong(right, "ab\0c\n"), (1, 0, 4));
        assert_eq!(wrong(right, "ab\nc\r\n"), (2, 3, 5));
        // Bytes behind it.
        for (more, found) in [("\n", (3, 5, 5)), ("\n\n", (3, 5, 5)), ("d", (3, 5, 6)), ("d\ne", (3, 5, 6))] {
            assert_eq!(wrong(right, &format!("{}{}", right, more)), found);
        }
    }
}
