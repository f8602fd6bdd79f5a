//! The answer text.

use crate::{Basis, ROOM};

#[derive(Default)]
pub struct Figures {
    pub load: u64,
    pub depth: u64,
    pub credit: u64,
    pub basis: Basis,
    pub volume: u64,
    pub removed: u64,
}

pub enum Outcome {
    Granted(Figures),
    Refused { answer: u64, line: u64 },
}

struct Draft {
    bytes: [u8; ROOM],
    len: usize,
}

impl Draft {
    fn put(&mut self, bytes: &[u8]) {
        self.bytes[self.len..self.len + bytes.len()].copy_from_slice(bytes);
        self.len += bytes.len();
    }

    fn end_line(&mut self) {
        self.bytes[self.len] = b'\n';
        self.len += 1;
    }

    fn word(&mut self, key: &[u8], word: &str) {
        self.put(key);
        self.put(word.as_bytes());
        self.end_line();
    }

    fn number(&mut self, key: &[u8], value: u64) {
        self.put(key);
        let mut digits = 1;
        let mut rest = value / 10;
        while rest > 0 {
            digits += 1;
            rest /= 10;
        }
        let mut rest = value;
        for byte in self.bytes[self.len..self.len + digits].iter_mut().rev() {
            *byte = b'0' + (rest % 10) as u8;
            rest /= 10;
        }
        self.len += digits;
        self.end_line();
    }
}

impl Outcome {
    /// Writes the text where it fits and gives its length, else leaves the buffer as it is and gives 0.
    pub fn write(&self, text: &mut [u8]) -> usize {
        let mut draft = Draft { bytes: [0; ROOM], len: 0 };
        match self {
            Outcome::Granted(figures) => {
                draft.number(b"answer=", 0);
                draft.number(b"load=", figures.load);
                draft.number(b"depth=", figures.depth);
                draft.number(b"credit=", figures.credit);
                draft.word(b"basis=", figures.basis.word());
                draft.number(b"volume=", figures.volume);
                draft.number(b"removed=", figures.removed);
            }
            Outcome::Refused { answer, line } => {
                draft.number(b"answer=", *answer);
                draft.number(b"line=", *line);
            }
        }
        if text.len() < draft.len {
            return 0;
        }
        text[..draft.len].copy_from_slice(&draft.bytes[..draft.len]);
        draft.len
    }
}

#[cfg(test)]
mod tests {
    use super::*;

    fn text(figures: Figures, room: usize) -> Option<String> {
        let mut text = vec![b'#'; room];
        match Outcome::Granted(figures).write(&mut text) {
            0 => {
                assert_eq!(text, vec![b'#'; room]);
                None
            }
            length => Some(String::from_utf8(text[..length].to_vec()).unwrap()),
        }
    }

    #[test]
    fn each_basis_by_its_word() {
        for (basis, word) in Basis::ALL.into_iter().zip(["none", "printed", "between", "start", "held"]) {
            let figures = Figures { credit: 7, basis, ..Figures::default() };
            let expected = format!("answer=0\nload=0\ndepth=0\ncredit=7\nbasis={}\nvolume=0\nremoved=0\n", word);
            assert_eq!(text(figures, ROOM), Some(expected));
        }
    }

    #[test]
    fn the_longest_text() {
        let longest = || Figures {
            load: u64::MAX,
            depth: u64::MAX,
            credit: u64::MAX,
            basis: Basis::Between,
            volume: u64::MAX,
            removed: u64::MAX,
        };
        assert_eq!(text(longest(), ROOM).map(|text| text.len()), Some(ROOM));
        assert_eq!(text(longest(), ROOM - 1), None);
    }
}
