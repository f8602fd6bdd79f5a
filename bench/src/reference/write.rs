//! A job text written from codes and numbers.

use super::job::MOST_DIGITS;
use super::site::{Soil, MOST_AREA, MOST_PARTS};
use crate::{Head, Written, JOB_ROOM};

/// A list of words, each at the place of its code and with its end.
type Words = [&'static [u8]];

#[rustfmt::skip]
const PRACTICES: &Words = &[
    b"trench\n", b"basin\n", b"biofilter\n", b"wetland\n", b"isr\n", b"sand\n", b"wetpond\n", b"drypond\n", b"swale\n",
];
const NUTRIENTS: &Words = &[b"P\n", b"N\n"];
const MODES: &Words = &[b"step\n", b"mix\n"];
const TASKS: &Words = &[b"load\n", b"credit\n", b"size\n"];
const LAND_USES: &Words = &[b"com,", b"ind,", b"hdr,", b"mdr,", b"ldr,", b"hwy,", b"for,", b"open,", b"ag,"];
const COVERS: &Words = &[b"imp,", b"per,"];
const SOILS: &Words = &[b"A,", b"B,", b"C,", b"CD,", b"D,", b"U,", b"-,"];

/// The first number that has more digits than a job text can say.
const TOO_LONG: u64 = 10u64.pow(MOST_DIGITS as u32);

/// The two digits of each number below 100.
static PAIRS: [[u8; 2]; 100] = pairs();

const fn pairs() -> [[u8; 2]; 100] {
    let mut pairs = [[0; 2]; 100];
    let mut number = 0;
    while number < 100 {
        pairs[number] = [b'0' + (number / 10) as u8, b'0' + (number % 10) as u8];
        number += 1;
    }
    pairs
}

/// Writes the text where the values have one and it fits, else leaves the buffer as it is.
pub fn write(head: &Head, areas: &[u64], text: &mut [u8]) -> Written {
    if let Err(answer) = judge(head, areas) {
        return Written::refused(answer);
    }
    if text.len() >= JOB_ROOM {
        return Written::granted(put(head, areas, text));
    }
    // A shorter one is left as it is where the text, once it is there, does not fit.
    let mut draft = [0; JOB_ROOM];
    let len = put(head, areas, &mut draft);
    if text.len() < len {
        return Written::refused(13);
    }
    text[..len].copy_from_slice(&draft[..len]);
    Written::granted(len)
}

/// The refusal of values that have no text.
fn judge(head: &Head, areas: &[u64]) -> Result<(), u64> {
    let has = |words: &Words, code: u64| code < words.len() as u64;
    let parts = areas.chunks_exact(4);
    if !parts.remainder().is_empty() {
        return Err(1);
    }
    if parts.len() > MOST_PARTS {
        return Err(14);
    }
    let named = has(NUTRIENTS, head.nutrient) && has(MODES, head.mode) && has(TASKS, head.task);
    if !named || parts.clone().any(|part| !(has(LAND_USES, part[0]) && has(COVERS, part[1]) && has(SOILS, part[2]))) {
        return Err(1);
    }
    let mut total = 0;
    for part in parts {
        let (impervious, paved, area) = (part[1] == 0, part[2] == Soil::Paved as u64, part[3]);
        if !(1..=MOST_AREA).contains(&area) || impervious != paved {
            return Err(2);
        }
        total += area;
        if total > MOST_AREA {
            return Err(3);
        }
    }
    if areas.is_empty() || !has(PRACTICES, head.practice) || head.rate >= TOO_LONG || head.amount >= TOO_LONG {
        return Err(1);
    }
    Ok(())
}

/// Puts the text at the start of a buffer that has room for it, and gives its length.
fn put(head: &Head, areas: &[u64], buffer: &mut [u8]) -> usize {
    let mut text = Text { buffer, len: 0 };
    text.put(b"practice=");
    text.word(PRACTICES, head.practice);
    text.put(b"nutrient=");
    text.word(NUTRIENTS, head.nutrient);
    text.put(b"mode=");
    text.word(MODES, head.mode);
    text.put(b"rate=");
    text.number(head.rate);
    text.put(b"task=");
    text.word(TASKS, head.task);
    text.put(b"amount=");
    text.number(head.amount);
    for part in areas.chunks_exact(4) {
        text.put(b"area=");
        text.word(LAND_USES, part[0]);
        text.word(COVERS, part[1]);
        text.word(SOILS, part[2]);
        text.number(part[3]);
    }
    text.len
}

/// A buffer with a text at its start.
struct Text<'a> {
    buffer: &'a mut [u8],
    len: usize,
}

impl Text<'_> {
    fn put(&mut self, bytes: &[u8]) {
        self.buffer[self.len..self.len + bytes.len()].copy_from_slice(bytes);
        self.len += bytes.len();
    }

    fn word(&mut self, words: &Words, code: u64) {
        self.put(words[code as usize]);
    }

    /// Puts the digits of a number, found two at a time from the last, and LF.
    fn number(&mut self, number: u64) {
        let mut digits = [b'\n'; MOST_DIGITS + 1];
        let mut first = MOST_DIGITS;
        let mut rest = number;
        while rest >= 10 {
            first -= 2;
            digits[first..first + 2].copy_from_slice(&PAIRS[(rest % 100) as usize]);
            rest /= 100;
        }
        if rest > 0 || number == 0 {
            first -= 1;
            digits[first] = b'0' + rest as u8;
        }
        self.put(&digits[first..]);
    }
}

#[cfg(test)]
mod tests {
    use super::*;
    use crate::generate::longest;

    const SAMPLE: Head = Head { practice: 1, nutrient: 1, mode: 0, rate: 0, task: 0, amount: 0 };
    const SAMPLE_AREAS: [u64; 12] = [1, 0, 6, 1013, 0, 1, 2, 185, 6, 1, 2, 89];

    /// The text in a buffer of some room whose other bytes are kept, or the refusal with all of them kept.
    fn written(head: &Head, areas: &[u64], room: usize) -> Result<String, u64> {
        let mut buffer = vec![b'#'; room];
        let Written { answer, len } = write(head, areas, &mut buffer);
        assert!(buffer[len..].iter().all(|&byte| byte == b'#'));
        if answer != 0 {
            assert_eq!(len, 0);
            return Err(answer);
        }
        Ok(String::from_utf8(buffer[..len].to_vec()).unwrap())
    }

    #[test]
    fn the_sample_in_each_room() {
        let text = include_str!("../../../jobs/sample.job");
        assert_eq!(text.len(), 119);
        for room in [119, 120, JOB_ROOM - 1, JOB_ROOM, 4096] {
            assert_eq!(written(&SAMPLE, &SAMPLE_AREAS, room).as_deref(), Ok(text));
        }
        for room in [0, 1, 118] {
            assert_eq!(written(&SAMPLE, &SAMPLE_AREAS, room), Err(13));
        }
    }

    #[test]
    fn the_longest_and_the_shortest() {
        let (head, areas) = longest();
        let text = written(&head, &areas, JOB_ROOM).unwrap();
        assert_eq!(text.len(), JOB_ROOM);
        assert!(text.starts_with("practice=biofilter\nnutrient=P\nmode=step\nrate=99999999999999\ntask=credit\n"));
        assert!(text.ends_with("\narea=open,per,CD,10000\n"));
        assert_eq!(written(&head, &areas, JOB_ROOM - 1), Err(13));
        let head = Head { practice: 4, nutrient: 0, mode: 1, rate: 0, task: 0, amount: 0 };
        let shortest = "practice=isr\nnutrient=P\nmode=mix\nrate=0\ntask=load\namount=0\narea=ag,imp,-,1\n";
        assert_eq!(shortest.len(), 75);
        assert_eq!(written(&head, &[8, 0, 6, 1], 75).as_deref(), Ok(shortest));
    }

    #[test]
    fn numbers_of_each_length() {
        for number in (0..14).map(|digits| 10u64.pow(digits)).flat_map(|power| [power - 1, power, 2 * power + 1]) {
            let head = Head { rate: number, amount: TOO_LONG - 1 - number, ..SAMPLE };
            let text = written(&head, &SAMPLE_AREAS, JOB_ROOM).unwrap();
            assert!(text.contains(&format!("\nrate={}\n", head.rate)), "{}", text);
            assert!(text.contains(&format!("\namount={}\n", head.amount)), "{}", text);
        }
    }

    /// Each is refused in a buffer of 0 bytes too, and with what is tried after it.
    #[test]
    fn refusals_in_turn() {
        let parts = |count: usize, part: [u64; 4]| part.repeat(count);
        let inside = [parts(33, [9, 0, 6, 0]), vec![0]].concat();
        let odd = |head: Head| (head, vec![0, 0, 6, 0]);
        let too_much = [vec![0, 0, 6, 999_999], vec![0, 1, 0, 2], vec![0, 0, 6, 0]].concat();
        let empty = |head: Head| (head, Vec::new());
        let fine = |head: Head| (head, SAMPLE_AREAS.to_vec());
        let last = Head { practice: 9, ..SAMPLE };
        for ((head, areas), answer) in [
            ((last, inside), 1),
            ((last, parts(33, [9, 2, 7, 0])), 14),
            (odd(Head { nutrient: 2, ..last }), 1),
            (odd(Head { mode: 2, ..last }), 1),
            (odd(Head { task: 3, ..last }), 1),
            (odd(Head { nutrient: 256, ..last }), 1),
            ((last, vec![0, 0, 6, 0, 9, 0, 6, 1]), 1),
            ((last, vec![0, 0, 6, 0, 0, 2, 6, 1]), 1),
            ((last, vec![0, 0, 6, 0, 0, 1, 7, 1]), 1),
            ((last, vec![0, 0, 6, 0]), 2),
            ((last, vec![0, 0, 6, 1_000_001]), 2),
            ((last, vec![0, 0, 0, 1]), 2),
            ((last, vec![0, 1, 6, 1]), 2),
            ((last, vec![0, 0, 6, u64::MAX, 0, 0, 6, 1]), 2),
            ((last, too_much), 3),
            (empty(SAMPLE), 1),
            (fine(last), 1),
            (fine(Head { rate: TOO_LONG, ..SAMPLE }), 1),
            (fine(Head { amount: TOO_LONG, ..SAMPLE }), 1),
        ] {
            for room in [0, JOB_ROOM] {
                assert_eq!(written(&head, &areas, room), Err(answer), "{:?} {:?}", head, areas);
            }
        }
        // The most that is still written.
        let areas = [vec![0, 0, 6, 999_969], parts(31, [8, 1, 5, 1])].concat();
        assert!(written(&Head { practice: 8, ..SAMPLE }, &areas, JOB_ROOM).is_ok());
    }
}
