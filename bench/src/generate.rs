//! Inputs made from a seed: job texts, jobs as values, claimed answers, sheets and readings, valid and damaged, short and long.

use crate::random::Random;
use crate::tables::PUBLISHED;
use crate::{Head, Sheet};

pub const PRACTICES: [&str; 9] =
    ["trench", "basin", "biofilter", "wetland", "isr", "sand", "wetpond", "drypond", "swale"];
pub const LAND_USES: [&str; 9] = ["com", "ind", "hdr", "mdr", "ldr", "hwy", "for", "open", "ag"];
pub const SOILS: [&str; 7] = ["A", "B", "C", "CD", "D", "U", "-"];

const RATES: [u64; 14] = [0, 1, 16, 17, 26, 27, 39, 52, 102, 240, 241, 827, 10_000, 10_001];
/// The largest number that a job can say, of 14 digits.
const MOST_NUMBER: u64 = 99_999_999_999_999;
const KEYS: [&str; 7] = ["practice=", "nutrient=", "mode=", "rate=", "task=", "amount=", "area="];

/// Numbers at and about the limits, and numbers with too many digits or a leading zero.
#[rustfmt::skip]
const ODD_NUMBERS: [&str; 20] = [
    "", "0", "00", "1", "01", "10000", "10001", "100000", "100001", "999999", "1000000", "1000001", "9999999999999",
    "10000000000000", "10000000000001", "99999999999999", "100000000000000", "18446744073709551616", "-1", "1e3",
];

/// Codes with and without a word, and numbers at and about the limits; some are another one where only their low bits are seen.
#[rustfmt::skip]
const ODD_VALUES: [u64; 18] = [
    0, 1, 2, 3, 6, 7, 8, 9, 10, 256, 65_536, 1 << 32, 1_000_000, 1_000_001, MOST_NUMBER, MOST_NUMBER + 1, 1 << 63, u64::MAX,
];

fn digits(random: &mut Random) -> String {
    if random.one_in(3) {
        return random.pick(&ODD_NUMBERS).to_string();
    }
    let most = 10u64.pow(random.within(1, 14) as u32);
    random.below(most).to_string()
}

fn sub_area(random: &mut Random, area: u64, paved: bool) -> String {
    let land_use = random.pick(&LAND_USES);
    if paved || random.one_in(2) {
        format!("area={},imp,-,{}\n", land_use, area)
    } else {
        format!("area={},per,{},{}\n", land_use, random.pick(&SOILS[..6]), area)
    }
}

/// The areas of a job: one or a few, many, or about as many as a site holds; within the total or about at it.
fn areas(random: &mut Random) -> Vec<u64> {
    let count = match random.below(8) {
        0 => 1,
        1 | 2 | 3 => random.within(1, 6),
        4 | 5 => random.within(7, 31),
        6 => random.within(31, 34),
        _ => 32,
    };
    let most = if random.one_in(12) {
        2_000_000 / count
    } else {
        (1_000_000 / count).min(10u64.pow(random.within(1, 6) as u32))
    };
    let mut areas: Vec<u64> = (0..count).map(|_| random.within(1, most)).collect();
    if random.one_in(6) {
        let others: u64 = areas[1..].iter().sum();
        areas[0] = 1_000_000u64.saturating_sub(others) + random.below(3);
    }
    areas
}

/// A job text of the right form, most often one that is granted.
pub fn job(random: &mut Random) -> Vec<u8> {
    let (practice, nutrient) = (random.below(9) as usize, random.below(2) as usize);
    let sheet = PUBLISHED[practice][nutrient];
    let rate = match random.below(10) {
        0 => random.pick(&RATES),
        _ if sheet.rates == [0] => 0,
        1 => 10_000 - random.below(200),
        2 => random.pick(sheet.rates),
        _ => random.within(17, 900),
    };
    job_on(random, practice, nutrient, sheet, rate)
}

/// A job text for a sheet, with a rate. Now and then the whole site is paved, and the volume of a credit just that of a
/// depth of the sheet, or one unit less; and now and then the target of a size is a percent of the sheet.
fn job_on(random: &mut Random, practice: usize, nutrient: usize, sheet: Sheet, rate: u64) -> Vec<u8> {
    let task = random.pick(&["load", "credit", "credit", "size", "size"]);
    let areas = areas(random);
    let total: u64 = areas.iter().sum();
    let paved = random.one_in(4);
    let amount = match (task, random.below(12)) {
        (_, 0) => random.pick(&[0, 1, 100_000, 100_001, 10_000_000_000_000, 10_000_000_000_001, 99_999_999_999_999]),
        ("load", _) => 0,
        ("credit", _) if paved && !sheet.depths.is_empty() => {
            let volume = 121 * 300 * random.pick(sheet.depths).min(201) * total;
            volume.saturating_sub(random.one_in(4) as u64)
        }
        ("credit", _) => random.below(121 * 300 * 210 * total.max(1)),
        (_, 1..=3) if !sheet.percents.is_empty() => random.pick(sheet.percents) % (MOST_NUMBER + 1),
        _ => random.below(100_001),
    };
    let mut text = format!(
        "practice={}\nnutrient={}\nmode={}\nrate={}\ntask={}\namount={}\n",
        PRACTICES[practice],
        ["P", "N"][nutrient],
        random.pick(&["step", "mix"]),
        rate,
        task,
        amount,
    );
    for area in areas {
        text += &sub_area(random, area, paved);
    }
    text.into_bytes()
}

/// The values of one of the longest job texts, with 32 sub-areas open,per,CD.
pub fn longest() -> (Head, Vec<u64>) {
    let head = Head { practice: 2, nutrient: 0, mode: 0, rate: MOST_NUMBER, task: 1, amount: MOST_NUMBER };
    (head, [[7, 1, 3, 100_000].repeat(7), [7, 1, 3, 10_000].repeat(25)].concat())
}

/// A number that a job can say: of 1 to 14 digits, now and then the least or the largest with so many.
fn number(random: &mut Random) -> u64 {
    let end = 10u64.pow(random.within(1, 14) as u32);
    match random.below(6) {
        0 => end / 10,
        1 => end - 1,
        _ => random.below(end),
    }
}

/// A job as values, most often one that has a text: its head, and four numbers for each sub-area.
pub fn values(random: &mut Random) -> (Head, Vec<u64>) {
    if random.one_in(40) {
        return longest();
    }
    let head = Head {
        practice: random.below(9),
        nutrient: random.below(2),
        mode: random.below(2),
        rate: number(random),
        task: random.below(3),
        amount: number(random),
    };
    let mut parts = Vec::new();
    for area in areas(random) {
        let (cover, soil) = if random.one_in(2) { (0, 6) } else { (1, random.below(6)) };
        parts.extend([random.below(9), cover, soil, area]);
    }
    (head, parts)
}

/// Harm to a job as values: numbers changed, the list of sub-areas cut off, doubled or lengthened by a number.
pub fn damaged_values(random: &mut Random) -> (Head, Vec<u64>) {
    let (mut head, mut parts) = values(random);
    for _ in 0..random.within(1, 3) {
        let odd = random.pick(&ODD_VALUES);
        let place = random.below(parts.len() as u64 + 1) as usize;
        match random.below(14) {
            0 => head.practice = odd,
            1 => head.nutrient = odd,
            2 => head.mode = odd,
            3 => head.rate = odd,
            4 => head.task = odd,
            5 => head.amount = odd,
            6 => parts.truncate(place),
            7 => parts.truncate(place % 4 * 4),
            8 => parts.extend_from_slice(&parts.clone()),
            _ if place < parts.len() => parts[place] = odd,
            _ => parts.push(odd),
        }
    }
    (head, parts)
}

/// Harm to a job text: bytes, lines, fields or numbers changed, put in, taken out, cut off or put at the end.
pub fn damaged(random: &mut Random) -> Vec<u8> {
    let mut text = job(random);
    for _ in 0..random.within(1, 3) {
        text = harm(random, text);
    }
    text
}

fn harm(random: &mut Random, mut text: Vec<u8>) -> Vec<u8> {
    let place = random.below(text.len() as u64 + 1) as usize;
    let odd = random.pick(b"\n\n\r\0 ,=-AaZz0019\xff\x80");
    match random.below(14) {
        0 => text.truncate(place),
        1 => text.insert(place, odd),
        2 if place < text.len() => text[place] = odd,
        3 if place < text.len() => drop(text.remove(place)),
        4 => text.push(odd),
        5 if place < text.len() => text[place] ^= 1 << random.below(8),
        6 => text.extend_from_slice(random.pick(&KEYS).as_bytes()),
        7 => {
            let line = format!(
                "area={},{},{},{}\n",
                random.pick(&LAND_USES),
                random.pick(&["imp", "per"]),
                random.pick(&SOILS),
                digits(random)
            );
            text.extend_from_slice(line.as_bytes());
        }
        8 => {
            // To just below, at or above the longest length, with lines or with one byte.
            let length = random.within(4090, 4100) as usize;
            if random.one_in(2) {
                while text.len() < length {
                    let area = random.within(1, 999);
                    text.extend_from_slice(sub_area(random, area, false).as_bytes());
                }
            }
            text.resize(length, odd);
        }
        n => return with_line_harmed(random, &text, n),
    }
    text
}

fn with_line_harmed(random: &mut Random, text: &[u8], kind: u64) -> Vec<u8> {
    let mut lines: Vec<Vec<u8>> = text.split_inclusive(|&b| b == b'\n').map(|l| l.to_vec()).collect();
    if lines.is_empty() {
        return Vec::new();
    }
    let (one, two) = (random.below(lines.len() as u64) as usize, random.below(lines.len() as u64) as usize);
    match kind {
        9 => lines.swap(one, two),
        10 => drop(lines.remove(one)),
        11 => lines.insert(one, lines[two].clone()),
        12 => {
            // Another value after the key, or after the last comma.
            let keep = lines[one].iter().rposition(|&b| b == b'=' || b == b',').map_or(0, |at| at + 1);
            lines[one].truncate(keep);
            lines[one].extend_from_slice(digits(random).as_bytes());
            lines[one].push(b'\n');
        }
        _ => {
            let words = [
                "P", "N", "step", "mix", "load", "credit", "size", "basin", "imp", "per", "CD", "U", "Basin", "p", "c",
            ];
            let keep = lines[one].iter().position(|&b| b == b'=').map_or(0, |at| at + 1);
            lines[one].truncate(keep);
            lines[one].extend_from_slice(random.pick(&words).as_bytes());
            lines[one].push(b'\n');
        }
    }
    lines.concat()
}

/// What somebody claims to be an answer text: the right one, that one cut, harmed or lengthened, or the one of another job.
pub fn claimed(random: &mut Random, right: &[u8], another: &[u8]) -> Vec<u8> {
    let mut text = right.to_vec();
    let place = random.below(text.len() as u64) as usize;
    match random.below(16) {
        0..=3 => {}
        4 | 5 => text.truncate(place),
        6 => {
            // Behind one of its line feeds, or to nothing.
            text.truncate(right[..place].iter().rposition(|&byte| byte == b'\n').map_or(0, |at| at + 1))
        }
        7 => drop(text.pop()),
        8 | 9 => text[place] ^= 1 << random.below(8),
        10 => text = harm(random, text),
        11 => text.push(random.pick(b"\n\r\0 x")),
        12 => text.extend_from_slice(random.pick(&[right, b"load=0\n", b"line=0\n"])),
        13 => text = another.to_vec(),
        14 => text = right.split(|&byte| byte == b'\n').collect::<Vec<_>>().join(&b"\r\n"[..]),
        _ => text.insert(0, b'\n'),
    }
    text
}

/// A sheet that owns its lists.
#[derive(Clone, Debug, PartialEq, Eq)]
pub struct OwnSheet {
    pub depths: Vec<u64>,
    pub rates: Vec<u64>,
    pub percents: Vec<u64>,
}

impl OwnSheet {
    pub fn lend(&self) -> Sheet<'_> {
        Sheet { depths: &self.depths, rates: &self.rates, percents: &self.percents }
    }
}

fn rising(random: &mut Random, count: u64, most: u64) -> Vec<u64> {
    let mut list = Vec::new();
    while (list.len() as u64) < count {
        let number = random.within(1, most);
        if !list.contains(&number) {
            list.push(number);
        }
    }
    list.sort_unstable();
    list
}

/// A sheet that keeps every rule: a published one now and then, one of the largest size now and then.
pub fn sheet(random: &mut Random) -> OwnSheet {
    if random.one_in(10) {
        let published = PUBLISHED[random.below(9) as usize][random.below(2) as usize];
        return OwnSheet {
            depths: published.depths.to_vec(),
            rates: published.rates.to_vec(),
            percents: published.percents.to_vec(),
        };
    }
    let (most_depths, most_rates) =
        if random.one_in(8) { (16, 8) } else { (random.within(1, 16), random.within(1, 8)) };
    let depths = rising(random, most_depths, random_of(&[200, 60, 16], most_depths));
    let rates = if most_rates == 1 && random.one_in(2) {
        vec![0]
    } else {
        rising(random, most_rates, random_of(&[10_000, 900, 12], most_depths + most_rates))
    };
    let mut percents = Vec::new();
    for _ in 0..rates.len() {
        let mut curve: Vec<u64> = depths
            .iter()
            .map(|_| match random.below(8) {
                0 => random.pick(&[0, 100_000]),
                1 => random.below(101) * 1000,
                _ => random.below(100_001),
            })
            .collect();
        curve.sort_unstable();
        percents.extend(curve);
    }
    OwnSheet { depths, rates, percents }
}

/// One of three limits, chosen by a number, so that some sheets are crowded and some are wide.
fn random_of(limits: &[u64; 3], n: u64) -> u64 {
    limits[(n % 3) as usize]
}

/// A sheet with one or two rules broken: a number changed, two swapped, a list made longer or shorter or empty.
pub fn broken_sheet(random: &mut Random) -> OwnSheet {
    let mut sheet = self::sheet(random);
    for _ in 0..random.within(1, 2) {
        let list = match random.below(3) {
            0 => &mut sheet.depths,
            1 => &mut sheet.rates,
            _ => &mut sheet.percents,
        };
        let odd = random.pick(&[0, 0, 1, 2, 199, 200, 201, 10_000, 10_001, 99_999, 100_000, 100_001, u64::MAX]);
        let place = random.below(list.len() as u64 + 1) as usize;
        match random.below(9) {
            0 => list.insert(place, odd),
            1 => list.clear(),
            2 => list.truncate(place),
            3 => list.extend_from_slice(&list.clone()),
            4 if place > 1 => list.swap(place - 1, place - 2),
            5 if place > 1 => list[place - 1] = list[place - 2],
            _ if place > 0 => list[place - 1] = odd,
            _ => list.push(odd),
        }
    }
    sheet
}

/// A rate for a sheet: at or about one of its own rates, anywhere, or out of range.
pub fn rate_for(random: &mut Random, sheet: Sheet) -> u64 {
    match random.below(8) {
        0 => random.pick(&RATES),
        1 => random.below(10_100),
        2 => random.pick(&[0, 10_000, 10_001, u64::MAX]),
        _ if sheet.rates.is_empty() => 0,
        _ => {
            let near = random.pick(sheet.rates);
            match random.below(4) {
                0 => near.saturating_add(1),
                1 => near.saturating_sub(1),
                2 => near.saturating_add(random.below(500)),
                _ => near,
            }
        }
    }
}

/// A job for a lent sheet: its rate is near the sheet's, its practice is anything.
pub fn job_for(random: &mut Random, sheet: Sheet) -> Vec<u8> {
    let (practice, nutrient) = (random.below(9) as usize, random.below(2) as usize);
    let rate = rate_for(random, sheet) % (MOST_NUMBER + 1);
    let text = job_on(random, practice, nutrient, sheet, rate);
    if random.one_in(10) {
        harm(random, text)
    } else {
        text
    }
}

/// A depth for a sheet: at or beside one of its own depths, anywhere on the grid, at its end, or beyond.
pub fn depth_for(random: &mut Random, sheet: Sheet) -> u64 {
    match random.below(12) {
        0 => random.pick(&[0, 1, 199, 200, 201, 202, 65_536, u64::MAX]),
        1..=6 if !sheet.depths.is_empty() => {
            let near = random.pick(sheet.depths);
            match random.below(4) {
                0 => near.saturating_add(1),
                1 => near.saturating_sub(1),
                _ => near,
            }
        }
        _ => random.below(201),
    }
}

/// The float itself, or one at most two floats away from it.
fn about(random: &mut Random, edge: f32) -> f32 {
    f32::from_bits((edge.to_bits() as i64 + random.below(5) as i64 - 2).max(0) as u32)
}

/// A reading: any bits, an ordinary value, or the floats about a hundredth and about the half between two, in either unit.
pub fn reading(random: &mut Random) -> f32 {
    let bits = random.next() as u32;
    match random.below(7) {
        0 => f32::from_bits(bits),
        1 => f32::from_bits(bits & 0x7fff_ffff),
        2 => random.pick(&[
            0.0,
            -0.0,
            f32::NAN,
            f32::INFINITY,
            f32::NEG_INFINITY,
            f32::MIN_POSITIVE,
            -1.0,
            100.0,
            2540.0,
        ]),
        3 => (bits % 12_000) as f32 / 100.0,
        4 => (bits % 300_000) as f32 / 100.0,
        5 => {
            let edge = random.pick(&[0.005, 0.127, 0.125, 15.875, 100.005, 2540.127]);
            about(random, edge)
        }
        _ => {
            let halves = random.below(20_004) as f32;
            let edge = halves / if random.one_in(2) { 200.0 } else { 200.0 / 25.4 };
            about(random, edge)
        }
    }
}

#[cfg(test)]
mod tests {
    use super::*;
    use crate::{reference, Basis, JOB_ROOM, ROOM};

    const COUNT: u64 = 20_000;

    /// Each basis is met by at least one in fifty of the percents, mixed or not, and at a depth of the sheet or not.
    #[test]
    fn percents_meet_each_basis() {
        let mut random = Random::from(8);
        let mut seen = [0; 5];
        let (mut mixed, mut mixed_at_a_depth, mut lists) = (0, 0, [0; 4]);
        for n in 0..COUNT {
            let own = if n % 3 == 0 { broken_sheet(&mut random) } else { sheet(&mut random) };
            let lent = own.lend();
            let (mix, rate, depth) = (random.one_in(2), rate_for(&mut random, lent), depth_for(&mut random, lent));
            let found = reference::percent(lent, mix, rate, depth);
            seen[found.basis as usize] += 1;
            if found.answer == 5 {
                lists[found.list as usize] += 1;
            }
            let between = lent.rates.windows(2).any(|pair| pair[0] < rate && rate < pair[1]);
            if found.answer == 0 && mix && between {
                mixed += 1;
                mixed_at_a_depth += lent.depths.contains(&depth) as u64;
            }
        }
        assert!(seen.iter().all(|&count| count >= COUNT / 50), "{:?}", seen);
        assert!(lists.iter().all(|&count| count >= COUNT / 200), "{:?}", lists);
        assert!(mixed >= COUNT / 20 && mixed_at_a_depth >= COUNT / 50, "{} {}", mixed, mixed_at_a_depth);
    }

    /// So are the bases of granted jobs on lent sheets, and on the published ones, whose last depth is the deepest.
    #[test]
    fn jobs_meet_each_basis() {
        let mut random = Random::from(8);
        for lending in [false, true] {
            let mut seen = [0; 5];
            for _ in 0..COUNT {
                let mut text = [0; ROOM];
                let length = if lending {
                    let own = sheet(&mut random);
                    let job = job_for(&mut random, own.lend());
                    reference::answer_on(&job, own.lend(), &mut text)
                } else {
                    reference::answer(&job(&mut random), &mut text)
                };
                let text = std::str::from_utf8(&text[..length]).unwrap();
                if let Some(line) = text.lines().find_map(|line| line.strip_prefix("basis=")) {
                    seen[Basis::of_word(line).unwrap() as usize] += 1;
                }
            }
            let last = if lending { 4 } else { 3 };
            assert!(seen[..=last].iter().all(|&count| count >= COUNT / 50), "{} {:?}", lending, seen);
            assert!(lending || seen[4] == 0, "{:?}", seen);
        }
    }

    /// At least one in twenty of the jobs is answered otherwise when it is rewritten, and one in five of the damaged ones
    /// keeps its U.
    #[test]
    fn jobs_meet_an_unknown_soil() {
        let mut random = Random::from(8);
        let (mut otherwise, mut kept) = (0, 0);
        for _ in 0..COUNT {
            let job = job(&mut random);
            let mut rewritten = job.clone();
            reference::rewrite(&mut rewritten);
            let (mut text, mut other) = ([0; ROOM], [0; ROOM]);
            reference::answer(&job, &mut text);
            reference::answer(&rewritten, &mut other);
            otherwise += (text != other) as u64;
            let mut damaged = damaged(&mut random);
            reference::rewrite(&mut damaged);
            kept += damaged.contains(&b'U') as u64;
        }
        assert!(otherwise >= COUNT / 20 && kept >= COUNT / 5, "{} {}", otherwise, kept);
    }

    /// Each number that the writing of a job can give back for its values is met by at least one in fifty, and most of the texts
    /// that are written are not of the same length. Each reads back as what it was written from.
    #[test]
    fn values_meet_each_refusal() {
        let mut random = Random::from(8);
        let (mut seen, mut lengths) = ([0; 15], [0; JOB_ROOM + 1]);
        for n in 0..COUNT {
            let (head, areas) = if n % 2 == 0 { values(&mut random) } else { damaged_values(&mut random) };
            let mut text = [0; JOB_ROOM];
            let written = reference::write(&head, &areas, &mut text);
            seen[written.answer as usize] += 1;
            lengths[written.len] += 1;
            if written.answer == 0 {
                assert_eq!(reference::values(&text[..written.len]), Some((head, areas)));
            }
        }
        assert!([0, 1, 2, 3, 14].iter().all(|&answer| seen[answer] >= COUNT / 50), "{:?}", seen);
        assert_eq!(seen.iter().filter(|&&count| count > 0).count(), 5, "{:?}", seen);
        assert!(lengths[JOB_ROOM] > 0 && lengths.iter().filter(|&&count| count > 0).count() > 400);
    }

    /// Of the claimed answers at least one in five is right, one in a hundred wrong in each line that an answer can have and in
    /// the one behind it, and one in fifty stops after whole right lines; some are empty, and some wrong lines are empty within.
    #[test]
    fn claims_meet_each_line() {
        let mut random = Random::from(8);
        let (mut lines, mut early, mut nothing, mut within) = ([0; 9], 0, 0, 0);
        let mut another = Vec::new();
        for n in 0..COUNT {
            let job = if n % 4 == 0 { damaged(&mut random) } else { job(&mut random) };
            let mut text = [0; ROOM];
            let length = reference::answer(&job, &mut text);
            let claimed = claimed(&mut random, &text[..length], &another);
            let found = reference::check(&job, &claimed);
            lines[found.line as usize] += 1;
            if found.line > 0 && found.len == 0 {
                early += (found.from == claimed.len()) as u64;
                within += (found.from < claimed.len()) as u64;
            }
            nothing += claimed.is_empty() as u64;
            another = text[..length].to_vec();
        }
        assert!(lines[0] >= COUNT / 5 && lines.iter().all(|&count| count >= COUNT / 100), "{:?}", lines);
        assert!(early >= COUNT / 50 && nothing > 0 && within > 0, "{} {} {}", early, nothing, within);
    }

    /// At least half of the job texts read, and each that does is written back as it was.
    #[test]
    fn texts_that_read_are_written_back() {
        let mut random = Random::from(8);
        let mut read = 0;
        for n in 0..COUNT {
            let job = if n % 4 == 0 { damaged(&mut random) } else { job(&mut random) };
            if let Some((head, areas)) = reference::values(&job) {
                let mut text = [0; JOB_ROOM];
                let written = reference::write(&head, &areas, &mut text);
                assert_eq!((written.answer, &text[..written.len]), (0, &job[..]));
                read += 1;
            }
        }
        assert!(read >= COUNT / 2, "{}", read);
    }
}
