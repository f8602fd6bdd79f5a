//! Rules, "Numbers to hold on to" and "Checking an answer": the numbers that are told there, held by the Rust code.

use bench::{reference, Basis, Checked, Part, PercentAnswer, Sheet, Value, Verdict, ROOM};

const T: Sheet =
    Sheet { depths: &[20, 60, 100], rates: &[25, 75], percents: &[20000, 50000, 70000, 40000, 65000, 80000] };

fn answer(job: &str, sheet: Option<Sheet>) -> String {
    let mut text = [0; ROOM];
    let length = match sheet {
        None => reference::answer(job.as_bytes(), &mut text),
        Some(sheet) => reference::answer_on(job.as_bytes(), sheet, &mut text),
    };
    String::from_utf8(text[..length].to_vec()).unwrap()
}

/// The answer by the old rules, which is also that of the rewritten job.
fn old_answer(job: &str, sheet: Option<Sheet>) -> String {
    let mut text = [0; ROOM];
    let length = reference::old_answer(job.as_bytes(), sheet, &mut text);
    let mut rewritten = job.as_bytes().to_vec();
    reference::rewrite(&mut rewritten);
    let old = String::from_utf8(text[..length].to_vec()).unwrap();
    assert_eq!(answer(std::str::from_utf8(&rewritten).unwrap(), sheet), old);
    old
}

fn on_t(task: &str, amount: u64, areas: &str) -> String {
    answer(
        &format!("practice=basin\nnutrient=N\nmode=step\nrate=50\ntask={}\namount={}\n{}", task, amount, areas),
        Some(T),
    )
}

#[test]
fn percents_of_t() {
    for (mix, rate, depth, percent, basis) in [
        (false, 50, 40, 35000, Basis::Between),
        (false, 50, 0, 0, Basis::Start),
        (false, 50, 10, 10000, Basis::Start),
        (false, 50, 200, 70000, Basis::Held),
        (true, 50, 40, 43750, Basis::Between),
        (true, 26, 33, 30117, Basis::Between),
    ] {
        assert_eq!(reference::percent(T, mix, rate, depth), PercentAnswer::granted(percent, basis));
    }
    assert_eq!(reference::percent(T, false, 24, 40), PercentAnswer::refused(7));
}

#[test]
fn bases_on_t() {
    let basis = |mix, rate, depth| Basis::ALL[reference::percent(T, mix, rate, depth).basis as usize];
    // The first and the last depth are printed, and what lies beside them is not.
    for (depth, found) in [
        (19, Basis::Start),
        (20, Basis::Printed),
        (21, Basis::Between),
        (59, Basis::Between),
        (60, Basis::Printed),
        (100, Basis::Printed),
        (101, Basis::Held),
    ] {
        for (mix, rate) in [(false, 50), (false, 25), (true, 25), (true, 75), (true, 76), (true, 10_000)] {
            assert_eq!(basis(mix, rate, depth), found, "mix {} rate {} depth {}", mix, rate, depth);
        }
    }
    // Strictly between two rates a printed depth is mixed; below the first depth and beyond the last nothing changes.
    for rate in [26, 50, 74] {
        for (depth, found) in [
            (0, Basis::Start),
            (19, Basis::Start),
            (20, Basis::Between),
            (60, Basis::Between),
            (100, Basis::Between),
            (101, Basis::Held),
            (200, Basis::Held),
        ] {
            assert_eq!(basis(true, rate, depth), found, "rate {} depth {}", rate, depth);
        }
    }
    // A sheet without rates mixes nothing.
    let flat = Sheet { depths: &[20, 60, 100], rates: &[0], percents: &[20000, 50000, 70000] };
    assert_eq!(reference::percent(flat, true, 0, 60), PercentAnswer::granted(50000, Basis::Printed));
    // It goes by the depth and not by the percent: a curve that is level from 20 to 60 has no printed depth between.
    let level = Sheet { depths: &[20, 60], rates: &[0], percents: &[30000, 30000] };
    assert_eq!(reference::percent(level, false, 0, 40), PercentAnswer::granted(30000, Basis::Between));
    assert_eq!(reference::percent(level, false, 0, 61), PercentAnswer::granted(30000, Basis::Held));
    // A depth of 200 that is the last is printed.
    let whole = Sheet { depths: &[200], rates: &[0], percents: &[30000] };
    assert_eq!(reference::percent(whole, false, 0, 200), PercentAnswer::granted(30000, Basis::Printed));
    assert_eq!(reference::percent(whole, false, 0, 199), PercentAnswer::granted(29850, Basis::Start));
}

#[test]
fn a_refused_percent_has_no_basis() {
    for (rate, depth, answer) in [(10_001, 40, 6), (24, 40, 7), (25, 201, 9)] {
        let zeros = PercentAnswer { answer, percent: 0, basis: 0, list: 0, place: 0 };
        assert_eq!(reference::percent(T, true, rate, depth), zeros);
    }
    let broken = Sheet { percents: &[20000, 50000, 70000, 40000, 35000, 80000], ..T };
    let unfit = PercentAnswer { answer: 5, percent: 0, basis: 0, list: 3, place: 4 };
    assert_eq!(reference::percent(broken, true, 10_001, 201), unfit);
    let unfit = PercentAnswer { answer: 5, percent: 0, basis: 0, list: 0, place: 0 };
    assert_eq!(reference::percent(Sheet { rates: &[25], ..T }, true, 25, 20), unfit);
}

#[test]
fn the_basis_is_that_of_the_depth_found() {
    let acre = "area=com,imp,-,100\n";
    for (task, amount, depth, word) in [
        ("size", 0, 0, "start"),
        ("size", 19_999, 20, "printed"),
        ("size", 20_000, 20, "printed"),
        ("size", 20_001, 21, "between"),
        ("size", 70_000, 100, "printed"),
        ("credit", 0, 0, "start"),
        ("credit", 121 * 300 * 100 * 60, 60, "printed"),
        ("credit", 121 * 300 * 100 * 60 - 1, 59, "between"),
        ("credit", 121 * 300 * 100 * 100, 100, "printed"),
        ("credit", 10_000_000_000_000, 200, "held"),
    ] {
        let text = on_t(task, amount, acre);
        assert!(text.contains(&format!("\ndepth={}\n", depth)), "{} {}: {}", task, amount, text);
        assert!(text.contains(&format!("\nbasis={}\nvolume=", word)), "{} {}: {}", task, amount, text);
    }
}

#[test]
fn targets_on_t() {
    let acre = "area=com,imp,-,100\n";
    for (target, depth) in [(35000, 40), (35001, 41), (70000, 100)] {
        assert!(on_t("size", target, acre).contains(&format!("\ndepth={}\n", depth)));
    }
    assert_eq!(on_t("size", 70001, acre), "answer=10\nline=0\n");
}

#[test]
fn a_volume_and_one_unit_less() {
    let site = "area=com,imp,-,400\narea=com,per,C,200\narea=com,per,B,150\n";
    assert!(on_t("size", 55001, site).contains("\ndepth=71\ncredit=55500\nbasis=between\nvolume=1100343750\n"));
    assert!(on_t("credit", 1_100_343_750, site).contains("\ndepth=71\ncredit=55500\n"));
    assert!(on_t("credit", 1_100_343_749, site).contains("\ndepth=70\ncredit=55000\n"));
    let paved = "practice=basin\nnutrient=P\nmode=step\nrate=39\ntask=size\namount=70000\narea=com,imp,-,257\n";
    assert!(answer(paved, None).contains("\ndepth=36\ncredit=70000\nbasis=between\nvolume=335847600\n"));
}

#[test]
fn volumes_on_an_unknown_soil() {
    let site = "area=com,imp,-,400\narea=com,per,U,200\narea=com,per,B,150\n";
    // A sheet on which the target 500 × d has the depth d.
    let even = Sheet { depths: &[200], rates: &[0], percents: &[100_000] };
    for (depth, old, new) in [
        (10, 145_200_000u64, 145_200_000u64),
        (20, 297_660_000, 304_920_000),
        (71, 1_100_343_750, 1_144_629_750),
        (200, 3_524_730_000, 3_807_870_000),
    ] {
        let head = "practice=basin\nnutrient=N\nmode=step\nrate=0\ntask=size\n";
        let job = format!("{}amount={}\n{}", head, 500 * depth, site);
        assert!(answer(&job, Some(even)).contains(&format!("\nvolume={}\n", new)), "{}", depth);
        assert!(old_answer(&job, Some(even)).contains(&format!("\nvolume={}\n", old)), "{}", depth);
    }
    assert!(on_t("size", 55001, site).contains("\ndepth=71\ncredit=55500\nbasis=between\nvolume=1144629750\n"));
    assert!(on_t("credit", 1_144_629_750, site).contains("\ndepth=71\ncredit=55500\n"));
    assert!(on_t("credit", 1_144_629_749, site).contains("\ndepth=70\ncredit=55000\n"));
    assert!(on_t("credit", 1_100_343_750, site).contains("\ndepth=68\ncredit=54000\n"));
    for (nutrient, load) in [("P", 77_200), ("N", 666_000)] {
        let job = format!("practice=basin\nnutrient={}\nmode=step\nrate=0\ntask=load\namount=0\n{}", nutrient, site);
        assert!(answer(&job, None).starts_with(&format!("answer=0\nload={}\n", load)));
        assert_eq!(answer(&job, None), old_answer(&job, None));
    }
}

#[test]
fn jobs_on_an_unknown_soil() {
    let wetland = include_str!("../../jobs/wetland.job");
    let basin = "practice=basin\nnutrient=P\nmode=step\nrate=39\ntask=size\namount=70000\n\
                 area=com,imp,-,257\narea=com,per,U,300\n";
    let wetland_answer = |depth, credit, removed| {
        format!(
            "answer=0\nload=637650\ndepth={}\ncredit={}\nbasis=between\nvolume=2000000000\nremoved={}\n",
            depth, credit, removed
        )
    };
    assert_eq!(answer(wetland, None), wetland_answer(107, 68840, 438958));
    assert_eq!(old_answer(wetland, None), wetland_answer(120, 70400, 448905));
    assert!(answer(basin, None).contains("\nvolume=392475600\n"));
    assert!(old_answer(basin, None).contains("\nvolume=364161600\n"));
}

#[test]
fn a_broken_t() {
    let broken = Sheet { percents: &[20000, 50000, 70000, 40000, 35000, 80000], ..T };
    assert_eq!(reference::sheet(broken), Verdict { answer: 5, list: 3, place: 4 });
    assert_eq!(reference::sheet(T), Verdict { answer: 0, list: 0, place: 0 });
}

#[test]
fn readings() {
    assert_eq!(reference::reading(false, 0.25), Value::granted(25));
    assert_eq!(reference::reading(false, 0.5), Value::granted(50));
    assert_eq!(reference::reading(true, 127.0), Value::granted(500));
    assert_eq!(reference::reading(false, 0.52), Value::granted(52));
    assert_eq!(reference::reading(false, 1.02), Value::granted(102));
    assert_eq!(reference::reading(false, 0.125), Value::granted(12));
    assert_eq!(reference::reading(true, 15.875), Value::granted(62));
    assert_eq!(reference::reading(false, -0.0), Value::granted(0));
}

#[test]
fn the_load_job_and_its_faults() {
    let job = "practice=basin\nnutrient=N\nmode=step\nrate=0\ntask=load\namount=0\n\
               area=ind,imp,-,1013\narea=com,per,C,185\narea=for,per,C,89\n";
    assert_eq!(answer(job, None), "answer=0\nload=1568350\ndepth=0\ncredit=0\nbasis=none\nvolume=0\nremoved=0\n");
    assert_eq!(reference::fault(job.as_bytes()), Part { from: job.len(), len: 0 });
    let unended = &job[..job.len() - 1];
    assert_eq!(answer(unended, None), "answer=1\nline=9\n");
    assert_eq!(reference::fault(unended.as_bytes()), Part { from: job.len() - 18, len: 17 });
}

/// Holds the check of a claimed text to the number of its wrong line and where that line begins and ends; 0 for a yes.
fn checked(job: &[u8], claimed: &str, line: u64, from: usize, to: usize) {
    let found = reference::check(job, claimed.as_bytes());
    assert_eq!(found, Checked { line, from, len: to - from }, "{:?}", claimed);
}

#[test]
fn checks_of_the_load_job() {
    let right = "answer=0\nload=1568350\ndepth=0\ncredit=0\nbasis=none\nvolume=0\nremoved=0\n";
    let sample = |claimed: &str, line, from, to| {
        checked(include_bytes!("../../jobs/sample.job"), claimed, line, from, to);
    };
    sample(right, 0, 69, 69);
    sample("", 1, 0, 0);
    sample("answer=0\n", 2, 9, 9);
    sample("answer=0", 1, 0, 8);
    sample("answer=0\nload=1568350\ndepth=0\ncredit=0\nbasis=none\nvolume=0\nremoved=0", 7, 59, 68);
    sample(&format!("{}x", right), 8, 69, 70);
    sample(&format!("{}\n", right), 8, 69, 69);
    sample(&format!("{}{}", right, right), 8, 69, 77);
    // The 156.9 lb of Example 3-1, and a leading zero.
    sample("answer=0\nload=1569000\ndepth=0\ncredit=0\nbasis=none\nvolume=0\nremoved=0\n", 2, 9, 21);
    sample("answer=0\nload=01568350\ndepth=0\ncredit=0\nbasis=none\nvolume=0\nremoved=0\n", 2, 9, 22);
    sample(&right.replace('\n', "\r\n"), 1, 0, 9);
    sample("answer=0\nload=1568350\ndepth=0\ncredit=0\nvolume=0\nremoved=0\n", 5, 39, 47);
    sample("answer=0\nload=1568350\ndepth=0\ncredit=0\nbasis=held\nvolume=0\nremoved=0\n", 5, 39, 49);
    sample(&format!("\n{}", right), 1, 0, 0);
    sample("answer=1\nline=0\n", 1, 0, 8);
}

#[test]
fn checks_of_refused_jobs() {
    let malformed = include_bytes!("../../jobs/refused-1.job");
    checked(malformed, "answer=1\nline=8\n", 0, 16, 16);
    checked(malformed, "answer=1\nline=7\n", 2, 9, 15);
    checked(malformed, "answer=1\n", 2, 9, 9);
    checked(malformed, "answer=1\nline=8\nload=0\n", 3, 16, 22);
    checked(&[b'x'; 5000], "answer=1\nline=0\n", 0, 16, 16);
}
