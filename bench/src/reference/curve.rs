//! The test of a sheet, and the percent of an accepted sheet at a rate and a depth.

use super::site::GRID;
use super::MOST_PERCENT;
use crate::{Basis, Sheet, Verdict};

const MOST_RATE: u64 = 10_000;

/// The test of a sheet: lengths, then depths, rates and percents, with the first offending place.
pub fn judge(sheet: Sheet) -> Verdict {
    let Sheet { depths, rates, percents } = sheet;
    let breaks = |list, place: usize| Verdict { answer: 5, list, place: place as u64 };
    let lengths = (1..=16).contains(&depths.len())
        && (1..=8).contains(&rates.len())
        && percents.len() == depths.len() * rates.len();
    if !lengths {
        return breaks(0, 0);
    }
    if let Some(place) = first_not_rising(depths, GRID) {
        return breaks(1, place);
    }
    if rates != [0] {
        if let Some(place) = first_not_rising(rates, MOST_RATE) {
            return breaks(2, place);
        }
    }
    for (row, curve) in percents.chunks_exact(depths.len()).enumerate() {
        let mut before = 0;
        for (place, &percent) in curve.iter().enumerate() {
            if percent < before || percent > MOST_PERCENT {
                return breaks(3, row * depths.len() + place);
            }
            before = percent;
        }
    }
    Verdict { answer: 0, list: 0, place: 0 }
}

/// The first place at which a list is not above the number before it (0 before the first), or is above `most`.
fn first_not_rising(list: &[u64], most: u64) -> Option<usize> {
    let mut before = 0;
    for (place, &number) in list.iter().enumerate() {
        if number <= before || number > most {
            return Some(place);
        }
        before = number;
    }
    None
}

/// An accepted sheet at one rate: two of its curves, and the weight of each. In mode `step`, and at a sheet's own
/// rate, the second has no weight.
pub struct Curve<'a> {
    depths: &'a [u64],
    low: &'a [u64],
    high: &'a [u64],
    low_weight: u64,
    high_weight: u64,
}

impl<'a> Curve<'a> {
    /// Refused 6 or 7.
    pub fn of(sheet: Sheet<'a>, mix: bool, rate: u64) -> Result<Curve<'a>, u64> {
        let Sheet { depths, rates, percents } = sheet;
        if rate > MOST_RATE || (rates == [0] && rate != 0) {
            return Err(6);
        }
        let reached = rates.iter().take_while(|&&r| r <= rate).count();
        if reached == 0 {
            return Err(7);
        }
        let row = |k: usize| &percents[k * depths.len()..(k + 1) * depths.len()];
        let low = row(reached - 1);
        if mix && reached < rates.len() {
            let (low_weight, high_weight) = (rates[reached] - rate, rate - rates[reached - 1]);
            Ok(Curve { depths, low, high: row(reached), low_weight, high_weight })
        } else {
            Ok(Curve { depths, low, high: low, low_weight: 1, high_weight: 0 })
        }
    }

    /// The percent at a depth, rounded down once.
    pub fn percent(&self, depth: u64) -> u64 {
        let after = self.depths.iter().take_while(|&&d| d <= depth).count();
        let weight = self.low_weight + self.high_weight;
        if after == self.depths.len() {
            return (self.low[after - 1] * self.low_weight + self.high[after - 1] * self.high_weight) / weight;
        }
        let before = if after == 0 { 0 } else { self.depths[after - 1] };
        let end = self.depths[after];
        let line = |curve: &[u64]| {
            let start = if after == 0 { 0 } else { curve[after - 1] };
            start * (end - depth) + curve[after] * (depth - before)
        };
        let low = line(self.low) * self.low_weight;
        let high = if self.high_weight == 0 { 0 } else { line(self.high) * self.high_weight };
        (low + high) / ((end - before) * weight)
    }

    /// How the percent at a depth is found. Two curves are mixed where the second has a weight.
    pub fn basis(&self, depth: u64) -> Basis {
        if depth < self.depths[0] {
            Basis::Start
        } else if depth > self.depths[self.depths.len() - 1] {
            Basis::Held
        } else if self.high_weight == 0 && self.depths.contains(&depth) {
            Basis::Printed
        } else {
            Basis::Between
        }
    }

    /// The least grid depth whose percent is at least a target that the percent at the deepest reaches.
    pub fn depth(&self, target: u64) -> u64 {
        let (mut low, mut high) = (0, GRID);
        while low < high {
            let middle = (low + high) / 2;
            if self.percent(middle) >= target {
                high = middle;
            } else {
                low = middle + 1;
            }
        }
        low
    }
}
