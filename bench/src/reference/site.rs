//! Sub-areas, the site record, its load, and the volume of a depth.

use crate::tables::{EXPORT_RATES, RUNOFF_ROWS};

/// The deepest grid depth.
pub const GRID: u64 = 200;
pub const MOST_AREA: u64 = 1_000_000;
pub const MOST_PARTS: usize = 32;

/// The soil as which an unknown one is read in Tables 3-1 and 3-2, and in Table 3-4.
const UNKNOWN_FOR_LOAD: Soil = Soil::C;
pub const UNKNOWN_FOR_RUNOFF: Soil = Soil::D;

/// Land uses by their place in the list com, ind, hdr, mdr, ldr, hwy, for, open, ag.
const FOREST: u8 = 6;
const AGRICULTURE: u8 = 8;

#[derive(Clone, Copy, PartialEq, Eq)]
pub enum Soil {
    A,
    B,
    C,
    CD,
    D,
    Unknown,
    Paved,
}

impl Soil {
    /// The table column of a pervious soil, an unknown one being read as `unknown`.
    fn column(self, unknown: Soil) -> usize {
        if self == Soil::Unknown {
            unknown as usize
        } else {
            self as usize
        }
    }
}

#[derive(Clone, Copy)]
pub struct SubArea {
    pub land_use: u8,
    pub impervious: bool,
    pub soil: Soil,
    pub area: u64,
}

impl SubArea {
    const NONE: SubArea = SubArea { land_use: 0, impervious: true, soil: Soil::Paved, area: 0 };

    /// The place of its export rate among the sixteen of a nutrient.
    fn rate_place(self) -> usize {
        match self.land_use {
            land_use if self.impervious => land_use as usize,
            FOREST => 9,
            AGRICULTURE => 10,
            _ => 11 + self.soil.column(UNKNOWN_FOR_LOAD),
        }
    }
}

pub struct Site {
    parts: [SubArea; MOST_PARTS],
    count: usize,
    total: u64,
}

impl Site {
    pub const EMPTY: Site = Site { parts: [SubArea::NONE; MOST_PARTS], count: 0, total: 0 };

    /// Adds a sub-area, or refuses it 2, 14 or 3.
    pub fn add(&mut self, part: SubArea) -> Result<(), u64> {
        if part.area < 1 || part.area > MOST_AREA || part.impervious != (part.soil == Soil::Paved) {
            return Err(2);
        }
        if self.count == MOST_PARTS {
            return Err(14);
        }
        if self.total + part.area > MOST_AREA {
            return Err(3);
        }
        self.parts[self.count] = part;
        self.count += 1;
        self.total += part.area;
        Ok(())
    }

    pub fn parts(&self) -> &[SubArea] {
        &self.parts[..self.count]
    }

    pub fn load(&self, nutrient: usize) -> u64 {
        let rates = &EXPORT_RATES[nutrient];
        self.parts().iter().map(|part| part.area * rates[part.rate_place()]).sum()
    }
}

/// What V needs of a site: its impervious area, and its pervious area in each soil column.
pub struct Ground {
    pub impervious: u64,
    pervious: [u64; 5],
}

impl Ground {
    /// An unknown soil is read as `unknown`.
    pub fn of(site: &Site, unknown: Soil) -> Ground {
        let mut ground = Ground { impervious: 0, pervious: [0; 5] };
        for part in site.parts() {
            if part.impervious {
                ground.impervious += part.area;
            } else {
                ground.pervious[part.soil.column(unknown)] += part.area;
            }
        }
        ground
    }

    /// V(d), for a grid depth.
    pub fn volume(&self, depth: u64) -> u64 {
        let runoff = &RUNOFF[depth as usize];
        let pervious: u64 = self.pervious.iter().zip(runoff).map(|(area, &runoff)| area * runoff as u64).sum();
        121 * (300 * depth * self.impervious + pervious)
    }

    /// The largest grid depth whose volume is not above `volume`.
    pub fn depth(&self, volume: u64) -> u64 {
        let (mut low, mut high) = (0, GRID);
        while low < high {
            let middle = (low + high + 1) / 2;
            if self.volume(middle) <= volume {
                low = middle;
            } else {
                high = middle - 1;
            }
        }
        low
    }
}

/// Runoff in thirty-thousandths of an inch, at each grid depth in the five soil columns.
static RUNOFF: [[u16; 5]; GRID as usize + 1] = runoff();

const fn runoff() -> [[u16; 5]; GRID as usize + 1] {
    let mut sheet = [[0; 5]; GRID as usize + 1];
    let mut row = 0;
    while row + 1 < RUNOFF_ROWS.len() {
        let (here, next) = (RUNOFF_ROWS[row], RUNOFF_ROWS[row + 1]);
        let mut rain = here[0];
        while rain <= next[0] {
            let mut column = 1;
            while column <= 5 {
                let line = here[column] * (next[0] - rain) + next[column] * (rain - here[0]);
                sheet[rain as usize][column - 1] = (300 * line / (next[0] - here[0])) as u16;
                column += 1;
            }
            rain += 1;
        }
        row += 1;
    }
    sheet
}
