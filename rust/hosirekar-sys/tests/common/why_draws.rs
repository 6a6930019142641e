//! Drawn height maps, lawful and faulty, of which every side and every face is asked.

use super::faults::{map_faults, placement, Fault};
use super::jobs::{HeightMap, Table};
use super::stl_draws::Draws;
use super::whys::{beyond, count, height, Plain, NOBODY};
use super::BEYOND;
use hosirekar_sys::*;
use std::collections::BTreeMap;
use std::fmt;

/// So few that equal ones meet: both zeros and next to them, neighbours about 1, and the ends of the range.
const HEIGHTS: [u32; 12] = [
    0x0000_0000,
    0x8000_0000,
    0x0000_0000,
    0x8000_0000,
    0x0000_0001,
    0x8000_0001,
    0x3f80_0000,
    0x3f80_0001,
    0x4000_0000,
    0xbfc0_0000,
    0x4974_2400,
    0xc974_2400,
];

/// As many faces as are all asked.
const FEW: usize = 600;

impl Draws {
    fn height(&mut self) -> f32 {
        f32::from_bits(HEIGHTS[self.below(HEIGHTS.len())])
    }

    fn heights(&mut self, count: usize) -> Vec<f32> {
        (0..count).map(|_| self.height()).collect()
    }

    /// A coordinate that few others have.
    fn coordinate(&mut self) -> f32 {
        self.below(65_536) as f32 / 8.0 - 4_096.0
    }

    fn coordinates(&mut self, count: usize) -> Vec<f32> {
        (0..count).map(|_| self.coordinate()).collect()
    }

    /// How many cells: a few, none, and now and then about as many as have 65,536 vertices.
    fn cells(&mut self) -> usize {
        match self.below(512) {
            0 => 10_915 + self.below(15),
            1..16 => self.below(60),
            _ => self.below(9),
        }
    }

    /// Any cell, the same one too, or none.
    fn neighbour(&mut self, cells: usize) -> u32 {
        match self.below(3) {
            0 => NOBODY,
            _ => self.below(cells) as u32,
        }
    }

    /// Faces that are on more often than off, with an option of three, or the default.
    fn choice(&mut self) -> CChoice {
        CChoice {
            given: !self.once_in(4),
            option: [255, 0, 1, 2][self.below(4)],
        }
    }

    fn map_job(&mut self) -> CHeightMap {
        let (min, max) = (self.height(), self.height());
        let (x, y) = (self.coordinate(), self.coordinate());
        CHeightMap {
            caps: self.choice(),
            sides: self.choice(),
            customs: self.once_in(3),
            fringe: 1 + self.below(2) as u8,
            range: CRange {
                given: self.once_in(4),
                min,
                max,
            },
            origin: COrigin {
                given: self.once_in(8),
                at: CVec2 { x, y },
            },
            placement: match self.below(8) {
                0 => placement(),
                _ => CPlacement::default(),
            },
        }
    }

    /// A lawful map, but for the limit. Its lists for what is not listed are there or not.
    pub fn map(&mut self) -> HeightMap {
        let (n, job) = (self.cells(), self.map_job());
        let mut cells = self.coordinates(27 * n);
        (0..n).for_each(|cell| cells[27 * cell] = self.height());
        let fringe = match job.fringe {
            1 => self.below(3),
            _ => 6 * n,
        };
        let customs = match job.customs {
            false => self.below(3),
            true => 7 * n,
        };
        HeightMap {
            job,
            cells,
            neighbours: (0..6 * n).map(|_| self.neighbour(n)).collect(),
            fringe: self.heights(fringe),
            customs: (0..customs)
                .map(|_| [255, 0, 1, 2][self.below(4)])
                .collect(),
            corners: self.coordinates(12),
            table: Table {
                numbers: [1.0, 1.0, 0.0, 0.0, 0.0, 0.0, 1.0, 1.0, 0.25].repeat(3),
                marks: vec![0, 1, 0, 0, 1, 0, 1, 1, 0, 0, 2, 0],
            },
        }
    }

    /// One fault, as far as the map has what it is about.
    fn damage_map(&mut self, map: &mut HeightMap, faults: &[Fault<HeightMap>]) {
        match self.below(4) {
            0 => faults[self.below(faults.len())].1(map),
            1 => {
                let stray = f32::from_bits(BEYOND[self.below(BEYOND.len())]);
                let of = [&mut map.cells, &mut map.fringe, &mut map.corners];
                let list = of.into_iter().nth(self.below(3)).unwrap();
                self.put(list, stray);
            }
            2 => {
                let astray = [count(map) as u32, 65_536, NOBODY - 1][self.below(3)];
                self.put(&mut map.neighbours, astray);
            }
            _ => {
                let option = [3, 63, 64, 254][self.below(4)];
                match self.below(3) {
                    0 => map.job.caps.option = option,
                    1 => map.job.sides.option = option,
                    _ => self.put(&mut map.customs, option),
                }
            }
        }
    }

    /// Puts something at a place of a list.
    fn put<T>(&mut self, list: &mut [T], thing: T) {
        if !list.is_empty() {
            list[self.below(list.len())] = thing;
        }
    }

    /// A number that is not below `end`: the next ones, the greatest, and those that fewer bits, or a product
    /// with the numbers or the sides of a cell, would make small.
    fn astray(&mut self, end: usize) -> usize {
        let near = self.below(end + 9);
        let far = match self.below(5) {
            0 => end + near,
            1 => usize::MAX - near,
            2 => (1 << [8, 16, 32, 63][self.below(4)]) + near,
            3 => ((1 + self.below(26) as u128) << 64).div_ceil(27) as usize + near,
            _ => end,
        };
        far.max(end)
    }

    /// All of so many, or a few of them, and some past the end.
    fn asked(&mut self, end: usize, are_all: bool) -> Vec<usize> {
        let mut asked: Vec<usize> = match are_all {
            true => (0..end).collect(),
            false => (0..8.min(end)).map(|_| self.below(end)).collect(),
        };
        asked.extend([(); 2].map(|()| self.astray(end)));
        asked
    }

    /// Sides of lawful cells and strays, by cell and side.
    fn sides(&mut self, cells: usize, are_all: bool) -> Vec<(usize, usize)> {
        let cells = self.asked(cells, are_all);
        let sides = cells.iter().flat_map(|cell| {
            let sides = self.asked(6, true);
            sides.into_iter().map(|side| (*cell, side))
        });
        sides.collect()
    }
}

/// What was asked and told, and what differed.
#[derive(Debug, Default)]
pub struct Tally {
    pub maps: u64,
    /// Sides by the number of their reason; those refused come first.
    pub reasons: [u64; 5],
    /// Faces by the number of their kind; those refused come first.
    pub kinds: [u64; 3],
    /// Of the sides that were told: how many have a height of the fringe beyond, the same height as the cell's,
    /// and the other zero.
    pub met: [u64; 3],
    /// How many calls were refused, by the number.
    pub refused: BTreeMap<u32, u64>,
    pub differ: u64,
    pub first: Option<String>,
}

impl Tally {
    /// Asks so many drawn maps, of which one in six has faults.
    pub fn run(count: u64, seed: u64) -> Tally {
        let (mut tally, mut draws) = (Tally::default(), Draws::new(seed));
        let faults = map_faults();
        for _ in 0..count {
            let mut map = draws.map();
            if draws.once_in(6) {
                (0..1 + draws.below(3)).for_each(|_| draws.damage_map(&mut map, &faults));
            }
            tally.ask(&map, &mut draws);
        }
        tally
    }

    fn ask(&mut self, map: &HeightMap, draws: &mut Draws) {
        let plain = Plain::new(map);
        let (cells, faces) = (count(map), plain.names.len());
        let are_all = cells.max(faces) <= FEW;
        for (cell, side) in draws.sides(cells, are_all) {
            let why = plain.why(cell, side);
            self.reasons[why.reason as usize] += 1;
            self.count(why.answer);
            if why.reason > 2 {
                self.meet(map, cell, side);
            }
            self.add(plain.side_difference(cell, side));
        }
        let mut asked = draws.asked(faces, are_all);
        for number in &asked {
            let which = plain.which(*number);
            self.kinds[which.kind as usize] += 1;
            self.count(which.answer);
            self.add(plain.face_difference(*number));
        }
        asked.retain(|face| *face < faces);
        self.add(plain.mesh_difference(&asked));
        self.maps += 1;
    }

    fn meet(&mut self, map: &HeightMap, cell: usize, side: usize) {
        let (own, other) = (height(map, cell), beyond(map, cell, side));
        let is_equal = other == Some(own);
        let is_other = other.map(f32::to_bits) != Some(own.to_bits());
        let is_fringe = map.neighbours[6 * cell + side] == NOBODY;
        let met = [is_fringe, is_equal, is_equal && is_other];
        (0..3).for_each(|k| self.met[k] += u64::from(met[k]));
    }

    fn count(&mut self, answer: CAnswer) {
        if answer.number > 0 {
            *self.refused.entry(answer.number).or_default() += 1;
        }
    }

    fn add(&mut self, differs: Option<String>) {
        self.differ += u64::from(differs.is_some());
        self.first = self.first.take().or(differs);
    }
}

impl fmt::Display for Tally {
    fn fmt(&self, f: &mut fmt::Formatter<'_>) -> fmt::Result {
        let [_, off, nothing, high, present] = self.reasons;
        let [_, caps, walls] = self.kinds;
        let [fringe, equal, zeros] = self.met;
        let [sides, faces] = [self.reasons.iter().sum::<u64>(), self.kinds.iter().sum()];
        write!(f, "{} maps, {sides} sides asked (off {off}, ", self.maps)?;
        write!(
            f,
            "nothing beyond {nothing}, as high {high}, present {present}; "
        )?;
        write!(
            f,
            "fringe {fringe}, equal {equal}, the other zero {zeros}), "
        )?;
        write!(f, "{faces} faces asked (caps {caps}, sides {walls}), ")?;
        let refused = self.refused.iter();
        let refused = refused.map(|(number, times)| format!("{number}: {times}"));
        let refused = refused.collect::<Vec<_>>().join(", ");
        write!(f, "refused ({refused}), {} differ", self.differ)
    }
}
