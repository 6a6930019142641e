//! Height maps as the program `replay_maps` reads them, and what the scope's table
//! says of such a map before anything is built.

use crate::job_runs::Fault;
use crate::job_words::{Lines, Words, bytes, choice, flat, floats, supplied, table};
use crate::maps::{Map, NOBODY, NUMBERS, OWN};
use crate::numbers::LIMIT;
use glam::{Vec2, Vec3};

/// The most cells, options and vertices.
const CELLS: usize = 65_536;
/// See [`CELLS`].
const OPTIONS: usize = 64;
/// See [`CELLS`].
const VERTICES: usize = 65_536;

/// The option number of caps or sides that are off.
pub const OFF: u32 = 256;

/// The words of a map. Its lists may be of any length, and those that are not
/// given may hold anything.
#[derive(Debug, Clone)]
pub struct MapJob {
    pub cells: Vec<f32>,
    pub neighbours: Vec<u32>,
    pub fringe: Vec<f32>,
    pub customs: Vec<u8>,
    pub corners: Vec<f32>,
    pub numbers: Vec<f32>,
    pub marks: Vec<u8>,
    /// 255 the default, [`OFF`] no caps.
    pub caps: u32,
    /// 255 the default, [`OFF`] no sides.
    pub sides: u32,
    pub range: Option<[f32; 2]>,
    /// Whether the fringe is given.
    pub fringed: bool,
    /// Whether the custom options are given.
    pub customised: bool,
    pub scale: Option<[f32; 3]>,
    pub turn: Option<[[f32; 3]; 3]>,
    pub offset: Option<[f32; 3]>,
    /// What is added last; a centred map has none.
    pub origin: Option<[f32; 2]>,
}

impl From<&Map> for MapJob {
    fn from(map: &Map) -> Self {
        let (numbers, marks) = table(&map.options);
        let rows = map.turn.map(|turn| turn.rows());
        Self {
            cells: map.cells.clone(),
            neighbours: map.neighbours.clone(),
            fringe: map.fringe.clone().unwrap_or_default(),
            customs: map.customs.clone().unwrap_or_default(),
            corners: flat(&map.corners),
            numbers,
            marks,
            caps: choice(map.caps),
            sides: choice(map.sides),
            range: map.range,
            fringed: map.fringe.is_some(),
            customised: map.customs.is_some(),
            scale: map.scale.map(Vec3::into),
            turn: rows.map(|rows| rows.map(|row| row.to_array())),
            offset: map.offset.map(Vec3::into),
            origin: map.origin.map(Vec2::into),
        }
    }
}

impl Words for MapJob {
    fn lines(&self) -> Lines {
        let mut rest = vec![self.caps, self.sides];
        supplied(&mut rest, self.range.as_ref().map(|two| floats(two)));
        rest.extend([self.fringed, self.customised].map(u32::from));
        supplied(&mut rest, self.scale.as_ref().map(|three| floats(three)));
        let turn = self.turn.as_ref();
        supplied(&mut rest, turn.map(|rows| floats(rows.as_flattened())));
        supplied(&mut rest, self.offset.as_ref().map(|three| floats(three)));
        supplied(&mut rest, self.origin.as_ref().map(|two| floats(two)));
        vec![
            self.lengths().map(|length| length as u32).to_vec(),
            floats(&self.cells),
            self.neighbours.clone(),
            floats(&self.fringe),
            bytes(&self.customs),
            floats(&self.corners),
            floats(&self.numbers),
            bytes(&self.marks),
            rest,
        ]
    }
}

impl MapJob {
    /// How long its lists are.
    #[must_use]
    pub fn lengths(&self) -> [usize; 7] {
        [
            self.cells.len(),
            self.neighbours.len(),
            self.fringe.len(),
            self.customs.len(),
            self.corners.len(),
            self.numbers.len(),
            self.marks.len(),
        ]
    }

    /// How many cells it has.
    #[must_use]
    pub fn count(&self) -> usize {
        self.cells.len() / NUMBERS
    }

    /// How many options it has.
    fn entries(&self) -> usize {
        self.marks.len() / 4
    }

    /// The first of the scope's numbers that it is refused by, if any.
    #[must_use]
    pub fn fault(&self) -> Option<Fault> {
        if !self.is_shaped() || !self.names_options() {
            return Some(Fault::Shape);
        }
        if !self.is_in_range() {
            return Some(Fault::Range);
        }
        let is_cell = |&cell: &u32| cell == NOBODY || (cell as usize) < self.count();
        if !self.neighbours.iter().all(is_cell) {
            return Some(Fault::Neighbour);
        }
        (self.counts()[0] > VERTICES).then_some(Fault::Limit)
    }

    /// Whether all lists that are given have their length, and the marks mean
    /// something.
    fn is_shaped(&self) -> bool {
        let (count, entries) = (self.count(), self.entries());
        let is_meant = |(at, &mark): (usize, &u8)| mark < if at % 4 == 2 { 3 } else { 2 };
        count <= CELLS
            && self.cells.len() == NUMBERS * count
            && self.neighbours.len() == 6 * count
            && (!self.fringed || self.fringe.len() == 6 * count)
            && (!self.customised || self.customs.len() == 7 * count)
            && self.corners.len() == 12
            && entries <= OPTIONS
            && self.marks.len() == 4 * entries
            && self.numbers.len() == 9 * entries
            && self.marks.iter().enumerate().all(is_meant)
    }

    /// Whether every option number names an entry or the default.
    fn names_options(&self) -> bool {
        let names = |number: u32| number == u32::from(OWN) || (number as usize) < self.entries();
        let all = |choice: u32| choice == OFF || names(choice);
        let customs = || self.customs.iter().all(|&number| names(number.into()));
        all(self.caps) && all(self.sides) && (!self.customised || customs())
    }

    fn is_in_range(&self) -> bool {
        let fringe = self.fringed.then_some(&self.fringe);
        let lists = [&self.cells, &self.corners, &self.numbers];
        let lent = lists.into_iter().chain(fringe).flatten();
        let range = self.range.iter().flatten();
        let scale = self.scale.iter().flatten();
        let turn = self.turn.iter().flatten().flatten();
        let offset = self.offset.iter().flatten();
        let origin = self.origin.iter().flatten();
        let supplied = range.chain(scale).chain(turn).chain(offset).chain(origin);
        lent.chain(supplied).all(|x| x.abs() <= LIMIT)
    }

    /// The vertices and indices of all faces, if nothing is wrong with it.
    #[must_use]
    pub fn counts(&self) -> [usize; 2] {
        let mut all = [0; 2];
        let mut add = |[vertices, indices]: [usize; 2]| {
            all = [all[0] + vertices, all[1] + indices];
        };
        for cell in 0..self.count() {
            if self.caps != OFF {
                add(self.size(self.caps, 7 * cell, 6));
            }
            for side in (0..6).filter(|&side| self.stands(cell, side)) {
                add(self.size(self.sides, 7 * cell + 1 + side, 4));
            }
        }
        all
    }

    /// The counts of a face with so many corners.
    fn size(&self, all: u32, at: usize, corners: usize) -> [usize; 2] {
        let own = self.customised.then(|| u32::from(self.customs[at]));
        let option = own.filter(|&own| own != u32::from(OWN)).unwrap_or(all);
        let inner = 3 * (corners - 2);
        match self.marks.get(4 * option as usize..) {
            Some(&[_, _, 1 | 2, keep, ..]) => [2 * corners, 6 * corners + inner * keep as usize],
            _ => [corners, inner],
        }
    }

    /// Whether a side is there.
    fn stands(&self, cell: usize, side: usize) -> bool {
        let height = |cell: usize| self.cells[NUMBERS * cell];
        let at = 6 * cell + side;
        let beyond = match self.neighbours[at] {
            NOBODY => self.fringed.then(|| self.fringe[at]),
            neighbour => Some(height(neighbour as usize)),
        };
        self.sides != OFF && beyond.is_some_and(|beyond| beyond < height(cell))
    }
}
