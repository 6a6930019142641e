//! Jobs of every kind, with faces of several sizes.

use super::jobs::{CheapColumn, Column, HeightMap, Plane, Table};
use super::known;
use hosirekar_sys::*;

const NOBODY: u32 = u32::MAX;

/// A face with an option, or none.
pub fn face(given: bool, option: u8) -> CChoice {
    CChoice { given, option }
}

/// Insets of both kinds, the first with its inner face.
fn table() -> Table {
    let entry = [0.5, 2.0, 0.25, 0.75, 0.0, 0.125, 1.0, 1.5, 0.5];
    Table {
        numbers: entry.repeat(2),
        marks: vec![0, 1, 1, 1, 1, 0, 2, 0],
    }
}

fn corners() -> Vec<f32> {
    (0..12).map(|k| 3.0 + known(5, 7 * k)).collect()
}

pub fn plane(option: u8) -> Plane {
    Plane {
        job: CPlane {
            position: CVec2 { x: 40.0, y: 50.0 },
            option,
            ..CPlane::default()
        },
        corners: corners(),
        table: table(),
    }
}

pub fn cheap_column() -> CheapColumn {
    CheapColumn {
        job: CCheapColumn {
            centre: CVec2 { x: 40.0, y: 50.0 },
            height: 8.0,
        },
        corners: corners(),
    }
}

/// Sides of three sizes and some that are absent.
pub fn column(parts: u32, top: bool, bottom: bool) -> Column {
    let number = parts;
    Column {
        job: CColumn {
            height: 8.0,
            subdivisions: CSubdivisions {
                given: true,
                number,
            },
            sides: [255, 0, 9, 1, 9, 255].map(|option| face(option != 9, option)),
            top: face(top, 0),
            bottom: face(bottom, 255),
            position: CVec2 { x: 60.0, y: 70.0 },
            placement: CPlacement::default(),
        },
        pairs: (0..24).map(|k| 3.0 + known(4, 7 * k)).collect(),
        corners: corners(),
        table: table(),
    }
}

/// So many cells in a row, each higher than the one before it, which is its neighbour at side 2.
pub fn map(cells: usize, caps: CChoice, sides: CChoice) -> HeightMap {
    let mut numbers: Vec<f32> = (0..27 * cells).map(|k| 3.0 + known(6, 7 * k)).collect();
    let mut neighbours = vec![NOBODY; 6 * cells];
    for k in 0..cells {
        numbers[27 * k] = 4.0 + k as f32 / 16.0;
        if k > 0 {
            neighbours[6 * k + 2] = (k - 1) as u32;
        }
    }
    HeightMap {
        job: CHeightMap {
            caps,
            sides,
            fringe: 1,
            ..CHeightMap::default()
        },
        cells: numbers,
        neighbours,
        fringe: vec![],
        customs: vec![],
        corners: corners(),
        table: table(),
    }
}

/// Every second height of the fringe below all cells.
pub fn fringed(mut map: HeightMap) -> HeightMap {
    map.job.fringe = 2;
    map.fringe = (0..map.neighbours.len())
        .map(|side| if side % 2 == 0 { 2.5 } else { 900_000.0 })
        .collect();
    map
}

/// An option of its own for every third face of a cell.
pub fn customed(mut map: HeightMap) -> HeightMap {
    map.job.customs = true;
    map.customs = (0..map.neighbours.len() / 6 * 7)
        .map(|place| [255, 0, 1][place % 3])
        .collect();
    map
}
