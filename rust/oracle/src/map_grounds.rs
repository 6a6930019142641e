//! Where the cells of a height map lie: as a layout puts them, or linked as no
//! layout would.

use crate::builders::Choice;
use crate::maps::{Map, NOBODY, NUMBERS};
use crate::shapes::stretched;
use glam::{Vec2, vec2};
use std::collections::HashMap;

/// The place of a hex by its two axes.
pub type Axial = [i32; 2];

/// A layout.
#[derive(Debug, Clone, Copy)]
pub struct Layout {
    pub pointy: bool,
    /// How much a hexagon of size 1 is stretched.
    pub by: Vec2,
    pub origin: Vec2,
}

/// The root of 3.
const ROOT: f32 = 1.732_050_8;

/// Across sides 0 to 5 where a corner is on the second axis.
const POINTY: [Axial; 6] = [[1, 0], [0, 1], [-1, 1], [-1, 0], [0, -1], [1, -1]];

/// Across sides 0 to 5 where a corner is on the first axis.
const FLAT: [Axial; 6] = [[1, -1], [1, 0], [0, 1], [-1, 1], [-1, 0], [0, -1]];

impl Layout {
    /// The middle of a hex, without the origin.
    fn position(&self, [q, r]: Axial) -> Vec2 {
        let (q, r) = (q as f32, r as f32);
        let middle = match self.pointy {
            true => vec2(ROOT * (q + r / 2.0), 1.5 * r),
            false => vec2(1.5 * q, ROOT * (r + q / 2.0)),
        };
        middle * self.by
    }

    /// A map of these hexes in this order, with all at their defaults. Its ends
    /// have the origin in them, as hexx's layout gives them, and it is added
    /// once more.
    #[must_use]
    pub fn map(&self, hexes: &[Axial], heights: &[f32]) -> Map {
        let corners = stretched(self.pointy, self.by);
        let mut map = Map {
            origin: Some(self.origin),
            ..empty(corners)
        };
        let sides = if self.pointy { POINTY } else { FLAT };
        let numbers: HashMap<&Axial, u32> = hexes.iter().zip(0..).collect();
        for (hex, &height) in hexes.iter().zip(heights) {
            let at = self.position(*hex);
            map.cells.extend([height, at.x, at.y]);
            for (side, across) in sides.iter().enumerate() {
                for corner in [corners[side], corners[(side + 1) % 6]] {
                    map.cells.extend((at + self.origin + corner).to_array());
                }
                let beside = [hex[0] + across[0], hex[1] + across[1]];
                let cell = numbers.get(&beside).copied();
                map.neighbours.push(cell.unwrap_or(NOBODY));
            }
        }
        map
    }
}

/// A map of no cells, with all at their defaults, centred.
#[must_use]
pub fn empty(corners: [Vec2; 6]) -> Map {
    Map {
        cells: Vec::new(),
        neighbours: Vec::new(),
        fringe: None,
        customs: None,
        corners,
        options: Vec::new(),
        caps: Choice::Default,
        sides: Choice::Default,
        range: None,
        scale: None,
        turn: None,
        offset: None,
        origin: None,
    }
}

/// All hexes up to this far from the middle: 1, 7, 19 and so on.
#[must_use]
pub fn patch(radius: i32) -> Vec<Axial> {
    let about = -radius..=radius;
    let all = about
        .clone()
        .flat_map(|q| about.clone().map(move |r| [q, r]));
    all.filter(|[q, r]| (q + r).abs() <= radius).collect()
}

/// Cells about these positions, linked as the list says.
#[must_use]
pub fn linked(corners: [Vec2; 6], cells: &[(f32, Vec2)], neighbours: &[u32]) -> Map {
    let mut map = empty(corners);
    for &(height, at) in cells {
        map.cells.extend([height, at.x, at.y]);
        for side in 0..6 {
            for corner in [corners[side], corners[(side + 1) % 6]] {
                map.cells.extend((at + corner).to_array());
            }
        }
    }
    map.neighbours = neighbours.to_vec();
    assert_eq!(NUMBERS * cells.len(), map.cells.len());
    assert_eq!(6 * cells.len(), map.neighbours.len());
    map
}
