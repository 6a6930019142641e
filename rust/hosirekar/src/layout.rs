//! Where the hexagons of a grid lie, flat or pointy, by axial coordinates.
//!
//! # Corners, sides and neighbours
//!
//! They are numbered in one turn, from the x axis towards the z axis: clockwise, seen from above with
//! x to the right and z towards the reader. Side k lies between corner k, its left end seen from the
//! middle, and corner k + 1, its right end. Neighbour k lies beyond side k.
//!
//! | k | neighbour | flat: corner, middle of the side | pointy: corner, middle of the side |
//! |---|---|---|---|
//! | 0 | (q + 1, r) | 0°, 30° | -30°, 0° |
//! | 1 | (q, r + 1) | 60°, 90° | 30°, 60° |
//! | 2 | (q - 1, r + 1) | 120°, 150° | 90°, 120° |
//! | 3 | (q - 1, r) | 180°, 210° | 150°, 180° |
//! | 4 | (q, r - 1) | 240°, 270° | 210°, 240° |
//! | 5 | (q + 1, r - 1) | 300°, 330° | 270°, 300° |
//!
//! With a scale above 0, or below 0 in both numbers, caps then face upwards and walls outwards. With
//! one number below 0 the grid is mirrored, and its faces look the other way.
//!
//! The order is this crate's own, and a `HexLayout` of hexx may have another. Positions are those of
//! hexx.

use crate::{Cell, HeightMap};
use std::collections::HashMap;
use std::fmt;

/// Axial coordinates, q and r.
pub type Hex = (i32, i32);

/// Which way the hexagons lie.
#[derive(Clone, Copy, Debug, Default, PartialEq, Eq, Hash)]
pub enum Orientation {
    /// A corner on the x axis.
    #[default]
    Flat,
    /// A corner on the z axis.
    Pointy,
}

/// How the hexagons of a grid lie.
///
/// ```
/// use hosirekar::{layout::Layout, Column, Job};
///
/// let layout = Layout { scale: [2.0, 2.0], origin: [3.0, -2.0], ..Layout::pointy() };
/// let column = Column {
///     position: layout.position((1, -2)),
///     ..Column::new(layout.center_aligned_corners(), 5.0)
/// };
/// // The top is its face 6, after the sides.
/// let top = column.build()?.vertices[24..30].to_vec();
/// assert_eq!(top, layout.corners((1, -2)).map(|[x, z]| [x, 5.0, z]));
/// # Ok::<(), hosirekar::Refusal>(())
/// ```
#[derive(Clone, Copy, Debug, PartialEq)]
pub struct Layout {
    /// Which way they lie.
    pub orientation: Orientation,
    /// How far corners are from the middle, along x and along z.
    pub scale: [f32; 2],
    /// Where the middle of the hexagon (0, 0) is, x and z.
    pub origin: [f32; 2],
}

impl Default for Layout {
    fn default() -> Self {
        Self::flat()
    }
}

const ROOT: f32 = 1.732_050_8;
const HALF_ROOT: f32 = ROOT / 2.0;

/// The corners of a flat hexagon of scale 1, in the order of the module.
const FLAT: [[f32; 2]; 6] = [
    [1.0, 0.0],
    [0.5, HALF_ROOT],
    [-0.5, HALF_ROOT],
    [-1.0, 0.0],
    [-0.5, -HALF_ROOT],
    [0.5, -HALF_ROOT],
];

/// Those of a pointy one.
const POINTY: [[f32; 2]; 6] = [
    [HALF_ROOT, -0.5],
    [HALF_ROOT, 0.5],
    [0.0, 1.0],
    [-HALF_ROOT, 0.5],
    [-HALF_ROOT, -0.5],
    [0.0, -1.0],
];

/// From a hexagon to its neighbours.
const STEPS: [Hex; 6] = [(1, 0), (0, 1), (-1, 1), (-1, 0), (0, -1), (1, -1)];

/// The six neighbours of a hexagon. Past the ends of the coordinates there is none.
#[must_use]
pub fn neighbours((q, r): Hex) -> [Option<Hex>; 6] {
    STEPS.map(|(dq, dr)| q.checked_add(dq).zip(r.checked_add(dr)))
}

fn plus([a, b]: [f32; 2], [c, d]: [f32; 2]) -> [f32; 2] {
    [a + c, b + d]
}

fn times([a, b]: [f32; 2], [c, d]: [f32; 2]) -> [f32; 2] {
    [a * c, b * d]
}

impl Layout {
    const fn of(orientation: Orientation) -> Self {
        Self {
            orientation,
            scale: [1.0; 2],
            origin: [0.0; 2],
        }
    }

    /// Flat hexagons of scale 1 about (0, 0).
    #[must_use]
    pub const fn flat() -> Self {
        Self::of(Orientation::Flat)
    }

    /// Pointy hexagons of scale 1 about (0, 0).
    #[must_use]
    pub const fn pointy() -> Self {
        Self::of(Orientation::Pointy)
    }

    /// The corners about the middle of any hexagon, for planes, columns and the caps of maps.
    #[must_use]
    pub fn center_aligned_corners(&self) -> [[f32; 2]; 6] {
        let corners = match self.orientation {
            Orientation::Flat => FLAT,
            Orientation::Pointy => POINTY,
        };
        corners.map(|corner| times(corner, self.scale))
    }

    /// The middle of a hexagon before the origin is added, for the cells of maps.
    #[must_use]
    pub fn center_aligned_position(&self, (q, r): Hex) -> [f32; 2] {
        let (q, r) = (q as f32, r as f32);
        let position = match self.orientation {
            Orientation::Flat => [1.5 * q, HALF_ROOT * q + ROOT * r],
            Orientation::Pointy => [ROOT * q + HALF_ROOT * r, 1.5 * r],
        };
        times(position, self.scale)
    }

    /// The left and the right end of each side of a hexagon before the origin is added, for the
    /// cells of maps.
    #[must_use]
    pub fn center_aligned_side_ends(&self, hex: Hex) -> [[[f32; 2]; 2]; 6] {
        let middle = self.center_aligned_position(hex);
        let corners = self.center_aligned_corners();
        let end = |k: usize| plus(middle, corners[k % 6]);
        std::array::from_fn(|side| [end(side), end(side + 1)])
    }

    /// The middle of a hexagon, for planes, columns and cheap columns.
    #[must_use]
    pub fn position(&self, hex: Hex) -> [f32; 2] {
        plus(self.center_aligned_position(hex), self.origin)
    }

    /// The corners of a hexagon where it stands, for cheap columns.
    #[must_use]
    pub fn corners(&self, hex: Hex) -> [[f32; 2]; 6] {
        let middle = self.position(hex);
        self.center_aligned_corners()
            .map(|corner| plus(middle, corner))
    }

    /// The cell of a hexagon in a map that has this layout's origin, with no neighbours yet.
    #[must_use]
    pub fn cell(&self, hex: Hex, height: f32) -> Cell {
        Cell {
            height,
            position: self.center_aligned_position(hex),
            side_ends: self.center_aligned_side_ends(hex),
            neighbours: [None; 6],
        }
    }
}

/// A hexagon that was given twice.
#[derive(Clone, Copy, Debug, PartialEq, Eq, Hash)]
pub struct GivenTwice {
    /// The hexagon.
    pub hex: Hex,
    /// Its two places in what was given, from 0.
    pub places: [usize; 2],
}

impl fmt::Display for GivenTwice {
    fn fmt(&self, f: &mut fmt::Formatter<'_>) -> fmt::Result {
        let Self {
            hex: (q, r),
            places: [first, second],
        } = self;
        write!(
            f,
            "the hexagon ({q}, {r}) is given twice, at {first} and {second}: give each a single height"
        )
    }
}

impl std::error::Error for GivenTwice {}

impl HeightMap {
    /// A map of these hexagons in the order given, with the layout's origin, caps and sides of the
    /// default options and nothing beyond its edge.
    ///
    /// ```
    /// use hosirekar::{layout::{GivenTwice, Layout}, HeightMap};
    ///
    /// let twice = HeightMap::from_heights(&Layout::flat(), [((0, 0), 1.0), ((2, 1), 1.0), ((0, 0), 2.0)]);
    /// assert_eq!(twice, Err(GivenTwice { hex: (0, 0), places: [0, 2] }));
    /// ```
    ///
    /// # Errors
    ///
    /// [`GivenTwice`].
    pub fn from_heights(
        layout: &Layout,
        heights: impl IntoIterator<Item = (Hex, f32)>,
    ) -> Result<Self, GivenTwice> {
        let heights: Vec<(Hex, f32)> = heights.into_iter().collect();
        let mut places = HashMap::with_capacity(heights.len());
        for (place, &(hex, _)) in heights.iter().enumerate() {
            if let Some(first) = places.insert(hex, place) {
                let places = [first, place];
                return Err(GivenTwice { hex, places });
            }
        }
        let cell = |&(hex, height): &(Hex, f32)| Cell {
            neighbours: neighbours(hex).map(|beyond| places.get(&beyond?).copied()),
            ..layout.cell(hex, height)
        };
        let cells = heights.iter().map(cell).collect();
        Ok(Self {
            origin: Some(layout.origin),
            ..Self::new(layout.center_aligned_corners(), cells)
        })
    }
}
