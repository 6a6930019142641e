//! What the mesh files take from the rest of hexx, as tables that the caller
//! fills. Nothing is computed here, so that any corners can be fed in.

use glam::Vec2;
use std::ops::Add;

/// A place on the map, known by its number only.
#[derive(Debug, Clone, Copy, PartialEq, Eq)]
pub enum Hex {
    /// The hex that a plane or a column stands on unless told otherwise.
    Zero,
    /// A cell of the map.
    Cell(u32),
    /// What lies across a side of a cell; the map says whether it is a cell.
    Beside(u32, EdgeDirection),
}

impl Hex {
    /// The name under which the mesh files know [`Hex::Zero`].
    pub const ZERO: Self = Self::Zero;
}

/// The number of a side, from 0 to 5.
#[derive(Debug, Clone, Copy, PartialEq, Eq)]
pub struct EdgeDirection(pub u8);

impl EdgeDirection {
    /// All six, in order.
    pub const ALL_DIRECTIONS: [Self; 6] = [Self(0), Self(1), Self(2), Self(3), Self(4), Self(5)];

    /// The side's number.
    #[must_use]
    pub const fn index(self) -> u8 {
        self.0
    }
}

impl Add<EdgeDirection> for Hex {
    type Output = Self;

    fn add(self, side: EdgeDirection) -> Self {
        match self {
            Self::Cell(cell) => Self::Beside(cell, side),
            Self::Zero | Self::Beside(..) => panic!("only cells of the map have neighbours"),
        }
    }
}

/// What the layout says of one hex.
#[derive(Debug, Clone, Copy, Default)]
pub struct Place {
    /// Its middle, before the origin is added.
    pub aligned: Vec2,
    /// Its middle in the world.
    pub world: Vec2,
    /// Its corners in the world.
    pub corners: [Vec2; 6],
    /// The left and right ends of its sides in the world.
    pub sides: [[Vec2; 2]; 6],
}

/// The layout's answers.
#[derive(Debug, Clone, Default)]
pub struct HexLayout {
    /// What a map that is not centred adds at the end.
    pub origin: Vec2,
    /// The corners of a hexagon about zero.
    pub corners: [Vec2; 6],
    /// The left and right ends of the sides of a hexagon about zero.
    pub sides: [[Vec2; 2]; 6],
    /// What is said of [`Hex::Zero`].
    pub zero: Place,
    /// What is said of each cell.
    pub cells: Vec<Place>,
}

impl HexLayout {
    fn place(&self, hex: Hex) -> &Place {
        match hex {
            Hex::Zero => &self.zero,
            Hex::Cell(cell) => &self.cells[cell as usize],
            Hex::Beside(..) => panic!("the mesh asks for no neighbour's place"),
        }
    }

    /// The middle of `hex` in the world.
    #[must_use]
    pub fn hex_to_world_pos(&self, hex: Hex) -> Vec2 {
        self.place(hex).world
    }

    /// The middle of `hex`, before the origin is added.
    #[must_use]
    pub fn hex_to_center_aligned_world_pos(&self, hex: Hex) -> Vec2 {
        self.place(hex).aligned
    }

    /// The corners of `hex` in the world.
    #[must_use]
    pub fn hex_corners(&self, hex: Hex) -> [Vec2; 6] {
        self.place(hex).corners
    }

    /// The ends of the sides of `hex` in the world.
    #[must_use]
    pub fn hex_edge_corners(&self, hex: Hex) -> [[Vec2; 2]; 6] {
        self.place(hex).sides
    }

    /// The corners of a hexagon about zero.
    #[must_use]
    pub fn center_aligned_hex_corners(&self) -> [Vec2; 6] {
        self.corners
    }

    /// The ends of the sides of a hexagon about zero.
    #[must_use]
    pub fn center_aligned_edge_corners(&self) -> [[Vec2; 2]; 6] {
        self.sides
    }
}
