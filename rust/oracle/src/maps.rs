//! Height maps: what makes one, as flat lists, and hexx's own answer.

use crate::builders::Choice;
use crate::storage::Cell;
use crate::{FaceOptions, HeightMapMeshBuilder, Hex, HexLayout, MeshInfo, Place};
use glam::{Mat3, Quat, Vec2, Vec3, vec2};
use std::sync::Arc;

/// How many numbers a cell has: its height, its position, and the left and
/// right end of each of six sides.
pub const NUMBERS: usize = 27;

/// The neighbour that is none.
pub const NOBODY: u32 = u32::MAX;

/// The custom option that is the job's own.
pub const OWN: u8 = 255;

/// How a map is turned.
#[derive(Debug, Clone, Copy)]
pub enum Turn {
    /// As hexx is told to.
    By(Quat),
    /// By any nine numbers, row by row, which hexx cannot be told.
    Rows([Vec3; 3]),
}

/// What makes a height map.
#[derive(Debug, Clone)]
pub struct Map {
    /// [`NUMBERS`] a cell.
    pub cells: Vec<f32>,
    /// Six a cell, [`NOBODY`] where there is none.
    pub neighbours: Vec<u32>,
    /// The heights beyond the edge, six a cell.
    pub fringe: Option<Vec<f32>>,
    /// Option numbers, seven a cell: the cap's, then the sides'.
    pub customs: Option<Vec<u8>>,
    /// The corners of every cap.
    pub corners: [Vec2; 6],
    pub options: Vec<FaceOptions>,
    pub caps: Choice,
    pub sides: Choice,
    /// The least and the greatest height; of all heights where none is given.
    pub range: Option<[f32; 2]>,
    pub scale: Option<Vec3>,
    pub turn: Option<Turn>,
    pub offset: Option<Vec3>,
    /// What is added last; nothing where the map is centred.
    pub origin: Option<Vec2>,
}

impl Turn {
    /// Its nine numbers, row by row.
    #[must_use]
    pub fn rows(self) -> [Vec3; 3] {
        match self {
            Self::By(turn) => [0, 1, 2].map(|row| Mat3::from_quat(turn).row(row)),
            Self::Rows(rows) => rows,
        }
    }
}

/// What stands in the layout wherever no map should look.
const OTHER: Vec2 = Vec2::splat(-7777.5);

impl Map {
    /// How many cells it has.
    #[must_use]
    pub fn count(&self) -> usize {
        self.cells.len() / NUMBERS
    }

    /// The numbers of a cell.
    fn cell(&self, cell: usize) -> &[f32] {
        &self.cells[NUMBERS * cell..][..NUMBERS]
    }

    #[must_use]
    pub fn height(&self, cell: usize) -> f32 {
        self.cell(cell)[0]
    }

    #[must_use]
    pub fn position(&self, cell: usize) -> Vec2 {
        vec2(self.cell(cell)[1], self.cell(cell)[2])
    }

    /// The left and the right end of a side.
    #[must_use]
    pub fn ends(&self, cell: usize, side: usize) -> [Vec2; 2] {
        let four = &self.cell(cell)[3 + 4 * side..];
        [vec2(four[0], four[1]), vec2(four[2], four[3])]
    }

    /// The cell across a side.
    #[must_use]
    pub fn neighbour(&self, cell: usize, side: usize) -> Option<u32> {
        let neighbour = self.neighbours[6 * cell + side];
        (neighbour != NOBODY).then_some(neighbour)
    }

    /// hexx's own mesh.
    #[must_use]
    pub fn hexx(&self) -> MeshInfo {
        self.builder(&self.layout(), &self.store()).build()
    }

    /// The layout that it is built in; what no map should ask is a number that
    /// would show.
    #[must_use]
    pub fn layout(&self) -> HexLayout {
        let place = |cell: usize| Place {
            aligned: self.position(cell),
            world: OTHER,
            corners: [OTHER; 6],
            sides: std::array::from_fn(|side| self.ends(cell, side)),
        };
        HexLayout {
            origin: self.origin.unwrap_or(OTHER),
            corners: self.corners,
            sides: [[OTHER; 2]; 6],
            zero: Place {
                aligned: OTHER,
                world: OTHER,
                corners: [OTHER; 6],
                sides: [[OTHER; 2]; 6],
            },
            cells: (0..self.count()).map(place).collect(),
        }
    }

    /// Its heights and links, in place of hexx's store.
    #[must_use]
    pub fn store(&self) -> Vec<Cell> {
        let cell = |cell: usize| Cell {
            height: self.height(cell),
            neighbours: std::array::from_fn(|side| self.neighbour(cell, side)),
        };
        (0..self.count()).map(cell).collect()
    }

    /// hexx's builder of it. Its functions must own what they ask, so they have
    /// copies of the lists.
    #[must_use]
    pub fn builder<'l, 'm>(
        &self,
        layout: &'l HexLayout,
        store: &'m Vec<Cell>,
    ) -> HeightMapMeshBuilder<'l, 'm, Vec<Cell>> {
        let mut builder = HeightMapMeshBuilder {
            height_range: self.range.map(|[min, max]| min..=max),
            top_face_options: self.caps.options(&self.options),
            side_options: self.sides.options(&self.options),
            offset: self.offset,
            scale: self.scale,
            rotation: self.turn.map(|turn| match turn {
                Turn::By(turn) => turn,
                Turn::Rows(_) => panic!("hexx turns by quaternions alone"),
            }),
            center_aligned: self.origin.is_none(),
            ..HeightMapMeshBuilder::new(layout, store)
        };
        if let Some(heights) = self.fringe.clone() {
            let fringe = move |hex| heights[side_place(hex, 6)];
            builder.fringe_heights = Some(Arc::new(fringe));
        }
        if let Some(customs) = self.customs.clone() {
            let (table, sides) = (self.options.clone(), customs.clone());
            let cap = move |hex| custom(customs[cap_place(hex)], &table);
            builder.custom_caps_options = Some(Arc::new(cap));
            let table = self.options.clone();
            let side = move |_, beyond| custom(sides[1 + side_place(beyond, 7)], &table);
            builder.custom_sides_options = Some(Arc::new(side));
        }
        builder
    }
}

/// The options that a custom number names, if it is not the job's own.
#[must_use]
pub fn custom(number: u8, table: &[FaceOptions]) -> Option<FaceOptions> {
    (number != OWN).then(|| table[usize::from(number)])
}

/// Where the custom number of a cell's cap stands.
fn cap_place(hex: Hex) -> usize {
    match hex {
        Hex::Cell(cell) => 7 * cell as usize,
        Hex::Zero | Hex::Beside(..) => panic!("only cells have caps"),
    }
}

/// Where a side stands in a list of so many a cell.
fn side_place(hex: Hex, each: usize) -> usize {
    match hex {
        Hex::Beside(cell, side) => each * cell as usize + usize::from(side.0),
        Hex::Zero | Hex::Cell(_) => panic!("only what lies across a side is asked for"),
    }
}
