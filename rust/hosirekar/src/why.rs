//! Why a wall of a height map is there or missing, and which cap or side is behind a face's number.

use crate::range::Tested;
use crate::refusal::answered;
use crate::{Counts, HeightMap, ReadyHeightMap, Refusal};
use hosirekar_sys::{hosirekar_heightmap_which, hosirekar_heightmap_why, CWhich, CWhy};
use std::fmt;

/// What lies beyond a side.
#[derive(Clone, Copy, Debug, PartialEq, Eq, Hash)]
pub enum Beyond {
    /// The cell that the side has for a neighbour.
    Neighbour,
    /// A height of the [`Fringe`](crate::Fringe), as there is no neighbour.
    Fringe,
}

/// Why a side of a cell has a wall or has none: the first of these that holds, in this order.
#[derive(Clone, Copy, Debug, PartialEq)]
pub enum Reason {
    /// The map has no sides.
    SidesOff,
    /// There is no neighbour and no fringe height.
    NothingBeyond,
    /// What lies beyond is as high as the cell, or higher. 0 and -0 are equally high.
    AsHigh {
        /// Which of the two it is.
        beyond: Beyond,
        /// How high it is.
        height: f32,
    },
    /// The wall is there.
    Present {
        /// The number of its face, which [`window`](crate::Job::window) and
        /// [`build_face`](crate::Job::build_face) take.
        face: usize,
    },
}

/// Which face of a height map it is.
#[derive(Clone, Copy, Debug, PartialEq, Eq, Hash)]
pub enum Face {
    /// The cap of a cell.
    Cap {
        /// Its place among the cells.
        cell: usize,
    },
    /// The wall at a side of a cell.
    Side {
        /// Its place among the cells.
        cell: usize,
        /// From 0 to 5.
        side: usize,
    },
}

/// What [`HeightMap::why`] tells. Its words are those of the reason.
#[derive(Clone, Copy, Debug, PartialEq)]
pub struct Why {
    /// The true one.
    pub reason: Reason,
    /// Those of the whole mesh, as [`plan`](crate::Job::plan) tells them.
    pub counts: Counts,
}

/// What [`HeightMap::which`] tells. Its words are those of the face.
#[derive(Clone, Copy, Debug, PartialEq, Eq, Hash)]
pub struct Which {
    /// That of the number.
    pub face: Face,
    /// Those of the whole mesh, as [`plan`](crate::Job::plan) tells them.
    pub counts: Counts,
}

impl fmt::Display for Beyond {
    fn fmt(&self, f: &mut fmt::Formatter<'_>) -> fmt::Result {
        f.pad(match self {
            Beyond::Neighbour => "neighbour",
            Beyond::Fringe => "fringe",
        })
    }
}

impl fmt::Display for Reason {
    fn fmt(&self, f: &mut fmt::Formatter<'_>) -> fmt::Result {
        match self {
            Reason::SidesOff => f.write_str("the sides are off"),
            Reason::NothingBeyond => f.write_str("there is no neighbour and no fringe height"),
            Reason::AsHigh { beyond, height } => write!(f, "the {beyond} is as high: {height:?}"),
            Reason::Present { face } => write!(f, "the wall is there: face {face}"),
        }
    }
}

impl fmt::Display for Face {
    fn fmt(&self, f: &mut fmt::Formatter<'_>) -> fmt::Result {
        match self {
            Face::Cap { cell } => write!(f, "the cap of cell {cell}"),
            Face::Side { cell, side } => write!(f, "side {side} of cell {cell}"),
        }
    }
}

impl fmt::Display for Why {
    fn fmt(&self, f: &mut fmt::Formatter<'_>) -> fmt::Result {
        self.reason.fmt(f)
    }
}

impl fmt::Display for Which {
    fn fmt(&self, f: &mut fmt::Formatter<'_>) -> fmt::Result {
        self.face.fmt(f)
    }
}

impl HeightMap {
    /// Why a side of a cell has a wall or has none, by their numbers: cells from 0, sides from 0 to 5.
    ///
    /// ```
    /// use hosirekar::{Beyond, Cell, Face, Fringe, HeightMap, Reason, Refusal};
    ///
    /// // Two cells, 2 and 1 high, each beyond a side of the other.
    /// let mut cells = vec![Cell { height: 2.0, ..Cell::default() }, Cell { height: 1.0, ..Cell::default() }];
    /// cells[0].neighbours[0] = Some(1);
    /// cells[1].neighbours[3] = Some(0);
    /// let map = HeightMap { fringe: Fringe::None, ..HeightMap::new([[0.0; 2]; 6], cells) };
    ///
    /// let why = map.why(1, 3)?;
    /// assert_eq!(why.reason, Reason::AsHigh { beyond: Beyond::Neighbour, height: 2.0 });
    /// assert_eq!(why.to_string(), "the neighbour is as high: 2.0");
    /// assert_eq!(map.why(0, 1)?.to_string(), "there is no neighbour and no fringe height");
    ///
    /// // The other way a wall goes down, and has the number after that of the first cap.
    /// assert_eq!(map.why(0, 0)?.reason, Reason::Present { face: 1 });
    /// assert_eq!(map.which(1)?.face, Face::Side { cell: 0, side: 0 });
    /// assert_eq!(map.which(2)?.to_string(), "the cap of cell 1");
    /// assert_eq!(map.why(2, 0), Err(Refusal::NoFace));
    /// # Ok::<(), Refusal>(())
    /// ```
    ///
    /// # Errors
    ///
    /// Those of [`plan`](crate::Job::plan), then [`NoFace`](Refusal::NoFace) for a cell or a side that is
    /// not there.
    pub fn why(&self, cell: usize, side: usize) -> Result<Why, Refusal> {
        self.ready().why(cell, side)
    }

    /// Which cap or side is behind the number of a face, as [`window`](crate::Job::window) and
    /// [`build_face`](crate::Job::build_face) take it.
    ///
    /// # Errors
    ///
    /// Those of [`plan`](crate::Job::plan), then [`NoFace`](Refusal::NoFace).
    pub fn which(&self, face: usize) -> Result<Which, Refusal> {
        self.ready().which(face)
    }
}

impl ReadyHeightMap<'_> {
    /// Why a side of a cell has a wall or has none: [`HeightMap::why`].
    ///
    /// # Errors
    ///
    /// The same.
    pub fn why(&self, cell: usize, side: usize) -> Result<Why, Refusal> {
        let told = hosirekar_heightmap_why(
            self.job,
            self.cells.as_flattened(),
            self.neighbours.as_flattened(),
            self.fringe(),
            self.customs.as_flattened(),
            self.map.cap_corners.as_flattened(),
            self.table.numbers(),
            self.table.marks(),
            cell,
            side,
        );
        let counts = self.map.name_stray(answered(told.answer))?;
        let reason = reason_told(told, || self.beyond(cell, side));
        Ok(Why { reason, counts })
    }

    /// Which cap or side is behind the number of a face: [`HeightMap::which`].
    ///
    /// # Errors
    ///
    /// The same.
    pub fn which(&self, face: usize) -> Result<Which, Refusal> {
        let told = hosirekar_heightmap_which(
            self.job,
            self.cells.as_flattened(),
            self.neighbours.as_flattened(),
            self.fringe(),
            self.customs.as_flattened(),
            self.map.cap_corners.as_flattened(),
            self.table.numbers(),
            self.table.marks(),
            face,
        );
        let counts = self.map.name_stray(answered(told.answer))?;
        let face = face_told(told);
        Ok(Which { face, counts })
    }

    /// What lies beyond a side that has a height beyond it. The archive tells that height alone.
    fn beyond(&self, cell: usize, side: usize) -> Beyond {
        match self.map.cells[cell].neighbours[side] {
            Some(_) => Beyond::Neighbour,
            None => Beyond::Fringe,
        }
    }
}

/// The reason of a call that was done.
fn reason_told(told: CWhy, beyond: impl FnOnce() -> Beyond) -> Reason {
    match told.reason {
        1 => Reason::SidesOff,
        2 => Reason::NothingBeyond,
        3 => Reason::AsHigh {
            beyond: beyond(),
            height: told.height,
        },
        4 => Reason::Present { face: told.face },
        // The archive's promises give no other number.
        other => unreachable!("{other} is the number of no reason"),
    }
}

/// The face of a call that was done.
fn face_told(told: CWhich) -> Face {
    let cell = told.cell;
    match told.kind {
        1 => Face::Cap { cell },
        2 => Face::Side {
            cell,
            side: told.side as usize,
        },
        // The archive's promises give no other number.
        other => unreachable!("{other} is the number of no kind"),
    }
}
