//! What goes over by value. Where something may be left out, a `bool` says whether it is given, and
//! what stands beside a `false` is not read.

/// A pair: a uv, or x and z of a point.
#[repr(C)]
#[derive(Clone, Copy, Debug, Default, PartialEq)]
pub struct CVec2 {
    /// The first of the two.
    pub x: f32,
    /// The second, which is z of a point.
    pub y: f32,
}

/// Three components of a position, an offset or a scale.
#[repr(C)]
#[derive(Clone, Copy, Debug, Default, PartialEq)]
pub struct CVec3 {
    /// Along x.
    pub x: f32,
    /// Upwards.
    pub y: f32,
    /// Along z.
    pub z: f32,
}

/// How many vertices and indices a stored mesh has; its lists may be longer.
#[repr(C)]
#[derive(Clone, Copy, Debug, Default, PartialEq, Eq)]
pub struct CCounts {
    /// Three numbers each in the vertices and the normals, two in the uvs.
    pub vertices: usize,
    /// One number each.
    pub indices: usize,
}

/// A scale or an offset, if given.
#[repr(C)]
#[derive(Clone, Copy, Debug, Default, PartialEq)]
pub struct CChoice3 {
    /// Whether it is.
    pub given: bool,
    /// What is given.
    pub value: CVec3,
}

/// A turn by nine numbers, row by row, if given.
#[repr(C)]
#[derive(Clone, Copy, Debug, Default, PartialEq)]
pub struct CTurn {
    /// Whether it is.
    pub given: bool,
    /// The row that gives x.
    pub first: CVec3,
    /// The row that gives y.
    pub second: CVec3,
    /// The row that gives z.
    pub third: CVec3,
}

/// Where a mesh stands: scaled, then turned, then moved.
#[repr(C)]
#[derive(Clone, Copy, Debug, Default, PartialEq)]
pub struct CPlacement {
    /// Of positions alone.
    pub scale: CChoice3,
    /// Of positions and normals.
    pub turn: CTurn,
    /// Added to the job's position.
    pub offset: CChoice3,
}

/// A number, 0 where the call was done and else that of a refusal, the counts, and the need of a
/// buffer that is short.
#[repr(C)]
#[derive(Clone, Copy, Debug, Default, PartialEq, Eq)]
pub struct CAnswer {
    /// 0, or why nothing was written: 51, 52, 53 or 54 where the vertices, the normals, the uvs or the
    /// indices are the first buffer that is too short, 55 where the bytes of a file are.
    pub number: u32,
    /// 0.
    pub spare: u32,
    /// 0 where the call was refused.
    pub vertices: usize,
    /// 0 where the call was refused.
    pub indices: usize,
    /// How many numbers the whole mesh needs in that buffer, or bytes the whole file: all of them and
    /// not those that are missing; 0 beside every other number.
    pub need: usize,
}

/// An answer, and how many faces the job has: 0 where it was refused.
#[repr(C)]
#[derive(Clone, Copy, Debug, Default, PartialEq, Eq)]
pub struct CFaces {
    /// That of the plan.
    pub answer: CAnswer,
    /// Their numbers are those below it.
    pub faces: usize,
}

/// An answer, and the places of one face, which a call for it writes: all 0 where it was refused.
#[repr(C)]
#[derive(Clone, Copy, Debug, Default, PartialEq, Eq)]
pub struct CWindow {
    /// That of the plan, or 6; its counts are those of the whole job.
    pub answer: CAnswer,
    /// The number of the face's first vertex in the whole mesh.
    pub first_vertex: usize,
    /// The place of its first index.
    pub first_index: usize,
    /// How many vertices it has.
    pub vertices: usize,
    /// How many indices it has.
    pub indices: usize,
}

/// An answer, and why a side of a height map is there or missing: all 0 or +0 where it was refused.
#[repr(C)]
#[derive(Clone, Copy, Debug, Default, PartialEq)]
pub struct CWhy {
    /// That of the plan, or 6; its counts are those of the whole job.
    pub answer: CAnswer,
    /// 1 if sides are off, 2 if there is no neighbour and no fringe height, 3 if the neighbour or the
    /// fringe is as high or higher, 4 if the side is there. The first of these that holds.
    pub reason: u32,
    /// Beside 3 the height beyond the side; +0 beside every other reason.
    pub height: f32,
    /// Beside 4 the number of the side's face; 0 beside every other reason.
    pub face: usize,
}

/// An answer, and which face of a height map has a number: all 0 where it was refused.
#[repr(C)]
#[derive(Clone, Copy, Debug, Default, PartialEq, Eq)]
pub struct CWhich {
    /// That of the plan, or 6; its counts are those of the whole job.
    pub answer: CAnswer,
    /// 1 for the cap of a cell, 2 for a side.
    pub kind: u32,
    /// Which side of the cell; 0 of a cap.
    pub side: u32,
    /// Which cell.
    pub cell: usize,
}

/// A plane.
#[repr(C)]
#[derive(Clone, Copy, Debug, Default, PartialEq)]
pub struct CPlane {
    /// Where it stands, x and z.
    pub position: CVec2,
    /// The number of its option, or 255 for the default.
    pub option: u8,
    /// Where it is put then.
    pub placement: CPlacement,
}

/// A face, if given.
#[repr(C)]
#[derive(Clone, Copy, Debug, Default, PartialEq, Eq)]
pub struct CChoice {
    /// Whether it is.
    pub given: bool,
    /// The number of its option, or 255 for the default.
    pub option: u8,
}

/// How many parts a side has, if given; 0 is one part, as none given is.
#[repr(C)]
#[derive(Clone, Copy, Debug, Default, PartialEq, Eq)]
pub struct CSubdivisions {
    /// Whether it is.
    pub given: bool,
    /// How many.
    pub number: u32,
}

/// A column.
#[repr(C)]
#[derive(Clone, Copy, Debug, Default, PartialEq)]
pub struct CColumn {
    /// Of its top.
    pub height: f32,
    /// The parts of each side.
    pub subdivisions: CSubdivisions,
    /// Its sides, in the order of their ends in the list of pairs.
    pub sides: [CChoice; 6],
    /// The cap at its height.
    pub top: CChoice,
    /// The cap at height 0.
    pub bottom: CChoice,
    /// Where it stands, x and z.
    pub position: CVec2,
    /// Where it is put then.
    pub placement: CPlacement,
}

/// The range by which the v of a map's sides goes, if given; else that of all heights.
#[repr(C)]
#[derive(Clone, Copy, Debug, Default, PartialEq)]
pub struct CRange {
    /// Whether it is.
    pub given: bool,
    /// Where v is 0.
    pub min: f32,
    /// Where v is 1.
    pub max: f32,
}

/// What is added to a map last, if given; a map without it is centred.
#[repr(C)]
#[derive(Clone, Copy, Debug, Default, PartialEq)]
pub struct COrigin {
    /// Whether it is.
    pub given: bool,
    /// x and z.
    pub at: CVec2,
}

/// A height map.
#[repr(C)]
#[derive(Clone, Copy, Debug, Default, PartialEq)]
pub struct CHeightMap {
    /// The caps of all cells.
    pub caps: CChoice,
    /// The sides of all cells.
    pub sides: CChoice,
    /// Whether seven option numbers a cell are listed.
    pub customs: bool,
    /// 1 for no heights beyond the edge, 2 for six a cell that are listed; another number is refused.
    pub fringe: u8,
    /// Of the heights.
    pub range: CRange,
    /// Added last.
    pub origin: COrigin,
    /// Where it is put before that.
    pub placement: CPlacement,
}

/// A cell of a height map as a record.
#[repr(C)]
#[derive(Clone, Copy, Debug, Default, PartialEq)]
pub struct Cell {
    /// Of its cap.
    pub height: f32,
    /// The middle of its cap.
    pub x: f32,
    /// The same.
    pub z: f32,
    /// Of each side the left end and the right, x and z of each.
    pub ends: [f32; 24],
    /// The number of the cell beyond each side, or 4,294,967,295.
    pub neighbours: [u32; 6],
}

/// A cheap column.
#[repr(C)]
#[derive(Clone, Copy, Debug, Default, PartialEq)]
pub struct CCheapColumn {
    /// The middle of its hexagon, x and z.
    pub centre: CVec2,
    /// Of its top.
    pub height: f32,
}

/// An answer, and the middle of the positions: +0 where the call was refused.
#[repr(C)]
#[derive(Clone, Copy, Debug, Default, PartialEq)]
pub struct CCentroid {
    /// The counts are those that were handed over.
    pub answer: CAnswer,
    /// The middle.
    pub centroid: CVec3,
}

/// An answer, and the middle of the uvs: +0 where the call was refused.
#[repr(C)]
#[derive(Clone, Copy, Debug, Default, PartialEq)]
pub struct CUvCentroid {
    /// The counts are those that were handed over.
    pub answer: CAnswer,
    /// The middle.
    pub centroid: CVec2,
}

/// An answer, and how many bytes the file has: 0 where the call was refused.
#[repr(C)]
#[derive(Clone, Copy, Debug, Default, PartialEq, Eq)]
pub struct CFile {
    /// The counts are those that were handed over.
    pub answer: CAnswer,
    /// 84, and 50 for each triangle.
    pub bytes: usize,
}

/// Which components of a uv are mirrored.
#[repr(C)]
#[derive(Clone, Copy, Debug, Default, PartialEq, Eq)]
pub struct CFlip {
    /// The first.
    pub u: bool,
    /// The second.
    pub v: bool,
}

/// What is done to a uv: flipped, scaled, moved and laid into a rectangle.
#[repr(C)]
#[derive(Clone, Copy, Debug, Default, PartialEq)]
pub struct CUvOptions {
    /// Times.
    pub scale: CVec2,
    /// Plus.
    pub offset: CVec2,
    /// The least corner of the rectangle.
    pub min: CVec2,
    /// The greatest corner of the rectangle.
    pub max: CVec2,
    /// First of all.
    pub flip: CFlip,
}
