//! Height maps as calls of our own code, through the archive.

use crate::MeshInfo;
use crate::buffers::Counts;
use crate::map_steps::{OVER_HEXX, foot, options, whole};
use crate::map_zeros;
use crate::maps::Map;
use crate::ours::{Call, Job, Kind, counts, flat, placement, table, vec2};
use glam::Vec2;
use hosirekar_sys::{self as sys, CAnswer, CHeightMap, COrigin, CRange, CWhich, CWhy};

/// What a map has beside corners and options.
#[derive(Debug, Clone, Default)]
pub struct Lists {
    pub cells: Vec<f32>,
    pub neighbours: Vec<u32>,
    pub fringe: Vec<f32>,
    pub customs: Vec<u8>,
}

/// The plan.
#[must_use]
pub fn plan(job: CHeightMap, call: &Call) -> CAnswer {
    let Lists {
        cells,
        neighbours,
        fringe,
        customs,
    } = &call.lists;
    sys::hosirekar_heightmap_plan(
        job,
        cells,
        neighbours,
        fringe,
        customs,
        &call.corners,
        &call.numbers,
        &call.marks,
    )
}

/// Why a side is there or missing.
#[must_use]
pub fn why(job: CHeightMap, call: &Call, cell: usize, side: usize) -> CWhy {
    let Lists {
        cells,
        neighbours,
        fringe,
        customs,
    } = &call.lists;
    sys::hosirekar_heightmap_why(
        job,
        cells,
        neighbours,
        fringe,
        customs,
        &call.corners,
        &call.numbers,
        &call.marks,
        cell,
        side,
    )
}

/// Which cap or side a number stands for.
#[must_use]
pub fn which(job: CHeightMap, call: &Call, face: usize) -> CWhich {
    let Lists {
        cells,
        neighbours,
        fringe,
        customs,
    } = &call.lists;
    sys::hosirekar_heightmap_which(
        job,
        cells,
        neighbours,
        fringe,
        customs,
        &call.corners,
        &call.numbers,
        &call.marks,
        face,
    )
}

/// The whole build into vertices, normals and uvs, and indices.
pub fn build(job: CHeightMap, call: &Call, to: [&mut [f32]; 3], indices: &mut [u16]) -> CAnswer {
    let Lists {
        cells,
        neighbours,
        fringe,
        customs,
    } = &call.lists;
    let [vertices, normals, uvs] = to;
    sys::hosirekar_heightmap_build(
        job,
        cells,
        neighbours,
        fringe,
        customs,
        &call.corners,
        &call.numbers,
        &call.marks,
        vertices,
        normals,
        uvs,
        indices,
    )
}

/// One face into the same.
pub fn face(
    job: CHeightMap,
    call: &Call,
    face: usize,
    to: [&mut [f32]; 3],
    indices: &mut [u16],
) -> CAnswer {
    let Lists {
        cells,
        neighbours,
        fringe,
        customs,
    } = &call.lists;
    let [vertices, normals, uvs] = to;
    sys::hosirekar_heightmap_face(
        job,
        cells,
        neighbours,
        fringe,
        customs,
        &call.corners,
        &call.numbers,
        &call.marks,
        face,
        vertices,
        normals,
        uvs,
        indices,
    )
}

impl Map {
    /// What goes over by value. What is not given is not read.
    #[must_use]
    pub fn given(&self) -> CHeightMap {
        let [min, max] = self.range.unwrap_or([f32::NAN; 2]);
        let rows = self.turn.map(|turn| turn.rows());
        CHeightMap {
            caps: self.caps.given(),
            sides: self.sides.given(),
            customs: self.customs.is_some(),
            fringe: if self.fringe.is_some() { 2 } else { 1 },
            range: CRange {
                given: self.range.is_some(),
                min,
                max,
            },
            origin: COrigin {
                given: self.origin.is_some(),
                at: vec2(self.origin.unwrap_or(Vec2::NAN)),
            },
            placement: placement(self.scale, rows, self.offset),
        }
    }
}

impl Map {
    /// The counts of the faces of a cell.
    pub fn counts_of(&self, cell: usize) -> impl Iterator<Item = Counts> {
        let cap = options(&OVER_HEXX, self, self.caps, 7 * cell);
        let side = move |side: usize| {
            foot(&OVER_HEXX, self, cell, side)?;
            options(&OVER_HEXX, self, self.sides, 7 * cell + 1 + side)
        };
        let cap = cap.map(|options| counts(6, &options));
        let sides = (0..6).filter_map(side);
        cap.into_iter()
            .chain(sides.map(|options| counts(4, &options)))
    }
}

impl Job for Map {
    fn wanted(&self) -> MeshInfo {
        match self.turn {
            None => map_zeros::wanted(self).0,
            Some(_) => MeshInfo::from(&whole(&OVER_HEXX, self)),
        }
    }

    fn face_counts(&self) -> Vec<Counts> {
        let cells = 0..self.count();
        cells.flat_map(|cell| self.counts_of(cell)).collect()
    }

    fn call(&self) -> Call {
        let (numbers, marks) = table(&self.options);
        Call {
            kind: Kind::Map(self.given()),
            lists: Lists {
                cells: self.cells.clone(),
                neighbours: self.neighbours.clone(),
                // Of no length, and of no meaning, where they are not given.
                fringe: self.fringe.clone().unwrap_or(vec![f32::NAN; 5]),
                customs: self.customs.clone().unwrap_or(vec![254; 3]),
            },
            pairs: Vec::new(),
            corners: flat(&self.corners),
            numbers,
            marks,
        }
    }
}
