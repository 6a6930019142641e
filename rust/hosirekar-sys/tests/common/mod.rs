//! What the tests share: lists whose every place is known, and what a call answers.
#![allow(dead_code)]

pub mod faults;
pub mod jobs;
pub mod merges;
pub mod samples;
pub mod stl;
pub mod stl_draws;
pub mod why_draws;
pub mod whys;

use hosirekar_sys::{hosirekar_merge, CAnswer, CCounts};
use std::fmt::Display;
use std::ops::Range;

/// The next numbers past the range, and those that are none.
pub const BEYOND: [u32; 5] = [
    0x4974_2401,
    0xc974_2401,
    0x7fc0_0000,
    0x7f80_0000,
    0xff80_0000,
];

/// The ends of the range, -0 and the least number above 0.
pub const WITHIN: [u32; 4] = [0x4974_2400, 0xc974_2400, 0x8000_0000, 0x0000_0001];

/// How many numbers the vertices, the normals, the uvs and the indices have.
pub type Lengths = [usize; 4];

/// What so many vertices and indices need.
pub fn needs(vertices: usize, indices: usize) -> Lengths {
    [3 * vertices, 3 * vertices, 2 * vertices, indices]
}

/// Each list longer, by another number of places.
pub fn longer(lengths: Lengths) -> Lengths {
    std::array::from_fn(|list| lengths[list] + [2, 5, 3, 4][list])
}

/// One list of `lengths` one short of what it should be.
pub fn shortened(mut lengths: Lengths, needed: Lengths, list: usize) -> Lengths {
    lengths[list] = needed[list] - 1;
    lengths
}

/// The first list that is shorter than it should be.
pub fn first_short(lengths: Lengths, needed: Lengths) -> Option<usize> {
    (0..4).find(|list| lengths[*list] < needed[*list])
}

/// The lists that can be one short.
pub fn not_empty(lengths: Lengths) -> impl Iterator<Item = usize> {
    (0..4).filter(move |list| lengths[*list] > 0)
}

/// What stands at a place of a list before a call. Neighbours differ, and so do lists at one place;
/// all numbers lie between 1 and 2.
pub fn known(list: u32, place: usize) -> f32 {
    f32::from_bits(0x3f80_0000 + list * 65_536 + (place % 65_521) as u32)
}

/// The same of indices, which begin with the greatest.
pub fn known_index(place: usize) -> u16 {
    65_535 - (place % 65_521) as u16
}

/// Four lists.
#[derive(Clone, Debug, PartialEq)]
pub struct Mesh {
    pub vertices: Vec<f32>,
    pub normals: Vec<f32>,
    pub uvs: Vec<f32>,
    pub indices: Vec<u16>,
}

/// Four lists as a call is lent them.
pub struct Lent<'a> {
    pub vertices: &'a mut [f32],
    pub normals: &'a mut [f32],
    pub uvs: &'a mut [f32],
    pub indices: &'a mut [u16],
}

impl Mesh {
    /// Lists in which every place is known.
    pub fn known(lengths: Lengths) -> Mesh {
        Mesh::known_from(1, lengths)
    }

    /// The same, where the three lists of floats are others: they are numbered from `first` on.
    pub fn known_from(first: u32, lengths: Lengths) -> Mesh {
        let floats = |list: u32, length| (0..length).map(|place| known(list, place)).collect();
        Mesh {
            vertices: floats(first, lengths[0]),
            normals: floats(first + 1, lengths[1]),
            uvs: floats(first + 2, lengths[2]),
            indices: (0..lengths[3]).map(known_index).collect(),
        }
    }

    pub fn lengths(&self) -> Lengths {
        let (normals, uvs) = (self.normals.len(), self.uvs.len());
        [self.vertices.len(), normals, uvs, self.indices.len()]
    }

    /// The counts of a mesh that has nothing past them.
    pub fn counts(&self) -> CCounts {
        CCounts {
            vertices: self.vertices.len() / 3,
            indices: self.indices.len(),
        }
    }

    /// So much of each list.
    pub fn front(&mut self, lengths: Lengths) -> Lent<'_> {
        Lent {
            vertices: &mut self.vertices[..lengths[0]],
            normals: &mut self.normals[..lengths[1]],
            uvs: &mut self.uvs[..lengths[2]],
            indices: &mut self.indices[..lengths[3]],
        }
    }

    pub fn all(&mut self) -> Lent<'_> {
        self.front(self.lengths())
    }

    /// With another mesh's numbers in front, in place of its own.
    pub fn with_front(mut self, front: &Mesh) -> Mesh {
        let to = self.front(front.lengths());
        to.vertices.copy_from_slice(&front.vertices);
        to.normals.copy_from_slice(&front.normals);
        to.uvs.copy_from_slice(&front.uvs);
        to.indices.copy_from_slice(&front.indices);
        self
    }

    /// With another mesh's numbers at some places alone: those of these vertices and indices.
    pub fn with_places(mut self, of: &Mesh, [vertices, indices]: [Range<usize>; 2]) -> Mesh {
        let points = 3 * vertices.start..3 * vertices.end;
        let uvs = 2 * vertices.start..2 * vertices.end;
        self.vertices[points.clone()].copy_from_slice(&of.vertices[points.clone()]);
        self.normals[points.clone()].copy_from_slice(&of.normals[points]);
        self.uvs[uvs.clone()].copy_from_slice(&of.uvs[uvs]);
        self.indices[indices.clone()].copy_from_slice(&of.indices[indices]);
        self
    }

    /// The mesh with each of its lists in turn one short.
    pub fn one_short(&self) -> [Mesh; 4] {
        let mut four = [(); 4].map(|()| self.clone());
        four[0].vertices.pop();
        four[1].normals.pop();
        four[2].uvs.pop();
        four[3].indices.pop();
        four
    }

    /// Holds every place of the four lists to what it should be.
    #[track_caller]
    pub fn hold(&self, wanted: &Mesh, what: impl Display) {
        hold(
            &self.vertices,
            &wanted.vertices,
            format_args!("{what}: vertices"),
        );
        hold(
            &self.normals,
            &wanted.normals,
            format_args!("{what}: normals"),
        );
        hold(&self.uvs, &wanted.uvs, format_args!("{what}: uvs"));
        let (made, wanted) = (&self.indices, &wanted.indices);
        assert_eq!(made.len(), wanted.len(), "{what}: indices");
        if let Some(place) = (0..made.len()).find(|place| made[*place] != wanted[*place]) {
            let (made, wanted) = (made[place], wanted[place]);
            panic!("{what}: indices, place {place} is {made}, not {wanted}");
        }
    }
}

/// Equal bits; all NaNs are equal.
pub fn same(x: f32, y: f32) -> bool {
    x.to_bits() == y.to_bits() || (x.is_nan() && y.is_nan())
}

/// Holds every place of a list to what it should be.
#[track_caller]
pub fn hold(made: &[f32], wanted: &[f32], what: impl Display) {
    assert_eq!(made.len(), wanted.len(), "{what}");
    if let Some(place) = (0..made.len()).find(|place| !same(made[*place], wanted[*place])) {
        let (made, wanted) = (made[place].to_bits(), wanted[place].to_bits());
        panic!("{what}, place {place} is {made:08x}, not {wanted:08x}");
    }
}

pub fn refused(number: u32) -> CAnswer {
    CAnswer {
        number,
        ..CAnswer::default()
    }
}

/// Refused for room in a list, of which the whole mesh needs so much.
pub fn no_room(list: usize, need: usize) -> CAnswer {
    CAnswer {
        need,
        ..refused(room_number(list))
    }
}

/// The number of a list that is short.
pub fn room_number(list: usize) -> u32 {
    51 + list as u32
}

pub fn done(vertices: usize, indices: usize) -> CAnswer {
    CAnswer {
        vertices,
        indices,
        ..CAnswer::default()
    }
}

/// Done with these counts, or refused with another number than 0: for room, with what they need.
pub fn answer(number: u32, counts: CCounts) -> CAnswer {
    let list = (0..4).find(|list| room_number(*list) == number);
    match (number, list) {
        (0, _) => done(counts.vertices, counts.indices),
        (_, Some(list)) => no_room(list, needs(counts.vertices, counts.indices)[list]),
        _ => refused(number),
    }
}

pub fn counts(vertices: usize, indices: usize) -> CCounts {
    CCounts { vertices, indices }
}

/// Merges a source of these counts into a target.
pub fn merge(source: CCounts, from: Lent, target: CCounts, onto: Lent) -> CAnswer {
    hosirekar_merge(
        source,
        from.vertices,
        from.normals,
        from.uvs,
        from.indices,
        target,
        onto.vertices,
        onto.normals,
        onto.uvs,
        onto.indices,
    )
}
