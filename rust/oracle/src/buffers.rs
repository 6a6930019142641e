//! The four buffers that a call is lent, and what they should hold after it.

use crate::MeshInfo;
use crate::line::bits;
use crate::room;

/// How many vertices and indices there are.
#[derive(Debug, Clone, Copy, Default, PartialEq, Eq)]
pub struct Counts {
    pub vertices: usize,
    pub indices: usize,
}

impl Counts {
    /// Those of a mesh.
    #[must_use]
    pub fn of(mesh: &MeshInfo) -> Self {
        Self {
            vertices: mesh.vertices.len(),
            indices: mesh.indices.len(),
        }
    }

    /// Both sums.
    #[must_use]
    pub const fn plus(self, more: Self) -> Self {
        Self {
            vertices: self.vertices + more.vertices,
            indices: self.indices + more.indices,
        }
    }

    /// The lengths that the four lists need at least.
    #[must_use]
    pub const fn lengths(self) -> [usize; 4] {
        room::lengths([self.vertices, self.indices])
    }
}

/// Positions, normals, uvs and indices, one number after the other.
#[derive(Debug, Clone)]
pub struct Buffers {
    pub vertices: Vec<f32>,
    pub normals: Vec<f32>,
    pub uvs: Vec<f32>,
    pub indices: Vec<u16>,
}

/// The four lists, lent for a call.
pub struct Lent<'b> {
    pub vertices: &'b mut [f32],
    pub normals: &'b mut [f32],
    pub uvs: &'b mut [f32],
    pub indices: &'b mut [u16],
}

/// The names of the four lists.
const NAMES: [&str; 4] = ["vertices", "normals", "uvs", "indices"];

impl Buffers {
    /// Lists of these lengths whose numbers tell their places, so that a write
    /// that should not be, or one that is left out, shows.
    #[must_use]
    pub fn marked(lengths: [usize; 4]) -> Self {
        let mark = |from: f32, length: usize| (0..length).map(|i| from - i as f32).collect();
        let [vertices, normals, uvs, indices] = lengths;
        Self {
            vertices: mark(-8_000_000.0, vertices),
            normals: mark(-9_000_000.0, normals),
            uvs: mark(-10_000_000.0, uvs),
            indices: (0..indices).map(|i| i as u16 ^ 0xa5a5).collect(),
        }
    }

    /// The lengths of the four.
    #[must_use]
    pub fn lengths(&self) -> [usize; 4] {
        let floats = [&self.vertices, &self.normals, &self.uvs].map(Vec::len);
        let [vertices, normals, uvs] = floats;
        [vertices, normals, uvs, self.indices.len()]
    }

    /// The same lists, whole.
    pub fn lent(&mut self) -> Lent<'_> {
        Lent {
            vertices: &mut self.vertices,
            normals: &mut self.normals,
            uvs: &mut self.uvs,
            indices: &mut self.indices,
        }
    }

    /// The lists cut to these lengths.
    pub fn cut(&mut self, lengths: [usize; 4]) -> Lent<'_> {
        let [vertices, normals, uvs, indices] = lengths;
        Lent {
            vertices: &mut self.vertices[..vertices],
            normals: &mut self.normals[..normals],
            uvs: &mut self.uvs[..uvs],
            indices: &mut self.indices[..indices],
        }
    }

    /// Puts the numbers of `mesh` from one pair of counts up to another where
    /// they belong.
    pub fn lay(&mut self, mesh: &MeshInfo, from: Counts, to: Counts) {
        for vertex in from.vertices..to.vertices {
            let three = 3 * vertex..3 * vertex + 3;
            self.vertices[three.clone()].copy_from_slice(&mesh.vertices[vertex].to_array());
            self.normals[three].copy_from_slice(&mesh.normals[vertex].to_array());
            self.uvs[2 * vertex..2 * vertex + 2].copy_from_slice(&mesh.uvs[vertex].to_array());
        }
        let indices = from.indices..to.indices;
        self.indices[indices.clone()].copy_from_slice(&mesh.indices[indices]);
    }

    /// The first place that has not what `wanted` has, bit for bit, all NaNs
    /// being equal.
    #[must_use]
    pub fn difference(&self, wanted: &Self) -> Option<String> {
        let pairs = [
            (&self.vertices, &wanted.vertices),
            (&self.normals, &wanted.normals),
            (&self.uvs, &wanted.uvs),
        ];
        for (name, (ours, wanted)) in NAMES.into_iter().zip(pairs) {
            let mut both = ours.iter().zip(wanted);
            if let Some(place) = both.position(|(&a, &b)| bits(a) != bits(b)) {
                let [a, b] = [ours[place], wanted[place]].map(bits);
                return Some(format!("{name}[{place}] is {a:08x}, not {b:08x}"));
            }
        }
        let mut both = self.indices.iter().zip(&wanted.indices);
        let place = both.position(|(a, b)| a != b)?;
        let [a, b] = [self.indices[place], wanted.indices[place]];
        Some(format!("indices[{place}] is {a}, not {b}"))
    }
}
