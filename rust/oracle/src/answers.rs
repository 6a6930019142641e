//! Asks hexx for its answers. This stands in its crate, as some of what is
//! asked is not public there.

use crate::face::{Face, Hexagon, Quad};
use crate::{FaceOptions, HexLayout, MeshInfo, UVOptions};
use glam::Vec2;

/// Whether the uvs are altered before the inset, as on sides, or after it, as
/// on caps and planes.
#[derive(Debug, Clone, Copy, PartialEq, Eq)]
pub enum When {
    /// The inset works on altered uvs.
    Before,
    /// All uvs of the finished mesh are altered.
    After,
}

/// What makes a quad.
#[derive(Debug, Clone, Copy)]
pub struct QuadCase {
    /// Its left and its right end, x and z.
    pub sides: [Vec2; 2],
    /// Its bottom and its top.
    pub heights: [f32; 2],
    /// The range that its v is measured in, for a bounded quad.
    pub range: Option<[f32; 2]>,
    /// Its texture options and its inset.
    pub options: FaceOptions,
    /// When the uvs are altered.
    pub when: When,
}

/// What makes a hexagon.
#[derive(Debug, Clone, Copy)]
pub struct HexagonCase {
    /// Its corners, x and z.
    pub corners: [Vec2; 6],
    /// Its texture options and its inset.
    pub options: FaceOptions,
    /// When the uvs are altered.
    pub when: When,
}

/// hexx's `wrap_uv`.
#[must_use]
pub fn wrap(point: Vec2) -> Vec2 {
    UVOptions::wrap_uv(point)
}

/// hexx's quad, before any option.
#[must_use]
pub fn plain_quad(case: &QuadCase) -> Quad {
    let [bottom, top] = case.heights;
    match case.range {
        Some(range) => Quad::new_bounded(case.sides, bottom, top, range),
        None => Quad::new(case.sides, bottom, top),
    }
}

/// hexx's hexagon, before any option.
#[must_use]
pub fn plain_hexagon(case: &HexagonCase) -> Hexagon {
    let layout = HexLayout {
        corners: case.corners,
        ..HexLayout::default()
    };
    Hexagon::center_aligned(&layout)
}

/// hexx's mesh of a quad.
#[must_use]
pub fn quad(case: &QuadCase) -> MeshInfo {
    finish(plain_quad(case), &case.options, case.when)
}

/// hexx's mesh of a hexagon.
#[must_use]
pub fn hexagon(case: &HexagonCase) -> MeshInfo {
    finish(plain_hexagon(case), &case.options, case.when)
}

/// Puts a face through its options, in the order asked for.
fn finish<const VERTS: usize, const TRIS: usize>(
    face: Face<VERTS, TRIS>,
    options: &FaceOptions,
    when: When,
) -> MeshInfo {
    if when == When::Before {
        return face.apply_options(options);
    }
    let mut mesh = match options.insetting {
        Some(inset) => face.inset(inset.mode, inset.scale, inset.keep_inner_face),
        None => face.into(),
    };
    options.uv.alter_uvs(&mut mesh.uvs);
    mesh
}
