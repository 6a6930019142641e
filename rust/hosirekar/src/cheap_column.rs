//! A cheap column.

use crate::placement::vec2;
use crate::range::Tested;
use crate::refusal::{answered, faces_told, window_told};
use crate::{Counts, Job, MeshBuffers, Refusal, Window};
use hosirekar_sys::{
    hosirekar_cheap_column_build, hosirekar_cheap_column_face, hosirekar_cheap_column_faces,
    hosirekar_cheap_column_plan, hosirekar_cheap_column_window, CCheapColumn,
};

/// A column of twelve vertices without a bottom, as hexx's `MeshInfo::cheap_hexagonal_column` makes
/// it: for collision shapes rather than for light and texture. It is one face.
///
/// Its corners are the hexagon's own, where it stands: `HexLayout::hex_corners` of the hex, and
/// `HexLayout::hex_to_world_pos` is its centre.
///
/// ```
/// use hosirekar::{CheapColumn, Job};
///
/// let column = CheapColumn {
///     corners: [[7.0, 5.0], [6.0, 7.0], [4.0, 7.0], [3.0, 5.0], [4.0, 3.0], [6.0, 3.0]],
///     centre: [5.0, 5.0],
///     height: 2.0,
/// };
/// let mesh = column.build()?;
/// assert_eq!((mesh.vertices.len(), mesh.indices.len()), (12, 48));
/// assert_eq!((mesh.vertices[0], mesh.normals[0]), ([7.0, 2.0, 5.0], [2.0, 0.0, 0.0]));
/// # Ok::<(), hosirekar::Refusal>(())
/// ```
#[derive(Clone, Copy, Debug, Default, PartialEq)]
pub struct CheapColumn {
    /// The corners of the hexagon where it stands, x and z.
    pub corners: [[f32; 2]; 6],
    /// Its middle, x and z.
    pub centre: [f32; 2],
    /// Of the top.
    pub height: f32,
}

impl CheapColumn {
    fn job(&self) -> CCheapColumn {
        CCheapColumn {
            centre: vec2(self.centre),
            height: self.height,
        }
    }
}

impl Job for CheapColumn {
    fn plan(&self) -> Result<Counts, Refusal> {
        self.name_stray(answered(hosirekar_cheap_column_plan(
            self.job(),
            self.corners.as_flattened(),
        )))
    }

    fn faces(&self) -> Result<usize, Refusal> {
        self.name_stray(faces_told(hosirekar_cheap_column_faces(
            self.job(),
            self.corners.as_flattened(),
        )))
    }

    fn window(&self, face: usize) -> Result<Window, Refusal> {
        self.name_stray(window_told(hosirekar_cheap_column_window(
            self.job(),
            self.corners.as_flattened(),
            face,
        )))
    }

    fn build_into(&self, to: &mut MeshBuffers<'_>) -> Result<Counts, Refusal> {
        self.name_stray(answered(hosirekar_cheap_column_build(
            self.job(),
            self.corners.as_flattened(),
            to.vertices.as_flattened_mut(),
            to.normals.as_flattened_mut(),
            to.uvs.as_flattened_mut(),
            to.indices,
        )))
    }

    fn build_face(&self, face: usize, to: &mut MeshBuffers<'_>) -> Result<Counts, Refusal> {
        self.name_stray(answered(hosirekar_cheap_column_face(
            self.job(),
            self.corners.as_flattened(),
            face,
            to.vertices.as_flattened_mut(),
            to.normals.as_flattened_mut(),
            to.uvs.as_flattened_mut(),
            to.indices,
        )))
    }
}
